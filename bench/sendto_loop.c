// The plain loops that `satip serve` is compared with: the same packets at the same pace, and
// nothing but the calls that send and wait.
//
//   sendto_loop one|connected|jobs SECONDS [PORT...]
//
// Every 20 ms it sends 64 transport packets to each port of 127.0.0.1, seven in a datagram, as a
// front end plays: by sendto from one socket, or by send from a connected socket for each port.
// Without a port it only pauses. Prints the packets that it sent, and the seconds of CPU.
//
// `jobs` does the same from connected sockets in the two threads that the specification asks for,
// with their pauses: a pump that sends nine whole datagrams of each 64 packets, and a ticker that
// sends the packet left over. It is the least that such a server takes. Needs the Debian packages
// gcc and libc6-dev.
#define _GNU_SOURCE
#include <arpa/inet.h>
#include <netinet/in.h>
#include <pthread.h>
#include <stdio.h>
#include <stdlib.h>
#include <string.h>
#include <sys/socket.h>
#include <time.h>

enum { PACKET = 188, SEVEN = 7, HEADER = 12, BURST = 64, WHOLE = HEADER + SEVEN * PACKET };
enum { PAUSES = 50, PAUSE_MS = 20 };

static struct sockaddr_in *to;
static int *own, receivers, one;
static long rounds;
static unsigned char datagram[WHOLE] = {0x80, 33};

static int socket_to(const struct sockaddr_in *address) {
    int out = socket(AF_INET, SOCK_DGRAM, 0);
    if (out < 0 || (address && connect(out, (const void *)address, sizeof *address) < 0)) {
        perror("socket");
        exit(1);
    }
    return out;
}

static void rest(void) {
    nanosleep(&(struct timespec){0, PAUSE_MS * 1000000L}, NULL);
}

// Sends a datagram of this many bytes to each port.
static void send_all(size_t length) {
    for (int place = 0; place < receivers; place++) {
        if (own) {
            send(own[place], datagram, length, 0);
        } else {
            sendto(one, datagram, length, 0, (const void *)&to[place], sizeof to[place]);
        }
    }
}

// Sends each 64 packets, and what is left over with those that follow.
static void play(void) {
    for (long round = 0, held = 0; round < rounds; round++) {
        for (held += BURST; held >= SEVEN; held -= SEVEN) {
            send_all(WHOLE);
        }
        rest();
    }
}

// Sends the whole datagrams of each 64 packets.
static void *pump(void *nothing) {
    for (long round = 0; round < rounds; round++) {
        for (int sent = 0; sent < BURST / SEVEN; sent++) {
            send_all(WHOLE);
        }
        rest();
    }
    return nothing;
}

// Sends the packets that are left over of each 64.
static void *tick(void *nothing) {
    for (long round = 0; round < rounds; round++) {
        send_all(HEADER + BURST % SEVEN * PACKET);
        rest();
    }
    return nothing;
}

static void run_jobs(void) {
    void *(*jobs[])(void *) = {pump, tick};
    pthread_t threads[2];
    for (int job = 0; job < 2; job++) {
        if (pthread_create(&threads[job], NULL, jobs[job], NULL)) {
            perror("pthread_create");
            exit(1);
        }
    }
    for (int job = 0; job < 2; job++) {
        pthread_join(threads[job], NULL);
    }
}

int main(int count, char **words) {
    if (count < 3) {
        fprintf(stderr, "usage: %s one|connected|jobs SECONDS [PORT...]\n", words[0]);
        return 2;
    }
    receivers = count - 3;
    one = socket_to(NULL);
    to = calloc(receivers, sizeof *to);
    own = strcmp(words[1], "one") ? calloc(receivers, sizeof *own) : NULL;
    for (int place = 0; place < receivers; place++) {
        to[place].sin_family = AF_INET;
        to[place].sin_addr.s_addr = htonl(INADDR_LOOPBACK);
        to[place].sin_port = htons(atoi(words[3 + place]));
        if (own) {
            own[place] = socket_to(&to[place]);
        }
    }
    memset(datagram + HEADER, 0x47, sizeof datagram - HEADER);
    rounds = atol(words[2]) * PAUSES;
    if (strcmp(words[1], "jobs")) {
        play();
    } else {
        run_jobs();
    }
    long whole = strcmp(words[1], "jobs") ? rounds * BURST / SEVEN * SEVEN : rounds * BURST;
    struct timespec used;
    clock_gettime(CLOCK_PROCESS_CPUTIME_ID, &used);
    printf("packets %ld cpu %.6f\n", whole * receivers, used.tv_sec + used.tv_nsec / 1e9);
    free(own);
    free(to);
    return 0;
}
