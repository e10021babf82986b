// The plain loop that `satip tunnel` is compared with: the same frames at the same pace, and
// nothing but the calls that send.
//
//   send_loop SECONDS PORT COUNT
//
// It takes COUNT connections at PORT of 127.0.0.1. Then, every 20 ms, it sends 64 transport packets
// to each, seven in a datagram, each datagram in a frame of 4 bytes and its length, as a front end
// plays; a send that doesn't take all goes on. Needs the Debian packages gcc and libc6-dev.
#define _GNU_SOURCE
#include <arpa/inet.h>
#include <netinet/in.h>
#include <netinet/tcp.h>
#include <stdio.h>
#include <stdlib.h>
#include <string.h>
#include <sys/socket.h>
#include <time.h>

enum { PACKET = 188, SEVEN = 7, HEADER = 12, BURST = 64, DATAGRAM = HEADER + SEVEN * PACKET, FRAME = 4 + DATAGRAM };

static void fail(const char *what) {
    perror(what);
    exit(1);
}

static void send_whole(int to, const unsigned char *bytes, size_t length) {
    for (size_t sent = 0; sent < length;) {
        ssize_t more = send(to, bytes + sent, length - sent, MSG_NOSIGNAL);
        if (more < 0) {
            fail("send");
        }
        sent += more;
    }
}

int main(int count, char **words) {
    if (count != 4) {
        fprintf(stderr, "usage: %s SECONDS PORT COUNT\n", words[0]);
        return 2;
    }
    int door = socket(AF_INET, SOCK_STREAM, 0), receivers = atoi(words[3]), on = 1;
    struct sockaddr_in at = {
        .sin_family = AF_INET,
        .sin_port = htons(atoi(words[2])),
        .sin_addr.s_addr = htonl(INADDR_LOOPBACK),
    };
    setsockopt(door, SOL_SOCKET, SO_REUSEADDR, &on, sizeof on);
    if (door < 0 || bind(door, (struct sockaddr *)&at, sizeof at) < 0 || listen(door, 64) < 0) {
        fail("listen");
    }
    int *own = calloc(receivers, sizeof *own);
    for (int place = 0; place < receivers; place++) {
        own[place] = accept(door, NULL, NULL);
        setsockopt(own[place], IPPROTO_TCP, TCP_NODELAY, &on, sizeof on);
    }
    unsigned char frame[FRAME] = {'$', 0, DATAGRAM >> 8, DATAGRAM & 255, 0x80, 33};
    memset(frame + 4 + HEADER, 0x47, SEVEN * PACKET);
    struct timespec begun, used;
    clock_gettime(CLOCK_PROCESS_CPUTIME_ID, &begun);
    long rounds = atol(words[1]) * 50, held = 0, packets = 0;
    for (long round = 0; round < rounds; round++) {
        held += BURST;
        for (; held >= SEVEN; held -= SEVEN) {
            packets += (long)SEVEN * receivers;
            for (int place = 0; place < receivers; place++) {
                send_whole(own[place], frame, sizeof frame);
            }
        }
        nanosleep(&(struct timespec){0, 20000000}, NULL);
    }
    clock_gettime(CLOCK_PROCESS_CPUTIME_ID, &used);
    printf("packets %ld cpu %.3f\n", packets, used.tv_sec - begun.tv_sec + (used.tv_nsec - begun.tv_nsec) / 1e9);
    free(own);
    return 0;
}
