/* Steps the wall clock of a program, if this library is loaded before others (LD_PRELOAD): by the
   seconds that the eight bytes of the file STEP_FILE say, a signed number in the machine's order,
   which is read at each call. The other clocks stay; with STEP_ALL they step with it. Needs the
   Debian packages gcc and libc6-dev. */
#define _GNU_SOURCE
#include <fcntl.h>
#include <stdint.h>
#include <stdlib.h>
#include <sys/mman.h>
#include <sys/syscall.h>
#include <time.h>
#include <unistd.h>

static const volatile int64_t *step;
static int steps_all;

__attribute__((constructor)) static void begin(void)
{
    const char *name = getenv("STEP_FILE");
    int file = name == NULL ? -1 : open(name, O_RDONLY);
    void *place = file < 0 ? MAP_FAILED : mmap(NULL, sizeof *step, PROT_READ, MAP_SHARED, file, 0);
    if (place == MAP_FAILED)
        abort();
    close(file);
    steps_all = getenv("STEP_ALL") != NULL;
    step = place;
}

int clock_gettime(clockid_t clock, struct timespec *time)
{
    int status = (int)syscall(SYS_clock_gettime, clock, time);
    if (status == 0 && step != NULL && (steps_all || clock == CLOCK_REALTIME))
        time->tv_sec += *step;
    return status;
}
