/* Lets the machine's clock stand at CLOCK_AT, in seconds since 1970, for the program that it is loaded into. */
#define _GNU_SOURCE
#include <stdlib.h>
#include <sys/syscall.h>
#include <time.h>
#include <unistd.h>

int clock_gettime(clockid_t clock, struct timespec *now) {
    const char *seconds = getenv("CLOCK_AT");
    if (clock != CLOCK_REALTIME || !seconds)
        return (int)syscall(SYS_clock_gettime, clock, now);
    now->tv_sec = strtol(seconds, NULL, 10);
    now->tv_nsec = 0;
    return 0;
}
