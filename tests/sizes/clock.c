/* A monotonic clock that a program sets, in nanoseconds, for whoever is loaded after it. */
#define _GNU_SOURCE
#include <stdint.h>
#include <sys/syscall.h>
#include <time.h>
#include <unistd.h>

static uint64_t moment;

void set_moment(uint64_t nanoseconds) { moment = nanoseconds; }

int clock_gettime(clockid_t clock, struct timespec *time) {
    if (clock != CLOCK_MONOTONIC)
        return (int)syscall(SYS_clock_gettime, clock, time);
    time->tv_sec = (time_t)(moment / 1000000000u);
    time->tv_nsec = (long)(moment % 1000000000u);
    return 0;
}
