#define _GNU_SOURCE
#include "clock.h"

#include <errno.h>
#include <time.h>

long clock_now(void)
{
    struct timespec t;
    clock_gettime(CLOCK_MONOTONIC, &t);
    return (long)t.tv_sec * 1000 + t.tv_nsec / 1000000;
}

void clock_pause(unsigned long milliseconds)
{
    struct timespec t = {(time_t)(milliseconds / 1000), (long)(milliseconds % 1000) * 1000000};
    while (nanosleep(&t, &t) && errno == EINTR) continue;
}
