/* The clock that the measurements read. */
#ifndef CLOCK_H
#define CLOCK_H

#include <time.h>

/* Nanoseconds since some moment. */
static double now(void)
{
    struct timespec time;
    clock_gettime(CLOCK_MONOTONIC, &time);
    return 1e9 * (double)time.tv_sec + (double)time.tv_nsec;
}

#endif
