/* The clock that the measurements read. Include it first: it asks the C library for POSIX. */
#ifndef SECONDS_H
#define SECONDS_H

#define _POSIX_C_SOURCE 199309L
#include <time.h>

static inline double seconds(void)
{
    struct timespec now;
    clock_gettime(CLOCK_MONOTONIC, &now);
    return (double)now.tv_sec + 1e-9 * (double)now.tv_nsec;
}

#endif
