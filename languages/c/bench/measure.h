/* What the benchmarks of C share. */
#ifndef MEASURE_H
#define MEASURE_H
#include "samvolip_map.h"

#include <stdio.h>
#include <stdlib.h>
#include <time.h>

/* Nanoseconds of a clock. */
static inline double now(clockid_t clock)
{
    struct timespec time;
    clock_gettime(clock, &time);
    return (double)time.tv_sec * 1e9 + (double)time.tv_nsec;
}

/* A call's code. The program ends where the call was refused. */
static inline int made(int code)
{
    if (code < 0) {
        fprintf(stderr, "a call was refused: %s\n", samvolip_map_strerror(code));
        exit(1);
    }
    return code;
}

/* The order of two times, for qsort. */
static inline int ascending(const void *one, const void *other)
{
    const double first = *(const double *)one, second = *(const double *)other;
    return (first > second) - (first < second);
}
#endif
