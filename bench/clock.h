/* What the programs that measure share. */
#ifndef CLOCK_H
#define CLOCK_H

#include <inttypes.h>
#include <stdio.h>
#include <stdlib.h>
#include <string.h>
#include <time.h>

#include "sorgizhed.h"

/* nanoseconds of a clock that only rises */
static inline double now(void) {
    struct timespec t;
    clock_gettime(CLOCK_MONOTONIC, &t);
    return (double)t.tv_sec * 1e9 + (double)t.tv_nsec;
}

/* nanoseconds of processor time, for what takes long: other work on the machine does not count. Asking takes some 100 ns */
static inline double spent(void) {
    struct timespec t;
    clock_gettime(CLOCK_PROCESS_CPUTIME_ID, &t);
    return (double)t.tv_sec * 1e9 + (double)t.tv_nsec;
}

static inline double least(double a, double b) { return a < b ? a : b; }

static inline uint64_t random_below(uint64_t n) {
    static uint64_t noise = 1;
    noise = noise * UINT64_C(6364136223846793005) + UINT64_C(1442695040888963407);
    return (noise >> 33) % n;
}

static inline void *room(size_t n) {
    void *p = malloc(n);
    if (p == NULL) { fprintf(stderr, "not enough memory\n"); exit(2); }
    memset(p, 0, n);
    return p;
}

/* the answer must be of this kind; any other ends the program */
static inline void must(const char *call, sorgizhed_answer r, uint64_t kind) {
    if (r.kind != kind) { fprintf(stderr, "%s: kind %d, %d %d\n", call, (int)r.kind, (int)r.first, (int)r.second); exit(1); }
}

#endif
