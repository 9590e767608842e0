/* What the benchmarks share: the time, and code that can be laid out in several ways. */
#ifndef TIMING_H
#define TIMING_H
#include <time.h>

/* PAD bytes before the functions of a file that says PADDING(PAD). */
#ifndef PAD
#define PAD 64
#endif
#define TEXT(x) #x
#define PADDING(n) __asm__(".text\n.skip " TEXT(n) "\n")

/* Nanoseconds. */
static inline double clock_now(void) {
    struct timespec t;
    clock_gettime(CLOCK_MONOTONIC, &t);
    return (double)t.tv_sec * 1e9 + (double)t.tv_nsec;
}
#endif
