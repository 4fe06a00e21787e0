/* What the benchmarks share: the time, the middle of many times, and the stack that a call takes. */
#ifndef MEASURE_H
#define MEASURE_H

#include <stdint.h>
#include <stdlib.h>
#include <string.h>
#include <time.h>
#include <ucontext.h>

static inline double nanoseconds(void)
{
    struct timespec t;
    clock_gettime(CLOCK_MONOTONIC, &t);
    return t.tv_sec * 1e9 + t.tv_nsec;
}

static inline int rising(const void *a, const void *b)
{
    double x = *(const double *)a, y = *(const double *)b;
    return (x > y) - (x < y);
}

/* The call runs on a painted stack of its own; what it left painted is counted. */
static inline size_t stack_of(void (*call)(void))
{
    enum { STACK = 1 << 20, PAINT = 0xa5 };
    static ucontext_t here, there;
    uint8_t *stack = malloc(STACK);
    size_t left = 0;
    memset(stack, PAINT, STACK);
    getcontext(&there);
    there.uc_stack.ss_sp = stack;
    there.uc_stack.ss_size = STACK;
    there.uc_link = &here;
    makecontext(&there, call, 0);
    swapcontext(&here, &there);
    while (left < STACK && stack[left] == PAINT)
        left++;
    free(stack);
    return STACK - left;
}

#endif
