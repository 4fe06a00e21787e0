/* Random numbers that are the same on every machine for the same seed (splitmix64). */
#ifndef RANDOM_H
#define RANDOM_H

#include <stddef.h>
#include <stdint.h>

struct random {
    uint64_t state;
};

static inline uint64_t any_word(struct random *r)
{
    uint64_t z = r->state += UINT64_C(0x9e3779b97f4a7c15);
    z = (z ^ (z >> 30)) * UINT64_C(0xbf58476d1ce4e5b9);
    z = (z ^ (z >> 27)) * UINT64_C(0x94d049bb133111eb);
    return z ^ (z >> 31);
}

/* A number below n; 0 where n is 0. */
static inline uint64_t below(struct random *r, uint64_t n)
{
    return n ? any_word(r) % n : 0;
}

/* A number from low up to high, both included. */
static inline uint64_t between(struct random *r, uint64_t low, uint64_t high)
{
    return low + below(r, high - low + 1);
}

/* True once in n times. */
static inline int once_in(struct random *r, uint64_t n)
{
    return below(r, n) == 0;
}

#endif
