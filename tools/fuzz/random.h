/* Numbers that a seed decides (splitmix64). */
#ifndef RANDOM_H
#define RANDOM_H

#include <stddef.h>
#include <stdint.h>

struct random {
    uint64_t state;
};

static inline uint64_t draw(struct random *random) {
    uint64_t z = random->state += 0x9e3779b97f4a7c15u;
    z = (z ^ (z >> 30)) * 0xbf58476d1ce4e5b9u;
    z = (z ^ (z >> 27)) * 0x94d049bb133111ebu;
    return z ^ (z >> 31);
}

static inline size_t below(struct random *random, size_t count) { return (size_t)(draw(random) % count); }

/* Once in so many times. */
static inline int once_in(struct random *random, size_t times) { return below(random, times) == 0; }

#endif
