/* A small random source, the same on every machine: SplitMix64, a 64-bit counter that steps by an odd constant, then mixed. */
#ifndef RANDOM_H
#define RANDOM_H

#include <stdbool.h>
#include <stdint.h>

struct random {
    uint64_t state;
};

static inline uint64_t mixed(uint64_t word) {
    word = (word ^ (word >> 30)) * UINT64_C(0xBF58476D1CE4E5B9);
    word = (word ^ (word >> 27)) * UINT64_C(0x94D049BB133111EB);
    return word ^ (word >> 31);
}

/* The source of one case: it depends on the seed and on the case's number alone, so that any case can be had again. */
static inline struct random random_of_case(uint64_t seed, uint64_t number) {
    return (struct random){mixed(mixed(seed) + number)};
}

static inline uint64_t next_word(struct random *random) { return mixed(random->state += UINT64_C(0x9E3779B97F4A7C15)); }

/* A number from 0 to bound - 1; 0 if there is none. */
static inline uint32_t below(struct random *random, uint64_t bound) {
    return bound ? (uint32_t)(next_word(random) % bound) : 0;
}

static inline bool one_in(struct random *random, uint32_t count) { return below(random, count) == 0; }

/* One of the items of an array. */
#define ONE_OF(random, items) ((items)[below(random, sizeof(items) / sizeof *(items))])

#endif
