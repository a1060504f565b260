/* Joining two channels: the lists, and the ways to it that bench.c times beside each other; and expanding on both channels before that. */
#ifndef JOINED_H
#define JOINED_H

#include <stddef.h>
#include <stdint.h>

#include "contest.h"

enum { MOST_JOINED = 4096, LISTS = 16 };

/* Remainders modulo two channel numbers without a common factor, and where the joined values go. */
struct lists {
    uint32_t m1, m2;
    size_t length;
    uint32_t first[MOST_JOINED], second[MOST_JOINED];
    int64_t result[MOST_JOINED];
};

typedef void join(struct lists *x);

/* The library's call, with all of its tests, and those that test nothing. Each finds one inverse for a list, but FLINT's function, which
 * finds it for each entry. */
enum {
    OWN_JOIN,
    BEST_JOIN,
    WIDE_JOIN,
    C_JOIN,
#ifdef GMP
    GMP_JOIN,
#endif
#ifdef FLINT
    FLINT_JOIN,
#endif
    JOINS
};
extern const struct join_way {
    const char *name;
    join *join;
} join_ways[JOINS];

/* C as one would first write it, with products of 128 bits, and with products of 64, which are enough for channel numbers below 2^31. */
join join_by_wide_products, join_by_products;
join join_by_best, join_by_gmp, join_by_flint;

extern struct lists lists[LISTS];

/* Makes all of them anew. Ends the program with 1 where two ways give other values. */
void make_lists(uint32_t m1, uint32_t m2, size_t length);

/* Rows and a curve with a sign, which both channels take. */
struct signed_job {
    uint32_t m1, m2;
    size_t r;
    int32_t a[MOST_ROWS], b[MOST_ROWS], c[MOST_ROWS], v[MOST_ROWS + 1];
    int64_t result[MOST_ROWS + 1];
};

typedef void expand_and_join(struct signed_job *x);

/* The library's call, and two Expands of a contestant in C, with the remainders that they take and its join, of straightforward C that with
 * products of 64 bits. */
enum { OWN_EXPAND_JOIN, STRAIGHTFORWARD_EXPAND_JOIN, BEST_EXPAND_JOIN, EXPAND_JOINS };
extern const struct expand_join_way {
    const char *name;
    expand_and_join *expand_and_join;
} expand_join_ways[EXPAND_JOINS];

extern struct signed_job signed_jobs[LISTS];

/* Makes all of them anew. Ends the program with 1 where two ways give other values. */
void make_signed_jobs(uint32_t m1, uint32_t m2, size_t r);

#endif
