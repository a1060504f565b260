/* The library's calls on two channels, and those that stand beside them: their operands, and that all give equal answers. */
#include "joined.h"

#include <inttypes.h>
#include <stdbool.h>
#include <stdio.h>
#include <stdlib.h>
#include <string.h>

#include "../tests/differential/random.h"
#include "zahupnik.h"

static void fail(const char *way, const char *what, uint32_t m1, uint32_t m2, size_t length) {
    fprintf(stderr, "bench: joining two channels: %s %s (m1 = %" PRIu32 ", m2 = %" PRIu32 ", length %zu)\n", way, what, m1, m2, length);
    exit(1);
}

/* ---- lists of remainders */

static void join_by_library(struct lists *x) {
    if (zahupnik_join(x->m1, x->m2, x->first, x->length, x->second, x->length, x->result, x->length) != ZAHUPNIK_FINISHED)
        fail("the library", "refuses the lists", x->m1, x->m2, x->length);
}

const struct join_way join_ways[JOINS] = {
    [OWN_JOIN] = {"library", join_by_library},
    [BEST_JOIN] = {"best C", join_by_best},
    [WIDE_JOIN] = {"C, products of 128 bits", join_by_wide_products},
    [C_JOIN] = {"C, products of 64 bits", join_by_products},
#ifdef GMP
    [GMP_JOIN] = {"GMP", join_by_gmp},
#endif
#ifdef FLINT
    [FLINT_JOIN] = {"FLINT", join_by_flint},
#endif
};

struct lists lists[LISTS];

void make_lists(uint32_t m1, uint32_t m2, size_t length) {
    static int64_t expected[MOST_JOINED];
    for (size_t i = 0; i < LISTS; i++) {
        struct random random = random_of_case(m1, length * LISTS + i);
        struct lists *x = &lists[i];
        x->m1 = m1, x->m2 = m2, x->length = length;
        for (size_t k = 0; k < length; k++) {
            x->first[k] = below(&random, m1);
            x->second[k] = below(&random, m2);
        }
        join_by_wide_products(x);
        memcpy(expected, x->result, length * sizeof *expected);
        for (size_t k = 0; k < JOINS; k++) {
            memset(x->result, 0xFF, sizeof x->result);
            join_ways[k].join(x);
            if (memcmp(x->result, expected, length * sizeof *expected)) fail(join_ways[k].name, "gives other values than C", m1, m2, length);
        }
    }
}

/* ---- rows and a curve with a sign */

static void by_library(struct signed_job *x) {
    if (zahupnik_expand_join(x->m1, x->m2, x->a, x->r, x->b, x->r, x->c, x->r, x->v, x->r + 1, x->result, x->r + 1) != ZAHUPNIK_FINISHED)
        fail("the library", "refuses the rows", x->m1, x->m2, x->r + 1);
}

static void reduce(uint32_t m, const int32_t *list, size_t count, uint32_t *reduced) {
    for (size_t i = 0; i < count; i++) {
        int64_t rest = list[i] % (int64_t)m;
        reduced[i] = (uint32_t)(rest < 0 ? rest + m : rest);
    }
}

static void expand_on(uint32_t m, const struct signed_job *x, convert *expand, uint32_t *result) {
    static struct job job;
    job.m = m, job.r = x->r;
    reduce(m, x->a, x->r, job.a);
    reduce(m, x->b, x->r, job.b);
    reduce(m, x->c, x->r, job.c);
    reduce(m, x->v, x->r + 1, job.v);
    expand(&job, result);
}

static void by_expands(struct signed_job *x, convert *expand, join *join) {
    static struct lists expanded;
    expanded.m1 = x->m1, expanded.m2 = x->m2, expanded.length = x->r + 1;
    expand_on(x->m1, x, expand, expanded.first);
    expand_on(x->m2, x, expand, expanded.second);
    join(&expanded);
    memcpy(x->result, expanded.result, (x->r + 1) * sizeof *x->result);
}

static void by_straightforward(struct signed_job *x) { by_expands(x, straightforward.convert[EXPAND], join_by_products); }

static void by_best(struct signed_job *x) { by_expands(x, best.convert[EXPAND], join_by_best); }

const struct expand_join_way expand_join_ways[EXPAND_JOINS] = {
    [OWN_EXPAND_JOIN] = {"library", by_library},
    [STRAIGHTFORWARD_EXPAND_JOIN] = {"two Expands and a join of straightforward C", by_straightforward},
    [BEST_EXPAND_JOIN] = {"two Expands and a join of best C", by_best},
};

struct signed_job signed_jobs[LISTS];

static uint32_t common_divisor(uint32_t x, uint32_t y) {
    while (y) {
        uint32_t rest = x % y;
        x = y;
        y = rest;
    }
    return x;
}

static int32_t any_number(struct random *random) { return (int32_t)((int64_t)below(random, UINT64_C(1) << 32) + INT32_MIN); }

static bool has_inverse(int32_t number, uint32_t m) {
    uint32_t rest;
    reduce(m, &number, 1, &rest);
    return common_divisor(m, rest) == 1;
}

static int32_t unit(struct random *random, const struct signed_job *x) {
    int32_t number;
    do number = any_number(random);
    while (!has_inverse(number, x->m1) || !has_inverse(number, x->m2));
    return number;
}

void make_signed_jobs(uint32_t m1, uint32_t m2, size_t r) {
    static int64_t expected[MOST_ROWS + 1];
    for (size_t i = 0; i < LISTS; i++) {
        struct random random = random_of_case(m1, r * LISTS + i);
        struct signed_job *x = &signed_jobs[i];
        x->m1 = m1, x->m2 = m2, x->r = r;
        for (size_t k = 0; k < r; k++) {
            x->a[k] = unit(&random, x);
            x->b[k] = any_number(&random);
            x->c[k] = unit(&random, x);
        }
        for (size_t k = 0; k <= r; k++) x->v[k] = any_number(&random);
        by_straightforward(x);
        memcpy(expected, x->result, (r + 1) * sizeof *expected);
        for (size_t k = 0; k < EXPAND_JOINS; k++) {
            memset(x->result, 0xFF, sizeof x->result);
            expand_join_ways[k].expand_and_join(x);
            if (memcmp(x->result, expected, (r + 1) * sizeof *expected)) fail(expand_join_ways[k].name, "gives other values than C", m1, m2, r + 1);
        }
    }
}
