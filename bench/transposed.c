/* The library's transposed multiplication, and what one has without it: C that forms the whole product and cuts it.
 *
 * The C adds up as the library does: products in one sum, which is its low 64 bits and a count of its wraps, and one remainder by the
 * reciprocal for each coefficient. It is handed the reciprocal, and the library finds it. It is the quickest of that kind that we know: two
 * products a step and eight steps a turn, since with four a step, as the library has them, it takes up to a sixth longer. It reads
 * multiplier and list forwards, and so takes the multiplier as it is: with the multiplier turned round, one of the two is read backwards, and
 * that takes up to half as long again.
 */
#include <inttypes.h>
#include <stdio.h>
#include <stdlib.h>
#include <string.h>

#include "../tests/differential/random.h"
#include "transposed.h"

/* products::transposed: the compiler leaves out the length of w, which nothing reads. */
void compiled_transposed(uint32_t m, uint32_t *w, size_t target, size_t n, size_t p, size_t q, size_t pn, size_t v, size_t u, size_t vn);

/* One product is taken by the halves of its multiplier, as if they were two. Each half asks for as much of the list as the terms need. */
static void by_library(struct operands *x) {
    size_t n = x->length, half = n / 2;
    if (x->two)
        compiled_transposed(x->m, x->numbers, TERMS, n, MULTIPLIER, SECOND_MULTIPLIER, n, LIST, SECOND_LIST, 2 * n);
    else
        compiled_transposed(x->m, x->numbers, TERMS, n, MULTIPLIER, MULTIPLIER + half, half, LIST, LIST + half,
                            n + half - 1);
}

struct sum {
    uint64_t low, wraps;
};

static inline void add(struct sum *sum, uint64_t x) {
    sum->low += x;
    sum->wraps += sum->low < x;
}

static inline uint64_t times(uint32_t x, uint32_t y) { return (uint64_t)x * y; }

/* The sum over j < n of p_j v_j + q_j u_j. cc does not unroll by itself, and two or four steps a turn are slower than one or eight. */
static inline struct sum sum_of_products(const uint32_t *p, const uint32_t *v, const uint32_t *q, const uint32_t *u, size_t n) {
    struct sum sum = {0, 0};
#pragma GCC unroll 8
    for (size_t j = 0; j < n; j++) add(&sum, times(p[j], v[j]) + times(q[j], u[j]));
    return sum;
}

/* spare is 2^64 modulo m, or m where that is 0. The quotient is short by one at most. */
static inline uint32_t remainder_of(struct sum sum, uint64_t m, uint64_t reciprocal) {
    uint64_t spare = UINT64_MAX - reciprocal * m + 1, more = sum.wraps * spare, x = sum.low + more;
    if (x < more) x += spare;
    uint64_t quotient = (uint64_t)((unsigned __int128)x * reciprocal >> 64), rest = x - quotient * m, less = rest - m;
    return (uint32_t)(less < rest ? less : rest);
}

/* Coefficient k is of `count` numbers of the multiplier, from `first` on, and as many of the list, from `at` on. One product is taken by
 * halves of these. */
static void by_whole_product(struct operands *x) {
    static uint32_t product[3 * MOST_LENGTH - 1];
    size_t n = x->length;
    for (size_t k = 0; k < 3 * n - 1; k++) {
        size_t first = k < n - 1 ? n - 1 - k : 0, at = k + first - (n - 1), count = (k < 2 * n ? n : 3 * n - 1 - k) - first;
        const uint32_t *p = x->numbers + MULTIPLIER + first, *v = x->numbers + LIST + at;
        struct sum sum;
        if (x->two)
            sum = sum_of_products(p, v, x->numbers + SECOND_MULTIPLIER + first, x->numbers + SECOND_LIST + at, count);
        else {
            sum = sum_of_products(p, v, p + count / 2, v + count / 2, count / 2);
            if (count % 2) add(&sum, times(p[count - 1], v[count - 1]));
        }
        product[k] = remainder_of(sum, x->m, x->reciprocal);
    }
    memcpy(x->numbers + TERMS, product + n - 1, n * sizeof *product);
}

const struct way ways[WAYS] = {
    [OWN_WAY] = {"library", by_library},
    [C_WAY] = {"C", by_whole_product},
#ifdef FLINT
    [FLINT_WAY] = {"FLINT", transpose_by_flint},
#endif
};

struct operands operands[OPERANDS];

static void compare(struct operands *x) {
    uint32_t expected[MOST_LENGTH], *terms = x->numbers + TERMS;
    size_t size = x->length * sizeof *terms;
    by_whole_product(x);
    memcpy(expected, terms, size);
    for (size_t k = 0; k < WAYS; k++) {
        memset(terms, 0xFF, size);
        ways[k].transpose(x);
        if (!memcmp(terms, expected, size)) continue;
        fprintf(stderr, "bench: transposed multiplication: %s gives another answer than C (m = %" PRIu32 ", length %zu, %s, operands %td)\n",
                ways[k].name, x->m, x->length, x->two ? "two products" : "one product", x - operands);
        exit(1);
    }
}

void make_operands(uint32_t m, size_t length, bool two) {
    for (size_t i = 0; i < OPERANDS; i++) {
        struct random random = random_of_case(m, (2 * length + two) * OPERANDS + i);
        struct operands *x = &operands[i];
        x->m = m, x->reciprocal = UINT64_MAX / m, x->length = length, x->two = two;
        for (size_t k = 0; k < NUMBERS; k++) x->numbers[k] = below(&random, m);
        for (size_t k = 0; k < length; k++) {
            x->turned[0][k] = x->numbers[MULTIPLIER + length - 1 - k];
            x->turned[1][k] = x->numbers[SECOND_MULTIPLIER + length - 1 - k];
        }
        compare(x);
    }
}
