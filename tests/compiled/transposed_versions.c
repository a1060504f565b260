/* What transposed_versions.h declares. */
#include "transposed_versions.h"

#include <string.h>

enum { MOST_TERMS = 512 };

#define UNUSED(name) (void)(name)
#define LENT m, w, target, n, p, q, pn, v, u, vn

/* ---- one sum */

/* A sum as its low 64 bits and how often it went past them. */
struct total {
    uint64_t low, wraps;
};

static void add(struct total *total, uint32_t x, uint32_t y) {
    uint64_t product = (uint64_t)x * y;
    total->low += product;
    total->wraps += total->low < product;
}

static uint32_t rest(struct total total, uint32_t m) {
    uint64_t wrap = (UINT64_MAX % m + 1) % m;
    return (uint32_t)((total.low % m + total.wraps % m * wrap) % m);
}

static size_t lesser(size_t x, size_t y) { return x < y ? x : y; }

/* How many products term i has of a multiplier and a list of these lengths. */
static size_t end(size_t i, size_t multiplier, size_t list) { return lesser(multiplier, i < list ? list - i : 0); }

/* Adds the products of term i of one multiplier and one list. */
typedef void part(struct total *total, const uint32_t *w, size_t i, size_t p, size_t pn, size_t v, size_t vn);

static void add_right(struct total *total, const uint32_t *w, size_t i, size_t p, size_t pn, size_t v, size_t vn) {
    for (size_t j = 0; j < end(i, pn, vn); j++) add(total, w[p + j], w[v + i + j]);
}

static void write_terms(part *add_part, PRODUCT) {
    for (size_t i = 0; i < n; i++) {
        struct total total = {0, 0};
        add_part(&total, w, i, p, pn, v, vn);
        add_part(&total, w, i, q, pn, u, vn);
        w[target + i] = rest(total, m);
    }
}

/* ---- right versions */

static void right(PRODUCT) { write_terms(add_right, LENT); }

static void own_array(PRODUCT) {
    uint32_t terms[MOST_TERMS];
    for (size_t i = 0; i < n; i++) {
        right(m, w, target + i, 1, p, q, pn, v + i, u + i, i < vn ? vn - i : 0);
        terms[i] = w[target + i];
    }
    memcpy(w + target, terms, n * sizeof *terms);
}

/* ---- wrong versions */

void untouched(PRODUCT) {
    UNUSED(m), UNUSED(w), UNUSED(target), UNUSED(n), UNUSED(p), UNUSED(q), UNUSED(pn), UNUSED(v), UNUSED(u);
    UNUSED(vn);
}

static void term_more(PRODUCT) { right(m, w, target, n, p, q, pn + 1, v, u, vn); }

static void second_left_out(PRODUCT) {
    UNUSED(q), UNUSED(u);
    for (size_t i = 0; i < n; i++) {
        struct total total = {0, 0};
        add_right(&total, w, i, p, pn, v, vn);
        w[target + i] = rest(total, m);
    }
}

static void past(PRODUCT) { right(m, w, target, n + 1, p, q, pn, v, u, vn); }

static void before(PRODUCT) {
    right(LENT);
    w[target - 1] = 0;
}

static void add_wrapped(struct total *total, const uint32_t *w, size_t i, size_t p, size_t pn, size_t v, size_t vn) {
    for (size_t j = 0; vn && j < pn; j++) add(total, w[p + j], w[v + (i + j) % vn]);
}
static void wrapped(PRODUCT) { write_terms(add_wrapped, LENT); }

static void add_coefficient(struct total *total, const uint32_t *w, size_t i, size_t p, size_t pn, size_t v, size_t vn) {
    for (size_t j = 0; j < pn && j <= i; j++)
        if (i - j < vn) add(total, w[p + j], w[v + i - j]);
}
static void whole(PRODUCT) { write_terms(add_coefficient, LENT); }

static void add_low(struct total *total, const uint32_t *w, size_t i, size_t p, size_t pn, size_t v, size_t vn) {
    add_right(total, w, i, p, pn, v, vn);
    total->wraps = 0;
}
static void wraps_lost(PRODUCT) { write_terms(add_low, LENT); }

static void add_after_odd(struct total *total, const uint32_t *w, size_t i, size_t p, size_t pn, size_t v, size_t vn) {
    for (size_t j = end(i, pn, vn) % 2; j < end(i, pn, vn); j++) add(total, w[p + j], w[v + i + j]);
}
static void first_left_out(PRODUCT) { write_terms(add_after_odd, LENT); }

static void ends_with_the_first(PRODUCT) {
    while (pn && !w[p + pn - 1]) pn--;
    right(LENT);
}

const struct version VERSIONS[] = {
    {"right", "the sums once more in C", RIGHT, right},
    {"own_array", "right terms by way of an array of its own", TOO_MUCH_STACK, own_array},
    {"untouched", "nothing written", WRONG, untouched},
    {"term_more", "one term past the end of each multiplier", WRONG, term_more},
    {"wrapped", "the lists read round their ends", WRONG, wrapped},
    {"whole", "the first terms of the whole product", WRONG, whole},
    {"past", "the term past the wanted ones written too", WRONG, past},
    {"before", "a zero written before the wanted terms", WRONG, before},
    {"second_left_out", "the first product alone", WRONG, second_left_out},
    {"first_left_out", "of an odd count the first products left out", WRONG, first_left_out},
    {"ends_with_the_first", "q cut where p ends in zeros", WRONG, ends_with_the_first},
    {"wraps_lost", "the sum's low 64 bits for the sum", WRONG, wraps_lost},
    {.name = NULL},
};
