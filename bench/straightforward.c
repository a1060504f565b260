/* The definitions in C as one would first write them: row by row, and each product that is added takes its remainder, so that a step of
 * Expand, Adjoint and Decompose has two: one in the recurrence, one in the sum. Joining two channels takes one inverse for a list, and two
 * remainders for each entry. */
#include <string.h>

#include "contest.h"
#include "joined.h"

enum { N = MOST_ROWS + 1 };

static uint32_t times(uint32_t x, uint32_t y, uint32_t m) { return (uint32_t)((uint64_t)x * y % m); }

static uint32_t opposite(uint32_t x, uint32_t m) { return x ? m - x : 0; }

static uint32_t inverse(uint32_t x, uint32_t m) {
    int64_t r = m, s = x, t = 0, u = 1;
    while (s) {
        int64_t q = r / s, rest = r - q * s, next = t - q * u;
        r = s, s = rest;
        t = u, u = next;
    }
    return (uint32_t)(t < 0 ? t + m : t);
}

static void invert(const struct job *x, uint32_t *result) { *result = inverse(x->a[0], x->m); }

/* One row: next becomes (a x + b) current + c older, where current has count coefficients and a zero behind them, and older zeros from
 * there on. */
static void row(uint32_t m, uint64_t a, uint64_t b, uint64_t c, const uint32_t *older, const uint32_t *current, uint32_t *next,
                size_t count) {
    next[0] = (uint32_t)((b * current[0] + c * older[0]) % m);
    for (size_t k = 1; k <= count; k++) next[k] = (uint32_t)((a * current[k - 1] + b * current[k] + c * older[k]) % m);
}

/* F[i + 1] becomes F_i of the family that begins with row first + 1, for i from -1 to rows; row r + 1 is the closing row. */
static void recurrence(const struct job *x, size_t first, size_t rows, uint32_t F[N + 2][N + 2]) {
    memset(F, 0, sizeof(uint32_t[N + 2][N + 2]));
    F[1][0] = 1;
    for (size_t i = 0; i < rows; i++) {
        size_t at = first + i;
        if (at < x->r)
            row(x->m, x->a[at], x->b[at], x->c[at], F[i], F[i + 1], F[i + 2], i + 1);
        else
            row(x->m, 1, 1, 1, F[i], F[i + 1], F[i + 2], i + 1);
    }
}

static void expand(const struct job *x, uint32_t *result) {
    uint32_t lists[3][N + 1] = {{0}, {1}, {0}};
    uint32_t *older = lists[0], *current = lists[1], *next = lists[2];
    memset(result, 0, (x->r + 1) * sizeof *result);
    result[0] = x->v[0];
    for (size_t i = 1; i <= x->r; i++) {
        row(x->m, x->a[i - 1], x->b[i - 1], x->c[i - 1], older, current, next, i);
        for (size_t k = 0; k <= i; k++) result[k] = (uint32_t)((result[k] + (uint64_t)x->v[i] * next[k]) % x->m);
        uint32_t *free = older;
        older = current, current = next, next = free;
    }
}

static void adjoint(const struct job *x, uint32_t *result) {
    uint32_t lists[3][N + 1] = {{0}, {1}, {0}};
    uint32_t *older = lists[0], *current = lists[1], *next = lists[2];
    result[0] = x->v[0];
    for (size_t j = 1; j <= x->r; j++) {
        row(x->m, x->a[j - 1], x->b[j - 1], x->c[j - 1], older, current, next, j);
        uint64_t sum = 0;
        for (size_t i = 0; i <= j; i++) sum = (sum + (uint64_t)x->v[i] * next[i]) % x->m;
        result[j] = (uint32_t)sum;
        uint32_t *free = older;
        older = current, current = next, next = free;
    }
}

/* From the top power: what stands there over the top coefficient of F_k is entry k, and F_k times it is taken away. */
static void decompose(const struct job *x, uint32_t *result) {
    static uint32_t F[N + 2][N + 2];
    uint32_t rest[N];
    recurrence(x, 0, x->r, F);
    memcpy(rest, x->v, (x->r + 1) * sizeof *rest);
    for (size_t k = x->r + 1; k-- > 0;) {
        result[k] = times(rest[k], inverse(F[k + 1][k], x->m), x->m);
        uint64_t less = opposite(result[k], x->m);
        for (size_t i = 0; i < k; i++) rest[i] = (uint32_t)((rest[i] + less * F[k + 1][i]) % x->m);
    }
}

static void norms(const struct job *x, uint32_t *result) {
    uint32_t product = 1;
    for (size_t i = 0; i <= x->r; i++) {
        if (i > 0) product = opposite(i < x->r ? times(product, x->c[i], x->m) : product, x->m);
        result[i] = i < x->r ? times(product, inverse(x->a[i], x->m), x->m) : product;
    }
}

/* The quotient of the two reversals, coefficient by coefficient. */
static void moments(const struct job *x, uint32_t *result) {
    static uint32_t F[N + 2][N + 2], G[N + 2][N + 2];
    size_t n = x->r + 1;
    recurrence(x, 0, n, F);
    recurrence(x, 1, n - 1, G);
    uint32_t unit = inverse(F[n + 1][n], x->m);
    for (size_t k = 0; k <= 2 * n - 2; k++) {
        uint64_t sum = k < n ? G[n][n - 1 - k] : 0;
        for (size_t i = k < n ? 0 : k - n; i < k; i++) sum = (sum + (uint64_t)opposite(result[i], x->m) * F[n + 1][n - (k - i)]) % x->m;
        result[k] = times((uint32_t)sum, unit, x->m);
    }
}

const struct contestant straightforward = {"straightforward", {invert, expand, adjoint, decompose, norms, moments}};

/* The value is the first remainder, and m1 as often as the difference over m1 modulo m2 says. */
static int64_t joined(const struct lists *x, uint32_t first, uint64_t factor) {
    int64_t product = (int64_t)x->m1 * x->m2, value = (int64_t)(first + factor * x->m1);
    return 2 * value > product ? value - product : value;
}

static uint64_t difference(const struct lists *x, size_t i) { return x->second[i] + (uint64_t)x->m2 - x->first[i] % x->m2; }

void join_by_wide_products(struct lists *x) {
    uint64_t over = inverse(x->m1 % x->m2, x->m2);
    for (size_t i = 0; i < x->length; i++)
        x->result[i] = joined(x, x->first[i], (uint64_t)((unsigned __int128)difference(x, i) * over % x->m2));
}

void join_by_products(struct lists *x) {
    uint64_t over = inverse(x->m1 % x->m2, x->m2);
    for (size_t i = 0; i < x->length; i++) x->result[i] = joined(x, x->first[i], difference(x, i) * over % x->m2);
}
