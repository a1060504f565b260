/* What model.h declares. Expand, Adjoint and Norms are the formulas that define them, as in tests/reference. These three go
 * another way than the scope paper's two ways and than the definitions in tests/reference, and the greatest common divisor is found by
 * halves and differences, with no remainder:
 *
 * Inverse    is found from an inverse modulo a smaller number.
 * Decompose  is Horner's scheme in the basis: times x, plus a coefficient, from the top power down.
 * Moments    come from the product law, and from no power series: x^j and x^k in the basis, weighed with the norms, give moment
 *            j + k. So this holds the library's moments and norms to that law too.
 */
#include "model.h"

#include <string.h>

enum { N = MOST_ROWS + 1 };

bool takes_family(const struct lent *x) { return x->operation != INVERSE; }

bool takes_curve(const struct lent *x) { return least_output(x) || (x->operation != NORMS && x->operation != MOMENTS); }

bool takes_work(const struct lent *x) { return x->way == TREE || x->way == TEXT; }

size_t curve_length(const struct lent *x) {
    if (x->operation == INVERSE) return 1;
    return x->operation == NORMS || x->operation == MOMENTS ? 0 : x->a.length + 1;
}

size_t result_length(const struct lent *x) {
    if (x->operation == INVERSE) return 1;
    return x->operation == MOMENTS ? 2 * x->a.length + 1 : x->a.length + 1;
}

size_t least_output(const struct lent *x) {
    return x->way == TEXT ? LEAST_TEXT_OUTPUT : x->way == WRITING ? LEAST_JOB_OUTPUT : 0;
}

uint32_t common_divisor(uint32_t x, uint32_t y) {
    uint32_t twos = 0;
    if (x == 0 || y == 0) return x + y;
    for (; x % 2 == 0 && y % 2 == 0; twos++) {
        x /= 2;
        y /= 2;
    }
    while (x != y) {
        if (x % 2 == 0)
            x /= 2;
        else if (y % 2 == 0)
            y /= 2;
        else if (x > y)
            x = (x - y) / 2;
        else
            y = (y - x) / 2;
    }
    return x << twos;
}

static bool all_below(struct list list, uint32_t m) {
    for (size_t i = 0; i < list.length; i++)
        if (list.entries[i] >= m) return false;
    return true;
}

/* 0 if every number of the list has an inverse. If not, the first without one decides: the number for a zero, or that for another,
 * which shares a factor with m. */
static uint32_t lack(struct list list, uint32_t m, uint32_t for_zero, uint32_t for_shared) {
    for (size_t i = 0; i < list.length; i++)
        if (common_divisor(list.entries[i], m) != 1) return list.entries[i] ? for_shared : for_zero;
    return 0;
}

/* The entries from row 2 on: none if there is no such row. */
static struct list from_row_2(struct list list) {
    return list.length ? (struct list){list.entries + 1, list.length - 1} : list;
}

uint32_t refusal(const struct lent *x) {
    if (x->m < 2 || x->m > GREATEST_MODULUS) return 3;
    if (takes_family(x)) {
        if (x->a.length != x->b.length || x->b.length != x->c.length) return 4;
        if (x->a.length > MOST_ROWS) return 5;
        if (takes_curve(x) && x->curve.length != curve_length(x)) return 6;
        if (least_output(x) ? x->output_length < least_output(x) : x->output_length != result_length(x)) return 7;
        if (takes_work(x) && x->work_length < LEAST_WORK) return 8;
        if (!all_below(x->a, x->m) || !all_below(x->b, x->m) || !all_below(x->c, x->m)) return 9;
        uint32_t a_lacks = lack(x->a, x->m, 17, 10), c_lacks = lack(from_row_2(x->c), x->m, 18, 11);
        if (a_lacks) return a_lacks;
        if (c_lacks) return c_lacks;
    }
    if (takes_curve(x) && !all_below(x->curve, x->m)) return 12;
    return x->operation == INVERSE ? lack(x->curve, x->m, 13, 13) : 0;
}

uint32_t factor_of(const struct lent *x) { return common_divisor(x->curve.entries[0], x->m); }

/* The number y below m with x y = 1 + m k for some k. Modulo x, k is the opposite of the inverse of m, and x is smaller than m.
 */
static uint32_t inverse(uint32_t x, uint32_t m) {
    if (x == 1) return 1;
    uint64_t k = x - inverse(m % x, x);
    return (uint32_t)((1 + m * k) / x);
}

static uint32_t times(uint32_t x, uint32_t y, uint32_t m) { return (uint32_t)((uint64_t)x * y % m); }

static uint32_t opposite(uint32_t x, uint32_t m) { return x ? m - x : 0; }

/* F[i][k] becomes the coefficient of x^k in F_i, for i from 0 to r. Three products of numbers below 2^31 fit into 64 bits. */
static void recurrence(const struct lent *x, uint32_t F[N][N]) {
    memset(F, 0, sizeof(uint32_t[N][N]));
    F[0][0] = 1;
    for (size_t i = 1; i <= x->a.length; i++) {
        uint64_t a = x->a.entries[i - 1], b = x->b.entries[i - 1], c = x->c.entries[i - 1];
        for (size_t k = 0; k <= i; k++) {
            uint64_t sum = b * F[i - 1][k];
            if (k > 0) sum += a * F[i - 1][k - 1];
            if (i > 1) sum += c * F[i - 2][k];
            F[i][k] = (uint32_t)(sum % x->m);
        }
    }
}

static void expand(const struct lent *x, uint32_t *result) {
    static uint32_t F[N][N];
    recurrence(x, F);
    for (size_t k = 0; k <= x->a.length; k++) {
        uint64_t sum = 0;
        for (size_t i = k; i <= x->a.length; i++) sum = (sum + (uint64_t)x->curve.entries[i] * F[i][k]) % x->m;
        result[k] = (uint32_t)sum;
    }
}

static void adjoint(const struct lent *x, uint32_t *result) {
    static uint32_t F[N][N];
    recurrence(x, F);
    for (size_t j = 0; j <= x->a.length; j++) {
        uint64_t sum = 0;
        for (size_t i = 0; i <= j; i++) sum = (sum + (uint64_t)x->curve.entries[i] * F[j][i]) % x->m;
        result[j] = (uint32_t)sum;
    }
}

/* The inverses of a_1 to a_r, and of the closing row's 1. */
static void invert_a(const struct lent *x, uint32_t inverses[N]) {
    for (size_t i = 0; i < x->a.length; i++) inverses[i] = inverse(x->a.entries[i], x->m);
    inverses[x->a.length] = 1;
}

/* Curve becomes the curve of x times its polynomial, which has no F_r in it, since
 * x F_{i-1} = (F_i - b_i F_{i-1} - c_i F_{i-2}) / a_i. */
static void times_x(const struct lent *x, const uint32_t inverses[N], uint32_t curve[N]) {
    uint64_t next[N] = {0};
    for (size_t i = 1; i <= x->a.length; i++) {
        uint64_t share = times(curve[i - 1], inverses[i - 1], x->m);
        next[i] += share;
        next[i - 1] += share * opposite(x->b.entries[i - 1], x->m);
        if (i > 1) next[i - 2] += share * opposite(x->c.entries[i - 1], x->m);
    }
    for (size_t i = 0; i <= x->a.length; i++) curve[i] = (uint32_t)(next[i] % x->m);
}

static void decompose(const struct lent *x, uint32_t *result) {
    uint32_t inverses[N], curve[N] = {0};
    invert_a(x, inverses);
    for (size_t power = x->a.length + 1; power-- > 0;) {
        times_x(x, inverses, curve);
        curve[0] = (uint32_t)(((uint64_t)curve[0] + x->curve.entries[power]) % x->m);
    }
    memcpy(result, curve, (x->a.length + 1) * sizeof *curve);
}

/* d_i = (-1)^i c_2 .. c_{i+1} / a_{i+1}; the closing row's c and a are 1. */
static void norms(const struct lent *x, const uint32_t inverses[N], uint32_t *result) {
    uint32_t signed_product = 1;
    for (size_t i = 0; i <= x->a.length; i++) {
        if (i > 0) {
            uint32_t c = i < x->a.length ? x->c.entries[i] : 1;
            signed_product = opposite(times(signed_product, c, x->m), x->m);
        }
        result[i] = times(signed_product, inverses[i], x->m);
    }
}

static void moments(const struct lent *x, const uint32_t inverses[N], uint32_t *result) {
    static uint32_t power[N][N];
    uint32_t d[N], curve[N] = {1};
    size_t r = x->a.length;
    norms(x, inverses, d);
    for (size_t j = 0; j <= r; j++) {
        memcpy(power[j], curve, sizeof curve);
        if (j < r) times_x(x, inverses, curve);
    }
    for (size_t sum = 0; sum <= 2 * r; sum++) {
        size_t j = sum / 2, k = sum - j;
        uint64_t total = 0;
        for (size_t i = 0; i <= j; i++) total = (total + (uint64_t)times(power[j][i], power[k][i], x->m) * d[i]) % x->m;
        result[sum] = (uint32_t)total;
    }
}

void hand_out(const struct lent *x, uint32_t result[MOST_RESULTS]) {
    uint32_t inverses[N];
    switch (x->operation) {
    case INVERSE: result[0] = inverse(x->curve.entries[0], x->m); break;
    case EXPAND: expand(x, result); break;
    case ADJOINT: adjoint(x, result); break;
    case DECOMPOSE: decompose(x, result); break;
    case NORMS:
        invert_a(x, inverses);
        norms(x, inverses, result);
        break;
    case MOMENTS:
        invert_a(x, inverses);
        moments(x, inverses, result);
        break;
    }
}
