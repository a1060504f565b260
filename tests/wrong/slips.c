/* What slips.h declares. Products are of the schoolbook, and nothing is kept: a node is computed wherever it is used. */
#include "slips.h"

#include <string.h>

enum { SPAN = 256, N = MOST_ROWS + 1 };

enum slip {
    NONE,
    HALVES_SWAPPED,
    LOWEST_LEVEL_ONLY,
    PADDING_SHOWS,
    TRANSPOSED_TERM_MORE,
    TRANSPOSED_WRAPPED,
    TRANSPOSED_WHOLE,
    POWERING,
    NON_ZERO,
    C_1_INVERTED,
    C_1_ASKED,
    C_2_NOT_ASKED,
    A_1_NOT_ASKED,
    C_1_UNREAD,
    ONE_ROW_UNTESTED,
    NORM_OVER_A_I,
    NORM_FROM_C_1,
    NORM_TO_C_I,
    NORM_SIGN_LOST,
    REVERSAL_TOO_LONG,
    G_FROM_ROW_1,
    CLOSED_BY_2
};

typedef uint32_t polynomial[SPAN + 1];

struct matrix {
    polynomial at[2][2];
};

struct pair {
    polynomial at[2];
};

/* Rows 1 to count, row 1 at place 0. */
struct family {
    enum slip slip;
    uint32_t m;
    size_t count;
    uint32_t a[N + 1], b[N + 1], c[N + 1];
};

/* ---- numbers */

static uint32_t times(uint32_t x, uint32_t y, uint32_t m) { return (uint32_t)((uint64_t)x * y % m); }

static uint32_t opposite(uint32_t x, uint32_t m) { return x ? m - x : 0; }

static uint32_t power(uint32_t x, uint32_t exponent, uint32_t m) {
    uint32_t result = 1 % m;
    for (; exponent; exponent /= 2, x = times(x, x, m))
        if (exponent % 2) result = times(result, x, m);
    return result;
}

/* Euclid's cofactor of x, which is its inverse if it has one. */
static uint32_t cofactor(uint32_t x, uint32_t m) {
    int64_t r = m, s = x, p = 0, q = 1;
    while (s) {
        int64_t quotient = r / s, rest = r - quotient * s, next = p - quotient * q;
        r = s;
        s = rest;
        p = q;
        q = next;
    }
    return (uint32_t)((p % m + m) % m);
}

static uint32_t inverse(enum slip slip, uint32_t x, uint32_t m) {
    return slip == POWERING ? power(x, m - 2, m) : cofactor(x, m);
}

/* ---- polynomials */

/* sum += p q, of which the first n coefficients; p and q have degree below their lengths. */
static void add_product(uint32_t m, size_t n, uint32_t *sum, const uint32_t *p, size_t p_length, const uint32_t *q,
                        size_t q_length) {
    for (size_t i = 0; i < p_length; i++)
        for (size_t j = 0; p[i] && j < q_length && i + j < n; j++)
            sum[i + j] = (uint32_t)((sum[i + j] + (uint64_t)p[i] * q[j]) % m);
}

/* sum[k] += the sum over i of p[i] list[k + i], for k below n. Behind is the number that stands after p. */
static void add_transposed(const struct family *f, size_t n, uint32_t *sum, const uint32_t *p, size_t p_length, uint32_t behind,
                           const uint32_t *list, size_t list_length) {
    if (f->slip == TRANSPOSED_WHOLE) {
        add_product(f->m, n, sum, p, p_length, list, list_length);
        return;
    }
    size_t end = f->slip == TRANSPOSED_TERM_MORE ? p_length + 1 : p_length;
    for (size_t k = 0; k < n; k++)
        for (size_t i = 0; i < end; i++) {
            size_t place = f->slip == TRANSPOSED_WRAPPED ? (k + i) % n : k + i;
            if (place < list_length) sum[k] = (uint32_t)((sum[k] + (uint64_t)(i < p_length ? p[i] : behind) * list[place]) % f->m);
        }
}

/* ---- the tree */

static uint32_t entry(const struct family *f, const uint32_t *list, size_t place, size_t count) {
    return place < count ? list[place] : f->slip == PADDING_SHOWS;
}

/* The matrix over one row. */
static void row_matrix(const struct family *f, size_t place, struct matrix *matrix) {
    memset(matrix, 0, sizeof *matrix);
    matrix->at[0][1][0] = 1;
    matrix->at[1][0][0] = entry(f, f->c, place, f->count);
    matrix->at[1][1][0] = entry(f, f->b, place, f->count);
    matrix->at[1][1][1] = entry(f, f->a, place, f->count);
}

/* The product of two matrices over so many rows each. */
static void join(uint32_t m, size_t rows, const struct matrix *x, const struct matrix *y, struct matrix *product) {
    memset(product, 0, sizeof *product);
    for (int i = 0; i < 2; i++)
        for (int j = 0; j < 2; j++)
            for (int k = 0; k < 2; k++)
                add_product(m, 2 * rows + 1, product->at[i][j], x->at[i][k], rows + 1, y->at[k][j], rows + 1);
}

/* The matrix that turns F_t, F_{t+1} into F_{t+span}, F_{t+span+1}. A leaf is over one pair of rows. */
static void node(const struct family *f, size_t span, size_t t, struct matrix *matrix) {
    if (span == 1) {
        row_matrix(f, t + 1, matrix);
        return;
    }
    struct matrix left, right;
    node(f, span / 2, t, &left);
    if (f->slip == LOWEST_LEVEL_ONLY && span > 4) {
        *matrix = left;
        return;
    }
    node(f, span / 2, t + span / 2, &right);
    if (f->slip == HALVES_SWAPPED && span > 2)
        join(f->m, span / 2, &left, &right, matrix);
    else
        join(f->m, span / 2, &right, &left, matrix);
}

/* The least power of two not below n, from 2 on. */
static size_t covering(size_t n) {
    size_t span = 2;
    while (span < n) span *= 2;
    return span;
}

/* The pair that times F_t, F_{t+1} is the sum of curve[i] F_i over span places from t on. */
static void up(const struct family *f, const uint32_t *curve, size_t span, size_t t, struct pair *pair) {
    memset(pair, 0, sizeof *pair);
    if (span == 2) {
        pair->at[0][0] = entry(f, curve, t, f->count + 1);
        pair->at[1][0] = entry(f, curve, t + 1, f->count + 1);
        return;
    }
    size_t half = span / 2;
    struct pair left, right;
    struct matrix matrix;
    up(f, curve, half, t, &left);
    up(f, curve, half, t + half, &right);
    node(f, half, t, &matrix);
    for (int j = 0; j < 2; j++) {
        memcpy(pair->at[j], left.at[j], sizeof left.at[j]);
        for (int i = 0; i < 2; i++) add_product(f->m, span, pair->at[j], right.at[i], half, matrix.at[i][j], half + 1);
    }
}

static void expand(const struct family *f, const uint32_t *curve, uint32_t *result) {
    size_t n = f->count + 1, span = covering(n);
    const uint32_t F_1[] = {f->b[0], f->a[0]};
    struct pair root;
    if (n == 1) {
        result[0] = curve[0];
        return;
    }
    up(f, curve, span, 0, &root);
    memcpy(result, root.at[0], n * sizeof *result);
    add_product(f->m, n, result, root.at[1], span, F_1, 2);
}

/* The entries of the answer from t on, from the transposed products of the list with F_t and F_{t+1}. */
static void down(const struct family *f, size_t span, size_t t, const struct pair *pair, uint32_t *result) {
    if (span == 2) {
        result[t] = pair->at[0][0];
        result[t + 1] = pair->at[1][0];
        return;
    }
    size_t half = span / 2;
    struct pair right;
    struct matrix matrix, leaf;
    memset(&right, 0, sizeof right);
    node(f, half, t, &matrix);
    node(f, 2, t + half, &leaf);
    /* In the working list a node's lists stand side by side, and behind them the tree over the rows that follow, first its first leaf. */
    const uint32_t behind[2][2] = {{matrix.at[0][1][0], matrix.at[1][0][0]}, {matrix.at[1][1][0], leaf.at[0][0][0]}};
    for (int i = 0; i < 2; i++)
        for (int j = 0; j < 2; j++)
            add_transposed(f, half, right.at[i], matrix.at[i][j], half + 1, behind[i][j], pair->at[j], span);
    down(f, half, t, pair, result);
    down(f, half, t + half, &right, result);
}

static void adjoint(const struct family *f, const uint32_t *curve, uint32_t *result) {
    size_t n = f->count + 1, span = covering(n);
    const uint32_t F_1[] = {f->b[0], f->a[0]};
    uint32_t list[SPAN], all[SPAN];
    struct pair root;
    if (n == 1) {
        result[0] = curve[0];
        return;
    }
    for (size_t i = 0; i < span; i++) list[i] = entry(f, curve, i, n);
    memset(&root, 0, sizeof root);
    memcpy(root.at[0], list, span * sizeof *list);
    add_transposed(f, span, root.at[1], F_1, 2, list[0], list, span);
    down(f, span, 0, &root, all);
    memcpy(result, all, n * sizeof *result);
}

/* ---- norms and moments */

/* d_i = (-1)^i c_2 .. c_{i+1} / a_{i+1}; f has its closing row. */
static void norms(const struct family *f, uint32_t *result) {
    enum slip slip = f->slip;
    uint32_t m = f->m, product = slip == NORM_FROM_C_1 ? f->c[0] : 1;
    for (size_t i = 0; i < f->count; i++) {
        if (i > 0) product = times(product, f->c[slip == NORM_TO_C_I ? i - 1 : i], m);
        if (i > 0 && slip != NORM_SIGN_LOST) product = opposite(product, m);
        result[i] = times(product, inverse(slip, f->a[slip == NORM_OVER_A_I && i > 0 ? i - 1 : i], m), m);
    }
}

/* The last polynomial of a family: Expand of 0 .. 0 1. */
static void last_polynomial(const struct family *f, uint32_t *result) {
    uint32_t unit[N + 1] = {0};
    unit[f->count] = 1;
    expand(f, unit, result);
}

/* The family that begins with another row of f, and ends where f does or one row before. */
static struct family part(const struct family *f, size_t first, size_t end) {
    struct family g = {.slip = f->slip, .m = f->m, .count = end - first};
    memcpy(g.a, f->a + first, g.count * sizeof *g.a);
    memcpy(g.b, f->b + first, g.count * sizeof *g.b);
    memcpy(g.c, f->c + first, g.count * sizeof *g.c);
    return g;
}

/* The 2n - 1 first coefficients of rev(G_{n-1}, n) / rev(F_n, n + 1); f has its closing row, so that it has n rows. */
static void moments(const struct family *f, uint32_t *result) {
    size_t n = f->count, up_by = f->slip == REVERSAL_TOO_LONG;
    uint32_t F[N + 1], G[N], m = f->m;
    struct family g = f->slip == G_FROM_ROW_1 ? part(f, 0, n - 1) : part(f, 1, n);
    last_polynomial(f, F);
    last_polynomial(&g, G);
    uint32_t first = inverse(f->slip, F[n], m);
    for (size_t k = 0; k < 2 * n - 1; k++) {
        uint64_t rest = k >= up_by && k - up_by < n ? G[n - 1 - (k - up_by)] : 0;
        for (size_t i = 1; i <= k && i <= n; i++) rest = (rest + (uint64_t)opposite(F[n - i], m) * result[k - i]) % m;
        result[k] = times((uint32_t)rest, first, m);
    }
}

/* The inverse of a c from the cofactor of the product of all c, untested: right only if every c has an inverse. */
static uint32_t inverse_of_c(const struct family *f, size_t place) {
    uint32_t others = 1;
    for (size_t i = 0; i < f->count; i++)
        if (i != place) others = times(others, f->c[i], f->m);
    return times(cofactor(times(others, f->c[place], f->m), f->m), others, f->m);
}

/* The inverse of norm i; with the slip, (-1)^i a_{i+1} times the inverses of c_2 .. c_{i+1}. f has its closing row. */
static uint32_t inverse_of_norm(const struct family *f, const uint32_t *norm, size_t i) {
    if (f->slip != C_1_INVERTED) return inverse(f->slip, norm[i], f->m);
    uint32_t result = f->a[i];
    for (size_t place = 1; place <= i; place++) result = opposite(times(result, inverse_of_c(f, place), f->m), f->m);
    return result;
}

/* f without its closing row, and f with it. */
static void decompose(const struct family *f, const struct family *closed, const uint32_t *coefficients, uint32_t *result) {
    size_t n = closed->count;
    uint32_t moment[MOST_RESULTS], norm[N], product[N] = {0};
    moments(closed, moment);
    norms(closed, norm);
    add_transposed(f, n, product, coefficients, n, moment[0], moment, 2 * n - 1);
    adjoint(f, product, result);
    for (size_t i = 0; i < n; i++) result[i] = times(result[i], inverse_of_norm(closed, norm, i), f->m);
}

/* ---- calls */

/* A list in which each number that the slip lets pass is 1: those below m that it takes for invertible, and an only row's. */
static struct list let_pass(enum slip slip, struct list list, uint32_t m, uint32_t *room) {
    for (size_t i = 0; i < list.length; i++) {
        uint32_t x = list.entries[i];
        bool invertible = x < m && (slip == POWERING || (slip == NON_ZERO && x));
        room[i] = invertible || (slip == ONE_ROW_UNTESTED && list.length == 1) ? 1 : x;
    }
    return (struct list){room, list.length};
}

/* Whether there is a c_1 without an inverse. */
static bool c_1_refused(const struct lent *x) { return x->c.length && common_divisor(x->c.entries[0], x->m) != 1; }

/* The refusal that the call gives with its slip, or 0. */
static uint32_t refusal_with(enum slip slip, const struct lent *x) {
    static uint32_t a[1 << 13], b[1 << 13], c[1 << 13], number[1];
    struct lent passed = *x;
    passed.a = let_pass(slip, x->a, x->m, a);
    passed.b = let_pass(slip, x->b, x->m, b);
    passed.c = let_pass(slip, x->c, x->m, c);
    if (x->operation == INVERSE) passed.curve = let_pass(slip, x->curve, x->m, number);
    if (slip == C_2_NOT_ASKED && x->c.length > 1 && c[1] < x->m) c[1] = 1;
    if (slip == A_1_NOT_ASKED && x->a.length && a[0] < x->m) a[0] = 1;
    if (slip == C_1_UNREAD && x->c.length) c[0] = 1;
    uint32_t refused = refusal(&passed);
    bool asked = refused == 0 || refused == 12 || refused == 18 || refused == 11;
    return slip == C_1_ASKED && asked && c_1_refused(x) ? x->c.entries[0] ? 11 : 18 : refused;
}

uint32_t refusal_powering(const struct lent *x) { return refusal_with(POWERING, x); }
uint32_t refusal_non_zero(const struct lent *x) { return refusal_with(NON_ZERO, x); }
uint32_t refusal_c_1_asked(const struct lent *x) { return refusal_with(C_1_ASKED, x); }
uint32_t refusal_c_2_not_asked(const struct lent *x) { return refusal_with(C_2_NOT_ASKED, x); }
uint32_t refusal_a_1_not_asked(const struct lent *x) { return refusal_with(A_1_NOT_ASKED, x); }
uint32_t refusal_c_1_unread(const struct lent *x) { return refusal_with(C_1_UNREAD, x); }
uint32_t refusal_one_row_untested(const struct lent *x) { return refusal_with(ONE_ROW_UNTESTED, x); }

/* The rows, and of what was not tested the remainders. */
static struct family family_of(enum slip slip, const struct lent *x) {
    struct family f = {.slip = slip, .m = x->m, .count = x->a.length};
    for (size_t i = 0; i < f.count; i++) {
        f.a[i] = x->a.entries[i] % x->m;
        f.b[i] = x->b.entries[i] % x->m;
        f.c[i] = x->c.entries[i] % x->m;
    }
    return f;
}

static uint32_t answer_with(enum slip slip, const struct call *call) {
    const struct lent *x = &call->lent;
    uint32_t number = refusal_with(slip, x);
    if (number == 13) *call->factor = common_divisor(x->curve.entries[0], x->m);
    if (number) return number;
    struct family f = family_of(slip, x), closed = f;
    closed.a[closed.count] = slip == CLOSED_BY_2 ? 2 % x->m : 1;
    closed.b[closed.count] = closed.c[closed.count] = 1;
    closed.count++;
    switch (x->operation) {
    case INVERSE:
        call->output[0] = inverse(slip, x->curve.entries[0], x->m);
        *call->factor = 1;
        break;
    case EXPAND: expand(&f, x->curve.entries, call->output); break;
    case ADJOINT: adjoint(&f, x->curve.entries, call->output); break;
    case DECOMPOSE: decompose(&f, &closed, x->curve.entries, call->output); break;
    case NORMS: norms(&closed, call->output); break;
    case MOMENTS: moments(&closed, call->output); break;
    }
    if (takes_work(x)) memset(call->work, 0, LEAST_WORK * sizeof *call->work);
    return 0;
}

uint32_t without_a_slip(const struct call *call) { return answer_with(NONE, call); }
uint32_t halves_swapped(const struct call *call) { return answer_with(HALVES_SWAPPED, call); }
uint32_t lowest_level_only(const struct call *call) { return answer_with(LOWEST_LEVEL_ONLY, call); }
uint32_t padding_shows(const struct call *call) { return answer_with(PADDING_SHOWS, call); }
uint32_t transposed_term_more(const struct call *call) { return answer_with(TRANSPOSED_TERM_MORE, call); }
uint32_t transposed_wrapped(const struct call *call) { return answer_with(TRANSPOSED_WRAPPED, call); }
uint32_t transposed_whole(const struct call *call) { return answer_with(TRANSPOSED_WHOLE, call); }
uint32_t powering_untested(const struct call *call) { return answer_with(POWERING, call); }
uint32_t non_zero_taken(const struct call *call) { return answer_with(NON_ZERO, call); }
uint32_t c_1_inverted(const struct call *call) { return answer_with(C_1_INVERTED, call); }
uint32_t c_1_asked(const struct call *call) { return answer_with(C_1_ASKED, call); }
uint32_t c_2_not_asked(const struct call *call) { return answer_with(C_2_NOT_ASKED, call); }
uint32_t a_1_not_asked(const struct call *call) { return answer_with(A_1_NOT_ASKED, call); }
uint32_t c_1_unread(const struct call *call) { return answer_with(C_1_UNREAD, call); }
uint32_t one_row_untested(const struct call *call) { return answer_with(ONE_ROW_UNTESTED, call); }
uint32_t norm_over_a_i(const struct call *call) { return answer_with(NORM_OVER_A_I, call); }
uint32_t norm_from_c_1(const struct call *call) { return answer_with(NORM_FROM_C_1, call); }
uint32_t norm_to_c_i(const struct call *call) { return answer_with(NORM_TO_C_I, call); }
uint32_t norm_sign_lost(const struct call *call) { return answer_with(NORM_SIGN_LOST, call); }
uint32_t reversal_too_long(const struct call *call) { return answer_with(REVERSAL_TOO_LONG, call); }
uint32_t G_from_row_1(const struct call *call) { return answer_with(G_FROM_ROW_1, call); }
uint32_t closed_by_2(const struct call *call) { return answer_with(CLOSED_BY_2, call); }
