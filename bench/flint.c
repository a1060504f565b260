/* Figures 1 to 3 of the report with FLINT's nmod_poly. Each call builds its tree; the memory of the polynomials is kept from call to call.
 *
 * The tree covers n rows, the least power of two. Level 0 are the pairs of rows; node i of level l covers 2^(l+1) rows. As in Figure 1 the
 * last node of each level is not built. Rows past the family are zero, and products with zero cost nothing. */
#include <flint/fmpz.h>
#include <flint/nmod_poly.h>

#include "contest.h"
#include "joined.h"
#include "transposed.h"

enum { LEVELS = 8, LEAVES = 1 << (LEVELS - 1) };

/* Row by row: the matrix that takes F_k and F_{k+1} to those of the next node, and the pair of vectors. */
struct node {
    nmod_poly_t matrix[2][2];
    nmod_poly_t pair[2];
};

static struct node tree[LEVELS][LEAVES];
static nmod_poly_t one, two, first, list, divisor, numerator, factors[2][2];
static ulong modulus;

/* A family of r rows, and the modulus. */
struct rows {
    size_t r;
    uint32_t a[MOST_ROWS + 1], b[MOST_ROWS + 1], c[MOST_ROWS + 1];
};

static void each_polynomial(void (*act)(nmod_poly_t, ulong), ulong m) {
    for (size_t level = 0; level < LEVELS; level++)
        for (size_t i = 0; i < (size_t)LEAVES >> level; i++)
            for (size_t k = 0; k < 2; k++) {
                act(tree[level][i].matrix[k][0], m);
                act(tree[level][i].matrix[k][1], m);
                act(tree[level][i].pair[k], m);
            }
    act(one, m), act(two, m), act(first, m), act(list, m), act(divisor, m), act(numerator, m);
    for (size_t k = 0; k < 2; k++) act(factors[k][0], m), act(factors[k][1], m);
}

static void clear(nmod_poly_t p, ulong m) {
    (void)m;
    nmod_poly_clear(p);
}

static void prepare(ulong m) {
    if (m == modulus) return;
    if (modulus) each_polynomial(clear, 0);
    each_polynomial(nmod_poly_init, m);
    modulus = m;
}

static void set_two(nmod_poly_t p, ulong constant, ulong linear) {
    nmod_poly_zero(p);
    nmod_poly_set_coeff_ui(p, 1, linear);
    nmod_poly_set_coeff_ui(p, 0, constant);
}

static void set_list(nmod_poly_t p, const uint32_t *entries, size_t count) {
    nmod_poly_zero(p);
    nmod_poly_fit_length(p, (slong)count);
    for (size_t i = count; i-- > 0;) nmod_poly_set_coeff_ui(p, (slong)i, entries[i]);
}

static void get_list(uint32_t *entries, const nmod_poly_t p, size_t count) {
    for (size_t i = 0; i < count; i++) entries[i] = (uint32_t)nmod_poly_get_coeff_ui(p, (slong)i);
}

/* target becomes p q + r s. */
static void sum_of_products(nmod_poly_t target, const nmod_poly_t p, const nmod_poly_t q, const nmod_poly_t r, const nmod_poly_t s) {
    nmod_poly_mul(target, p, q);
    nmod_poly_mul(one, r, s);
    nmod_poly_add(target, target, one);
}

/* The matrix of the rows 2 i + 2 and 2 i + 3, counted from 1. */
static void leaf(const struct rows *rows, size_t i, struct node *node) {
    size_t p = 2 * i + 1, q = p + 1;
    ulong pa = p < rows->r ? rows->a[p] : 0, pb = p < rows->r ? rows->b[p] : 0, pc = p < rows->r ? rows->c[p] : 0;
    ulong qa = q < rows->r ? rows->a[q] : 0, qb = q < rows->r ? rows->b[q] : 0, qc = q < rows->r ? rows->c[q] : 0;
    nmod_t mod = node->pair[0]->mod;
    nmod_poly_zero(node->matrix[0][0]);
    nmod_poly_set_coeff_ui(node->matrix[0][0], 0, pc);
    set_two(node->matrix[0][1], pb, pa);
    set_two(node->matrix[1][0], nmod_mul(qb, pc, mod), nmod_mul(qa, pc, mod));
    set_two(node->matrix[1][1], nmod_add(nmod_mul(qb, pb, mod), qc, mod), nmod_add(nmod_mul(qb, pa, mod), nmod_mul(qa, pb, mod), mod));
    nmod_poly_set_coeff_ui(node->matrix[1][1], 2, nmod_mul(qa, pa, mod));
}

/* Answers the root's level. */
static size_t build(const struct rows *rows, size_t n) {
    size_t top = 0;
    while ((size_t)2 << top < n) top++;
    size_t count = (size_t)1 << top;
    for (size_t i = 0; i + 1 < count; i++) leaf(rows, i, &tree[0][i]);
    for (size_t level = 1; level < top; level++)
        for (size_t i = 0; i + 1 < count >> level; i++) {
            struct node *left = &tree[level - 1][2 * i], *right = left + 1, *node = &tree[level][i];
            for (size_t k = 0; k < 2; k++)
                for (size_t l = 0; l < 2; l++)
                    sum_of_products(node->matrix[k][l], right->matrix[k][0], left->matrix[0][l], right->matrix[k][1], left->matrix[1][l]);
        }
    return top;
}

/* Figure 1. */
static void expand_rows(const struct rows *rows, const uint32_t *curve, nmod_poly_t result) {
    size_t n = rows->r + 1;
    nmod_poly_zero(result);
    if (n == 1) {
        nmod_poly_set_coeff_ui(result, 0, curve[0]);
        return;
    }
    size_t top = build(rows, n), count = (size_t)1 << top;
    for (size_t i = 0; i < count; i++)
        for (size_t k = 0; k < 2; k++) {
            nmod_poly_zero(tree[0][i].pair[k]);
            if (2 * i + k < n) nmod_poly_set_coeff_ui(tree[0][i].pair[k], 0, curve[2 * i + k]);
        }
    for (size_t level = 1; level <= top; level++)
        for (size_t i = 0; i < count >> level; i++) {
            struct node *left = &tree[level - 1][2 * i], *right = left + 1, *node = &tree[level][i];
            for (size_t k = 0; k < 2; k++) {
                sum_of_products(node->pair[k], right->pair[0], left->matrix[0][k], right->pair[1], left->matrix[1][k]);
                nmod_poly_add(node->pair[k], node->pair[k], left->pair[k]);
            }
        }
    set_two(first, rows->b[0], rows->a[0]);
    nmod_poly_mul(result, tree[top][0].pair[1], first);
    nmod_poly_add(result, result, tree[top][0].pair[0]);
}

/* mul^t(p, q, k), where q has degree d or less: the coefficients d to d + k - 1 of p times the reversal of q. */
static void transposed(nmod_poly_t target, const nmod_poly_t p, const nmod_poly_t q, size_t d, size_t k) {
    nmod_poly_reverse(two, q, (slong)d + 1);
    nmod_poly_mullow(target, p, two, (slong)(d + k));
    nmod_poly_shift_right(target, target, (slong)d);
}

static size_t first_length(size_t rows) { return rows > 3 ? rows - 2 : 1; }

static size_t second_length(size_t rows) { return rows - 1; }

static void lower(nmod_poly_t target, struct node *node, struct node *left, size_t k, size_t half, size_t length) {
    transposed(target, node->pair[0], left->matrix[k][0], half - 2 + k, length);
    transposed(one, node->pair[1], left->matrix[k][1], half - 1 + k, length);
    nmod_poly_add(target, target, one);
}

/* Figure 2, with the bounds on the degrees that the report states. */
static void adjoint_rows(const struct rows *rows, const nmod_poly_t curve, uint32_t *result) {
    size_t n = rows->r + 1;
    if (n == 1) {
        get_list(result, curve, 1);
        return;
    }
    size_t top = build(rows, n), count = (size_t)1 << top;
    struct node *root = &tree[top][0];
    nmod_poly_set(root->pair[0], curve);
    nmod_poly_truncate(root->pair[0], (slong)first_length(2 * count));
    set_two(first, rows->b[0], rows->a[0]);
    transposed(root->pair[1], curve, first, 1, second_length(2 * count));
    for (size_t level = top; level > 0; level--)
        for (size_t i = 0; i < count >> level; i++) {
            struct node *node = &tree[level][i], *left = &tree[level - 1][2 * i], *right = left + 1;
            size_t half = (size_t)1 << level, lengths[2] = {first_length(half), second_length(half)};
            for (size_t k = 0; k < 2; k++) {
                nmod_poly_set_trunc(left->pair[k], node->pair[k], (slong)lengths[k]);
                lower(right->pair[k], node, left, k, half, lengths[k]);
            }
        }
    for (size_t j = 0; j < n; j++) result[j] = (uint32_t)nmod_poly_get_coeff_ui(tree[0][j / 2].pair[j % 2], 0);
}

/* The rows of the job from the row at `from` on, and the closing row behind them if `close` is 1. */
static struct rows rows_of(const struct job *x, size_t from, size_t close) {
    struct rows rows = {.r = x->r + close - from};
    for (size_t i = 0; i < rows.r; i++) {
        size_t at = from + i;
        rows.a[i] = at < x->r ? x->a[at] : 1;
        rows.b[i] = at < x->r ? x->b[at] : 1;
        rows.c[i] = at < x->r ? x->c[at] : 1;
    }
    return rows;
}

/* The last polynomial of a family: Expand of 0 .. 0 1. */
static void last_polynomial(const struct rows *rows, nmod_poly_t result) {
    uint32_t curve[MOST_ROWS + 2] = {0};
    curve[rows->r] = 1;
    expand_rows(rows, curve, result);
}

static void moments_list(const struct job *x, nmod_poly_t result) {
    slong n = (slong)x->r + 1;
    struct rows closed = rows_of(x, 0, 1), later = rows_of(x, 1, 1);
    last_polynomial(&closed, divisor);
    last_polynomial(&later, numerator);
    nmod_poly_reverse(divisor, divisor, n + 1);
    nmod_poly_reverse(numerator, numerator, n);
    nmod_poly_div_series(result, numerator, divisor, 2 * n - 1);
}

/* Multiplies each entry by the inverse of its norm. All come from one inverse, that of c_2 .. c_r. */
static void divide_by_norms(const struct job *x, uint32_t *entries) {
    nmod_t mod = list->mod;
    ulong products[MOST_ROWS + 1] = {1};
    for (size_t i = 1; i <= x->r; i++) products[i] = i < x->r ? nmod_mul(products[i - 1], x->c[i], mod) : products[i - 1];
    ulong inverse = n_invmod(products[x->r], x->m);
    for (size_t i = x->r + 1; i-- > 0;) {
        ulong factor = i < x->r ? nmod_mul(inverse, x->a[i], mod) : inverse;
        entries[i] = (uint32_t)nmod_mul(entries[i], i % 2 ? nmod_neg(factor, mod) : factor, mod);
        if (0 < i && i < x->r) inverse = nmod_mul(inverse, x->c[i], mod);
    }
}

static void invert(const struct job *x, uint32_t *result) { *result = (uint32_t)n_invmod(x->a[0], x->m); }

static void expand(const struct job *x, uint32_t *result) {
    struct rows rows = rows_of(x, 0, 0);
    prepare(x->m);
    expand_rows(&rows, x->v, list);
    get_list(result, list, x->r + 1);
}

static void adjoint(const struct job *x, uint32_t *result) {
    struct rows rows = rows_of(x, 0, 0);
    prepare(x->m);
    set_list(list, x->v, x->r + 1);
    adjoint_rows(&rows, list, result);
}

/* Figure 3. */
static void decompose(const struct job *x, uint32_t *result) {
    struct rows rows = rows_of(x, 0, 0);
    prepare(x->m);
    moments_list(x, list);
    set_list(numerator, x->v, x->r + 1);
    transposed(list, list, numerator, x->r, x->r + 1);
    adjoint_rows(&rows, list, result);
    divide_by_norms(x, result);
}

static void norms(const struct job *x, uint32_t *result) {
    prepare(x->m);
    nmod_t mod = list->mod;
    ulong product = 1;
    for (size_t i = 0; i <= x->r; i++) {
        if (i > 0) product = nmod_neg(i < x->r ? nmod_mul(product, x->c[i], mod) : product, mod);
        result[i] = (uint32_t)(i < x->r ? nmod_mul(product, n_invmod(x->a[i], x->m), mod) : product);
    }
}

static void moments(const struct job *x, uint32_t *result) {
    prepare(x->m);
    moments_list(x, list);
    get_list(result, list, 2 * x->r + 1);
}

const struct contestant flint = {"FLINT", {invert, expand, adjoint, decompose, norms, moments}};

void transpose_by_flint(struct operands *x) {
    prepare(x->m);
    set_list(factors[0][0], x->turned[0], x->length);
    set_list(factors[0][1], x->numbers + LIST, 2 * x->length);
    if (x->two) {
        set_list(factors[1][0], x->turned[1], x->length);
        set_list(factors[1][1], x->numbers + SECOND_LIST, 2 * x->length);
        sum_of_products(list, factors[0][0], factors[0][1], factors[1][0], factors[1][1]);
    } else
        nmod_poly_mul(list, factors[0][0], factors[0][1]);
    for (size_t i = 0; i < x->length; i++)
        x->numbers[TERMS + i] = (uint32_t)nmod_poly_get_coeff_ui(list, (slong)(x->length - 1 + i));
}

/* The last argument asks for the value that is at most half of m1 m2, and above minus half of it. */
void join_by_flint(struct lists *x) {
    static fmpz_t m1, remainder, value; /* zeros, as fmpz_init makes them */
    fmpz_set_ui(m1, x->m1);
    for (size_t i = 0; i < x->length; i++) {
        fmpz_set_ui(remainder, x->first[i]);
        fmpz_CRT_ui(value, remainder, m1, x->second[i], x->m2, 1);
        x->result[i] = fmpz_get_si(value);
    }
}
