/* Figures 1 to 3 of the report with NTL's zz_pX. Each call builds its tree; the memory of the polynomials is kept from call to call.
 *
 * The tree covers n rows, the least power of two. Level 0 are the pairs of rows; node i of level l covers 2^(l+1) rows. As in Figure 1 the
 * last node of each level is not built. Rows past the family are zero, and products with zero cost nothing. */
#include <NTL/lzz_pX.h>

#include "contest.h"

namespace {

using NTL::zz_p;
using NTL::zz_pX;

constexpr size_t LEVELS = 8, LEAVES = 1 << (LEVELS - 1);

/* Row by row: the matrix that takes F_k and F_{k+1} to those of the next node, and the pair of vectors. */
struct node {
    zz_pX matrix[2][2];
    zz_pX pair[2];
};

struct rows {
    size_t r;
    uint32_t a[MOST_ROWS + 1], b[MOST_ROWS + 1], c[MOST_ROWS + 1];
};

node tree[LEVELS][LEAVES];
zz_pX one, two, first, list, divisor, numerator;
uint32_t modulus;

/* m need not be prime: nothing here divides but by numbers that have inverses. */
void prepare(uint32_t m) {
    if (m == modulus) return;
    zz_p::init(m);
    modulus = m;
}

zz_p residue(uint32_t x) { return zz_p(x, NTL::INIT_LOOP_HOLE); }

void set_list(zz_pX &p, const uint32_t *entries, size_t count) {
    p.rep.SetLength(count);
    for (size_t i = 0; i < count; i++) p.rep[i] = residue(entries[i]);
    p.normalize();
}

void set_two(zz_pX &p, zz_p constant, zz_p linear) {
    p.rep.SetLength(2);
    p.rep[0] = constant, p.rep[1] = linear;
    p.normalize();
}

void set_one(zz_pX &p, zz_p constant) {
    p.rep.SetLength(1);
    p.rep[0] = constant;
    p.normalize();
}

void get_list(uint32_t *entries, const zz_pX &p, size_t count) {
    for (size_t i = 0; i < count; i++) entries[i] = i < (size_t)p.rep.length() ? rep(p.rep[i]) : 0;
}

/* target becomes p q + r s. */
void sum_of_products(zz_pX &target, const zz_pX &p, const zz_pX &q, const zz_pX &r, const zz_pX &s) {
    mul(target, p, q);
    mul(one, r, s);
    add(target, target, one);
}

/* The matrix of the rows 2 i + 2 and 2 i + 3, counted from 1. */
void leaf(const rows &rows, size_t i, node &node) {
    size_t p = 2 * i + 1, q = p + 1;
    zz_p pa = residue(p < rows.r ? rows.a[p] : 0), pb = residue(p < rows.r ? rows.b[p] : 0), pc = residue(p < rows.r ? rows.c[p] : 0);
    zz_p qa = residue(q < rows.r ? rows.a[q] : 0), qb = residue(q < rows.r ? rows.b[q] : 0), qc = residue(q < rows.r ? rows.c[q] : 0);
    set_one(node.matrix[0][0], pc);
    set_two(node.matrix[0][1], pb, pa);
    set_two(node.matrix[1][0], qb * pc, qa * pc);
    node.matrix[1][1].rep.SetLength(3);
    node.matrix[1][1].rep[0] = qb * pb + qc;
    node.matrix[1][1].rep[1] = qb * pa + qa * pb;
    node.matrix[1][1].rep[2] = qa * pa;
    node.matrix[1][1].normalize();
}

/* Answers the root's level. */
size_t build(const rows &rows, size_t n) {
    size_t top = 0;
    while ((size_t)2 << top < n) top++;
    size_t count = (size_t)1 << top;
    for (size_t i = 0; i + 1 < count; i++) leaf(rows, i, tree[0][i]);
    for (size_t level = 1; level < top; level++)
        for (size_t i = 0; i + 1 < count >> level; i++) {
            node &left = tree[level - 1][2 * i], &right = tree[level - 1][2 * i + 1], &node = tree[level][i];
            for (size_t k = 0; k < 2; k++)
                for (size_t l = 0; l < 2; l++)
                    sum_of_products(node.matrix[k][l], right.matrix[k][0], left.matrix[0][l], right.matrix[k][1], left.matrix[1][l]);
        }
    return top;
}

/* Figure 1. */
void expand_rows(const rows &rows, const uint32_t *curve, zz_pX &result) {
    size_t n = rows.r + 1;
    if (n == 1) {
        set_one(result, residue(curve[0]));
        return;
    }
    size_t top = build(rows, n), count = (size_t)1 << top;
    for (size_t j = 0; j < 2 * count; j++) set_one(tree[0][j / 2].pair[j % 2], residue(j < n ? curve[j] : 0));
    for (size_t level = 1; level <= top; level++)
        for (size_t i = 0; i < count >> level; i++) {
            node &left = tree[level - 1][2 * i], &right = tree[level - 1][2 * i + 1], &node = tree[level][i];
            for (size_t k = 0; k < 2; k++) {
                sum_of_products(node.pair[k], right.pair[0], left.matrix[0][k], right.pair[1], left.matrix[1][k]);
                add(node.pair[k], node.pair[k], left.pair[k]);
            }
        }
    set_two(first, residue(rows.b[0]), residue(rows.a[0]));
    mul(result, tree[top][0].pair[1], first);
    add(result, result, tree[top][0].pair[0]);
}

/* mul^t(p, q, k), where q has degree d or less: the coefficients d to d + k - 1 of p times the reversal of q. */
void transposed(zz_pX &target, const zz_pX &p, const zz_pX &q, size_t d, size_t k) {
    reverse(two, q, d);
    MulTrunc(target, p, two, d + k);
    RightShift(target, target, d);
}

size_t first_length(size_t rows) { return rows > 3 ? rows - 2 : 1; }

size_t second_length(size_t rows) { return rows - 1; }

void lower(zz_pX &target, const node &node, const struct node &left, size_t k, size_t half, size_t length) {
    transposed(target, node.pair[0], left.matrix[k][0], half - 2 + k, length);
    transposed(one, node.pair[1], left.matrix[k][1], half - 1 + k, length);
    add(target, target, one);
}

/* Figure 2, with the bounds on the degrees that the report states. */
void adjoint_rows(const rows &rows, const zz_pX &curve, uint32_t *result) {
    size_t n = rows.r + 1;
    if (n == 1) {
        get_list(result, curve, 1);
        return;
    }
    size_t top = build(rows, n), count = (size_t)1 << top;
    node &root = tree[top][0];
    trunc(root.pair[0], curve, first_length(2 * count));
    set_two(first, residue(rows.b[0]), residue(rows.a[0]));
    transposed(root.pair[1], curve, first, 1, second_length(2 * count));
    for (size_t level = top; level > 0; level--)
        for (size_t i = 0; i < count >> level; i++) {
            node &node = tree[level][i], &left = tree[level - 1][2 * i], &right = tree[level - 1][2 * i + 1];
            size_t half = (size_t)1 << level, lengths[2] = {first_length(half), second_length(half)};
            for (size_t k = 0; k < 2; k++) {
                trunc(left.pair[k], node.pair[k], lengths[k]);
                lower(right.pair[k], node, left, k, half, lengths[k]);
            }
        }
    for (size_t j = 0; j < n; j++) get_list(result + j, tree[0][j / 2].pair[j % 2], 1);
}

/* The rows of the job from the row at `from` on, and the closing row behind them if `close` is 1. */
rows rows_of(const job *x, size_t from, size_t close) {
    rows rows;
    rows.r = x->r + close - from;
    for (size_t i = 0; i < rows.r; i++) {
        size_t at = from + i;
        rows.a[i] = at < x->r ? x->a[at] : 1;
        rows.b[i] = at < x->r ? x->b[at] : 1;
        rows.c[i] = at < x->r ? x->c[at] : 1;
    }
    return rows;
}

/* The last polynomial of a family: Expand of 0 .. 0 1. */
void last_polynomial(const rows &rows, zz_pX &result) {
    uint32_t curve[MOST_ROWS + 2] = {0};
    curve[rows.r] = 1;
    expand_rows(rows, curve, result);
}

void moments_list(const job *x, zz_pX &result) {
    size_t n = x->r + 1;
    last_polynomial(rows_of(x, 0, 1), divisor);
    last_polynomial(rows_of(x, 1, 1), numerator);
    reverse(divisor, divisor, n);
    reverse(numerator, numerator, n - 1);
    InvTrunc(two, divisor, 2 * n - 1);
    MulTrunc(result, numerator, two, 2 * n - 1);
}

/* Multiplies each entry by the inverse of its norm. All come from one inverse, that of c_2 .. c_r. */
void divide_by_norms(const job *x, uint32_t *entries) {
    zz_p inverse = residue(1);
    for (size_t i = 1; i < x->r; i++) inverse *= residue(x->c[i]);
    inverse = inv(inverse);
    for (size_t i = x->r + 1; i-- > 0;) {
        zz_p factor = i < x->r ? inverse * residue(x->a[i]) : inverse;
        entries[i] = rep(residue(entries[i]) * (i % 2 ? -factor : factor));
        if (0 < i && i < x->r) inverse *= residue(x->c[i]);
    }
}

void invert(const job *x, uint32_t *result) { *result = NTL::InvMod(x->a[0], x->m); }

void expand(const job *x, uint32_t *result) {
    prepare(x->m);
    expand_rows(rows_of(x, 0, 0), x->v, list);
    get_list(result, list, x->r + 1);
}

void adjoint(const job *x, uint32_t *result) {
    prepare(x->m);
    set_list(list, x->v, x->r + 1);
    adjoint_rows(rows_of(x, 0, 0), list, result);
}

/* Figure 3. */
void decompose(const job *x, uint32_t *result) {
    prepare(x->m);
    moments_list(x, list);
    set_list(numerator, x->v, x->r + 1);
    transposed(list, list, numerator, x->r, x->r + 1);
    adjoint_rows(rows_of(x, 0, 0), list, result);
    divide_by_norms(x, result);
}

void norms(const job *x, uint32_t *result) {
    prepare(x->m);
    zz_p product = residue(1);
    for (size_t i = 0; i <= x->r; i++) {
        if (i > 0) product = -(i < x->r ? product * residue(x->c[i]) : product);
        result[i] = rep(i < x->r ? product * inv(residue(x->a[i])) : product);
    }
}

void moments(const job *x, uint32_t *result) {
    prepare(x->m);
    moments_list(x, list);
    get_list(result, list, 2 * x->r + 1);
}

}

const contestant ntl = {"NTL", {invert, expand, adjoint, decompose, norms, moments}};
