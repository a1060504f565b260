/* The quickest C that we know for these sizes, without products of 128 bits and with the instructions that every x86-64 has.
 *
 * It goes row by row as crates/plain does, with one remainder for each coefficient. A list is kept in words of 64 bits, so that two of its
 * entries fill a register of SSE2, which multiplies two pairs of 32-bit numbers at once. Remainders come from a reciprocal and not
 * from division. A list has a zero before its first entry and zeros behind its last.
 *
 * Moments: by the product law moment j + k is the sum over i of d_i X_j[i] X_k[i], where X_k is the curve of x^k and d are the norms.
 *
 * Joining two channels: two entries at a time too. With the division of a machine where that is quick, one remainder for each entry, it takes
 * some 20 percent longer.
 */
#include <emmintrin.h>
#include <string.h>

#include "contest.h"
#include "joined.h"

enum { N = MOST_ROWS + 1, SPARE = 2, LIST = SPARE + N + 2 };

typedef uint64_t entries[LIST];

/* The modulus, moved up by `shift` bits so that it has 31, and what 2^62 holds of it. A sum of three products, of numbers below it with
 * multipliers that are moved up too, has its remainder moved up. */
struct modulus {
    uint32_t m, moved;
    int shift;
    __m128i vector, reciprocal, count;
};

static struct modulus modulus_of(uint32_t m) {
    struct modulus mod = {.m = m, .shift = __builtin_clz(m) - 1};
    mod.moved = m << mod.shift;
    uint64_t reciprocal = (UINT64_C(1) << 62) / mod.moved;
    if (reciprocal >> 32) reciprocal = UINT32_MAX;
    mod.vector = _mm_set1_epi64x(mod.moved);
    mod.reciprocal = _mm_set1_epi64x((int64_t)reciprocal);
    mod.count = _mm_cvtsi32_si128(mod.shift);
    return mod;
}

static uint32_t times(uint32_t x, uint32_t y, uint32_t m) { return (uint32_t)((uint64_t)x * y % m); }

static uint32_t opposite(uint32_t x, uint32_t m) { return x ? m - x : 0; }

/* The remainders of two sums, moved down. The first quotient is short by less than 3 and counts 4 m, which leaves less than 12 m; the
 * second is short by less than 2. */
static __m128i remainders(__m128i sum, const struct modulus *mod) {
    __m128i quotient = _mm_srli_epi64(_mm_mul_epu32(_mm_srli_epi64(sum, 32), mod->reciprocal), 32);
    sum = _mm_sub_epi64(sum, _mm_slli_epi64(_mm_mul_epu32(quotient, mod->vector), 2));
    quotient = _mm_srli_epi64(_mm_mul_epu32(_mm_srli_epi64(sum, 16), mod->reciprocal), 46);
    sum = _mm_sub_epi64(sum, _mm_mul_epu32(quotient, mod->vector));
    __m128i less = _mm_sub_epi32(sum, mod->vector);
    sum = _mm_add_epi32(less, _mm_and_si128(_mm_srai_epi32(less, 31), mod->vector));
    return _mm_srl_epi64(sum, mod->count);
}

static __m128i load(const uint64_t *list) { return _mm_loadu_si128((const __m128i *)list); }

static void store(uint64_t *list, __m128i x) { _mm_storeu_si128((__m128i *)list, x); }

static __m128i both(const struct modulus *mod, uint32_t x) { return _mm_set1_epi64x((int64_t)((uint64_t)x << mod->shift)); }

static __m128i three(__m128i a, __m128i p, __m128i b, __m128i q, __m128i c, __m128i r) {
    return _mm_add_epi64(_mm_add_epi64(_mm_mul_epu32(a, p), _mm_mul_epu32(b, q)), _mm_mul_epu32(c, r));
}

/* next[k] becomes a from[k + step] + b from[k] + c older[k], for k below count. */
static void row(const struct modulus *mod, uint32_t a, uint32_t b, uint32_t c, const uint64_t *from, ptrdiff_t step, const uint64_t *older,
                uint64_t *next, size_t count) {
    __m128i x = both(mod, a), y = both(mod, b), z = both(mod, c);
    for (size_t k = 0; k < count; k += 2)
        store(next + k, remainders(three(x, load(from + (ptrdiff_t)k + step), y, load(from + k), z, load(older + k)), mod));
    next[count] = 0;
}

/* Most quotients of Euclid are 1 or 2, and those need no division. */
static uint32_t inverse(uint32_t x, uint32_t m) {
    uint32_t r = m, s = x;
    int64_t t = 0, u = 1;
    while (s) {
        uint32_t rest = r - s;
        int64_t next = t - u;
        if (rest >= s) {
            rest -= s, next -= u;
            if (rest >= s) {
                uint32_t q = rest / s;
                rest -= q * s, next -= q * u;
            }
        }
        r = s, s = rest;
        t = u, u = next;
    }
    return (uint32_t)(t < 0 ? t + m : t);
}

/* inverses[i] becomes the inverse of list[i]: all from that of their product. */
static void inverses_of(uint32_t m, const uint32_t *list, size_t count, uint32_t *inverses) {
    uint32_t product = 1;
    for (size_t i = 0; i < count; i++) {
        inverses[i] = product;
        product = times(product, list[i], m);
    }
    uint32_t rest = inverse(product, m);
    for (size_t i = count; i-- > 0;) {
        inverses[i] = times(inverses[i], rest, m);
        rest = times(rest, list[i], m);
    }
}

static void invert(const struct job *x, uint32_t *result) { *result = inverse(x->a[0], x->m); }

static void expand(const struct job *x, uint32_t *result) {
    struct modulus mod = modulus_of(x->m);
    entries lists[3] = {{0}};
    uint64_t *older = lists[0] + SPARE, *current = lists[1] + SPARE, *next = lists[2] + SPARE;
    for (size_t k = x->r + 1; k-- > 0;) {
        size_t count = x->r - k;
        row(&mod, k < x->r ? x->a[k] : 0, k < x->r ? x->b[k] : 0, k + 1 < x->r ? x->c[k + 1] : 0, current, -1, older, next, count + 1);
        next[0] = (next[0] + x->v[k]) % x->m;
        uint64_t *free = older;
        older = current, current = next, next = free;
    }
    for (size_t k = 0; k <= x->r; k++) result[k] = (uint32_t)current[k];
}

static void adjoint(const struct job *x, uint32_t *result) {
    struct modulus mod = modulus_of(x->m);
    entries lists[3] = {{0}};
    uint64_t *older = lists[0] + SPARE, *current = lists[1] + SPARE, *next = lists[2] + SPARE;
    for (size_t k = 0; k <= x->r; k++) current[k] = x->v[k];
    result[0] = x->v[0];
    for (size_t j = 0; j < x->r; j++) {
        row(&mod, x->a[j], x->b[j], x->c[j], current, 1, older, next, x->r - j);
        result[j + 1] = (uint32_t)next[0];
        uint64_t *free = older;
        older = current, current = next, next = free;
    }
}

/* Multiplication by x in the basis: x F_i = rise[i + 1] F_{i+1} + stay[i] F_i + fall[i - 1] F_{i-1}, moved up. */
struct shift {
    entries rise, stay, fall;
};

static void shift_of(const struct job *x, const struct modulus *mod, const uint32_t *inverses, struct shift *shift) {
    memset(shift, 0, sizeof *shift);
    for (size_t i = 0; i < x->r; i++) {
        shift->rise[SPARE + i + 1] = (uint64_t)inverses[i] << mod->shift;
        shift->stay[SPARE + i] = (uint64_t)times(opposite(x->b[i], x->m), inverses[i], x->m) << mod->shift;
        if (i > 0) shift->fall[SPARE + i - 1] = (uint64_t)times(opposite(x->c[i], x->m), inverses[i], x->m) << mod->shift;
    }
}

/* next becomes x times current, which has count - 1 entries. */
static void times_x(const struct modulus *mod, const struct shift *shift, const uint64_t *current, uint64_t *next, size_t count) {
    for (size_t i = 0; i < count; i += 2)
        store(next + i, remainders(three(load(shift->rise + SPARE + i), load(current + i - 1), load(shift->stay + SPARE + i),
                                         load(current + i), load(shift->fall + SPARE + i), load(current + i + 1)),
                                   mod));
    next[count] = 0;
}

static void decompose(const struct job *x, uint32_t *result) {
    struct modulus mod = modulus_of(x->m);
    struct shift shift;
    uint32_t inverses[N];
    entries lists[2] = {{0}};
    uint64_t *current = lists[0] + SPARE, *next = lists[1] + SPARE;
    inverses_of(x->m, x->a, x->r, inverses);
    shift_of(x, &mod, inverses, &shift);
    for (size_t k = x->r + 1; k-- > 0;) {
        times_x(&mod, &shift, current, next, x->r - k + 1);
        next[0] = (next[0] + x->v[k]) % x->m;
        uint64_t *free = current;
        current = next, next = free;
    }
    for (size_t k = 0; k <= x->r; k++) result[k] = (uint32_t)current[k];
}

static void norms_by(const struct job *x, const uint32_t *inverses, uint32_t *result) {
    uint32_t product = 1;
    for (size_t i = 0; i <= x->r; i++) {
        if (i > 0) product = opposite(i < x->r ? times(product, x->c[i], x->m) : product, x->m);
        result[i] = i < x->r ? times(product, inverses[i], x->m) : product;
    }
}

static void norms(const struct job *x, uint32_t *result) {
    uint32_t inverses[N];
    inverses_of(x->m, x->a, x->r, inverses);
    norms_by(x, inverses, result);
}

/* The sum of the products of two lists modulo m. The halves of the products are added up apart. */
static uint32_t weighed(uint32_t m, const uint64_t *p, const uint64_t *q, size_t count) {
    __m128i low = _mm_setzero_si128(), high = low, mask = _mm_set1_epi64x(UINT32_MAX);
    for (size_t i = 0; i < count; i += 2) {
        __m128i product = _mm_mul_epu32(load(p + i), load(q + i));
        low = _mm_add_epi64(low, _mm_and_si128(product, mask));
        high = _mm_add_epi64(high, _mm_srli_epi64(product, 32));
    }
    uint64_t lows[2], highs[2];
    store(lows, low), store(highs, high);
    uint64_t upper = (highs[0] + highs[1]) * 4 % m;
    return (uint32_t)(((upper << 30) + lows[0] + lows[1]) % m);
}

static void moments(const struct job *x, uint32_t *result) {
    struct modulus mod = modulus_of(x->m);
    struct shift shift;
    uint32_t inverses[N], d[N];
    entries lists[2] = {{0}}, norm = {0}, product = {0};
    uint64_t *current = lists[0] + SPARE, *next = lists[1] + SPARE;
    inverses_of(x->m, x->a, x->r, inverses);
    shift_of(x, &mod, inverses, &shift);
    norms_by(x, inverses, d);
    for (size_t i = 0; i <= x->r; i++) norm[i] = (uint64_t)d[i] << mod.shift;
    current[0] = 1;
    for (size_t j = 0; j <= x->r; j++) {
        for (size_t i = 0; i <= j; i += 2) store(product + i, remainders(_mm_mul_epu32(load(norm + i), load(current + i)), &mod));
        result[2 * j] = weighed(x->m, product, current, j + 1);
        if (j == x->r) break;
        times_x(&mod, &shift, current, next, j + 2);
        result[2 * j + 1] = weighed(x->m, product, next, j + 1);
        uint64_t *free = current;
        current = next, next = free;
    }
}

const struct contestant best = {"best C", {invert, expand, adjoint, decompose, norms, moments}};

/* The value is the first remainder, and m1 as often as the second over m1, less the first over m1, modulo m2, says. */
void join_by_best(struct lists *x) {
    const struct modulus mod = modulus_of(x->m2);
    const uint64_t over = inverse(x->m1 % x->m2, x->m2), under = x->m2 - over;
    const int64_t m1_m2 = (int64_t)x->m1 * x->m2;
    const __m128i by_first = both(&mod, (uint32_t)under), by_second = both(&mod, (uint32_t)over), m1 = _mm_set1_epi64x(x->m1);
    const __m128i product = _mm_set1_epi64x(m1_m2), half = _mm_set1_epi64x(m1_m2 / 2), zero = _mm_setzero_si128();
    size_t i = 0;
    for (; i + 2 <= x->length; i += 2) {
        __m128i first = _mm_unpacklo_epi32(_mm_loadl_epi64((const __m128i *)(x->first + i)), zero);
        __m128i second = _mm_unpacklo_epi32(_mm_loadl_epi64((const __m128i *)(x->second + i)), zero);
        __m128i factor = remainders(_mm_add_epi64(_mm_mul_epu32(second, by_second), _mm_mul_epu32(first, by_first)), &mod);
        __m128i value = _mm_add_epi64(first, _mm_mul_epu32(factor, m1));
        /* all ones where the value is above half: the upper half of a word has its sign */
        __m128i above = _mm_shuffle_epi32(_mm_srai_epi32(_mm_sub_epi64(half, value), 31), 0xF5);
        _mm_storeu_si128((__m128i *)(x->result + i), _mm_sub_epi64(value, _mm_and_si128(above, product)));
    }
    for (; i < x->length; i++) {
        int64_t value = (int64_t)(x->first[i] + (x->second[i] * over + x->first[i] * under) % x->m2 * x->m1);
        x->result[i] = 2 * value > m1_m2 ? value - m1_m2 : value;
    }
}
