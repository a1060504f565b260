/* What steps_versions.h declares. Each is one function when it is compiled: what it calls here is put in line. */
#include "steps_versions.h"

#define IN_LINE static inline __attribute__((always_inline))

/* A sum as its low 64 bits and how often it went past them. */
struct total {
    uint64_t low, wraps;
};

IN_LINE void add(struct total *total, uint32_t x, uint32_t y) {
    uint64_t product = (uint64_t)x * y;
    total->low += product;
    total->wraps += total->low < product;
}

/* Of wraps below 2^32. */
IN_LINE uint32_t rest(struct total total, uint32_t m) {
    uint64_t wrap = (UINT64_MAX % m + 1) % m;
    return (uint32_t)((total.low % m + total.wraps * wrap % m) % m);
}

IN_LINE size_t used(const uint32_t *w, size_t p, size_t q, size_t n) {
    while (n && !w[p + n - 1] && !w[q + n - 1]) n--;
    return n;
}

IN_LINE size_t reach(size_t i, size_t pn, size_t vn) {
    size_t left = i < vn ? vn - i : 0;
    return left < pn ? left : pn;
}

IN_LINE void write_terms(PRODUCT) {
    for (size_t i = 0; i < n; i++) {
        struct total total = {0, 0};
        for (size_t j = 0, end = reach(i, pn, vn); j < end; j++) {
            add(&total, w[p + j], w[v + i + j]);
            add(&total, w[q + j], w[u + i + j]);
        }
        w[target + i] = rest(total, m);
    }
}

void terms_alone(PRODUCT) { write_terms(m, w, target, n, p, q, used(w, p, q, pn), v, u, used(w, v, u, vn)); }

void zeros_multiplied(PRODUCT) { write_terms(m, w, target, n, p, q, pn, v, u, vn); }

/* Coefficient k of the product of the lists with the multipliers turned round: the wanted terms are those from pn - 1 on, and past the last
 * there are zeros. */
void whole_formed(PRODUCT) {
    pn = used(w, p, q, pn), vn = used(w, v, u, vn);
    size_t count = pn && vn ? pn + vn - 1 : 0;
    for (size_t k = 0; k < count; k++) {
        struct total total = {0, 0};
        for (size_t j = k + 1 < pn ? pn - 1 - k : 0; j < pn && j < count - k; j++) {
            add(&total, w[p + j], w[v + k + j - (pn - 1)]);
            add(&total, w[q + j], w[u + k + j - (pn - 1)]);
        }
        if (k >= pn - 1 && k - (pn - 1) < n) w[target + k - (pn - 1)] = rest(total, m);
    }
    for (size_t i = count ? vn : 0; i < n; i++) ((volatile uint32_t *)w)[target + i] = 0;
}

void two_rounds(PRODUCT) {
    pn = used(w, p, q, pn), vn = used(w, v, u, vn);
    for (size_t k = 0; k < 2 * n; k++) {
        size_t i = k < n ? k : k - n, from = k < n ? p : q, list = k < n ? v : u;
        struct total total = {k < n ? 0 : w[target + i], 0};
        for (size_t j = 0, end = reach(i, pn, vn); j < end; j++) add(&total, w[from + j], w[list + i + j]);
        w[target + i] = rest(total, m);
    }
}

void put_back(PRODUCT) {
    pn = used(w, p, q, pn), vn = used(w, v, u, vn);
    uint32_t first = w[p];
    ((volatile uint32_t *)w)[p] = first + m;
    ((volatile uint32_t *)w)[p] = first;
    write_terms(m, w, target, n, p, q, pn, v, u, vn);
}

void kept_first(PRODUCT) {
    static volatile uint32_t terms[512];
    pn = used(w, p, q, pn), vn = used(w, v, u, vn);
    for (size_t i = 0; i < n; i++) {
        struct total total = {0, 0};
        for (size_t j = 0, end = reach(i, pn, vn); j < end; j++) {
            add(&total, w[p + j], w[v + i + j]);
            add(&total, w[q + j], w[u + i + j]);
        }
        terms[i] = rest(total, m);
    }
    for (size_t i = 0; i < n; i++) w[target + i] = terms[i];
}
