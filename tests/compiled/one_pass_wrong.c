/* Versions of products::transposed for tests/compiled/one_pass.py, which has to take the first and to refuse each of the others for what
 * the comment at it says. They are read and not run: what counts is how they are written, and some leave steps out.
 */
#include <stddef.h>
#include <stdint.h>
#include <string.h>

#define PRODUCT \
    uint32_t m, uint32_t *w, size_t target, size_t n, size_t p, size_t q, size_t pn, size_t v, size_t u, size_t vn
#define VERSION(name) \
    void name(PRODUCT); \
    void name(PRODUCT)
#define UNUSED(name) (void)(name)

/* A sum as its low 64 bits and a count of its wraps. */
#define TOTAL uint64_t low = 0, wraps = 0
#define ADD(x, y)                                \
    do {                                         \
        uint64_t product = (uint64_t)(x) * (y);  \
        low += product;                          \
        wraps += low < product;                  \
    } while (0)

static inline size_t lesser(size_t x, size_t y) { return x < y ? x : y; }

static inline uint32_t rest(uint64_t low, uint64_t wraps, uint32_t m, uint64_t reciprocal) {
    uint64_t wrap = 0 - reciprocal * m, more = wraps * wrap;
    low += more;
    low += low < more ? wrap : 0;
    uint64_t result = low - (uint64_t)((unsigned __int128)low * reciprocal >> 64) * m;
    return (uint32_t)(result < m ? result : result - m);
}

/* One product of each wanted term, for those whose fault is elsewhere. */
#define FIRST_PRODUCT                                                                       \
    TOTAL;                                                                                  \
    for (size_t j = 0, end = lesser(pn, i < vn ? vn - i : 0); j < end; j++) ADD(w[p + j], w[v + i + j])
#define RECIPROCAL uint64_t reciprocal = UINT64_MAX / m
#define EACH_TERM                                    \
    RECIPROCAL;                                      \
    UNUSED(reciprocal), UNUSED(q), UNUSED(u);        \
    for (size_t i = 0; i < n; i++)

VERSION(one_pass) {
    RECIPROCAL;
    for (size_t i = 0; i < n; i++) {
        TOTAL;
        for (size_t j = 0, end = lesser(pn, i < vn ? vn - i : 0); j < end; j++) {
            ADD(w[p + j], w[v + i + j]);
            ADD(w[q + j], w[u + i + j]);
        }
        w[target + i] = rest(low, wraps, m, reciprocal);
    }
}

/* It calls memcpy, of a length that is known when it runs alone. */
VERSION(copies) {
    EACH_TERM {
        FIRST_PRODUCT;
        w[target + i] = rest(low, wraps, m, reciprocal);
    }
    memcpy(w + target, w + p, n * sizeof *w);
}

/* It keeps the whole product in an array that is the program's. */
VERSION(static_array) {
    static uint32_t whole[512];
    EACH_TERM {
        FIRST_PRODUCT;
        whole[i] = rest(low, wraps, m, reciprocal);
    }
    for (size_t i = 0; i < n; i++) w[target + i] = whole[i];
}

static __attribute__((noinline)) void fill(uint32_t m, uint32_t *w, size_t target, size_t n) {
    for (size_t i = 0; i < n; i++) w[target + i] = m + (uint32_t)i;
    __asm__ volatile("" ::: "memory");
}

/* It calls a function of its own file. */
VERSION(calls) {
    fill(m, w, target, n);
    EACH_TERM {
        FIRST_PRODUCT;
        w[target + i] = rest(low, wraps, m, reciprocal);
    }
}

/* It ends by going on in another function. */
VERSION(goes_on) {
    EACH_TERM {
        FIRST_PRODUCT;
        w[target + i] = rest(low, wraps, m, reciprocal);
    }
    fill(m, w, target, n);
}

/* It takes 512 bytes of stack, though for single numbers. */
VERSION(much_stack) {
    uint64_t kept[64];
    __asm__ volatile("" : "=m"(kept));
    EACH_TERM {
        FIRST_PRODUCT;
        w[target + i] = rest(low, wraps, m, reciprocal + kept[63]);
    }
}

/* It has a short array of its own. */
VERSION(own_array) {
    volatile uint32_t kept[8];
    EACH_TERM {
        FIRST_PRODUCT;
        kept[i % 8] = rest(low, wraps, m, reciprocal);
        w[target + i] = kept[(i + 1) % 8];
    }
}

/* It hands the address of a number of its own on. */
VERSION(address) {
    uint64_t kept = n;
    __asm__ volatile("" ::"r"(&kept) : "memory");
    EACH_TERM {
        FIRST_PRODUCT;
        w[target + i] = rest(low, wraps, m, reciprocal);
    }
}

/* It takes the address of its stack by way of the stack. */
VERSION(address_pushed) {
    uint64_t here;
    __asm__ volatile("push %%rsp\n\tpop %0" : "=r"(here)::"memory");
    EACH_TERM {
        FIRST_PRODUCT;
        w[target + i] = rest(low + here, wraps, m, reciprocal);
    }
}

/* It keeps the terms in an array whose section has the name of constants and can be written. */
VERSION(hidden_array) {
    static __attribute__((section(".LC.hidden"))) uint32_t kept[512] = {1};
    EACH_TERM {
        FIRST_PRODUCT;
        kept[i % 512] = rest(low, wraps, m, reciprocal);
        w[target + i] = kept[(i + 1) % 512];
    }
}

/* It writes by an instruction whose operand is not the place. */
VERSION(hidden_write) {
    EACH_TERM {
        FIRST_PRODUCT;
        w[target + i] = rest(low, wraps, m, reciprocal);
        __asm__ volatile("maskmovdqu %%xmm0, %%xmm1" ::"D"(w) : "memory");
    }
}

/* It writes two places at a time, the second with the number that stands there. */
VERSION(wide_store) {
    EACH_TERM {
        FIRST_PRODUCT;
        uint64_t both = rest(low, wraps, m, reciprocal) | (uint64_t)w[target + i + 1] << 32;
        memcpy(w + target + i, &both, sizeof both);
    }
}

/* It writes each term twice, the first product and then the sum. */
VERSION(two_stores) {
    RECIPROCAL;
    for (size_t i = 0; i < n; i++) {
        FIRST_PRODUCT;
        w[target + i] = rest(low, wraps, m, reciprocal);
        for (size_t j = 0, end = lesser(pn, i < vn ? vn - i : 0); j < end; j++) ADD(w[q + j], w[u + i + j]);
        w[target + i] = rest(low, wraps, m, reciprocal);
    }
}

/* It writes after each product. */
VERSION(inner_store) {
    EACH_TERM {
        TOTAL;
        for (size_t j = 0, end = lesser(pn, i < vn ? vn - i : 0); j < end; j++) {
            ADD(w[p + j], w[v + i + j]);
            w[target + i] = rest(low, wraps, m, reciprocal);
        }
    }
}

/* It writes the first product of every term, and then every sum: two passes. */
VERSION(two_passes) {
    RECIPROCAL;
    for (size_t i = 0; i < n; i++) {
        FIRST_PRODUCT;
        w[target + i] = rest(low, wraps, m, reciprocal);
    }
    for (size_t i = 0; i < n; i++) w[target + i] += w[q] & w[u + i];
}

/* It writes nothing. */
VERSION(no_store) {
    uint64_t sum = 0;
    UNUSED(target);
    EACH_TERM {
        FIRST_PRODUCT;
        sum += low + wraps;
    }
    __asm__ volatile("" ::"r"(sum));
}

/* It asks before each product whether the list has ended. */
VERSION(end_tested) {
    EACH_TERM {
        TOTAL;
        for (size_t j = 0; j < pn && i + j < vn; j++) ADD(w[p + j], w[v + i + j]);
        w[target + i] = rest(low, wraps, m, reciprocal);
    }
}

/* It chooses before each product where the list is read, with no jump. */
VERSION(place_chosen) {
    EACH_TERM {
        TOTAL;
        for (size_t j = 0; j < pn; j++) ADD(w[p + j], w[v + lesser(i + j, vn)]);
        w[target + i] = rest(low, wraps, m, reciprocal);
    }
}

/* It multiplies in a loop before that over the wanted terms. */
VERSION(second_pass) {
    TOTAL;
    for (size_t j = 0; j < pn; j++) ADD(w[p + j], w[v + j]);
    uint64_t before = low + wraps;
    EACH_TERM {
        FIRST_PRODUCT;
        w[target + i] = rest(low + before, wraps, m, reciprocal);
    }
}

/* It multiplies in no loop. */
VERSION(no_product) {
    EACH_TERM {
        TOTAL;
        for (size_t j = 0, end = lesser(pn, i < vn ? vn - i : 0); j < end; j++) {
            low += w[p + j] ^ w[v + i + j];
            __asm__ volatile("" : "+r"(low));
        }
        w[target + i] = rest(low, wraps, m, reciprocal);
    }
}

/* It takes each remainder by a division. */
VERSION(divides) {
    EACH_TERM {
        FIRST_PRODUCT;
        w[target + i] = (uint32_t)((low + wraps) % m);
    }
}
