/* The transposed product as C calls it, and versions of it in C: right ones, and wrong ones that the test has to tell. */
#ifndef TRANSPOSED_VERSIONS_H
#define TRANSPOSED_VERSIONS_H

#include <stddef.h>
#include <stdint.h>

/* All places are indices into w. For i below n, place target + i becomes the sum over j below pn of w[p + j] V(i + j) and of
 * w[q + j] U(i + j) modulo m, where V is the list of vn numbers at v and U that of vn at u, both zero past their ends. */
#define PRODUCT \
    uint32_t m, uint32_t *w, size_t target, size_t n, size_t p, size_t q, size_t pn, size_t v, size_t u, size_t vn
typedef void transposed_product(PRODUCT);

enum kind { RIGHT, WRONG, TOO_MUCH_STACK };

struct version {
    const char *name;
    const char *what;
    enum kind kind;
    transposed_product *run;
};

/* The table; it ends with a version that has no name. */
extern const struct version VERSIONS[];

/* Does nothing: what a call of the product takes of the stack before the product takes any. */
transposed_product untouched;

#endif
