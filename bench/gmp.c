/* Joining two channels with GMP's mpz. The memory of its numbers is kept from call to call. */
#include <gmp.h>

#include "joined.h"

static mpz_t m1, m2, product, half, inverse, value, factor;

static void prepare(void) {
    static int prepared;
    if (!prepared) mpz_inits(m1, m2, product, half, inverse, value, factor, NULL);
    prepared = 1;
}

/* The first remainder, and m1 as often as the difference over m1 modulo m2 says. */
void join_by_gmp(struct lists *x) {
    prepare();
    mpz_set_ui(m1, x->m1);
    mpz_set_ui(m2, x->m2);
    mpz_mul(product, m1, m2);
    mpz_fdiv_q_2exp(half, product, 1);
    mpz_invert(inverse, m1, m2);
    for (size_t i = 0; i < x->length; i++) {
        mpz_set_si(factor, (long)x->second[i] - (long)x->first[i]);
        mpz_mul(factor, factor, inverse);
        mpz_mod(factor, factor, m2);
        mpz_set_ui(value, x->first[i]);
        mpz_addmul(value, factor, m1);
        if (mpz_cmp(value, half) > 0) mpz_sub(value, value, product);
        x->result[i] = mpz_get_si(value);
    }
}
