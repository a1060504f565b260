/* Transposed multiplication by itself: its operands, and the ways to it that bench.c times beside each other. */
#ifndef TRANSPOSED_H
#define TRANSPOSED_H

#include <stdbool.h>
#include <stddef.h>
#include <stdint.h>

enum { MOST_LENGTH = 256, OPERANDS = 16 };

/* Where `numbers` has the multipliers, the lists and the terms. */
enum {
    MULTIPLIER = 0,
    SECOND_MULTIPLIER = MULTIPLIER + MOST_LENGTH,
    LIST = SECOND_MULTIPLIER + MOST_LENGTH,
    SECOND_LIST = LIST + 2 * MOST_LENGTH,
    TERMS = SECOND_LIST + 2 * MOST_LENGTH,
    NUMBERS = TERMS + MOST_LENGTH,
};

/* Term i is the sum over j of multiplier[j] list[i + j] modulo m, and where `two` is set that of the second multiplier and list is added.
 * A multiplier has `length` numbers, an even count, a list twice as many, and `length` terms are asked for. They are coefficients of the
 * product of the list with the multiplier turned round, from length - 1 on. FLINT is handed it turned round: a caller can keep it in that
 * order. */
struct operands {
    uint32_t m;
    uint64_t reciprocal; /* 2^64 - 1 over m */
    size_t length;
    bool two;
    uint32_t turned[2][MOST_LENGTH];
    uint32_t numbers[NUMBERS];
};

typedef void transpose(struct operands *x);

/* The library's own function, and those that form the whole product and copy the terms out of it. */
enum {
    OWN_WAY,
    C_WAY,
#ifdef FLINT
    FLINT_WAY,
#endif
    WAYS
};
extern const struct way {
    const char *name;
    transpose *transpose;
} ways[WAYS];

transpose transpose_by_flint;

extern struct operands operands[OPERANDS];

/* Makes all of them anew. Ends the program with 1 where two ways give other terms. */
void make_operands(uint32_t m, size_t length, bool two);

#endif
