/* The calls that put even powers first and take them back, once more: which refusal a call gives, and what list it hands out.
 *
 * Follows the request for the curve store, and shares no code with the crates or with tests/reference, as model.h.
 */
#ifndef ORDERING_MODEL_H
#define ORDERING_MODEL_H

#include "model.h"

enum { MOST_ENTRIES = 128 };

/* What a call is lent. Back says which of the two it is. */
struct ordering {
    bool back;
    struct list list;
    size_t output_length;
};

/* The number of the refusal that the call gives, or 0. */
uint32_t ordering_refusal(const struct ordering *x);

/* The list that a call hands out, as many numbers as it is lent. It may be longer than a call takes. */
void hand_out_ordered(const struct ordering *x, uint32_t *result);

/* How many indices of so many numbers are even: where the odd part begins. */
size_t even_count(size_t length);

#endif
