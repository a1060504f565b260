/* The calls on two channels, once more: the joined value, which refusal a call gives, and what list it hands out.
 *
 * Follows the request for joined channels, and shares no code with the crates or with tests/reference, as model.h.
 */
#ifndef JOINING_MODEL_H
#define JOINING_MODEL_H

#include "model.h"

enum { CHANNELS = 2 };

struct signed_list {
    int32_t *entries;
    size_t length;
};

/* What a call is lent: it joins two lists of remainders, or it expands a curve on both channels and joins what comes out. */
struct joining {
    bool expands;
    uint32_t m[CHANNELS];
    struct list remainders[CHANNELS];
    struct signed_list a, b, c, curve;
    size_t output_length;
};

/* The rows and the curve of a call that expands, reduced for a channel. */
struct channel {
    struct lent lent;
    uint32_t a[MOST_ROWS], b[MOST_ROWS], c[MOST_ROWS], curve[MOST_ROWS + 1];
};

/* From 0 to m - 1. */
uint32_t remainder_of(int64_t number, uint32_t m);

/* m1 times m2, and half of it, cut: the greatest joined value. */
uint64_t product_of(const uint32_t m[CHANNELS]);
int64_t greatest_joined(const uint32_t m[CHANNELS]);

/* Reduces for a channel a call that has no more rows than there may be, and the curve that they ask for. Channel is not to be copied. */
void make_channel(const struct joining *x, unsigned which, struct channel *channel);

/* How long the list is that a call hands out. */
size_t joined_length(const struct joining *x);

/* The number of the refusal that the call gives, or 0; and whether it is for the second channel or the second list. */
uint32_t joining_refusal(const struct joining *x, bool *of_second);

/* The list that a call that is not refused hands out: joined_length numbers. */
void hand_out_joined(const struct joining *x, int64_t *result);

/* The same for a call that expands, and over the whole numbers, with no remainder and no channel: if each of these coefficients is in the
 * range of a joined value, it is the one handed out. If one is not, or gets too great for 128 bits on the way, false. */
bool hand_out_whole(const struct joining *x, int64_t *result);

#endif
