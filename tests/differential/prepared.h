/* The calls on a prepared family, under watch, in sequences: each step goes on with the record that the one before it left. */
#ifndef PREPARED_H
#define PREPARED_H

#include "random.h"
#include "trial.h"

/* A record, and the last change of it, if there was one and it was a replacement. */
struct sequence {
    struct record record;
    bool replaced;
    struct change last;
};

/* Begins a sequence with a family without rows or with some. */
void begin_sequence(struct random *random, struct sequence *sequence);

/* A step: runs a random case of the call on the record, now and then on a damaged copy of it, and holds it against the model; the answer.
 * A change that has finished changes the record. */
typedef uint32_t step(struct trial *trial, struct random *random, struct sequence *sequence);
step prepared_empty, prepared_append, prepared_drop_last, prepared_replace;
step prepared_plain_expand, prepared_plain_adjoint, prepared_plain_decompose, prepared_norms;
step prepared_tree_expand, prepared_tree_adjoint, prepared_tree_decompose, prepared_moments;

#endif
