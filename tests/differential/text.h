/* The text call under watch. */
#ifndef TEXT_H
#define TEXT_H

#include "model.h"
#include "random.h"
#include "trial.h"

/* Runs a random case of the text call and holds it against the model of texts; the answer. */
uint32_t run_on_text(struct trial *trial, struct random *random);

/* Runs the text call on a text, with the lengths that x has: it has to return the trial's number, and if that is 0, to answer the
 * job x. */
void hold_text_call(struct trial *trial, struct random *random, const uint8_t *text, size_t length, const struct lent *x);

#endif
