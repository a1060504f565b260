/* The calls on two channels, under watch. */
#ifndef JOINING_H
#define JOINING_H

#include "random.h"
#include "trial.h"

/* Runs a random case of the call and holds it against the model of joined channels; the answer. */
uint32_t run_on_remainders(struct trial *trial, struct random *random);
uint32_t run_on_two_channels(struct trial *trial, struct random *random);

#endif
