/* The calls that put even powers first and take them back, under watch. */
#ifndef ORDERING_H
#define ORDERING_H

#include "random.h"
#include "trial.h"

/* Runs a random case of the call and holds it against the model; what it hands out, the other call has to take back. The answer. */
uint32_t run_even_first(struct trial *trial, struct random *random);
uint32_t run_even_back(struct trial *trial, struct random *random);

#endif
