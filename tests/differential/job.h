/* The call that writes a job, under watch. */
#ifndef JOB_H
#define JOB_H

#include "random.h"
#include "trial.h"

/* Runs a random case of the call and holds it against the model of texts; the answer. If it has finished, the text call is run on
 * what was written and has to finish too, with the operation's result on the lists of the case. */
uint32_t run_on_job(struct trial *trial, struct random *random);

#endif
