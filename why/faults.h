/* What is wrong with a job whose text is of the form: every number at fault, test by test. */
#ifndef WHY_FAULTS_H
#define WHY_FAULTS_H

#include <stdio.h>
#include "job.h"

/* Prints every fault that the text call's number is of, and then those that it would be refused for next. */
void print_faults(FILE *out, const struct job *job, uint32_t number);

#endif
