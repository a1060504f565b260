/* What the text call says of a text, in words. */
#ifndef WHY_EXPLAIN_H
#define WHY_EXPLAIN_H

#include <stdio.h>
#include "input.h"

/* Prints why the text is refused, and where, or what the job is that it says. Returns the text call's number. */
uint32_t explain(FILE *out, const struct input *input);

#endif
