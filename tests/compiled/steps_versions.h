/* Transposed products in C that give the right terms: one that does no more than it has to, and others that tests/compiled/steps.c has to
 * tell by what they run through. */
#ifndef STEPS_VERSIONS_H
#define STEPS_VERSIONS_H

#include "transposed_versions.h"

transposed_product terms_alone;      /* the wanted terms, the zeros at the ends left out */
transposed_product zeros_multiplied; /* the zeros at the ends multiplied */
transposed_product whole_formed;     /* every coefficient of the whole product, of which the wanted ones are written */
transposed_product two_rounds;       /* the terms of p and v, and in a second round those of q and u added */
transposed_product put_back;         /* a number of the multiplier changed, and put back */
transposed_product kept_first;       /* the terms in an array that is the program's, and then copied */

#endif
