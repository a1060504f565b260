/* Random cases of the calls on lists: accepted ones and damaged ones, long and short. And the random numbers that they are made of. */
#ifndef CASES_H
#define CASES_H

#include "model.h"
#include "random.h"

enum { LIST_ROOM = 512, WORK_ROOM = LEAST_WORK + 2048 };

/* A random case of an operation by a way. Its lists stay as they are until the next case is made. Lists are up to LIST_ROOM
 * long, and nothing that a call may write has more than WORK_ROOM numbers. What the call has to answer is not known here: the
 * model says it. */
struct lent make_case(struct random *random, enum operation operation, enum way way);

/* Gives a case that has its operation, way and accepted family the rest, which may be damaged: the curve and the lengths. The curve stays
 * as a list of make_case does. */
void complete_case(struct random *random, struct lent *x);

/* A length that is not what it should be: near it, none, or any up to 299. */
size_t other_length(struct random *random, size_t length);

/* A modulus in its range, and one that is not. */
uint32_t some_modulus(struct random *random);
uint32_t some_wrong_modulus(struct random *random);

/* How many rows: short families most often, since a call by the tree at 127 rows takes as long as hundreds at 3. */
size_t some_rows(struct random *random);

/* A number below m with an inverse; one that shares a factor with m and is not 0 if one is met soon, and is 0 else; one without an inverse,
 * 0 or such a one; a c_1, with an inverse or without; a number that is not below m: the least, the greatest, or any. */
uint32_t some_unit(struct random *random, uint32_t m);
uint32_t some_sharing(struct random *random, uint32_t m);
uint32_t some_non_unit(struct random *random, uint32_t m);
uint32_t some_first_c(struct random *random, uint32_t m);
uint32_t some_not_below(struct random *random, uint32_t m);

#endif
