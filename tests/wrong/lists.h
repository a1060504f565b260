/* Hollow and wrong versions of the calls on lists, each made of the right call. */
#ifndef LISTS_H
#define LISTS_H

#include "version.h"

/* The answer. */
uint32_t refuses(const struct call *call);          /* 3, whatever it is lent */
uint32_t last_untried(const struct call *call);     /* the last number of its tests in place of finishing: 13, 12 or 11 */
uint32_t finishes(const struct call *call);         /* no refusal is told; what it refuses it leaves */
uint32_t row_by_row(const struct call *call);       /* 9, 17, 10, 18 and 11 tested together, row after row */
uint32_t curve_first(const struct call *call);      /* 12 tested before 9, 17, 10, 18 and 11 */

/* What another order of the tests makes of a right answer. */
uint32_t rows_in_turn(const struct lent *x, uint32_t number);      /* as row_by_row */
uint32_t curve_before_rows(const struct lent *x, uint32_t number); /* as curve_first */

/* The output. */
uint32_t constant(const struct call *call);         /* zeros; for Inverse 1 */
uint32_t copied(const struct call *call);           /* the input: the number, the curve, or a and a last 1, or a, b and a last 1 */
uint32_t untouched(const struct call *call);        /* nothing written */
uint32_t figures_only(const struct call *call);     /* right on the figures, zeros otherwise */
uint32_t touched(const struct call *call);          /* a refusal writes a zero */
uint32_t expand_for_it(const struct call *call);    /* Expand's list */
uint32_t adjoint_for_it(const struct call *call);   /* Adjoint's list */
uint32_t norms_for_it(const struct call *call);     /* the norms, and zeros after them */
uint32_t b_and_c_swapped(const struct call *call);

/* The working list. */
uint32_t work_kept(const struct call *call);        /* left as it was */
uint32_t work_dirty(const struct call *call);       /* the last of the 16,384 numbers left as it was */
uint32_t work_past(const struct call *call);        /* a number after them cleared too */
uint32_t work_refused(const struct call *call);     /* cleared on a refusal from 9 on, too */

#endif
