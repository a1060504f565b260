/* The scope paper's calls once more, by Figures 1 to 3, with one slip at choice. Shares with the model the tests alone. */
#ifndef SLIPS_H
#define SLIPS_H

#include "version.h"

/* Each is a way to call with that slip alone; without_a_slip has none. */
uint32_t without_a_slip(const struct call *call);

/* The tree. A node is the right half's matrix times the left half's. */
uint32_t halves_swapped(const struct call *call);      /* the left half's matrix times the right half's */
uint32_t lowest_level_only(const struct call *call);   /* nodes over two pairs of rows are joined; above, the left half stands for both */
uint32_t padding_shows(const struct call *call);       /* the tree is filled up with rows 1 1 1, and the curve with ones */

/* Transposed products: of the curve with F_1, of a pair with a node's lists, and of the moments with the coefficients. Their lists are long
 * enough for every entry of the answer: one that was read round at its very end would change none. */
uint32_t transposed_term_more(const struct call *call); /* a term past the end of the multiplier: the number that stands behind it */
uint32_t transposed_wrapped(const struct call *call);   /* the list read round after as many numbers as there are wanted terms */
uint32_t transposed_whole(const struct call *call);     /* the first terms of the whole product */

/* Inverses. */
uint32_t powering_untested(const struct call *call);   /* x^(m-2), and no test whether there is an inverse */
uint32_t non_zero_taken(const struct call *call);      /* whatever is not zero taken to have an inverse */
uint32_t c_1_inverted(const struct call *call);        /* those of the c from one Euclid on c_1 .. c_n, untested */

/* The rows that are tested. */
uint32_t c_1_asked(const struct call *call);           /* 18 and 11 from row 1 on */
uint32_t c_2_not_asked(const struct call *call);       /* 18 and 11 from row 3 on */
uint32_t a_1_not_asked(const struct call *call);       /* 17 and 10 from row 2 on, as 18 and 11 */
uint32_t c_1_unread(const struct call *call);          /* 9 passes over c_1, as 18 and 11 do */
uint32_t one_row_untested(const struct call *call);    /* no 9, 17, 10, 18 or 11 where there is one row */

/* The refusal that a call gives with that slip, or 0. */
uint32_t refusal_powering(const struct lent *x);
uint32_t refusal_non_zero(const struct lent *x);
uint32_t refusal_c_1_asked(const struct lent *x);
uint32_t refusal_c_2_not_asked(const struct lent *x);
uint32_t refusal_a_1_not_asked(const struct lent *x);
uint32_t refusal_c_1_unread(const struct lent *x);
uint32_t refusal_one_row_untested(const struct lent *x);

/* Norms. */
uint32_t norm_over_a_i(const struct call *call);       /* norm i divided by a_i and not by a_{i+1}; norm 0 by a_1 */
uint32_t norm_from_c_1(const struct call *call);       /* c_1 .. c_{i+1} and not c_2 .. c_{i+1} */
uint32_t norm_to_c_i(const struct call *call);         /* c_1 .. c_i and not c_2 .. c_{i+1} */
uint32_t norm_sign_lost(const struct call *call);      /* no (-1)^i */

/* Moments. */
uint32_t reversal_too_long(const struct call *call);   /* G_{n-1} reversed with length n + 1, as F_n is */
uint32_t G_from_row_1(const struct call *call);        /* G begun with row 1, as F is */
uint32_t closed_by_2(const struct call *call);         /* the closing row 2 1 1 */

#endif
