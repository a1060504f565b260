/* Wrong versions of the reason of a refusal: which of 17, 10, 18 and 11 a family is refused with, and the factor of Inverse. Each is made of
 * the model's tests and the right call.
 */
#ifndef REASONS_H
#define REASONS_H

#include "version.h"

/* Of the calls on a family: each as a call on lists, and as one that writes a text. */
#define REASONS(REASON)                                                                      \
    REASON(a_zero_anywhere, "17 for a zero a, whichever row is lowest", ROWS_TESTED)         \
    REASON(c_zero_anywhere, "18 for a zero c, whichever row is lowest", ROWS_TESTED)         \
    REASON(a_highest, "17 or 10 by the highest row", ROWS_TESTED)                            \
    REASON(c_highest, "18 or 11 by the highest row", ROWS_TESTED)                            \
    REASON(a_swapped, "17 for a shared factor, 10 for zero", ROWS_TESTED)                    \
    REASON(c_swapped, "18 for a shared factor, 11 for zero", ROWS_TESTED)                    \
    REASON(a_zero_untold, "10 for zero too", ROWS_TESTED)                                    \
    REASON(c_zero_untold, "11 for zero too", ROWS_TESTED)                                    \
    REASON(zeros_swapped, "18 for a zero a, 17 for a zero c", ROWS_TESTED)                   \
    REASON(zeros_first, "18 tested before 10", ROWS_TESTED)                                  \
    REASON(zeros_last, "17 tested after 11", ROWS_TESTED)                                    \
    REASON(c_before_a, "18 and 11 tested before 17 and 10", ROWS_TESTED)                     \
    REASON(zeros_before_entries, "17 and 18 tested before 9", ROWS_TESTED)                   \
    REASON(zeros_after_curve, "17 and 18 tested after 12", ROWS_TESTED & CURVES_TESTED)      \
    REASON(c_1_zero_asked, "18 from row 1 on", ROWS_TESTED)                                  \
    REASON(c_1_decides, "18 or 11 by c_1, where another c has no inverse", ROWS_TESTED)
enum { ROWS_TESTED = WITH_FAMILY | WRITE_JOB, CURVES_TESTED = PLAIN_CURVES | TREE_CURVES | TO_TEXTS };
#define REASON_DECLARED(name, what, calls)  \
    uint32_t name(const struct call *call); \
    uint32_t text_##name(const struct text_call *call);
REASONS(REASON_DECLARED)

/* Of Inverse. */
uint32_t factor_kept(const struct call *call);         /* not written where it finishes */
uint32_t factor_kept_by_13(const struct call *call);   /* not written with 13 */
uint32_t factor_with_12(const struct call *call);      /* written with 12 too */
uint32_t factor_with_3(const struct call *call);       /* written with 3 too */
uint32_t factor_zero(const struct call *call);         /* 0 for zero */
uint32_t factor_least(const struct call *call);        /* the least common factor above 1 */
uint32_t factor_other(const struct call *call);        /* m divided by the factor */
uint32_t factor_in_place(const struct call *call);     /* the factor and the inverse each in the other's place */
uint32_t inverse_zero_by_13(const struct call *call);  /* 13 writes a zero for the inverse */
uint32_t inverse_power_by_13(const struct call *call); /* 13 writes x^(m-2) for the inverse */
uint32_t zero_as_17(const struct call *call);          /* zero refused with 17 */

#endif
