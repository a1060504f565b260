/* Wrong versions of the call that writes a job, made of the right call or of the model's tests and its text. Those that the text
 * call can have as well are in texts.h.
 */
#ifndef JOBS_H
#define JOBS_H

#include "version.h"

/* Right: the model's tests and its text. The text call converts without a slip. */
uint32_t text_without_a_slip(const struct text_call *call);

/* The operation's number. */
uint32_t operation_as_expand(const struct text_call *call);   /* one past 4 taken for expand */
uint32_t operation_as_6(const struct text_call *call);        /* one past 4 refused with 6, and where 6 is tested */
uint32_t operation_after_3(const struct text_call *call);     /* 2 tested after 3 */
uint32_t operation_cut(const struct text_call *call);         /* its last byte alone looked at */
uint32_t operation_swapped(const struct text_call *call);     /* norms written for moments, and moments for norms */

/* The tests. */
uint32_t curve_taken(const struct text_call *call);           /* a curve for moments and norms taken, and written */
uint32_t curve_dropped(const struct text_call *call);         /* a curve for moments and norms taken, and not written */
uint32_t curve_asked(const struct text_call *call);           /* a curve of n numbers asked for norms */
uint32_t curve_untested(const struct text_call *call);        /* 12 never given */
uint32_t job_curve_first(const struct text_call *call);       /* 12 tested before 9, 17, 10, 18 and 11 */
uint32_t job_row_by_row(const struct text_call *call);        /* 9, 17, 10, 18 and 11 tested together, row after row */
uint32_t job_non_zero(const struct text_call *call);          /* whatever is not zero taken to have an inverse */
uint32_t job_powering(const struct text_call *call);          /* 17, 10, 18 and 11 never given, as by inverses that are powers */
uint32_t job_c_1_asked(const struct text_call *call);         /* 18 and 11 from row 1 on */
uint32_t job_c_2_not_asked(const struct text_call *call);     /* 18 and 11 from row 3 on */
uint32_t job_a_1_not_asked(const struct text_call *call);     /* 17 and 10 from row 2 on */
uint32_t job_c_1_unread(const struct text_call *call);        /* 9 passes over c_1 */
uint32_t job_one_row_untested(const struct text_call *call);  /* no 9, 17, 10, 18 or 11 where there is one row */
uint32_t output_of_answer(const struct text_call *call);      /* an output of 4,096 bytes taken */
uint32_t output_one_longer(const struct text_call *call);     /* an output of 8,192 bytes refused */

/* The answer by the refusal that a version gives; a number that no operation has is refused before. */
uint32_t tested_by(const struct text_call *call, uint32_t (*refusal_with)(const struct lent *x));

/* The text. */
uint32_t job_constant(const struct text_call *call);          /* the paper's job */
uint32_t job_figures_only(const struct text_call *call);      /* right on the figures, the paper's job otherwise */
uint32_t job_b_and_c_swapped(const struct text_call *call);
uint32_t curve_left_out(const struct text_call *call);        /* nothing after v= */
uint32_t lines_moved(const struct text_call *call);           /* v before op */
uint32_t key_wrong(const struct text_call *call);             /* the key b before the numbers of c */
uint32_t space_doubled(const struct text_call *call);         /* two spaces for the first one */
uint32_t space_last(const struct text_call *call);            /* a space after the last number too */
uint32_t zero_first(const struct text_call *call);            /* a leading zero of m */
uint32_t zero_empty(const struct text_call *call);            /* no digit for a 0 */
uint32_t nine_digits(const struct text_call *call);           /* of ten digits the last nine */
uint32_t last_byte_left_out(const struct text_call *call);    /* no byte 10 after the last line */

#endif
