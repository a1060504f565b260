/* Hollow and wrong versions of the calls that write a text, each made of the right call; from the working list on they are of the
 * text call alone.
 */
#ifndef TEXTS_H
#define TEXTS_H

#include "version.h"

/* The answer. */
uint32_t text_refuses(const struct text_call *call);       /* 2, whatever it is lent */
uint32_t text_last_untried(const struct text_call *call);  /* 12 in place of finishing */
uint32_t text_finishes(const struct text_call *call);      /* no refusal is told; what it refuses it leaves */
uint32_t output_first(const struct text_call *call);       /* 7 tested before 3 to 6 */

/* The length. */
uint32_t length_one_more(const struct text_call *call);
uint32_t length_of_output(const struct text_call *call);   /* the length of the output told */
uint32_t length_refused(const struct text_call *call);     /* 0 written on a refusal */

/* The output. */
uint32_t text_untouched(const struct text_call *call);     /* nothing written but the length */
uint32_t text_touched(const struct text_call *call);       /* a refusal from 9 on writes a byte */
uint32_t zero_after(const struct text_call *call);         /* a byte 0 after the text */
uint32_t last_line_open(const struct text_call *call);     /* a space for the last byte 10 */
uint32_t text_constant(const struct text_call *call);      /* the answer to the paper's job; of the text call alone */
uint32_t text_copied(const struct text_call *call);        /* the job text; of the text call alone */

/* The working list. */
uint32_t text_work_kept(const struct text_call *call);     /* left as it was */
uint32_t text_work_dirty(const struct text_call *call);    /* the last of the 16,384 numbers left as it was */
uint32_t text_work_past(const struct text_call *call);     /* a number after them cleared too */
uint32_t text_work_refused(const struct text_call *call);  /* cleared on a refusal from 9 on, too */
uint32_t norms_keep_work(const struct text_call *call);    /* left as it was by a job for norms */

/* The form. */
uint32_t leading_zeros(const struct text_call *call);      /* taken */
uint32_t doubled_spaces(const struct text_call *call);     /* taken */
uint32_t carriage_returns(const struct text_call *call);   /* taken before a byte 10 */
uint32_t last_byte_missing(const struct text_call *call);  /* the last byte 10 not asked for */
uint32_t more_lines(const struct text_call *call);         /* what follows the sixth line passed over */
uint32_t number_wraps(const struct text_call *call);       /* numbers taken modulo 2^32 */
uint32_t names_swapped(const struct text_call *call);      /* moments taken for norms, and norms for moments */
uint32_t curve_ignored(const struct text_call *call);      /* v passed over for moments and norms */

/* The limits. */
uint32_t one_byte_more(const struct text_call *call);      /* 8,193 bytes looked at */
uint32_t one_byte_fewer(const struct text_call *call);     /* 8,192 bytes refused */
uint32_t output_one_shorter(const struct text_call *call); /* an output of 4,095 bytes taken */

/* The right answer, with what the call writes elsewhere; and with nothing of it kept. */
uint32_t with_output(const struct text_call *call, uint8_t *output, uint32_t *length);
uint32_t verdict_of(const struct text_call *call);

/* Writes a text and its length, as far as the output goes. */
void write_text(const struct text_call *call, const void *text, size_t length);

#endif
