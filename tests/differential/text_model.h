/* The job text and the calls that read and write one, once more. Follows the scope paper and the request for the writing of jobs,
 * and shares no code, as model.h.
 */
#ifndef TEXT_MODEL_H
#define TEXT_MODEL_H

#include "model.h"

enum { LONGEST_TEXT = 8192, ANSWER_ROOM = LEAST_TEXT_OUTPUT };

/* The five operations by their words in a text. */
extern const char *const WORDS[];

/* A job's operation by its number, which is its place in the scope paper's list; expand if none has that number. */
enum { OPERATIONS = 5 };
enum operation operation_of(uint32_t number);

/* Reads the job that a text says into x, which keeps it until the next is read: 0, or the refusal 1 or 2. */
uint32_t read_text(const uint8_t *text, size_t length, struct lent *x);

/* The number of the refusal that the call gives which is to write the job x, one from 2 to 12, 17 or 18, or 0. It is told the
 * operation by its number. */
uint32_t writing_refusal(uint32_t operation, const struct lent *x);

/* Writes the text of the job x, which may be refused, and returns its length. A number with the byte after it takes at most 11
 * bytes, and all else less than 40. */
uint32_t write_job(const struct lent *x, uint8_t *job);

/* Writes the answer text of a job that is not refused, and returns its length. */
uint32_t write_answer(const struct lent *x, uint8_t answer[ANSWER_ROOM]);

/* Writes the answer text of an operation with this result, and returns its length. */
uint32_t write_result(enum operation operation, struct list result, uint8_t *answer);

#endif
