/* The lines of a job, and what a text of the form says. */
#ifndef WHY_JOB_H
#define WHY_JOB_H

#include <stddef.h>
#include <stdint.h>
#include "zahupnik.h"

/* The lines in the order of a job: line number MOD + 1 opens with keys[MOD], and so on. */
enum { MOD, A, B, C, OP, V, LINES };
extern const char *const keys[LINES];

enum { OPERATIONS = ZAHUPNIK_NORMS + 1 };
extern const char *const operations[OPERATIONS];

/* The operation of this very name, or OPERATIONS if none has it. */
uint32_t operation_named(const uint8_t *name, size_t length);

/* Whether the job has a curve, and not an empty line v=. */
int takes_curve(uint32_t operation);

/* The numbers of a line, each with its place in the line, counted from 1 in bytes. */
struct list {
    size_t length;
    uint32_t numbers[ZAHUPNIK_MOST_TEXT / 2];
    size_t places[ZAHUPNIK_MOST_TEXT / 2];
};
struct job {
    struct list lines[LINES]; /* lines[OP] is empty */
    uint32_t operation;
};

/* Reads a text of the form. Returns 0 if it is not of the form, and then the job is not to be used. */
int read_job(const uint8_t *text, size_t length, struct job *job);

#endif
