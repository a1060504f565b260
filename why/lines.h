/* The lines of a text that is not of the form, each with the line of a job that it seems to be. */
#ifndef WHY_LINES_H
#define WHY_LINES_H

#include "job.h"

/* How a line ends. JOINED: not at all, the next key stands behind it in the same line. */
enum ending { BYTE_10, CR_LF, CR, JOINED, NOTHING };

/* What a line is in the job that is meant. */
enum role {
    IN_ORDER, /* one of the six, in its place among the others */
    MOVED,    /* one of the six, but not in its place */
    REPLACED, /* something else in the place of one of the six, which is missing */
    DOUBLE,   /* one of the six, which stood there before */
    EMPTY,    /* nothing, or blanks only */
    ODD       /* none of the six */
};

struct line {
    size_t number;       /* counted from 1 */
    size_t line_start;   /* where the line of this number begins: its place 1. A line with several keys is several of these */
    size_t start, end;   /* its bytes, without its ending */
    size_t key, key_end; /* what seems to be its key, with = or what stands for that; empty if there is none */
    size_t contents;     /* where what follows the key begins, or the last of it where it stands there several times */
    enum ending ending;
    enum role role;
    int meant; /* the line of a job that it seems to be, or LINES if none */
    int exact; /* whether it opens with the key, byte for byte */
};

enum { MOST_LINES = ZAHUPNIK_MOST_TEXT + 1 };
struct lines {
    size_t count;
    struct line line[MOST_LINES];
    const struct line *of[LINES]; /* the line that is meant by each key, or NULL if it is missing */
    size_t known;                 /* how many lines seem to be one of the six by what they open with */
};

/* Takes a text, from a place on, apart into its lines, and finds what each is meant to be. */
void take_lines(const uint8_t *text, size_t start, size_t length, struct lines *lines);

#endif
