/* The text that is explained: its first bytes, as many as the text call has to see, and what is counted of all of it. */
#ifndef WHY_INPUT_H
#define WHY_INPUT_H

#include <stddef.h>
#include <stdint.h>
#include "zahupnik.h"

enum {
    KEPT = ZAHUPNIK_MOST_TEXT + 1, /* on one byte too many the call answers as on the whole of a longer text */
    MOST_COUNTED = 1 << 24         /* bytes: an input that goes on is read no further */
};

struct input {
    uint8_t text[KEPT];
    size_t length;                               /* how many bytes of text are kept */
    size_t bytes, ended_lines;                   /* of all that was read */
    size_t open_line;                            /* the bytes since the last byte 10 */
    size_t longest_line, longest_line_bytes;     /* its number, counted from 1, and its bytes, byte 10 counted */
};

/* Takes the next piece of the text. */
void take_piece(struct input *input, const uint8_t *piece, size_t length);

#endif
