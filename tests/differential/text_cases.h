/* Random job texts: of every operation, accepted and refused, and damaged byte by byte. */
#ifndef TEXT_CASES_H
#define TEXT_CASES_H

#include "cases.h"

enum { TEXT_ROOM = 1 << 16 };

struct text {
    uint8_t bytes[TEXT_ROOM];
    size_t length;
};

/* A random text, and the lengths of the output and of the working list that are lent with it. */
void make_text(struct random *random, struct text *text, size_t *output_length, size_t *work_length);

#endif
