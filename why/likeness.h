/* How like two words are. */
#ifndef WHY_LIKENESS_H
#define WHY_LIKENESS_H

#include <stddef.h>
#include <stdint.h>
#include "job.h"

/* Whether a word is this one, capital letters taken for small ones. */
int is_word(const uint8_t *word, size_t length, const char *other);

/* How many letters have to be put in, left out, changed or exchanged with the next to make one word of the other. */
size_t distance(const uint8_t *word, size_t length, const char *other);

/* The operation that a word seems to be: the nearest, if it is near. OPERATIONS if none is. */
uint32_t operation_like(const uint8_t *word, size_t length);

#endif
