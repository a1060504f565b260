/* Where a text is not of the form of a job: every slip that can be told, not only the first. */
#ifndef WHY_SLIPS_H
#define WHY_SLIPS_H

#include <stddef.h>
#include <stdint.h>
#include <stdio.h>

/* Finds the slips of a text of at most ZAHUPNIK_MOST_TEXT bytes and returns how many it has; prints them, in the order of the text,
 * unless `out` is NULL. */
size_t tell_slips(FILE *out, const uint8_t *text, size_t length);

#endif
