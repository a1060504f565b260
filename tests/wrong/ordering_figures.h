/* Examples of the calls that order a list by even and odd indices: short lists, the longest, numbers at the ends of 32 bits, zeros, and
 * refusals, alone and two at once.
 */
#ifndef ORDERING_FIGURES_H
#define ORDERING_FIGURES_H

#include "ordering_model.h"

enum { MOST_ORDERED = 8, ORDERING_ROOM = 264 };

/* A list and the same with even indices first, how long the output is, and the refusal, or 0. Even first is lent the one and has to give
 * the other; even back is lent the other and has to give the one. A list that is longer than a figure holds is 1 2 3 and so on. */
struct ordering_figure {
    const char *name;
    size_t length, output_length;
    uint32_t number, list[MOST_ORDERED], even_first[MOST_ORDERED];
};

/* The table; it ends with a figure that has no name. */
extern const struct ordering_figure ORDERING_FIGURES[];

/* What a call is lent, and what it has to hand out: as many numbers. Both stay as they are until the next figure is lent. */
struct ordering ordering_figure_lent(const struct ordering_figure *figure, bool back);
const uint32_t *ordering_figure_result(const struct ordering_figure *figure, bool back);

/* Whether what a call is lent is that of a figure. */
bool is_ordering_figure(const struct ordering *x);

#endif
