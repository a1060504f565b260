/* Examples of the calls on two channels: joined values at the ends of their range and near them, rows and curves with a sign, and refusals of
 * each kind, by either channel and with two faults at once.
 */
#ifndef JOINING_FIGURES_H
#define JOINING_FIGURES_H

#include "joining_model.h"

enum { MOST_JOINED = 4 };

/* Two lists of remainders, how long each and the output are, and what Join has to give: a refusal, or 0 and then the result. What is longer
 * than a figure holds is zeros. */
struct join_figure {
    const char *name;
    uint32_t m[CHANNELS];
    size_t lengths[CHANNELS], output_length;
    uint32_t remainders[CHANNELS][MOST_JOINED], number;
    int64_t result[MOST_JOINED];
};

/* The table; it ends with a figure that has no name. */
extern const struct join_figure JOIN_FIGURES[];

/* Rows and a curve, by how much c, the curve and the output are longer than they should be, and what expand_join has to give. Where there are
 * more rows than a figure holds, each is 1 1 1, and the curve is zeros. */
struct expand_join_figure {
    const char *name;
    uint32_t m[CHANNELS];
    size_t rows;
    int32_t a[MOST_JOINED], b[MOST_JOINED], c[MOST_JOINED], curve[MOST_JOINED];
    int c_more, curve_more, output_more;
    uint32_t number;
    int64_t result[MOST_JOINED];
};

extern const struct expand_join_figure EXPAND_JOIN_FIGURES[];

/* What the call is lent. The lists stay as they are until the next figure is lent. */
struct joining join_figure_lent(const struct join_figure *figure);
struct joining expand_join_figure_lent(const struct expand_join_figure *figure);

/* Whether what a call is lent is that of a figure. */
bool is_joining_figure(const struct joining *x);

#endif
