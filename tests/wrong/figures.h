/* The scope paper's figures P1 to P12, and examples for what they leave untouched: `four` of definitions and `eight` of tree_model, whose
 * trees have levels; families whose c_1 is 0, shares a factor with m or is not below it; refusals of each operation, with zeros and shared factors
 * in one row and in several; job texts that are not of the form; jobs to be written; records that are not right; changes of a record; and what an
 * operation on one may not be lent.
 */
#ifndef FIGURES_H
#define FIGURES_H

#include "prepared_model.h"

enum { MOST_FIGURE_ROWS = 8 };

/* What a call is lent, and what it has to give: a refusal, or 0 and then the result. For Inverse the factor stands after the inverse, with 13 too. */
struct figure {
    const char *name;
    enum operation operation;
    uint32_t m;
    size_t rows;
    uint32_t a[MOST_FIGURE_ROWS], b[MOST_FIGURE_ROWS], c[MOST_FIGURE_ROWS], curve[MOST_FIGURE_ROWS + 1];
    uint32_t number, result[2 * MOST_FIGURE_ROWS + 1];
};

/* The table; it ends with a figure that has no name. */
extern const struct figure FIGURES[];

/* A job text that is refused: the paper's job, changed. */
struct text_figure {
    const char *name;
    const char *text;
    size_t output_length;
    uint32_t number;
};

extern const struct text_figure TEXT_FIGURES[];

/* A job that is to be written: the paper's, changed, with an operation by its number. Number is the refusal, or 0. */
struct job_figure {
    const char *name;
    uint32_t m, operation, curve[3];
    size_t curve_length, output_length;
    uint32_t number;
};

extern const struct job_figure JOB_FIGURES[];

/* A record: the one that the rows have, with one number changed if which is not NOTHING, as the lists are numbered in a record. Where
 * there are more rows than a figure holds, each is 1 1 1. */
enum { THE_MODULUS = RECORD_LISTS, THE_ROWS, NOTHING };
struct record_figure {
    const char *name;
    uint32_t m;
    size_t rows;
    uint32_t a[MOST_FIGURE_ROWS], b[MOST_FIGURE_ROWS], c[MOST_FIGURE_ROWS];
    unsigned which;
    uint32_t place, number;
};

/* Records that are not right. */
extern const struct record_figure RECORD_FIGURES[];

struct record figure_record(const struct record_figure *figure);

/* A change of a record, which may not be right, and the number that it returns. For an empty family a is m. */
struct change_figure {
    struct record_figure record;
    enum kind_of_change kind;
    uint32_t row, a, b, c, number;
};

extern const struct change_figure CHANGE_FIGURES[];

struct change figure_change(const struct change_figure *figure);

/* An operation on the record of P1's family, right or with a wrong norm, and what it is lent: how much longer or shorter than it should be
 * the curve, the output and the working list are, and the first entry of the curve if it is not P1's. */
struct lent_figure {
    const char *name;
    bool damaged;
    int curve_more, output_more, work_more;
    uint32_t entry;
};

extern const struct lent_figure LENT_FIGURES[];

/* The call's input, with no way and no lengths but those of the lists. */
struct lent figure_lent(const struct figure *figure);

/* The call's input, for expand if no operation has the number. */
struct lent job_figure_lent(const struct job_figure *figure);

/* Whether the operation, m, the family and the curve are those of a figure. */
bool is_figure(const struct lent *x);

#endif
