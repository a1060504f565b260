/* The calls of the scope paper, once more: which refusal a call gives, and what list it hands out.
 *
 * Follows the scope paper and the requests for a first row with any c and for the reason of a refusal, and shares no code with the
 * crates or with tests/reference.
 * It does not use the library's header: the limits stand here again. Only texts are apart (text_model.h).
 */
#ifndef MODEL_H
#define MODEL_H

#include <stdbool.h>
#include <stddef.h>
#include <stdint.h>

enum {
    MOST_ROWS = 127,
    MOST_RESULTS = 2 * MOST_ROWS + 1,
    LEAST_WORK = 16384,
    LEAST_TEXT_OUTPUT = 4096,
    LEAST_JOB_OUTPUT = 8192,
    GREATEST_MODULUS = 2147483647
};

enum operation { INVERSE, EXPAND, ADJOINT, DECOMPOSE, NORMS, MOMENTS };

/* By which way a call goes. Inverse and Norms are plain and Moments is of the tree: that says whether a working list is lent. A
 * call by text is lent a curve and a working list whatever it does, and its output is counted in bytes. So it is with the call
 * that writes a job, but for the working list, which it is not lent. */
enum way { PLAIN, TREE, TEXT, WRITING };

struct list {
    uint32_t *entries;
    size_t length;
};

/* What a call is lent. For Inverse the curve's one entry is the number to invert. */
struct lent {
    enum operation operation;
    enum way way;
    uint32_t m;
    struct list a, b, c, curve;
    size_t output_length, work_length;
};

/* Whether a call is lent a family, a curve, a working list. */
bool takes_family(const struct lent *x);
bool takes_curve(const struct lent *x);
bool takes_work(const struct lent *x);

/* The lengths that the curve and the list handed out have to have. */
size_t curve_length(const struct lent *x);
size_t result_length(const struct lent *x);

/* How many bytes an output for a text has to have at least; 0 for a list. */
size_t least_output(const struct lent *x);

/* The number of the refusal that the call gives, one from 3 to 13, 17 or 18, or 0. */
uint32_t refusal(const struct lent *x);

/* The list that a call that is not refused hands out: result_length numbers. */
void hand_out(const struct lent *x, uint32_t result[MOST_RESULTS]);

/* What Inverse hands out besides, if it is not refused or is refused with 13: the greatest number that divides its number and m. */
uint32_t factor_of(const struct lent *x);

/* The greatest number that divides both: if one is 0, the other. */
uint32_t common_divisor(uint32_t x, uint32_t y);

#endif
