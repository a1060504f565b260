/* What lists.h declares. */
#include "lists.h"

#include <string.h>

#include "figures.h"

enum { ROOM = 1 << 16 };

/* Where the right call writes what a wrong version does not hand out. */
static uint32_t spare[ROOM];

static bool lists_in_order(uint32_t number) { return number == 0 || number > 8; }

/* The right call with its output elsewhere: its answer, and its working list. */
static uint32_t right_elsewhere(const struct call *call, uint32_t *output) {
    struct call other = *call;
    other.output = output;
    return right(&other);
}

uint32_t refuses(const struct call *call) {
    (void)call;
    return 3;
}

static uint32_t last_number(const struct lent *x) { return x->operation == INVERSE ? 13 : takes_curve(x) ? 12 : 11; }

uint32_t last_untried(const struct call *call) {
    uint32_t number = refusal(&call->lent);
    return number ? number : last_number(&call->lent);
}

uint32_t finishes(const struct call *call) {
    right(call);
    return 0;
}

static bool is_for_rows(uint32_t number) { return (9 <= number && number <= 11) || number == 17 || number == 18; }

uint32_t rows_in_turn(const struct lent *x, uint32_t number) {
    if (!is_for_rows(number)) return number;
    for (size_t i = 0; i < x->a.length; i++) {
        if (x->a.entries[i] >= x->m || x->b.entries[i] >= x->m || x->c.entries[i] >= x->m) return 9;
        if (common_divisor(x->a.entries[i], x->m) != 1) return x->a.entries[i] ? 10 : 17;
        if (i > 0 && common_divisor(x->c.entries[i], x->m) != 1) return x->c.entries[i] ? 11 : 18;
    }
    return number;
}

uint32_t curve_before_rows(const struct lent *x, uint32_t number) {
    if (!is_for_rows(number)) return number;
    for (size_t i = 0; i < x->curve.length; i++)
        if (x->curve.entries[i] >= x->m) return 12;
    return number;
}

uint32_t row_by_row(const struct call *call) { return rows_in_turn(&call->lent, right(call)); }

uint32_t curve_first(const struct call *call) { return curve_before_rows(&call->lent, right(call)); }

static void write_constant(const struct call *call) {
    memset(call->output, 0, call->lent.output_length * sizeof *call->output);
    if (call->lent.operation == INVERSE) call->output[0] = 1;
}

uint32_t constant(const struct call *call) {
    uint32_t number = right(call);
    if (!number) write_constant(call);
    return number;
}

uint32_t copied(const struct call *call) {
    const struct lent *x = &call->lent;
    uint32_t number = right(call);
    if (number) return number;
    if (takes_curve(x) && curve_length(x)) {
        memcpy(call->output, x->curve.entries, x->curve.length * sizeof *call->output);
        return 0;
    }
    for (size_t i = 0; i < result_length(x); i++) {
        size_t r = x->a.length;
        call->output[i] = i < r ? x->a.entries[i] : i < 2 * r && x->operation == MOMENTS ? x->b.entries[i - r] : 1;
    }
    return 0;
}

uint32_t untouched(const struct call *call) { return right_elsewhere(call, spare); }

uint32_t figures_only(const struct call *call) {
    uint32_t number = right(call);
    if (!number && !is_figure(&call->lent)) write_constant(call);
    return number;
}

uint32_t touched(const struct call *call) {
    uint32_t number = right(call);
    if (number && lists_in_order(number)) call->output[0] = 0;
    return number;
}

static uint32_t other_operation(const struct call *call, enum operation operation) {
    struct call other = *call;
    other.lent.operation = operation;
    return right(&other);
}

uint32_t expand_for_it(const struct call *call) { return other_operation(call, EXPAND); }

uint32_t adjoint_for_it(const struct call *call) { return other_operation(call, ADJOINT); }

uint32_t norms_for_it(const struct call *call) {
    uint32_t number = right(call);
    if (number) return number;
    struct call norms = *call;
    norms.lent.operation = NORMS;
    norms.lent.way = PLAIN;
    norms.lent.output_length = result_length(&norms.lent);
    write_constant(call);
    return right(&norms);
}

/* The list that the family with b and c swapped would have, whether it has inverses or not: none of these operations needs those of
 * c. */
uint32_t b_and_c_swapped(const struct call *call) {
    struct call other = *call;
    uint32_t number = right(call);
    if (number) return number;
    other.lent.b = call->lent.c;
    other.lent.c = call->lent.b;
    hand_out(&other.lent, call->output);
    return 0;
}

static uint32_t with_work(const struct call *call, uint32_t *work) {
    struct call other = *call;
    other.work = work;
    return right(&other);
}

uint32_t work_kept(const struct call *call) { return with_work(call, spare); }

uint32_t work_dirty(const struct call *call) {
    uint32_t last = call->lent.work_length < LEAST_WORK ? 0 : call->work[LEAST_WORK - 1], number = right(call);
    if (!number) call->work[LEAST_WORK - 1] = last;
    return number;
}

uint32_t work_past(const struct call *call) {
    uint32_t number = right(call);
    if (!number && call->lent.work_length > LEAST_WORK) call->work[LEAST_WORK] = 0;
    return number;
}

uint32_t work_refused(const struct call *call) {
    uint32_t number = right(call);
    if (number && lists_in_order(number)) memset(call->work, 0, LEAST_WORK * sizeof *call->work);
    return number;
}
