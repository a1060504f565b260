/* What reasons.h declares. A reason is told from the refusal that the model gives: it is another number, or one where the model gives none. */
#include "reasons.h"

#include "jobs.h"
#include "slips.h"

/* ---- families */

static bool lacks_inverse(uint32_t number, uint32_t m) { return common_divisor(number, m) != 1; }

static bool is_for_a(uint32_t number) { return number == 10 || number == 17; }

static bool is_for_c(uint32_t number) { return number == 11 || number == 18; }

/* The c from row 2 on. */
static struct list later_c(const struct lent *x) {
    return x->c.length ? (struct list){x->c.entries + 1, x->c.length - 1} : x->c;
}

static uint32_t for_a(uint32_t number) { return number ? 10 : 17; }

static uint32_t for_c(uint32_t number) { return number ? 11 : 18; }

/* Whether some number of a list has no inverse, with the lowest of them, or the highest. */
static bool find(struct list list, uint32_t m, bool highest, uint32_t *number) {
    bool found = false;
    for (size_t i = 0; i < list.length && (highest || !found); i++) {
        if (!lacks_inverse(list.entries[i], m)) continue;
        *number = list.entries[i];
        found = true;
    }
    return found;
}

static bool has_zero(struct list list) {
    for (size_t i = 0; i < list.length; i++)
        if (list.entries[i] == 0) return true;
    return false;
}

/* Whether the lowest number of a list without an inverse is zero. */
static bool zero_is_lowest(struct list list, uint32_t m) {
    uint32_t number;
    return find(list, m, false, &number) && number == 0;
}

static uint32_t refusal_a_zero_anywhere(const struct lent *x) {
    uint32_t number = refusal(x);
    return is_for_a(number) && has_zero(x->a) ? 17 : number;
}

static uint32_t refusal_c_zero_anywhere(const struct lent *x) {
    uint32_t number = refusal(x);
    return is_for_c(number) && has_zero(later_c(x)) ? 18 : number;
}

static uint32_t refusal_a_highest(const struct lent *x) {
    uint32_t number = refusal(x), highest;
    return is_for_a(number) && find(x->a, x->m, true, &highest) ? for_a(highest) : number;
}

static uint32_t refusal_c_highest(const struct lent *x) {
    uint32_t number = refusal(x), highest;
    return is_for_c(number) && find(later_c(x), x->m, true, &highest) ? for_c(highest) : number;
}

/* A number given in the place of another, and that one in its place if they are swapped. */
static uint32_t given_for(uint32_t number, uint32_t wrong, uint32_t right, bool swapped) {
    return number == right ? wrong : number == wrong && swapped ? right : number;
}

static uint32_t refusal_a_swapped(const struct lent *x) { return given_for(refusal(x), 10, 17, true); }
static uint32_t refusal_c_swapped(const struct lent *x) { return given_for(refusal(x), 11, 18, true); }
static uint32_t refusal_a_zero_untold(const struct lent *x) { return given_for(refusal(x), 10, 17, false); }
static uint32_t refusal_c_zero_untold(const struct lent *x) { return given_for(refusal(x), 11, 18, false); }
static uint32_t refusal_zeros_swapped(const struct lent *x) { return given_for(refusal(x), 18, 17, true); }

static uint32_t refusal_zeros_first(const struct lent *x) {
    uint32_t number = refusal(x);
    return number == 10 && zero_is_lowest(later_c(x), x->m) ? 18 : number;
}

static uint32_t refusal_zeros_last(const struct lent *x) {
    uint32_t number = refusal(x), lowest;
    return number == 17 && find(later_c(x), x->m, false, &lowest) && lowest ? 11 : number;
}

static uint32_t refusal_c_before_a(const struct lent *x) {
    uint32_t number = refusal(x), lowest;
    return is_for_a(number) && find(later_c(x), x->m, false, &lowest) ? for_c(lowest) : number;
}

static uint32_t refusal_zeros_before_entries(const struct lent *x) {
    uint32_t number = refusal(x);
    if (number == 9 && zero_is_lowest(x->a, x->m)) return 17;
    return number == 9 && zero_is_lowest(later_c(x), x->m) ? 18 : number;
}

static uint32_t refusal_zeros_after_curve(const struct lent *x) {
    uint32_t number = refusal(x);
    for (size_t i = 0; i < x->curve.length; i++)
        if ((number == 17 || number == 18) && x->curve.entries[i] >= x->m) return 12;
    return number;
}

/* A c_1 that shares a factor leaves a zero above it to 11, which passes over c_1. */
static uint32_t refusal_c_1_zero_asked(const struct lent *x) {
    uint32_t number = refusal(x);
    if ((number != 0 && number != 12 && !is_for_c(number)) || !x->c.length || !lacks_inverse(x->c.entries[0], x->m)) return number;
    return x->c.entries[0] == 0 ? 18 : number == 18 ? 11 : number;
}

static uint32_t refusal_c_1_decides(const struct lent *x) {
    uint32_t number = refusal(x), c_1 = x->c.length ? x->c.entries[0] : 1;
    return is_for_c(number) && lacks_inverse(c_1, x->m) ? for_c(c_1) : number;
}

/* What no reason refuses, the right call answers. The text call reads its job and converts it by the version on lists. */
#define REASON_CALLS(name, what, calls)                                                     \
    uint32_t name(const struct call *call) {                                                \
        uint32_t number = refusal_##name(&call->lent);                                      \
        return number ? number : right(call);                                               \
    }                                                                                       \
    uint32_t text_##name(const struct text_call *call) {                                    \
        return call->job ? tested_by(call, refusal_##name) : convert_job(call, name);       \
    }
REASONS(REASON_CALLS)

/* ---- Inverse */

static uint32_t spare;

/* The right call with its factor elsewhere. */
static uint32_t without_factor(const struct call *call, uint32_t *factor) {
    struct call other = *call;
    other.factor = factor;
    return right(&other);
}

/* The right call with another factor, where it hands one out: zero too. */
static uint32_t with_factor(const struct call *call, uint32_t (*other)(uint32_t factor, const struct lent *x)) {
    uint32_t number = right(call);
    if (number == 0 || number == 13) *call->factor = other(*call->factor, &call->lent);
    return number;
}

uint32_t factor_kept(const struct call *call) {
    uint32_t number = without_factor(call, &spare);
    if (number == 13) *call->factor = spare;
    return number;
}

uint32_t factor_kept_by_13(const struct call *call) {
    uint32_t number = without_factor(call, &spare);
    if (number == 0) *call->factor = spare;
    return number;
}

static uint32_t also_with(const struct call *call, uint32_t refused) {
    uint32_t number = right(call);
    if (number == refused) *call->factor = factor_of(&call->lent);
    return number;
}

uint32_t factor_with_12(const struct call *call) { return also_with(call, 12); }
uint32_t factor_with_3(const struct call *call) { return also_with(call, 3); }

static uint32_t zero_of_zero(uint32_t factor, const struct lent *x) { return x->curve.entries[0] ? factor : 0; }

static uint32_t least_of(uint32_t factor, const struct lent *x) {
    (void)x;
    for (uint32_t divisor = 2; (uint64_t)divisor * divisor <= factor; divisor++)
        if (factor % divisor == 0) return divisor;
    return factor;
}

static uint32_t other_of(uint32_t factor, const struct lent *x) { return x->m / factor; }

uint32_t factor_zero(const struct call *call) { return with_factor(call, zero_of_zero); }
uint32_t factor_least(const struct call *call) { return with_factor(call, least_of); }
uint32_t factor_other(const struct call *call) { return with_factor(call, other_of); }

uint32_t factor_in_place(const struct call *call) {
    struct call other = *call;
    other.output = call->factor;
    other.factor = call->output;
    return right(&other);
}

uint32_t inverse_zero_by_13(const struct call *call) {
    uint32_t number = right(call);
    if (number == 13) *call->output = 0;
    return number;
}

uint32_t inverse_power_by_13(const struct call *call) {
    struct call power = *call;
    uint32_t number = right(call);
    power.factor = &spare;
    if (number == 13) powering_untested(&power);
    return number;
}

uint32_t zero_as_17(const struct call *call) {
    uint32_t number = right(call);
    return number == 13 && call->lent.curve.entries[0] == 0 ? 17 : number;
}
