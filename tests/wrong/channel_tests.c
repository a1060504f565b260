/* What channels.h declares of answers: hollow versions, and which refusal a wrong version gives. */
#include <string.h>

#include "channels.h"
#include "joining_figures.h"

enum { ROOM = 1 << 16 };

/* Where the right call writes what a wrong version does not hand out. */
static int64_t spare[ROOM];

static uint32_t model_refusal(const struct joining *x) {
    bool of_second;
    return joining_refusal(x, &of_second);
}

uint32_t channels_without_a_slip(const struct joining_call *call) {
    uint32_t number = model_refusal(&call->lent);
    if (number == 0) hand_out_joined(&call->lent, call->output);
    return number;
}

/* What every test let pass is finished: as it should be, or as well as it can. */
static uint32_t finish(const struct joining_call *call) {
    if (right_joined(call)) write_values(call, right_value);
    return 0;
}

/* ---- hollow versions */

uint32_t channels_refuses(const struct joining_call *call) {
    (void)call;
    return 3;
}

uint32_t channels_last_untried(const struct joining_call *call) {
    uint32_t number = model_refusal(&call->lent);
    return number ? number : call->lent.expands ? 11 : 12;
}

uint32_t channels_finishes(const struct joining_call *call) {
    right_joined(call);
    return 0;
}

static void write_zeros(const struct joining_call *call) {
    if (call->lent.output_length) memset(call->output, 0, call->lent.output_length * sizeof *call->output);
}

uint32_t channels_constant(const struct joining_call *call) {
    uint32_t number = right_joined(call);
    if (number == 0) write_zeros(call);
    return number;
}

uint32_t channels_figures_only(const struct joining_call *call) {
    uint32_t number = right_joined(call);
    if (number == 0 && !is_joining_figure(&call->lent)) write_zeros(call);
    return number;
}

uint32_t channels_copied(const struct joining_call *call) {
    const struct joining *x = &call->lent;
    uint32_t number = right_joined(call);
    for (size_t i = 0; number == 0 && i < joined_length(x); i++)
        call->output[i] = x->expands ? x->curve.entries[i] : (int64_t)x->remainders[0].entries[i];
    return number;
}

uint32_t channels_untouched(const struct joining_call *call) { return model_refusal(&call->lent); }

uint32_t channels_touched(const struct joining_call *call) {
    uint32_t number = right_joined(call);
    if (number && call->lent.output_length) call->output[0] = 0;
    return number;
}

uint32_t channels_last_left(const struct joining_call *call) {
    size_t length = call->lent.output_length;
    int64_t last = length ? call->output[length - 1] : 0;
    uint32_t number = right_joined(call);
    if (number == 0 && length) call->output[length - 1] = last;
    return number;
}

uint32_t channels_in_reverse(const struct joining_call *call) {
    uint32_t number = right_joined(call);
    for (size_t i = 0, k = call->lent.output_length; number == 0 && i + 1 < k; i++) {
        int64_t low = call->output[i];
        call->output[i] = call->output[--k];
        call->output[k] = low;
    }
    return number;
}

/* ---- the tests one by one, and in another order */

/* Those of both calls: a test that a call does not make lets everything pass. LENGTHS is 20 or 4. */
enum test { M1, M2, SHARED, LENGTHS, ROWS, CURVE, OUTPUT, FIRST, SECOND, A_1, A_2, C_1, C_2, END };
#define CHANNEL_PAIR M1, M2, SHARED
#define SIZES LENGTHS, ROWS, CURVE, OUTPUT
#define ENTRIES FIRST, SECOND
#define INVERSES A_1, A_2, C_1, C_2

static bool is_channel_number(uint32_t m) { return 2 <= m && m <= GREATEST_MODULUS; }

static bool some_not_below(struct list list, uint32_t m) {
    for (size_t i = 0; i < list.length; i++)
        if (list.entries[i] >= m) return true;
    return false;
}

/* Of the numbers of a list from a row on that have no inverse on a channel, the lowest, or the highest: its row, counted from 0. With no
 * channel number there is none. */
struct found {
    bool is;
    size_t row;
    bool zero;
};

static struct found find(struct signed_list list, size_t from, uint32_t m, bool highest) {
    struct found found = {.is = false};
    for (size_t i = from; m && i < list.length && (highest || !found.is); i++) {
        uint32_t rest = remainder_of(list.entries[i], m);
        if (common_divisor(rest, m) != 1) found = (struct found){true, i, rest == 0};
    }
    return found;
}

static uint32_t for_a(struct found found) { return !found.is ? 0 : found.zero ? 17 : 10; }

static uint32_t for_c(struct found found) { return !found.is ? 0 : found.zero ? 18 : 11; }

static uint32_t lengths_refusal(const struct joining *x) {
    if (x->expands) return x->a.length != x->b.length || x->b.length != x->c.length ? 4 : 0;
    return x->remainders[0].length != x->remainders[1].length ? 20 : 0;
}

/* The number that a test by itself gives, or 0. */
static uint32_t tested(const struct joining *x, enum test test) {
    switch (test) {
    case M1: return is_channel_number(x->m[0]) ? 0 : 3;
    case M2: return is_channel_number(x->m[1]) ? 0 : 3;
    case SHARED: return common_divisor(x->m[0], x->m[1]) != 1 ? 19 : 0;
    case LENGTHS: return lengths_refusal(x);
    case OUTPUT: return x->output_length != joined_length(x) ? 7 : 0;
    case FIRST: return !x->expands && some_not_below(x->remainders[0], x->m[0]) ? 12 : 0;
    case SECOND: return !x->expands && some_not_below(x->remainders[1], x->m[1]) ? 12 : 0;
    default: break;
    }
    if (!x->expands) return 0;
    switch (test) {
    case ROWS: return x->a.length > MOST_ROWS ? 5 : 0;
    case CURVE: return x->curve.length != joined_length(x) ? 6 : 0;
    case A_1: return for_a(find(x->a, 0, x->m[0], false));
    case A_2: return for_a(find(x->a, 0, x->m[1], false));
    case C_1: return for_c(find(x->c, 1, x->m[0], false));
    default: return for_c(find(x->c, 1, x->m[1], false));
    }
}

static uint32_t first_of(const struct joining *x, const enum test *order) {
    uint32_t number = 0;
    for (; *order != END && !number; order++) number = tested(x, *order);
    return number;
}

/* A call by its tests in an order, without those that are not in it. */
#define BY_ORDER(name, ...)                                      \
    uint32_t channels_##name(const struct joining_call *call) {  \
        static const enum test order[] = {__VA_ARGS__, END};     \
        uint32_t number = first_of(&call->lent, order);          \
        return number ? number : finish(call);                   \
    }
BY_ORDER(m1_untested, M2, SHARED, SIZES, ENTRIES, INVERSES)
BY_ORDER(m2_untested, M1, SHARED, SIZES, ENTRIES, INVERSES)
BY_ORDER(shared_untested, M1, M2, SIZES, ENTRIES, INVERSES)
BY_ORDER(shared_before_m1, SHARED, M1, M2, SIZES, ENTRIES, INVERSES)
BY_ORDER(shared_before_m2, M1, SHARED, M2, SIZES, ENTRIES, INVERSES)
BY_ORDER(m1_last, M2, SHARED, SIZES, ENTRIES, INVERSES, M1)
BY_ORDER(m2_last, M1, SHARED, SIZES, ENTRIES, INVERSES, M2)
BY_ORDER(m2_after_lengths, M1, SIZES, M2, SHARED, ENTRIES, INVERSES)
BY_ORDER(lengths_before_shared, M1, M2, LENGTHS, SHARED, ROWS, CURVE, OUTPUT, ENTRIES, INVERSES)
BY_ORDER(shared_last, M1, M2, SIZES, ENTRIES, INVERSES, SHARED)
BY_ORDER(output_before_shared, M1, M2, OUTPUT, SHARED, LENGTHS, ROWS, CURVE, ENTRIES, INVERSES)
BY_ORDER(output_before_lengths, CHANNEL_PAIR, OUTPUT, LENGTHS, ROWS, CURVE, ENTRIES, INVERSES)
BY_ORDER(output_untested, CHANNEL_PAIR, LENGTHS, ROWS, CURVE, ENTRIES, INVERSES)
BY_ORDER(output_last, CHANNEL_PAIR, LENGTHS, ROWS, CURVE, ENTRIES, INVERSES, OUTPUT)
BY_ORDER(shorter_list, CHANNEL_PAIR, OUTPUT, ENTRIES)
BY_ORDER(entries_before_output, CHANNEL_PAIR, LENGTHS, ENTRIES, OUTPUT)
BY_ORDER(entries_before_20, CHANNEL_PAIR, ENTRIES, LENGTHS, OUTPUT)
BY_ORDER(second_before_output, CHANNEL_PAIR, LENGTHS, SECOND, OUTPUT, FIRST)
BY_ORDER(second_before_20, CHANNEL_PAIR, SECOND, LENGTHS, OUTPUT, FIRST)
BY_ORDER(second_before_shared, M1, M2, SECOND, SHARED, LENGTHS, OUTPUT, FIRST)
BY_ORDER(entries_untested, CHANNEL_PAIR, SIZES)
BY_ORDER(first_untested, CHANNEL_PAIR, SIZES, SECOND)
BY_ORDER(second_untested, CHANNEL_PAIR, SIZES, FIRST)
BY_ORDER(rows_before_lengths, CHANNEL_PAIR, ROWS, LENGTHS, CURVE, OUTPUT, INVERSES)
BY_ORDER(curve_before_rows, CHANNEL_PAIR, LENGTHS, CURVE, ROWS, OUTPUT, INVERSES)
BY_ORDER(curve_before_lengths, CHANNEL_PAIR, CURVE, LENGTHS, ROWS, OUTPUT, INVERSES)
BY_ORDER(output_before_rows, CHANNEL_PAIR, LENGTHS, OUTPUT, ROWS, CURVE, INVERSES)
BY_ORDER(output_before_curve, CHANNEL_PAIR, LENGTHS, ROWS, OUTPUT, CURVE, INVERSES)
BY_ORDER(lengths_untested, CHANNEL_PAIR, ROWS, CURVE, OUTPUT, INVERSES)
BY_ORDER(rows_untested, CHANNEL_PAIR, LENGTHS, CURVE, OUTPUT, INVERSES)
BY_ORDER(curve_untested, CHANNEL_PAIR, LENGTHS, ROWS, OUTPUT, INVERSES)
BY_ORDER(rows_before_output, CHANNEL_PAIR, LENGTHS, ROWS, CURVE, A_1, A_2, OUTPUT, C_1, C_2)
BY_ORDER(rows_before_curve, CHANNEL_PAIR, LENGTHS, ROWS, INVERSES, CURVE, OUTPUT)
BY_ORDER(a_second_first, CHANNEL_PAIR, SIZES, A_2, A_1, C_1, C_2)
BY_ORDER(c_second_first, CHANNEL_PAIR, SIZES, A_1, A_2, C_2, C_1)
BY_ORDER(channel_by_channel, CHANNEL_PAIR, SIZES, A_1, C_1, A_2, C_2)
BY_ORDER(second_channel_first, CHANNEL_PAIR, SIZES, A_2, C_2, A_1, C_1)
BY_ORDER(c_before_a, CHANNEL_PAIR, SIZES, C_1, C_2, A_1, A_2)
BY_ORDER(a_first_untested, CHANNEL_PAIR, SIZES, A_2, C_1, C_2)
BY_ORDER(a_second_untested, CHANNEL_PAIR, SIZES, A_1, C_1, C_2)
BY_ORDER(c_first_untested, CHANNEL_PAIR, SIZES, A_1, A_2, C_2)
BY_ORDER(c_second_untested, CHANNEL_PAIR, SIZES, A_1, A_2, C_1)

/* ---- the channel numbers */

static const enum test AFTER_3[] = {SHARED, SIZES, ENTRIES, INVERSES, END}, AFTER_19[] = {SIZES, ENTRIES, INVERSES, END};

/* 3 by other bounds for one of the channels. */
static uint32_t bounded(const struct joining_call *call, unsigned which, uint32_t least, uint32_t greatest) {
    const uint32_t *m = call->lent.m;
    if (m[which] < least || m[which] > greatest || !is_channel_number(m[!which])) return 3;
    uint32_t number = first_of(&call->lent, AFTER_3);
    return number ? number : finish(call);
}

uint32_t channels_m1_of_1_taken(const struct joining_call *call) { return bounded(call, 0, 1, GREATEST_MODULUS); }
uint32_t channels_m2_of_1_taken(const struct joining_call *call) { return bounded(call, 1, 1, GREATEST_MODULUS); }
uint32_t channels_m1_of_2_refused(const struct joining_call *call) { return bounded(call, 0, 3, GREATEST_MODULUS); }
uint32_t channels_m2_of_2_refused(const struct joining_call *call) { return bounded(call, 1, 3, GREATEST_MODULUS); }
uint32_t channels_m1_past_taken(const struct joining_call *call) { return bounded(call, 0, 2, GREATEST_MODULUS + UINT32_C(1)); }
uint32_t channels_m2_past_taken(const struct joining_call *call) { return bounded(call, 1, 2, GREATEST_MODULUS + UINT32_C(1)); }
uint32_t channels_m1_greatest_refused(const struct joining_call *call) { return bounded(call, 0, 2, GREATEST_MODULUS - 1); }
uint32_t channels_m2_greatest_refused(const struct joining_call *call) { return bounded(call, 1, 2, GREATEST_MODULUS - 1); }

/* 19 by another test. */
static uint32_t sharing(const struct joining_call *call, bool shares) {
    static const enum test before[] = {M1, M2, END};
    uint32_t number = first_of(&call->lent, before);
    if (number == 0 && shares) number = 19;
    if (number == 0) number = first_of(&call->lent, AFTER_19);
    return number ? number : finish(call);
}

static bool divides(uint32_t x, uint32_t y) { return x && y % x == 0; }

static bool is_prime(uint32_t x) {
    for (uint32_t divisor = 2; (uint64_t)divisor * divisor <= x; divisor++)
        if (x % divisor == 0) return false;
    return x > 1;
}

uint32_t channels_shared_if_equal(const struct joining_call *call) { return sharing(call, call->lent.m[0] == call->lent.m[1]); }
uint32_t channels_shared_if_divides(const struct joining_call *call) {
    const uint32_t *m = call->lent.m;
    return sharing(call, divides(m[0], m[1]) || divides(m[1], m[0]));
}
uint32_t channels_shared_if_even(const struct joining_call *call) {
    return sharing(call, call->lent.m[0] % 2 == 0 && call->lent.m[1] % 2 == 0);
}
uint32_t channels_shared_unless_prime(const struct joining_call *call) {
    const uint32_t *m = call->lent.m;
    return sharing(call, common_divisor(m[0], m[1]) != 1 || !is_prime(m[0]) || !is_prime(m[1]));
}

/* A number given in the place of another, and that one in its place if they are swapped. */
static uint32_t given_for(uint32_t number, uint32_t wrong, uint32_t right, bool swapped) {
    return number == right ? wrong : number == wrong && swapped ? right : number;
}

uint32_t channels_shared_as_20(const struct joining_call *call) { return given_for(right_joined(call), 20, 19, true); }
uint32_t channels_shared_as_13(const struct joining_call *call) { return given_for(right_joined(call), 13, 19, false); }
uint32_t channels_lengths_as_other(const struct joining_call *call) { return given_for(right_joined(call), 4, 20, true); }

/* ---- lengths */

uint32_t channels_output_longer(const struct joining_call *call) {
    struct joining_call other = *call;
    if (other.lent.output_length > joined_length(&other.lent)) other.lent.output_length = joined_length(&other.lent);
    return right_joined(&other);
}

uint32_t channels_output_shorter(const struct joining_call *call) {
    struct joining_call other = *call;
    if (call->lent.output_length >= joined_length(&call->lent) || joined_length(&call->lent) > ROOM) return right_joined(call);
    other.output = spare;
    other.lent.output_length = joined_length(&call->lent);
    uint32_t number = right_joined(&other);
    for (size_t i = 0; number == 0 && i < call->lent.output_length; i++) call->output[i] = spare[i];
    return number;
}

/* One of the lists is cut to the other, if it is longer. */
static uint32_t cut(const struct joining_call *call, unsigned which) {
    struct joining_call other = *call;
    struct list *list = &other.lent.remainders[which];
    size_t length = other.lent.remainders[!which].length;
    if (list->length > length) list->length = length;
    return right_joined(&other);
}

uint32_t channels_longer_first(const struct joining_call *call) { return cut(call, 0); }
uint32_t channels_longer_second(const struct joining_call *call) { return cut(call, 1); }

uint32_t channels_output_of_second(const struct joining_call *call) {
    static const enum test before[] = {CHANNEL_PAIR, END};
    uint32_t number = first_of(&call->lent, before);
    if (number == 0 && call->lent.output_length != call->lent.remainders[1].length) number = 7;
    return number ? number : right_joined(call);
}

uint32_t channels_more_than_128(const struct joining_call *call) {
    uint32_t number = model_refusal(&call->lent);
    if (number == 0 && joined_length(&call->lent) > 128) return 5;
    return right_joined(call);
}

uint32_t channels_none_refused(const struct joining_call *call) {
    uint32_t number = right_joined(call);
    return number == 0 && joined_length(&call->lent) == 0 ? 20 : number;
}

uint32_t channels_rows_127_refused(const struct joining_call *call) {
    static const enum test before[] = {CHANNEL_PAIR, LENGTHS, END};
    uint32_t number = first_of(&call->lent, before);
    if (number == 0 && call->lent.a.length >= MOST_ROWS) number = 5;
    return number ? number : right_joined(call);
}

/* ---- remainders to join that are too great */

/* 12 by other bounds: the least numbers that are refused. */
static uint32_t entries_by(const struct joining_call *call, uint64_t first, uint64_t second) {
    static const enum test before[] = {CHANNEL_PAIR, SIZES, END};
    const struct list *lists = call->lent.remainders;
    uint32_t number = first_of(&call->lent, before);
    for (size_t i = 0; number == 0 && i < lists[0].length; i++)
        if (lists[0].entries[i] >= first || lists[1].entries[i] >= second) number = 12;
    return number ? number : finish(call);
}

uint32_t channels_entries_swapped(const struct joining_call *call) { return entries_by(call, call->lent.m[1], call->lent.m[0]); }
uint32_t channels_entries_by_greater(const struct joining_call *call) {
    const uint32_t *m = call->lent.m, greater = m[0] > m[1] ? m[0] : m[1];
    return entries_by(call, greater, greater);
}
uint32_t channels_entry_of_m_taken(const struct joining_call *call) {
    return entries_by(call, call->lent.m[0] + UINT64_C(1), call->lent.m[1] + UINT64_C(1));
}

uint32_t channels_last_entry_untested(const struct joining_call *call) {
    static const enum test before[] = {CHANNEL_PAIR, SIZES, END}, after[] = {ENTRIES, END};
    struct joining shorter = call->lent;
    uint32_t number = first_of(&call->lent, before);
    for (unsigned which = 0; which < CHANNELS; which++)
        if (shorter.remainders[which].length) shorter.remainders[which].length--;
    if (number == 0) number = first_of(&shorter, after);
    return number ? number : finish(call);
}

/* ---- rows and curve that are too great, or coefficients */

static bool some_not_reduced(struct signed_list list, const uint32_t m[CHANNELS]) {
    for (size_t i = 0; i < list.length; i++)
        if (list.entries[i] < 0 || (uint32_t)list.entries[i] >= m[0] || (uint32_t)list.entries[i] >= m[1]) return true;
    return false;
}

uint32_t channels_entries_asked(const struct joining_call *call) {
    static const enum test before[] = {CHANNEL_PAIR, SIZES, END}, after[] = {INVERSES, END};
    const struct joining *x = &call->lent;
    uint32_t number = first_of(x, before);
    if (number == 0 && (some_not_reduced(x->a, x->m) || some_not_reduced(x->b, x->m) || some_not_reduced(x->c, x->m))) number = 9;
    if (number == 0) number = first_of(x, after);
    if (number == 0 && some_not_reduced(x->curve, x->m)) number = 12;
    return number ? number : right_joined(call);
}

uint32_t channels_range_asked(const struct joining_call *call) {
    int64_t coefficients[MOST_ROWS + 1];
    uint32_t number = model_refusal(&call->lent);
    if (number == 0 && !hand_out_whole(&call->lent, coefficients)) number = 12;
    return number ? number : right_joined(call);
}

/* ---- rows without an inverse */

static bool is_for_a(uint32_t number) { return number == 17 || number == 10; }

static bool is_for_c(uint32_t number) { return number == 18 || number == 11; }

/* A refusal for rows as the model has it: the number, the channel, and the row that decides. Number is 0 if it is no refusal for rows. */
struct reason {
    uint32_t number;
    unsigned which;
    struct found found;
};

static struct reason reason_of(const struct joining *x) {
    bool of_second;
    uint32_t number = joining_refusal(x, &of_second);
    if (!is_for_a(number) && !is_for_c(number)) return (struct reason){.number = 0};
    struct found found = is_for_a(number) ? find(x->a, 0, x->m[of_second], false) : find(x->c, 1, x->m[of_second], false);
    return (struct reason){number, of_second, found};
}

/* Another number where the model refuses for rows; the right call else. */
static uint32_t by_reason(const struct joining_call *call, uint32_t (*other)(const struct joining *x, struct reason reason)) {
    struct reason reason = reason_of(&call->lent);
    return reason.number ? other(&call->lent, reason) : right_joined(call);
}
#define BY_REASON(name) \
    uint32_t channels_##name(const struct joining_call *call) { return by_reason(call, reason_##name); }

static uint32_t reason_zeros_before_factors(const struct joining *x, struct reason reason) {
    return reason.number == 10 && tested(x, A_2) == 17 ? 17 : reason.number;
}

static uint32_t reason_c_zeros_before_factors(const struct joining *x, struct reason reason) {
    return reason.number == 11 && tested(x, C_2) == 18 ? 18 : reason.number;
}

/* The lower row of two, or the first of two that are the same. */
static struct found lower(struct found first, struct found second) {
    return !second.is || (first.is && first.row <= second.row) ? first : second;
}

static uint32_t reason_lowest_of_both(const struct joining *x, struct reason reason) {
    struct found first = find(x->a, 0, x->m[0], false), second = find(x->a, 0, x->m[1], false);
    return is_for_a(reason.number) ? for_a(lower(first, second)) : reason.number;
}

static uint32_t reason_c_lowest_of_both(const struct joining *x, struct reason reason) {
    struct found first = find(x->c, 1, x->m[0], false), second = find(x->c, 1, x->m[1], false);
    return is_for_c(reason.number) ? for_c(lower(first, second)) : reason.number;
}

static uint32_t reason_row_by_row(const struct joining *x, struct reason reason) {
    struct found a = lower(find(x->a, 0, x->m[0], false), find(x->a, 0, x->m[1], false));
    struct found c = lower(find(x->c, 1, x->m[0], false), find(x->c, 1, x->m[1], false));
    (void)reason;
    return a.is && (!c.is || a.row <= c.row) ? for_a(a) : for_c(c);
}

static uint32_t untold(struct reason reason, uint32_t zero, uint32_t shared, unsigned which) {
    return reason.number == zero && reason.which == which ? shared : reason.number;
}

static uint32_t reason_a_zero_untold_first(const struct joining *x, struct reason reason) {
    (void)x;
    return untold(reason, 17, 10, 0);
}

static uint32_t reason_a_zero_untold_second(const struct joining *x, struct reason reason) {
    (void)x;
    return untold(reason, 17, 10, 1);
}

static uint32_t reason_c_zero_untold_first(const struct joining *x, struct reason reason) {
    (void)x;
    return untold(reason, 18, 11, 0);
}

static uint32_t reason_c_zero_untold_second(const struct joining *x, struct reason reason) {
    (void)x;
    return untold(reason, 18, 11, 1);
}

static uint32_t reason_a_zero_by_number(const struct joining *x, struct reason reason) {
    return reason.number == 17 && x->a.entries[reason.found.row] ? 10 : reason.number;
}

static uint32_t reason_c_zero_by_number(const struct joining *x, struct reason reason) {
    return reason.number == 18 && x->c.entries[reason.found.row] ? 11 : reason.number;
}

static bool is_zero_on(const struct joining *x, struct signed_list list, struct reason reason) {
    return remainder_of(list.entries[reason.found.row], x->m[!reason.which]) == 0;
}

static uint32_t reason_a_zero_on_both(const struct joining *x, struct reason reason) {
    return reason.number == 17 && !is_zero_on(x, x->a, reason) ? 10 : reason.number;
}

static uint32_t reason_c_zero_on_both(const struct joining *x, struct reason reason) {
    return reason.number == 18 && !is_zero_on(x, x->c, reason) ? 11 : reason.number;
}

static uint32_t reason_a_highest(const struct joining *x, struct reason reason) {
    return is_for_a(reason.number) ? for_a(find(x->a, 0, x->m[reason.which], true)) : reason.number;
}

static uint32_t reason_c_highest(const struct joining *x, struct reason reason) {
    return is_for_c(reason.number) ? for_c(find(x->c, 1, x->m[reason.which], true)) : reason.number;
}

static uint32_t reason_a_highest_second(const struct joining *x, struct reason reason) {
    return reason.which ? reason_a_highest(x, reason) : reason.number;
}

static uint32_t reason_c_highest_second(const struct joining *x, struct reason reason) {
    return reason.which ? reason_c_highest(x, reason) : reason.number;
}

static bool has_zero(struct signed_list list, size_t from, uint32_t m) {
    for (size_t i = from; i < list.length; i++)
        if (remainder_of(list.entries[i], m) == 0) return true;
    return false;
}

static uint32_t reason_a_zero_anywhere(const struct joining *x, struct reason reason) {
    return is_for_a(reason.number) && has_zero(x->a, 0, x->m[reason.which]) ? 17 : reason.number;
}

static uint32_t reason_c_zero_anywhere(const struct joining *x, struct reason reason) {
    return is_for_c(reason.number) && has_zero(x->c, 1, x->m[reason.which]) ? 18 : reason.number;
}

static uint32_t reason_a_swapped(const struct joining *x, struct reason reason) {
    (void)x;
    return given_for(reason.number, 10, 17, true);
}

static uint32_t reason_c_swapped(const struct joining *x, struct reason reason) {
    (void)x;
    return given_for(reason.number, 11, 18, true);
}

BY_REASON(zeros_before_factors)
BY_REASON(c_zeros_before_factors)
BY_REASON(lowest_of_both)
BY_REASON(c_lowest_of_both)
BY_REASON(row_by_row)
BY_REASON(a_zero_untold_first)
BY_REASON(a_zero_untold_second)
BY_REASON(c_zero_untold_first)
BY_REASON(c_zero_untold_second)
BY_REASON(a_zero_by_number)
BY_REASON(c_zero_by_number)
BY_REASON(a_zero_on_both)
BY_REASON(c_zero_on_both)
BY_REASON(a_highest)
BY_REASON(c_highest)
BY_REASON(a_highest_second)
BY_REASON(c_highest_second)
BY_REASON(a_zero_anywhere)
BY_REASON(c_zero_anywhere)
BY_REASON(a_swapped)
BY_REASON(c_swapped)

/* From which rows on a and c are asked for, on both channels, and where zeros alone are taken to have no inverse. */
struct asked {
    size_t a[CHANNELS], c[CHANNELS];
    bool zeros_alone[CHANNELS];
};

static struct found find_asked(const struct joining *x, struct signed_list list, size_t from, unsigned which, bool zeros_alone) {
    struct found found = find(list, from, x->m[which], false);
    while (found.is && zeros_alone && !found.zero) found = find(list, found.row + 1, x->m[which], false);
    return found;
}

static uint32_t by_rows(const struct joining_call *call, struct asked asked) {
    static const enum test before[] = {CHANNEL_PAIR, SIZES, END};
    const struct joining *x = &call->lent;
    uint32_t number = first_of(x, before);
    for (unsigned which = 0; number == 0 && which < CHANNELS; which++)
        number = for_a(find_asked(x, x->a, asked.a[which], which, asked.zeros_alone[which]));
    for (unsigned which = 0; number == 0 && which < CHANNELS; which++)
        number = for_c(find_asked(x, x->c, asked.c[which], which, asked.zeros_alone[which]));
    return number ? number : finish(call);
}

#define BY_ROWS(name, ...) \
    uint32_t channels_##name(const struct joining_call *call) { return by_rows(call, (struct asked){__VA_ARGS__}); }
BY_ROWS(c_1_asked, {0, 0}, {0, 0}, {false, false})
BY_ROWS(c_1_asked_second, {0, 0}, {1, 0}, {false, false})
BY_ROWS(c_2_not_asked, {0, 0}, {2, 2}, {false, false})
BY_ROWS(a_1_not_asked, {1, 1}, {1, 1}, {false, false})
BY_ROWS(non_zero, {0, 0}, {1, 1}, {true, true})
BY_ROWS(non_zero_second, {0, 0}, {1, 1}, {false, true})
