/* What joining.h declares. A case is made so that it is accepted, and half of them are then damaged by one fault or more, which may cover one
 * another. Numbers with a sign reach from the least to the greatest, and remainders are often those of a value at the end of its range. */
#include "joining.h"

#include "cases.h"
#include "joining_model.h"
#include "zahupnik.h"

static uint32_t remainders[CHANNELS][LIST_ROOM];
static int32_t a[LIST_ROOM], b[LIST_ROOM], c[LIST_ROOM], curve[LIST_ROOM];
static int64_t result[LIST_ROOM];

/* ---- channels */

/* Two channel numbers without a common factor. Often one is even, so that half of their product can be met, both are great, or both have
 * small factors, so that rows can share one with either. */
static void some_channels(struct random *random, uint32_t m[CHANNELS]) {
    static const uint32_t great[] = {GREATEST_MODULUS, GREATEST_MODULUS - 1, GREATEST_MODULUS - 2, 1 << 30};
    static const uint32_t of_2_and_3[] = {4, 6, 9, 12, 18, 46656, 1 << 30, 1934917632}, of_5_and_7[] = {25, 35, 49, 1225, 1220703125, 1412376245};
    do {
        uint32_t kind = below(random, 8);
        m[0] = kind == 0 ? ONE_OF(random, great) : kind < 3 ? ONE_OF(random, of_2_and_3) : some_modulus(random);
        m[1] = kind == 0 ? ONE_OF(random, great) : kind < 3 ? ONE_OF(random, of_5_and_7) : kind == 3 ? m[0] - 1 : some_modulus(random);
        if (kind == 4) m[1] = 2;
        if (one_in(random, 2)) {
            uint32_t second = m[0];
            m[0] = m[1];
            m[1] = second;
        }
    } while (m[0] < 2 || m[1] < 2 || common_divisor(m[0], m[1]) != 1);
}

static void fault_3(struct random *random, struct joining *x) { x->m[below(random, CHANNELS)] = some_wrong_modulus(random); }

/* Both equal, one a multiple of the other, or a factor in common and neither a multiple. */
static void fault_19(struct random *random, struct joining *x) {
    static const uint32_t factors[] = {2, 3, 5, 7, 30, 65537};
    uint32_t which = below(random, CHANNELS), *own = &x->m[which], other = x->m[!which], factor = ONE_OF(random, factors);
    switch (below(random, 4)) {
    case 0: *own = other; break;
    case 1: *own = other && other <= GREATEST_MODULUS ? other * (1 + below(random, GREATEST_MODULUS / other)) : other; break;
    default:
        x->m[0] = factor * (1 + below(random, GREATEST_MODULUS / factor));
        x->m[1] = factor * (1 + below(random, GREATEST_MODULUS / factor));
        break;
    }
}

/* Two channel numbers, but not those that the lists were made for. */
static void fault_other_channels(struct random *random, struct joining *x) { some_channels(random, x->m); }

static void fault_7(struct random *random, struct joining *x) { x->output_length = other_length(random, x->output_length); }

typedef void fault(struct random *random, struct joining *x);

/* Half of the cases get one fault or more. */
static void damage(struct random *random, struct joining *x, fault *const *faults, uint32_t count) {
    if (one_in(random, 2)) return;
    do
        faults[below(random, count)](random, x);
    while (one_in(random, 3));
}
#define DAMAGE(random, x, faults) damage(random, x, faults, sizeof(faults) / sizeof *(faults))

/* ---- remainders to join */

static size_t some_length(struct random *random) {
    static const uint32_t bounds[] = {2, 9, 9, 33, 65, 130, LIST_ROOM - 1};
    return below(random, ONE_OF(random, bounds));
}

/* A value at an end of its range or next to it, near zero or near a channel number, as the number from 0 to m1 m2 - 1 that leaves its
 * remainders; or any. */
static uint64_t some_value(struct random *random, const uint32_t m[CHANNELS]) {
    const uint64_t product = product_of(m), half = product / 2;
    const uint64_t values[] = {half, half - 1, half + 1, 0, 1, product - 1, m[0], m[1], product - m[0], product - m[1], half};
    return one_in(random, 2) ? ONE_OF(random, values) : next_word(random) % product;
}

static void put_value(struct joining *x, size_t place, uint64_t value) {
    for (unsigned which = 0; which < CHANNELS; which++) x->remainders[which].entries[place] = (uint32_t)(value % x->m[which]);
}

/* From a place on, the remainders of one value, of several, or any. */
static void fill_remainders(struct random *random, struct joining *x, size_t from) {
    uint32_t kind = below(random, 6);
    uint64_t value = kind == 0 ? product_of(x->m) - 1 : some_value(random, x->m);
    for (size_t i = from; i < x->output_length; i++) {
        if (kind > 1) value = kind > 3 ? next_word(random) % product_of(x->m) : some_value(random, x->m);
        put_value(x, i, value);
    }
}

/* Both lists go on, or are cut, and what is lent for them. */
static void fault_both_lengths(struct random *random, struct joining *x) {
    size_t length = other_length(random, x->remainders[0].length);
    if (x->m[0] < 2 || x->m[1] < 2) return;
    x->output_length = length;
    fill_remainders(random, x, 0);
    x->remainders[0].length = x->remainders[1].length = length;
    if (one_in(random, 2)) x->output_length = some_length(random);
}

/* One list is cut, or goes on with remainders that are accepted. */
static void fault_20(struct random *random, struct joining *x) {
    uint32_t which = below(random, CHANNELS);
    struct list *list = &x->remainders[which];
    size_t before = list->length;
    list->length = other_length(random, before);
    for (size_t i = before; i < list->length; i++) list->entries[i] = below(random, x->m[which]);
    if (one_in(random, 3)) x->output_length = list->length;
}

/* One remainder is not below its channel number, or at least is not meant for it. */
static void fault_12(struct random *random, struct joining *x) {
    uint32_t which = below(random, CHANNELS), m = x->m[which], other = x->m[!which];
    struct list list = x->remainders[which];
    const size_t places[] = {0, list.length - 1, below(random, list.length)};
    if (!list.length) return;
    list.entries[ONE_OF(random, places)] = one_in(random, 4) ? other - 1 : some_not_below(random, m);
}

/* Lends the output, dirty, with the result at its front if the call is not refused, and notes whether half of m1 m2 is in it. */
static int64_t *lend_result(struct trial *trial, struct random *random, const struct joining *x) {
    const void *before = dirt(random, x->output_length * sizeof *result);
    size_t length = trial->number ? 0 : joined_length(x);
    for (size_t i = 0; i < length; i++)
        trial->half = trial->half || (product_of(x->m) % 2 == 0 && result[i] == greatest_joined(x->m));
    return lend(trial, random, (struct lending){"output", WIDE_NUMBERS, before, x->output_length, result, length, 0});
}

/* Notes the channel numbers and what the call has to return. */
static void begin(struct trial *trial, const struct joining *x) {
    trial->m = &x->m[0];
    trial->second_m = &x->m[1];
    trial->number = joining_refusal(x, &trial->of_second);
}

uint32_t run_on_remainders(struct trial *trial, struct random *random) {
    static fault *const faults[] = {
        fault_3, fault_19, fault_other_channels, fault_20, fault_20, fault_both_lengths, fault_7, fault_12, fault_12,
    };
    struct joining x = {.remainders = {{remainders[0], 0}, {remainders[1], 0}}};
    some_channels(random, x.m);
    x.remainders[0].length = x.remainders[1].length = x.output_length = some_length(random);
    fill_remainders(random, &x, 0);
    DAMAGE(random, &x, faults);
    begin(trial, &x);
    if (trial->number == 0) hand_out_joined(&x, result);
    struct list first = lend_list(trial, random, "first", x.remainders[0]), second = lend_list(trial, random, "second", x.remainders[1]);
    int64_t *output = lend_result(trial, random, &x);
    compare(trial, zahupnik_join(x.m[0], x.m[1], first.entries, first.length, second.entries, second.length, output, x.output_length));
    return trial->number;
}

/* ---- rows and curves with a sign */

/* Numbers of a few digits, so that coefficients over the whole numbers are in range; of one digit; any; or at the ends of what there is. */
enum size { SMALL, DIGITS, ANY, EXTREME, SIZES };

static int32_t some_signed(struct random *random, enum size size) {
    static const int32_t extremes[] = {INT32_MIN, INT32_MIN + 1, INT32_MAX, INT32_MAX - 1, -1, 1, -INT32_MAX / 2};
    switch (size) {
    case SMALL: return (int32_t)below(random, 2001) - 1000;
    case DIGITS: return (int32_t)below(random, 7) - 3;
    case EXTREME: return ONE_OF(random, extremes);
    default: return (int32_t)((int64_t)below(random, UINT64_C(1) << 32) + INT32_MIN);
    }
}

/* A number that leaves this remainder: below zero or not. */
static int32_t number_leaving(struct random *random, uint32_t remainder, uint32_t m) {
    int64_t least = -((INT64_C(2147483648) + remainder) / m), greatest = (INT64_C(2147483647) - remainder) / m;
    return (int32_t)(remainder + (least + below(random, (uint64_t)(greatest - least + 1))) * (int64_t)m);
}

static bool is_unit(int64_t number, uint32_t m) { return common_divisor(remainder_of(number, m), m) == 1; }

/* A number with an inverse on both channels, which 1 and -1 always have. */
static int32_t some_signed_unit(struct random *random, const struct joining *x, enum size size) {
    for (int tries = 0; tries < 6; tries++) {
        int32_t number = some_signed(random, size);
        if (is_unit(number, x->m[0]) && is_unit(number, x->m[1])) return number;
    }
    return one_in(random, 2) ? 1 : -1;
}

static void fill_numbers(struct random *random, struct signed_list list, size_t from, enum size size) {
    for (size_t i = from; i < list.length; i++) list.entries[i] = some_signed(random, size);
}

static void fill_units(struct random *random, const struct joining *x, struct signed_list list, size_t from, enum size size) {
    for (size_t i = from; i < list.length; i++) list.entries[i] = some_signed_unit(random, x, size);
}

static struct joining accepted(struct random *random) {
    struct joining x = {.expands = true, .a = {a, 0}, .b = {b, 0}, .c = {c, 0}, .curve = {curve, 0}};
    enum size size = below(random, SIZES);
    some_channels(random, x.m);
    x.a.length = x.b.length = x.c.length = some_rows(random);
    x.curve.length = x.output_length = x.a.length + 1;
    /* where many numbers have no inverse, some families are let be as they come */
    if (one_in(random, 16)) {
        fill_numbers(random, x.a, 0, size);
        fill_numbers(random, x.c, 0, size);
    } else {
        fill_units(random, &x, x.a, 0, size);
        fill_units(random, &x, x.c, 0, size);
    }
    fill_numbers(random, x.b, 0, size);
    fill_numbers(random, x.curve, 0, one_in(random, 2) ? below(random, SIZES) : size);
    if (x.c.length && one_in(random, 2)) {
        uint32_t m = x.m[below(random, CHANNELS)];
        x.c.entries[0] = number_leaving(random, some_first_c(random, m), m);
    }
    return x;
}

static void resize(struct random *random, const struct joining *x, struct signed_list *list, size_t length) {
    size_t before = list->length;
    list->length = length < LIST_ROOM ? length : LIST_ROOM;
    fill_units(random, x, *list, before, ANY);
}

static bool has_channels(const struct joining *x) { return x->m[0] >= 2 && x->m[1] >= 2; }

static void fault_4(struct random *random, struct joining *x) {
    struct signed_list *lists[] = {&x->a, &x->b, &x->c}, *list = ONE_OF(random, lists);
    if (has_channels(x)) resize(random, x, list, other_length(random, list->length));
}

static void fault_5(struct random *random, struct joining *x) {
    size_t rows = MOST_ROWS + 1 + below(random, one_in(random, 2) ? 2 : 300);
    if (!has_channels(x)) return;
    resize(random, x, &x->a, rows);
    resize(random, x, &x->b, rows);
    resize(random, x, &x->c, rows);
    if (one_in(random, 2)) return;
    resize(random, x, &x->curve, rows + 1);
    x->output_length = rows + 1;
}

static void fault_6(struct random *random, struct joining *x) {
    if (has_channels(x)) resize(random, x, &x->curve, other_length(random, x->curve.length));
}

/* A number without an inverse on a channel, 0 there or sharing a factor; with one on the other channel if it is met soon. */
static int32_t some_without_inverse(struct random *random, const struct joining *x, unsigned which, bool zero) {
    uint32_t m = x->m[which], other = x->m[!which];
    int32_t number = 0;
    for (int tries = 0; tries < 4; tries++) {
        number = number_leaving(random, zero ? 0 : some_sharing(random, m), m);
        if (is_unit(number, other)) break;
    }
    return number;
}

/* The lists whose numbers need inverses: a, or more often c from row 2 on, since what is amiss with a goes before it. */
static struct signed_list some_inverted(struct random *random, const struct joining *x) {
    return one_in(random, 3) || x->c.length < 2 ? x->a : (struct signed_list){x->c.entries + 1, x->c.length - 1};
}

static void put(struct random *random, struct signed_list list, int32_t number) {
    const size_t places[] = {0, list.length - 1, below(random, list.length)};
    if (list.length) list.entries[ONE_OF(random, places)] = number;
}

/* One number without an inverse. */
static void fault_inverse(struct random *random, struct joining *x) {
    if (has_channels(x)) put(random, some_inverted(random, x), some_without_inverse(random, x, below(random, CHANNELS), one_in(random, 2)));
}

/* Both kinds for one channel, in two rows of a list: the lowest decides. */
static void fault_two_rows(struct random *random, struct joining *x) {
    struct signed_list list = some_inverted(random, x);
    uint32_t which = below(random, CHANNELS);
    if (list.length < 2 || !has_channels(x)) return;
    size_t low = below(random, list.length - 1), high = low + 1 + below(random, list.length - 1 - low);
    bool zero_first = one_in(random, 2);
    list.entries[low] = some_without_inverse(random, x, which, zero_first);
    list.entries[high] = some_without_inverse(random, x, which, !zero_first);
}

/* One without an inverse for each channel, each of either kind: in one list, or in both. */
static void fault_two_channels(struct random *random, struct joining *x) {
    if (!has_channels(x)) return;
    for (unsigned which = 0; which < CHANNELS; which++)
        put(random, some_inverted(random, x), some_without_inverse(random, x, which, one_in(random, 2)));
}

/* A number that is 0 on both. */
static void fault_zero(struct random *random, struct joining *x) { put(random, some_inverted(random, x), 0); }

static struct signed_list lend_signed(struct trial *trial, struct random *random, const char *name, struct signed_list list) {
    struct lending lending = {name, SIGNED_NUMBERS, list.entries, list.length, NULL, 0, 0};
    return (struct signed_list){lend(trial, random, lending), list.length};
}

/* Of a call that is not refused before its rows: the channel for which it is, or if it has finished, one for which c_1 has no inverse, if
 * there is one. */
static void note_channels(struct trial *trial, const struct joining *x) {
    static struct channel channel;
    make_channel(x, trial->number && trial->of_second, &channel);
    note_family(trial, &channel.lent);
    if (trial->number || trial->first_c != INVERTIBLE) return;
    make_channel(x, 1, &channel);
    note_family(trial, &channel.lent);
}

#define LIST(list) lent.list.entries, lent.list.length

uint32_t run_on_two_channels(struct trial *trial, struct random *random) {
    /* those for rows stand twice: modulo a prime they bring zeros alone */
    static fault *const faults[] = {
        fault_3,       fault_19,      fault_other_channels, fault_4,        fault_5,            fault_6,            fault_7,
        fault_inverse, fault_inverse, fault_two_rows,       fault_two_rows, fault_two_channels, fault_two_channels, fault_zero,
    };
    struct joining x = accepted(random);
    DAMAGE(random, &x, faults);
    begin(trial, &x);
    if (trial->number == 0 || (10 <= trial->number && trial->number <= 18)) note_channels(trial, &x);
    if (trial->number == 0) {
        trial->whole = hand_out_whole(&x, result);
        if (!trial->whole) hand_out_joined(&x, result);
    }
    struct joining lent = x;
    lent.a = lend_signed(trial, random, "a", x.a);
    lent.b = lend_signed(trial, random, "b", x.b);
    lent.c = lend_signed(trial, random, "c", x.c);
    lent.curve = lend_signed(trial, random, "curve", x.curve);
    int64_t *output = lend_result(trial, random, &x);
    compare(trial, zahupnik_expand_join(x.m[0], x.m[1], LIST(a), LIST(b), LIST(c), LIST(curve), output, x.output_length));
    return trial->number;
}
