/* What channels.h declares of values and remainders: what a wrong version writes. */
#include <string.h>

#include "channels.h"

/* ---- the joined value */

/* A number that times x leaves 1 modulo m, or the factor that they share, as Euclid's algorithm finds it. */
static uint32_t euclid(uint32_t x, uint32_t m) {
    int64_t r = m, s = x, t = 0, u = 1;
    while (s) {
        int64_t q = r / s, rest = r - q * s, next = t - q * u;
        r = s, s = rest, t = u, u = next;
    }
    return (uint32_t)(t < 0 ? t + m : t);
}

static bool has_channels(const uint32_t m[CHANNELS]) { return m[0] && m[1]; }

/* How often m1 is added to the first remainder: their difference modulo m2, times this inverse. */
static uint64_t times_m1(const uint32_t m[CHANNELS], uint32_t first, uint32_t second, uint64_t inverse) {
    uint64_t difference = ((uint64_t)second % m[1] + m[1] - first % m[1]) % m[1];
    return difference * inverse % m[1];
}

static uint64_t inverse_of_m1(const uint32_t m[CHANNELS]) { return euclid(m[0] % m[1], m[1]); }

/* A number from 0 to m1 m2 - 1 in the range of a joined value. */
static int64_t in_range(const uint32_t m[CHANNELS], uint64_t v) {
    uint64_t product = product_of(m);
    return (int64_t)(v > product / 2 ? v - product : v);
}

int64_t right_value(const uint32_t m[CHANNELS], uint32_t first, uint32_t second) {
    if (!has_channels(m)) return first;
    first %= m[0];
    return in_range(m, first + m[0] * times_m1(m, first, second, inverse_of_m1(m)));
}

static int64_t value_half_negative(const uint32_t m[CHANNELS], uint32_t first, uint32_t second) {
    int64_t v = right_value(m, first, second);
    return product_of(m) % 2 == 0 && v == greatest_joined(m) ? -v : v;
}

static int64_t value_past_half(const uint32_t m[CHANNELS], uint32_t first, uint32_t second) {
    int64_t v = right_value(m, first, second), past = greatest_joined(m) + 1;
    return v == past - (int64_t)product_of(m) ? past : v;
}

static int64_t value_greatest_negative(const uint32_t m[CHANNELS], uint32_t first, uint32_t second) {
    int64_t v = right_value(m, first, second);
    return v == greatest_joined(m) ? v - (int64_t)product_of(m) : v;
}

static int64_t value_never_negative(const uint32_t m[CHANNELS], uint32_t first, uint32_t second) {
    int64_t v = right_value(m, first, second);
    return v < 0 ? v + (int64_t)product_of(m) : v;
}

static int64_t value_never_positive(const uint32_t m[CHANNELS], uint32_t first, uint32_t second) {
    int64_t v = right_value(m, first, second);
    return v > 0 ? v - (int64_t)product_of(m) : v;
}

static int64_t value_sign_lost(const uint32_t m[CHANNELS], uint32_t first, uint32_t second) {
    int64_t v = right_value(m, first, second);
    return v < 0 ? -v : v;
}

static int64_t value_channels_swapped(const uint32_t m[CHANNELS], uint32_t first, uint32_t second) { return right_value(m, second, first); }

static int64_t value_inverse_of_m2(const uint32_t m[CHANNELS], uint32_t first, uint32_t second) {
    return in_range(m, first + m[0] * times_m1(m, first, second, euclid(m[1] % m[0], m[0])));
}

static int64_t value_inverse_left_out(const uint32_t m[CHANNELS], uint32_t first, uint32_t second) {
    return in_range(m, first + m[0] * times_m1(m, first, second, 1));
}

static int64_t value_product_wraps_32(const uint32_t m[CHANNELS], uint32_t first, uint32_t second) {
    return in_range(m, first + (uint64_t)(uint32_t)(m[0] * times_m1(m, first, second, inverse_of_m1(m))));
}

/* Each remainder times what leaves 1 on its channel and 0 on the other, added up. */
static int64_t value_product_wraps_64(const uint32_t m[CHANNELS], uint32_t first, uint32_t second) {
    uint64_t inverse_of_m2 = euclid(m[1] % m[0], m[0]);
    return in_range(m, (first * (m[1] * inverse_of_m2) + second * (m[0] * inverse_of_m1(m))) % product_of(m));
}

static int64_t value_factor_wraps_32(const uint32_t m[CHANNELS], uint32_t first, uint32_t second) {
    uint64_t difference = times_m1(m, first, second, 1);
    return in_range(m, first + (uint64_t)m[0] * ((uint32_t)(difference * inverse_of_m1(m)) % m[1]));
}

static int64_t value_m1_m2_wraps_32(const uint32_t m[CHANNELS], uint32_t first, uint32_t second) {
    int64_t v = value_never_negative(m, first, second), product = (uint32_t)product_of(m);
    return 2 * v > product ? v - product : v;
}

static int64_t value_difference_wraps(const uint32_t m[CHANNELS], uint32_t first, uint32_t second) {
    return in_range(m, first + m[0] * ((second - first) % m[1] * inverse_of_m1(m) % m[1]));
}

static int64_t value_difference_negative(const uint32_t m[CHANNELS], uint32_t first, uint32_t second) {
    int64_t m2 = m[1], product = (int64_t)product_of(m), difference = ((int64_t)second - first) % m2;
    int64_t v = first + m[0] * (difference * (int64_t)inverse_of_m1(m) % m2);
    return 2 * v > product ? v - product : v;
}

static int64_t value_by_doubles(const uint32_t m[CHANNELS], uint32_t first, uint32_t second) {
    return (int64_t)(double)right_value(m, first, second);
}

static int64_t value_low_32_bits(const uint32_t m[CHANNELS], uint32_t first, uint32_t second) {
    return (int32_t)right_value(m, first, second);
}

/* A remainder in the middle of its own channel. */
static int64_t centred(uint32_t m, uint32_t remainder) { return 2 * (uint64_t)remainder > m ? (int64_t)remainder - m : remainder; }

static int64_t value_first_channel_alone(const uint32_t m[CHANNELS], uint32_t first, uint32_t second) {
    (void)second;
    return centred(m[0], first);
}

static int64_t value_second_channel_alone(const uint32_t m[CHANNELS], uint32_t first, uint32_t second) {
    (void)first;
    return centred(m[1], second);
}

static size_t lesser(size_t x, size_t y) { return x < y ? x : y; }

static void write_lists(const struct joining_call *call, const uint32_t *first, const uint32_t *second, size_t length, value *value) {
    length = lesser(length, call->lent.output_length);
    for (size_t i = 0; i < length; i++) call->output[i] = value(call->lent.m, first[i], second[i]);
}

/* A family that can be expanded: as many rows as there may be, and numbers for all of them. */
static bool has_rows(const struct joining *x) {
    size_t r = x->a.length;
    return r <= MOST_ROWS && x->b.length == r && x->c.length == r && x->curve.length > r && has_channels(x->m);
}

/* Expands on both channels, by rows that are made for each. */
typedef void expand_channel(const struct joining *x, unsigned which, uint32_t list[MOST_RESULTS]);

static void write_expanded(const struct joining_call *call, expand_channel *expand, value *value) {
    uint32_t lists[CHANNELS][MOST_RESULTS];
    struct joining x = call->lent;
    if (!has_rows(&x)) return;
    x.curve.length = x.a.length + 1;
    for (unsigned which = 0; which < CHANNELS; which++) expand(&x, which, lists[which]);
    write_lists(call, lists[0], lists[1], x.curve.length, value);
}

static void expand_right(const struct joining *x, unsigned which, uint32_t list[MOST_RESULTS]) {
    struct channel channel;
    make_channel(x, which, &channel);
    hand_out(&channel.lent, list);
}

void write_values(const struct joining_call *call, value *value) {
    const struct list *lists = call->lent.remainders;
    if (call->lent.expands)
        write_expanded(call, expand_right, value);
    else
        write_lists(call, lists[0].entries, lists[1].entries, lesser(lists[0].length, lists[1].length), value);
}

#define BY_VALUE(name, what, calls)                                         \
    uint32_t channels_##name(const struct joining_call *call) {             \
        uint32_t number = right_joined(call);                               \
        if (number == 0) write_values(call, value_##name);                  \
        return number;                                                      \
    }
JOINED_VALUES(BY_VALUE)

/* ---- remainders */

/* What a channel takes a number of a row or of the curve for: m itself, at most. */
typedef uint32_t residue(int32_t number, const uint32_t m[CHANNELS], unsigned which, bool of_curve);

static uint32_t residue_c_remainder(int32_t number, const uint32_t m[CHANNELS], unsigned which, bool of_curve) {
    (void)of_curve;
    return (uint32_t)(number % (int64_t)m[which]) % m[which];
}

static uint32_t residue_sign_dropped(int32_t number, const uint32_t m[CHANNELS], unsigned which, bool of_curve) {
    (void)of_curve;
    return remainder_of(number < 0 ? -(int64_t)number : number, m[which]);
}

static uint32_t residue_as_unsigned(int32_t number, const uint32_t m[CHANNELS], unsigned which, bool of_curve) {
    (void)of_curve;
    return (uint32_t)number % m[which];
}

static uint32_t residue_min_negated(int32_t number, const uint32_t m[CHANNELS], unsigned which, bool of_curve) {
    (void)of_curve;
    return remainder_of(number == INT32_MIN ? -(int64_t)number : number, m[which]);
}

static uint32_t residue_min_raised(int32_t number, const uint32_t m[CHANNELS], unsigned which, bool of_curve) {
    (void)of_curve;
    return remainder_of(number == INT32_MIN ? number + 1 : number, m[which]);
}

static uint32_t residue_off_by_one(int32_t number, const uint32_t m[CHANNELS], unsigned which, bool of_curve) {
    (void)of_curve;
    return remainder_of(number < 0 ? number - INT64_C(1) : number, m[which]);
}

static uint32_t residue_multiple_as_m(int32_t number, const uint32_t m[CHANNELS], unsigned which, bool of_curve) {
    uint32_t rest = remainder_of(number, m[which]);
    (void)of_curve;
    return number < 0 && rest == 0 ? m[which] : rest;
}

static uint32_t residue_reduced_by_m1(int32_t number, const uint32_t m[CHANNELS], unsigned which, bool of_curve) {
    (void)of_curve;
    return remainder_of(number, m[0]) % m[which];
}

static uint32_t residue_sixteen_bits(int32_t number, const uint32_t m[CHANNELS], unsigned which, bool of_curve) {
    (void)of_curve;
    return remainder_of((int16_t)number, m[which]);
}

static uint32_t residue_curve_by_m1(int32_t number, const uint32_t m[CHANNELS], unsigned which, bool of_curve) {
    return of_curve ? remainder_of(number, m[0]) % m[which] : remainder_of(number, m[which]);
}

static uint32_t residue_curve_as_unsigned(int32_t number, const uint32_t m[CHANNELS], unsigned which, bool of_curve) {
    return of_curve ? (uint32_t)number % m[which] : remainder_of(number, m[which]);
}

static void take(uint32_t *list, struct signed_list numbers, const uint32_t m[CHANNELS], unsigned which, bool of_curve, residue *residue) {
    for (size_t i = 0; i < numbers.length; i++) list[i] = residue(numbers.entries[i], m, which, of_curve);
}

/* The number for the first of a list, from a place on, that has no inverse modulo m. */
static uint32_t lack(struct list list, size_t from, uint32_t m, uint32_t for_zero, uint32_t for_shared) {
    for (size_t i = from; i < list.length; i++)
        if (common_divisor(list.entries[i], m) != 1) return list.entries[i] ? for_shared : for_zero;
    return 0;
}

static void below_m(struct list list, uint32_t m) {
    for (size_t i = 0; i < list.length; i++) list.entries[i] %= m;
}

/* The call by what its channels take numbers for. It is tested as it should be, but on these. */
static uint32_t by_residue(const struct joining_call *call, residue *residue) {
    struct channel channels[CHANNELS];
    uint32_t lists[CHANNELS][MOST_RESULTS], number;
    const struct joining *x = &call->lent;
    bool of_second;
    number = joining_refusal(x, &of_second);
    if (number && (number < 10 || number > 18)) return number;
    for (unsigned which = 0; which < CHANNELS; which++) {
        struct channel *channel = &channels[which];
        make_channel(x, which, channel);
        take(channel->a, x->a, x->m, which, false, residue);
        take(channel->b, x->b, x->m, which, false, residue);
        take(channel->c, x->c, x->m, which, false, residue);
        take(channel->curve, x->curve, x->m, which, true, residue);
    }
    for (unsigned which = 0; which < CHANNELS; which++)
        if ((number = lack(channels[which].lent.a, 0, x->m[which], 17, 10))) return number;
    for (unsigned which = 0; which < CHANNELS; which++)
        if ((number = lack(channels[which].lent.c, 1, x->m[which], 18, 11))) return number;
    for (unsigned which = 0; which < CHANNELS; which++) {
        struct lent *lent = &channels[which].lent;
        below_m(lent->a, lent->m);
        below_m(lent->b, lent->m);
        below_m(lent->c, lent->m);
        below_m(lent->curve, lent->m);
        hand_out(lent, lists[which]);
    }
    write_lists(call, lists[0], lists[1], joined_length(x), right_value);
    return 0;
}

#define BY_RESIDUE(name) \
    uint32_t channels_##name(const struct joining_call *call) { return by_residue(call, residue_##name); }
BY_RESIDUE(c_remainder)
BY_RESIDUE(sign_dropped)
BY_RESIDUE(as_unsigned)
BY_RESIDUE(min_negated)
BY_RESIDUE(min_raised)
BY_RESIDUE(off_by_one)
BY_RESIDUE(multiple_as_m)
BY_RESIDUE(reduced_by_m1)
BY_RESIDUE(sixteen_bits)
BY_RESIDUE(curve_by_m1)
BY_RESIDUE(curve_as_unsigned)

/* ---- what is expanded */

static void expand_as_adjoint(const struct joining *x, unsigned which, uint32_t list[MOST_RESULTS]) {
    struct channel channel;
    make_channel(x, which, &channel);
    channel.lent.operation = ADJOINT;
    hand_out(&channel.lent, list);
}

static void expand_b_and_c_swapped(const struct joining *x, unsigned which, uint32_t list[MOST_RESULTS]) {
    struct joining other = *x;
    other.b = x->c;
    other.c = x->b;
    expand_right(&other, which, list);
}

static uint32_t by_expand(const struct joining_call *call, expand_channel *expand) {
    uint32_t number = right_joined(call);
    if (number == 0) write_expanded(call, expand, right_value);
    return number;
}

uint32_t channels_as_adjoint(const struct joining_call *call) { return by_expand(call, expand_as_adjoint); }
uint32_t channels_b_and_c_swapped(const struct joining_call *call) { return by_expand(call, expand_b_and_c_swapped); }

uint32_t channels_wraps_64(const struct joining_call *call) {
    const struct joining *x = &call->lent;
    uint64_t F[MOST_ROWS + 2][MOST_ROWS + 2] = {{0}, {1}}, sums[MOST_ROWS + 1] = {0};
    uint32_t number = right_joined(call);
    if (number) return number;
    for (size_t i = 0; i < x->a.length; i++)
        for (size_t k = 0; k <= i + 1; k++)
            F[i + 2][k] = (uint64_t)x->b.entries[i] * F[i + 1][k] + (uint64_t)x->c.entries[i] * F[i][k] +
                          (k ? (uint64_t)x->a.entries[i] * F[i + 1][k - 1] : 0);
    for (size_t i = 0; i <= x->a.length; i++)
        for (size_t k = 0; k <= i; k++) sums[k] += (uint64_t)x->curve.entries[i] * F[i + 1][k];
    for (size_t k = 0; k <= x->a.length; k++) call->output[k] = (int64_t)sums[k];
    return 0;
}

uint32_t channels_zeros_out_of_range(const struct joining_call *call) {
    int64_t coefficients[MOST_ROWS + 1];
    uint32_t number = right_joined(call);
    if (number == 0 && !hand_out_whole(&call->lent, coefficients)) memset(call->output, 0, joined_length(&call->lent) * sizeof *call->output);
    return number;
}
