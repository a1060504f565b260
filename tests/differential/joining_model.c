/* What joining_model.h declares. A joined value is the sum of the two remainders, each times a number that leaves 1 on its own channel and
 * 0 on the other, in 128 bits; then the multiple of m1 m2 is taken away that leaves it in its range. Expand is that of model.h. */
#include "joining_model.h"

#include <string.h>

enum { N = MOST_ROWS + 1 };

typedef __int128 whole;

uint32_t remainder_of(int64_t number, uint32_t m) {
    int64_t rest = number % (int64_t)m;
    return (uint32_t)(rest < 0 ? rest + m : rest);
}

uint64_t product_of(const uint32_t m[CHANNELS]) { return (uint64_t)m[0] * m[1]; }

int64_t greatest_joined(const uint32_t m[CHANNELS]) { return (int64_t)(product_of(m) / 2); }

static void reduce_list(struct signed_list list, uint32_t m, uint32_t *reduced, struct list *target) {
    for (size_t i = 0; i < list.length; i++) reduced[i] = remainder_of(list.entries[i], m);
    *target = (struct list){reduced, list.length};
}

void make_channel(const struct joining *x, unsigned which, struct channel *channel) {
    struct lent *lent = &channel->lent;
    *lent = (struct lent){.operation = EXPAND, .way = PLAIN, .m = x->m[which]};
    reduce_list(x->a, lent->m, channel->a, &lent->a);
    reduce_list(x->b, lent->m, channel->b, &lent->b);
    reduce_list(x->c, lent->m, channel->c, &lent->c);
    reduce_list(x->curve, lent->m, channel->curve, &lent->curve);
    lent->output_length = result_length(lent);
}

size_t joined_length(const struct joining *x) { return x->expands ? x->a.length + 1 : x->remainders[0].length; }

static bool all_below(struct list list, uint32_t m) {
    for (size_t i = 0; i < list.length; i++)
        if (list.entries[i] >= m) return false;
    return true;
}

static bool is_for_a(uint32_t number) { return number == 17 || number == 10; }

/* The a of both channels are looked at before the c of either. */
static uint32_t rows_refusal(const struct joining *x, bool *of_second) {
    struct channel channel;
    uint32_t numbers[CHANNELS];
    for (unsigned which = 0; which < CHANNELS; which++) {
        make_channel(x, which, &channel);
        numbers[which] = refusal(&channel.lent);
    }
    *of_second = !is_for_a(numbers[0]) && (is_for_a(numbers[1]) || !numbers[0]);
    return numbers[*of_second];
}

uint32_t joining_refusal(const struct joining *x, bool *of_second) {
    for (unsigned which = 0; which < CHANNELS; which++) {
        *of_second = which == 1;
        if (x->m[which] < 2 || x->m[which] > GREATEST_MODULUS) return 3;
    }
    *of_second = false;
    if (common_divisor(x->m[0], x->m[1]) != 1) return 19;
    if (x->expands) {
        if (x->a.length != x->b.length || x->b.length != x->c.length) return 4;
        if (x->a.length > MOST_ROWS) return 5;
        if (x->curve.length != joined_length(x)) return 6;
    } else if (x->remainders[0].length != x->remainders[1].length) {
        return 20;
    }
    if (x->output_length != joined_length(x)) return 7;
    if (x->expands) return rows_refusal(x, of_second);
    if (!all_below(x->remainders[0], x->m[0])) return 12;
    *of_second = true;
    return all_below(x->remainders[1], x->m[1]) ? 0 : 12;
}

/* A multiple of the other channel number that leaves 1 on this one. */
static uint64_t weight(const uint32_t m[CHANNELS], unsigned which) {
    uint32_t own = m[which], other = m[!which], rest = other % own, inverse[MOST_RESULTS];
    struct lent lent = {.operation = INVERSE, .m = own, .curve = {&rest, 1}};
    hand_out(&lent, inverse);
    return (uint64_t)other * inverse[0];
}

static void join_lists(const uint32_t m[CHANNELS], const uint32_t *first, const uint32_t *second, size_t length, int64_t *result) {
    const whole product = product_of(m), weights[CHANNELS] = {weight(m, 0), weight(m, 1)};
    for (size_t i = 0; i < length; i++) {
        whole v = (first[i] * weights[0] + second[i] * weights[1]) % product;
        result[i] = (int64_t)(2 * v > product ? v - product : v);
    }
}

void hand_out_joined(const struct joining *x, int64_t *result) {
    uint32_t expanded[CHANNELS][MOST_RESULTS];
    if (!x->expands) {
        join_lists(x->m, x->remainders[0].entries, x->remainders[1].entries, x->remainders[0].length, result);
        return;
    }
    for (unsigned which = 0; which < CHANNELS; which++) {
        struct channel channel;
        make_channel(x, which, &channel);
        hand_out(&channel.lent, expanded[which]);
    }
    join_lists(x->m, expanded[0], expanded[1], joined_length(x), result);
}

/* The sum becomes greater by x times y; false if that does not fit. */
static bool add_product(whole *sum, whole x, whole y) {
    whole product;
    return !__builtin_mul_overflow(x, y, &product) && !__builtin_add_overflow(*sum, product, sum);
}

/* next becomes F_i, whose rows are counted from 1. */
static bool add_row(const struct joining *x, size_t i, const whole *older, const whole *current, whole *next) {
    bool fits = true;
    for (size_t k = 0; k <= i && fits; k++) {
        next[k] = 0;
        fits = add_product(&next[k], x->b.entries[i - 1], current[k]) && (i < 2 || add_product(&next[k], x->c.entries[i - 1], older[k])) &&
               (k < 1 || add_product(&next[k], x->a.entries[i - 1], current[k - 1]));
    }
    return fits;
}

bool hand_out_whole(const struct joining *x, int64_t *result) {
    whole F[3][N + 1] = {{1}}, sums[N] = {x->curve.entries[0]};
    const whole greatest = greatest_joined(x->m), least = greatest - (whole)product_of(x->m);
    size_t r = x->a.length;
    for (size_t i = 1; i <= r; i++) {
        whole *next = F[i % 3];
        memset(next, 0, sizeof F[0]);
        if (!add_row(x, i, F[(i + 1) % 3], F[(i + 2) % 3], next)) return false;
        for (size_t k = 0; k <= i; k++)
            if (!add_product(&sums[k], x->curve.entries[i], next[k])) return false;
    }
    for (size_t k = 0; k <= r; k++) {
        if (sums[k] > greatest || sums[k] <= least) return false;
        result[k] = (int64_t)sums[k];
    }
    return true;
}
