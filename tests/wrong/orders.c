/* What orders.h declares. */
#include "orders.h"

#include <string.h>

#include "ordering_figures.h"

enum { ROOM = 1 << 16 };

/* What the model hands out where a wrong version writes a part of it, or does not write it there. */
static uint32_t spare[ROOM];

static size_t lesser(size_t x, size_t y) { return x < y ? x : y; }

/* How many numbers the call is lent. */
static size_t length_of(const struct ordering_call *call) { return call->lent.list.length; }

uint32_t orders_without_a_slip(const struct ordering_call *call) {
    uint32_t number = ordering_refusal(&call->lent);
    if (number == 0) hand_out_ordered(&call->lent, call->output);
    return number;
}

/* Puts the first numbers of the list in order, and writes what fits. */
static void write_first(const struct ordering_call *call, size_t count) {
    struct ordering x = call->lent;
    x.list.length = lesser(lesser(count, x.list.length), ROOM);
    hand_out_ordered(&x, spare);
    for (size_t i = 0; i < x.list.length && i < x.output_length; i++) call->output[i] = spare[i];
}

/* What every test let pass is finished: as it should be, or as well as it can. */
static uint32_t finish(const struct ordering_call *call) {
    write_first(call, length_of(call));
    return 0;
}

/* ---- hollow versions */

uint32_t orders_refuses(const struct ordering_call *call) {
    (void)call;
    return 5;
}

uint32_t orders_last_untried(const struct ordering_call *call) {
    uint32_t number = ordering_refusal(&call->lent);
    return number ? number : 7;
}

uint32_t orders_finishes(const struct ordering_call *call) {
    right_ordered(call);
    return 0;
}

static void write_zeros(const struct ordering_call *call) {
    for (size_t i = 0; i < call->lent.output_length; i++) call->output[i] = 0;
}

uint32_t orders_constant(const struct ordering_call *call) {
    uint32_t number = right_ordered(call);
    if (number == 0) write_zeros(call);
    return number;
}

uint32_t orders_figures_only(const struct ordering_call *call) {
    uint32_t number = right_ordered(call);
    if (number == 0 && !is_ordering_figure(&call->lent)) write_zeros(call);
    return number;
}

uint32_t orders_untouched(const struct ordering_call *call) { return ordering_refusal(&call->lent); }

uint32_t orders_touched(const struct ordering_call *call) {
    uint32_t number = right_ordered(call);
    if (number && call->lent.output_length) call->output[0] = 0;
    return number;
}

uint32_t orders_touched_by_5(const struct ordering_call *call) {
    uint32_t number = right_ordered(call);
    if (number == 5) write_first(call, MOST_ENTRIES);
    return number;
}

uint32_t orders_touched_by_7(const struct ordering_call *call) {
    uint32_t number = right_ordered(call);
    if (number == 7) write_first(call, length_of(call));
    return number;
}

uint32_t orders_partly_by_7(const struct ordering_call *call) {
    uint32_t number = right_ordered(call);
    size_t half = even_count(length_of(call));
    if (number != 7) return number;
    hand_out_ordered(&call->lent, spare);
    for (size_t i = 0; i < half; i++) {
        size_t place = call->lent.back ? 2 * i : i;
        if (place < call->lent.output_length) call->output[place] = spare[place];
    }
    return number;
}

/* ---- the tests */

/* 5 above another length, and 7. */
static uint32_t limited(const struct ordering_call *call, size_t most) {
    if (length_of(call) > most) return 5;
    return call->lent.output_length != length_of(call) ? 7 : finish(call);
}

uint32_t orders_length_untested(const struct ordering_call *call) { return limited(call, SIZE_MAX); }
uint32_t orders_limit_127(const struct ordering_call *call) { return limited(call, MOST_ENTRIES - 1); }
uint32_t orders_limit_129(const struct ordering_call *call) { return limited(call, MOST_ENTRIES + 1); }

/* The right call on a list and an output of other lengths, which are not greater. */
static uint32_t with_lengths(const struct ordering_call *call, size_t length, size_t output_length) {
    struct ordering_call other = *call;
    other.lent.list.length = length;
    other.lent.output_length = output_length;
    return right_ordered(&other);
}

uint32_t orders_cut_to_128(const struct ordering_call *call) {
    return with_lengths(call, lesser(length_of(call), MOST_ENTRIES), call->lent.output_length);
}

uint32_t orders_limit_of_output(const struct ordering_call *call) {
    if (call->lent.output_length > MOST_ENTRIES) return 5;
    return call->lent.output_length != length_of(call) ? 7 : finish(call);
}

uint32_t orders_length_of_8_bits(const struct ordering_call *call) {
    return with_lengths(call, (uint8_t)length_of(call), call->lent.output_length);
}

uint32_t orders_output_of_8_bits(const struct ordering_call *call) {
    return with_lengths(call, length_of(call), (uint8_t)call->lent.output_length);
}

uint32_t orders_none_refused(const struct ordering_call *call) {
    uint32_t number = right_ordered(call);
    return number == 0 && length_of(call) == 0 ? 6 : number;
}

uint32_t orders_output_untested(const struct ordering_call *call) { return length_of(call) > MOST_ENTRIES ? 5 : finish(call); }

uint32_t orders_output_longer(const struct ordering_call *call) {
    return with_lengths(call, length_of(call), lesser(call->lent.output_length, length_of(call)));
}

uint32_t orders_output_shorter(const struct ordering_call *call) {
    uint32_t number = right_ordered(call);
    return number == 7 && call->lent.output_length < length_of(call) ? finish(call) : number;
}

uint32_t orders_output_first(const struct ordering_call *call) {
    return call->lent.output_length != length_of(call) ? 7 : right_ordered(call);
}

/* A number given in the place of another, and that one in its place if they are swapped. */
static uint32_t given_for(uint32_t number, uint32_t wrong, uint32_t right, bool swapped) {
    return number == right ? wrong : number == wrong && swapped ? right : number;
}

uint32_t orders_swapped(const struct ordering_call *call) { return given_for(right_ordered(call), 7, 5, true); }
uint32_t orders_length_as_6(const struct ordering_call *call) { return given_for(right_ordered(call), 6, 5, false); }
uint32_t orders_output_as_6(const struct ordering_call *call) { return given_for(right_ordered(call), 6, 7, false); }

uint32_t orders_numbers_asked(const struct ordering_call *call) {
    uint32_t number = ordering_refusal(&call->lent);
    for (size_t i = 0; number == 0 && i < length_of(call); i++)
        if (call->lent.list.entries[i] >= GREATEST_MODULUS) number = 12;
    return number ? number : right_ordered(call);
}

/* ---- places */

/* Where index i of so many stands; past the end, nowhere. */
typedef size_t place(size_t i, size_t length);

static size_t by_half(size_t i, size_t half) { return i % 2 ? half + i / 2 : i / 2; }

static size_t right_place(size_t i, size_t length) { return by_half(i, even_count(length)); }

static size_t place_copied(size_t i, size_t length) {
    (void)length;
    return i;
}

static size_t place_odd_first(size_t i, size_t length) { return i % 2 ? i / 2 : length / 2 + i / 2; }

static size_t place_even_falling(size_t i, size_t length) { return i % 2 ? right_place(i, length) : even_count(length) - 1 - i / 2; }

static size_t place_odd_falling(size_t i, size_t length) { return i % 2 ? length - 1 - i / 2 : i / 2; }

static size_t place_both_falling(size_t i, size_t length) {
    return i % 2 ? place_odd_falling(i, length) : place_even_falling(i, length);
}

static size_t place_in_reverse(size_t i, size_t length) { return length - 1 - right_place(i, length); }

static size_t place_indices_in_reverse(size_t i, size_t length) { return right_place(length - 1 - i, length); }

static size_t place_last_even_last(size_t i, size_t length) {
    if (length % 2 == 0) return right_place(i, length);
    return i == length - 1 ? i : right_place(i, length - 1);
}

static size_t place_half_down(size_t i, size_t length) { return by_half(i, length / 2); }

static size_t place_half_up(size_t i, size_t length) { return by_half(i, length / 2 + 1); }

static size_t place_odd_part_late(size_t i, size_t length) { return by_half(i, even_count(length) + 1); }

static size_t place_odd_part_early(size_t i, size_t length) { return by_half(i, even_count(length) - 1); }

static size_t place_odd_part_at_64(size_t i, size_t length) {
    (void)length;
    return by_half(i, MOST_ENTRIES / 2);
}

static size_t place_half_of_power(size_t i, size_t length) {
    size_t power = 1;
    while (power < length) power *= 2;
    return by_half(i, power / 2);
}

static size_t place_done_twice(size_t i, size_t length) { return right_place(right_place(i, length), length); }

static size_t place_parts_again(size_t i, size_t length) {
    size_t half = even_count(length), place = right_place(i, length);
    if (length < 3) return place;
    return place < half ? place_parts_again(place, half) : half + place_parts_again(place - half, length - half);
}

static size_t place_by_eights(size_t i, size_t length) {
    size_t first = i / 8 * 8;
    return first + right_place(i - first, lesser(8, length - first));
}

static size_t place_up_to_64(size_t i, size_t length) { return length > 64 ? i : right_place(i, length); }

static size_t place_odd_lengths_alone(size_t i, size_t length) { return length % 2 ? right_place(i, length) : i; }

static size_t place_even_lengths_alone(size_t i, size_t length) { return length % 2 ? i : right_place(i, length); }

static size_t place_two_swapped(size_t i, size_t length) { return length == 2 ? 1 - i : right_place(i, length); }

static size_t place_odd_left(size_t i, size_t length) { return i % 2 ? length : i / 2; }

static size_t place_last_index_left(size_t i, size_t length) { return i == length - 1 ? length : right_place(i, length); }

/* Each entry at its place: in the output, or for the way back in the list. */
static uint32_t by_place(const struct ordering_call *call, place *place) {
    const uint32_t *list = call->lent.list.entries;
    uint32_t number = ordering_refusal(&call->lent);
    for (size_t i = 0; number == 0 && i < length_of(call); i++) {
        size_t at = place(i, length_of(call));
        if (at < length_of(call)) call->output[call->lent.back ? i : at] = list[call->lent.back ? at : i];
    }
    return number;
}

#define BY_PLACE(name, what, calls) \
    uint32_t orders_##name(const struct ordering_call *call) { return by_place(call, place_##name); }
ORDER_PLACES(BY_PLACE)

/* ---- numbers */

uint32_t orders_as_other(const struct ordering_call *call) {
    struct ordering_call other = *call;
    other.lent.back = !call->lent.back;
    return right_ordered(&other);
}

uint32_t orders_one_zero(const struct ordering_call *call) {
    uint32_t number = right_ordered(call);
    if (number == 0 && length_of(call) == 1) call->output[0] = 0;
    return number;
}

/* A place that is left as it was, if there is one. */
static uint32_t left(const struct ordering_call *call, size_t place) {
    bool there = place < call->lent.output_length;
    uint32_t before = there ? call->output[place] : 0, number = right_ordered(call);
    if (there) call->output[place] = before;
    return number;
}

uint32_t orders_first_left(const struct ordering_call *call) { return left(call, 0); }
uint32_t orders_last_left(const struct ordering_call *call) { return left(call, length_of(call) - 1); }
uint32_t orders_half_left(const struct ordering_call *call) { return left(call, even_count(length_of(call))); }

/* A place that holds the number of the place before it, if there are both. */
static uint32_t doubled(const struct ordering_call *call, size_t place) {
    uint32_t number = right_ordered(call);
    if (number == 0 && place && place < length_of(call)) call->output[place] = call->output[place - 1];
    return number;
}

uint32_t orders_first_doubled(const struct ordering_call *call) { return doubled(call, 1); }
uint32_t orders_last_doubled(const struct ordering_call *call) { return doubled(call, length_of(call) - 1); }
uint32_t orders_half_doubled(const struct ordering_call *call) { return doubled(call, even_count(length_of(call))); }

/* Each number that is handed out becomes another. */
static uint32_t each(const struct ordering_call *call, uint32_t (*other)(uint32_t number)) {
    uint32_t number = right_ordered(call);
    for (size_t i = 0; number == 0 && i < length_of(call); i++) call->output[i] = other(call->output[i]);
    return number;
}

static uint32_t modulo_greatest(uint32_t number) { return number % GREATEST_MODULUS; }
static uint32_t bits_31(uint32_t number) { return number & INT32_MAX; }
static uint32_t bits_16(uint32_t number) { return (uint16_t)number; }
static uint32_t greatest_as_zero(uint32_t number) { return number == UINT32_MAX ? 0 : number; }

uint32_t orders_modulo_greatest(const struct ordering_call *call) { return each(call, modulo_greatest); }
uint32_t orders_bits_31(const struct ordering_call *call) { return each(call, bits_31); }
uint32_t orders_bits_16(const struct ordering_call *call) { return each(call, bits_16); }
uint32_t orders_greatest_as_zero(const struct ordering_call *call) { return each(call, greatest_as_zero); }

static bool is_not_zero(uint32_t number) { return number != 0; }
static bool is_even(uint32_t number) { return number % 2 == 0; }

/* Writes the numbers for which something is so, and then the others. */
static void write_apart(uint32_t *output, const uint32_t *numbers, size_t length, bool (*is_so)(uint32_t number)) {
    for (size_t i = 0; i < length; i++)
        if (is_so(numbers[i])) *output++ = numbers[i];
    for (size_t i = 0; i < length; i++)
        if (!is_so(numbers[i])) *output++ = numbers[i];
}

uint32_t orders_zeros_last(const struct ordering_call *call) {
    uint32_t number = ordering_refusal(&call->lent);
    if (number) return number;
    hand_out_ordered(&call->lent, spare);
    write_apart(call->output, spare, length_of(call), is_not_zero);
    return 0;
}

uint32_t orders_zeros_uncounted(const struct ordering_call *call) {
    struct ordering used = call->lent;
    uint32_t number = ordering_refusal(&call->lent);
    if (number) return number;
    write_zeros(call);
    while (used.list.length && !used.list.entries[used.list.length - 1]) used.list.length--;
    hand_out_ordered(&used, call->output);
    return 0;
}

uint32_t orders_by_value(const struct ordering_call *call) {
    uint32_t number = ordering_refusal(&call->lent);
    if (number == 0) write_apart(call->output, call->lent.list.entries, length_of(call), is_even);
    return number;
}

uint32_t orders_in_place(const struct ordering_call *call) {
    struct ordering held = call->lent;
    uint32_t before[MOST_ENTRIES], number = ordering_refusal(&call->lent);
    if (number || !length_of(call)) return number;
    memcpy(before, call->output, length_of(call) * sizeof *before);
    held.list.entries = before;
    hand_out_ordered(&held, call->output);
    return 0;
}

uint32_t orders_list_zeroed(const struct ordering_call *call) {
    uint32_t number = right_ordered(call);
    for (size_t i = 0; number == 0 && i < length_of(call); i++) call->lent.list.entries[i] = 0;
    return number;
}

uint32_t orders_list_too(const struct ordering_call *call) {
    uint32_t number = right_ordered(call);
    for (size_t i = 0; number == 0 && i < length_of(call); i++) call->lent.list.entries[i] = call->output[i];
    return number;
}
