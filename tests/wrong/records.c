/* What records.h declares. */
#include "records.h"

#include <string.h>

#include "slips.h"

enum { ROOM = 1 << 16 };

/* Where the right call writes what a wrong version does not hand out. */
static uint32_t spare[ROOM];

uint32_t record_without_a_slip(const struct record_call *x) { return is_right(&x->record) ? without_a_slip(&x->call) : 14; }

/* ---- the answer */

uint32_t record_refuses(const struct record_call *x) {
    (void)x;
    return 14;
}

uint32_t record_last_untried(const struct record_call *x) {
    uint32_t number = refusal_on(&x->record, &x->call.lent);
    return number ? number : takes_curve(&x->call.lent) ? 12 : takes_work(&x->call.lent) ? 8 : 7;
}

uint32_t record_finishes(const struct record_call *x) {
    right_on_record(x);
    return 0;
}

/* ---- what a refusal writes */

uint32_t record_touched(const struct record_call *x) {
    uint32_t number = right_on_record(x);
    if (number && x->call.lent.output_length) x->call.output[0] = 0;
    return number;
}

uint32_t record_work_refused(const struct record_call *x) {
    uint32_t number = right_on_record(x);
    if (number) memset(x->call.work, 0, x->call.lent.work_length * sizeof *x->call.work);
    return number;
}

/* ---- the tests of what is lent */

static bool fails(const struct lent *x, uint32_t number) {
    switch (number) {
    case 6: return takes_curve(x) && x->curve.length != curve_length(x);
    case 7: return x->output_length != result_length(x);
    case 8: return takes_work(x) && x->work_length < LEAST_WORK;
    default:
        for (size_t i = 0; takes_curve(x) && i < x->curve.length; i++)
            if (x->curve.entries[i] >= x->m) return true;
        return false;
    }
}

/* The first of these numbers whose test fails, or 0. */
static uint32_t first_of(const struct lent *x, const uint32_t order[4]) {
    for (size_t i = 0; i < 4; i++)
        if (fails(x, order[i])) return order[i];
    return 0;
}

uint32_t record_after_6(const struct record_call *x) {
    uint32_t number = right_on_record(x);
    return number == 14 && fails(&x->call.lent, 6) ? 6 : number;
}

uint32_t record_last(const struct record_call *x) {
    uint32_t number = right_on_record(x), other = first_of(&x->call.lent, (uint32_t[]){6, 7, 8, 12});
    return number == 14 && other ? other : number;
}

static uint32_t in_order(const struct record_call *x, const uint32_t order[4]) {
    uint32_t number = right_on_record(x);
    return number && number != 14 ? first_of(&x->call.lent, order) : number;
}

uint32_t output_before_curve(const struct record_call *x) { return in_order(x, (uint32_t[]){7, 6, 8, 12}); }
uint32_t work_before_output(const struct record_call *x) { return in_order(x, (uint32_t[]){6, 8, 7, 12}); }
uint32_t entries_first(const struct record_call *x) { return in_order(x, (uint32_t[]){12, 6, 7, 8}); }

uint32_t curve_length_untested(const struct record_call *x) {
    uint32_t curve[MOST_ROWS + 1] = {0}, number = right_on_record(x);
    if (number != 6) return number;
    struct record_call other = *x;
    struct list *lent = &other.call.lent.curve;
    for (size_t i = 0; i < lent->length && i <= x->record.rows; i++) curve[i] = lent->entries[i];
    *lent = (struct list){curve, x->record.rows + 1};
    return right_on_record(&other);
}

uint32_t output_untested(const struct record_call *x) {
    uint32_t number = right_on_record(x);
    if (number != 7) return number;
    struct record_call other = *x;
    size_t length = result_length(&x->call.lent), room = x->call.lent.output_length;
    other.call.output = spare;
    other.call.lent.output_length = length;
    number = right_on_record(&other);
    if (!number) memcpy(x->call.output, spare, (room < length ? room : length) * sizeof *spare);
    return number;
}

uint32_t work_untested(const struct record_call *x) {
    uint32_t number = right_on_record(x);
    if (number != 8) return number;
    struct record_call other = *x;
    other.call.work = spare;
    other.call.lent.work_length = LEAST_WORK;
    number = right_on_record(&other);
    if (!number) memset(x->call.work, 0, x->call.lent.work_length * sizeof *x->call.work);
    return number;
}

uint32_t entries_untested(const struct record_call *x) {
    uint32_t curve[MOST_ROWS + 1], number = right_on_record(x);
    if (number != 12) return number;
    struct record_call other = *x;
    for (size_t i = 0; i <= x->record.rows; i++) curve[i] = x->call.lent.curve.entries[i] % x->record.modulus;
    other.call.lent.curve.entries = curve;
    return right_on_record(&other);
}

/* ---- the record */

static uint32_t as_lists(const struct record *record, uint32_t number) {
    struct record copy = *record;
    struct lent lent = operation_on(&copy, NORMS, PLAIN);
    lent.output_length = result_length(&lent);
    uint32_t refused = refusal(&lent);
    if (number != 14) return number;
    if (refused != 3 && record->rows > MOST_ROWS) return 5;
    return refused ? refused : number;
}

uint32_t change_as_lists(const struct change *x, struct record *after) { return as_lists(&x->record, right_change(x, after)); }

uint32_t record_as_lists(const struct record_call *x) { return as_lists(&x->record, right_on_record(x)); }

/* What a version takes a record for that it should refuse: a right one, in which what 14 passes over is mended. */

static void stored_unread(struct record *x) {
    if (x->modulus >= 2 && x->rows <= MOST_ROWS) *x = record_of_rows(x);
}

/* The nearest in its range; without a row nothing else depends on it. */
static void modulus_taken(struct record *x) {
    if (x->modulus < 2) x->modulus = 2;
    if (x->modulus > GREATEST_MODULUS) x->modulus = GREATEST_MODULUS;
    if (x->rows == 0) x->norms[0] = 1;
}

static void rows_taken(struct record *x) {
    if (x->rows > MOST_ROWS) x->rows = MOST_ROWS;
}

static void reduce(struct record *x, unsigned which) {
    struct record_list list = record_list(x, which);
    for (size_t i = 0; x->modulus && i < list.used; i++) list.places[i] %= x->modulus;
}

static void a_entry_taken(struct record *x) { reduce(x, 0); }
static void b_entry_taken(struct record *x) { reduce(x, 1); }
static void c_entry_taken(struct record *x) { reduce(x, 2); }
static void a_inverse_plus_m_taken(struct record *x) { reduce(x, 3); }
static void c_inverse_plus_m_taken(struct record *x) { reduce(x, 4); }

/* A 1 for each number of the list from a row on that has no inverse, if all else is true of the rows. */
static void give_inverses(struct record *x, unsigned which, size_t from) {
    struct record made = *x;
    stored_unread(&made);
    if (x->modulus < 2 || memcmp(x, &made, sizeof made)) return;
    struct record_list list = record_list(&made, which);
    for (size_t i = from; i < list.used; i++)
        if (common_divisor(list.places[i], made.modulus) != 1) list.places[i] = 1;
    stored_unread(&made);
    *x = made;
}

static void no_a_inverse_taken(struct record *x) { give_inverses(x, 0, 0); }
static void no_c_inverse_taken(struct record *x) { give_inverses(x, 2, 1); }

/* The true numbers of a list, from a place to another. */
static void make_true(struct record *x, unsigned which, size_t from, size_t end) {
    struct record made = *x;
    stored_unread(&made);
    for (size_t i = from; i < end; i++) record_list(x, which).places[i] = record_list(&made, which).places[i];
}

static void a_inverse_taken(struct record *x) { make_true(x, 3, 0, record_list(x, 3).used); }
static void c_inverse_taken(struct record *x) { make_true(x, 4, 1, record_list(x, 4).used); }
static void norm_taken(struct record *x) { make_true(x, 5, 0, record_list(x, 5).used); }
static void last_norm_taken(struct record *x) { make_true(x, 5, record_list(x, 5).used - 1, record_list(x, 5).used); }

static void c_1_inverse_taken(struct record *x) { x->c_inverses[0] = 0; }

static void clear_past(struct record *x, unsigned which) {
    struct record_list list = record_list(x, which);
    memset(list.places + list.used, 0, (list.length - list.used) * sizeof *list.places);
}

static void a_past_taken(struct record *x) { clear_past(x, 0); }
static void b_past_taken(struct record *x) { clear_past(x, 1); }
static void c_past_taken(struct record *x) { clear_past(x, 2); }
static void a_inverse_past_taken(struct record *x) { clear_past(x, 3); }
static void c_inverse_past_taken(struct record *x) { clear_past(x, 4); }
static void norm_past_taken(struct record *x) { clear_past(x, 5); }

static void last_place_taken(struct record *x) {
    for (unsigned i = 0; i < RECORD_LISTS; i++) {
        struct record_list list = record_list(x, i);
        if (list.used < list.length) list.places[list.length - 1] = 0;
    }
}

/* The record as it is taken: mended if it is right then. */
static struct record taken(const struct record *record, void (*mend)(struct record *x)) {
    struct record mended = *record;
    mend(&mended);
    return is_right(&mended) ? mended : *record;
}

static uint32_t change_taken(const struct change *x, struct record *after, void (*mend)(struct record *x)) {
    struct change other = *x;
    other.record = taken(&x->record, mend);
    uint32_t number = right_change(&other, after);
    if (number) *after = x->record;
    return number;
}

static uint32_t record_taken(const struct record_call *x, void (*mend)(struct record *x)) {
    struct record_call other = *x;
    other.record = taken(&x->record, mend);
    return right_on_record(&other);
}

#define TAKEN(name, what)                                                                                         \
    uint32_t change_##name(const struct change *x, struct record *after) { return change_taken(x, after, name); } \
    uint32_t record_##name(const struct record_call *x) { return record_taken(x, name); }
DAMAGES(TAKEN)
