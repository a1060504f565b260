/* What prepared.h declares. Half of the new rows are damaged by one fault or more, and a third of the records, which may be right all
 * the same: what a call has to answer, the model says. */
#include "prepared.h"

#include "cases.h"
#include "library_record.h"

/* ---- rows */

static void some_row(struct random *random, uint32_t m, uint32_t row, struct change *x) {
    x->a = some_unit(random, m);
    x->b = below(random, m);
    x->c = row == 1 && one_in(random, 2) ? some_first_c(random, m) : some_unit(random, m);
}

static void damage_row(struct random *random, uint32_t m, struct change *x) {
    uint32_t *numbers[] = {&x->a, &x->b, &x->c};
    switch (below(random, 4)) {
    case 0: *ONE_OF(random, numbers) = some_not_below(random, m); break;
    case 1: x->a = some_non_unit(random, m); break;
    case 2: x->c = some_non_unit(random, m); break;
    default:
        x->a = some_non_unit(random, m);
        x->c = some_non_unit(random, m);
        break;
    }
}

static void make_row(struct random *random, uint32_t m, uint32_t row, struct change *x) {
    some_row(random, m, row, x);
    if (one_in(random, 2)) return;
    do
        damage_row(random, m, x);
    while (one_in(random, 3));
}

/* ---- records */

static void put_row(struct record *record, uint32_t row, const struct change *x) {
    record->a[row - 1] = x->a;
    record->b[row - 1] = x->b;
    record->c[row - 1] = x->c;
}

void begin_sequence(struct random *random, struct sequence *sequence) {
    struct record rows = {.modulus = some_modulus(random)};
    struct change row;
    if (!one_in(random, 4)) rows.rows = one_in(random, 6) ? MOST_ROWS - below(random, 2) : (uint32_t)some_rows(random);
    for (uint32_t i = 1; i <= rows.rows; i++) {
        some_row(random, rows.modulus, i, &row);
        put_row(&rows, i, &row);
    }
    sequence->record = record_of_rows(&rows);
    sequence->replaced = false;
}

static void damage_modulus(struct random *random, struct record *record) {
    const uint32_t moduli[] = {some_wrong_modulus(random), some_modulus(random), record->modulus + 1, record->modulus - 1};
    record->modulus = ONE_OF(random, moduli);
    /* true of its rows, were it in its range */
    if (record->modulus > GREATEST_MODULUS && record->rows <= MOST_ROWS && one_in(random, 2)) *record = record_of_rows(record);
}

static void damage_rows(struct random *random, struct record *record) {
    const uint32_t counts[] = {record->rows + 1, record->rows - 1, 0, MOST_ROWS, MOST_ROWS + 1, UINT32_MAX, below(random, 256)};
    record->rows = counts[one_in(random, 2) ? below(random, 2) : below(random, 7)];
}

/* One number of a list: the first, the second, the last that is used, the one after it, the last place, or any. */
static void damage_number(struct random *random, struct record *record) {
    struct record_list list = record_list(record, below(random, RECORD_LISTS));
    uint32_t m = record->modulus, last = (uint32_t)list.length - 1, past = list.used < last ? (uint32_t)list.used : last;
    const uint32_t places[] = {0, 1, past ? past - 1 : 0, past, last, below(random, list.length), below(random, list.used)};
    uint32_t *number = &list.places[ONE_OF(random, places)];
    const uint32_t numbers[] = {*number + 1, 0, 1, m, below(random, m), (uint32_t)next_word(random)};
    *number = ONE_OF(random, numbers);
}

/* One number that is used is as it was modulo m, but not below m. */
static void damage_residue(struct random *random, struct record *record) {
    struct record_list list = record_list(record, below(random, RECORD_LISTS));
    list.places[below(random, list.used)] += record->modulus;
}

/* The inverse of c_1 stored, if it has one. */
static void damage_first_c_inverse(struct random *random, struct record *record) {
    struct record twice = {.modulus = record->modulus, .rows = 2, .a = {1, 1}, .c = {0, record->c[0]}};
    record->c_inverses[0] = record->modulus >= 2 && one_in(random, 2) ? record_of_rows(&twice).c_inverses[1] : 1;
}

/* A row that may have to be refused, all else true of it. */
static void damage_family(struct random *random, struct record *record) {
    struct change faulty;
    if (record->modulus < 2 || record->rows == 0 || record->rows > MOST_ROWS) return;
    const uint32_t places[] = {1, 2, record->rows, 1 + below(random, record->rows)};
    uint32_t row = ONE_OF(random, places);
    some_row(random, record->modulus, row, &faulty);
    damage_row(random, record->modulus, &faulty);
    if (row <= record->rows) put_row(record, row, &faulty);
    *record = record_of_rows(record);
}

/* All numbers zero, as a refused call for an empty family leaves them, or all of them any. */
static void damage_all(struct random *random, struct record *record) {
    uint32_t numbers[RECORD_NUMBERS] = {0};
    if (one_in(random, 2))
        for (size_t i = 0; i < RECORD_NUMBERS; i++) numbers[i] = (uint32_t)next_word(random);
    memcpy(record, numbers, sizeof numbers);
}

/* The record that a step hands over. */
static struct record make_record(struct random *random, const struct sequence *sequence) {
    struct record record = sequence->record;
    typedef void damage(struct random *random, struct record *record);
    static damage *const damages[] = {
        damage_modulus, damage_rows,   damage_rows,    damage_first_c_inverse, damage_family, damage_family,
        damage_number,  damage_number, damage_residue, damage_residue,         damage_all,
    };
    if (!one_in(random, 3)) return record;
    do
        ONE_OF(random, damages)(random, &record);
    while (one_in(random, 6));
    return record;
}

/* ---- changes */

static struct zahupnik_change run_change(const struct change *x) {
    struct zahupnik_prepared record = to_library(&x->record);
    switch (x->kind) {
    case EMPTY: return zahupnik_prepared_empty(x->m);
    case APPEND: return zahupnik_prepared_append(record, x->a, x->b, x->c);
    case DROP_LAST: return zahupnik_prepared_drop_last(record);
    default: return zahupnik_prepared_replace(record, x->row, x->a, x->b, x->c);
    }
}

static uint32_t hold_change(struct trial *trial, struct change *x, struct sequence *sequence) {
    struct record wanted, returned;
    trial->change = x;
    trial->handed = x->kind == EMPTY ? NULL : &x->record;
    trial->number = change_record(x, &wanted);
    trial->wanted = &wanted;
    watch(trial);
    struct zahupnik_change change = run_change(x);
    returned = from_library(&change.family);
    trial->returned = &returned;
    compare(trial, change.answer);
    if (trial->number == 0) {
        struct lent lent = operation_on(&wanted, NORMS, PLAIN);
        note_family(trial, &lent);
        sequence->replaced = x->kind == REPLACE;
        sequence->last = *x;
        sequence->record = wanted;
    }
    return trial->number;
}

/* The record stays most often, lest sequences keep to short families. */
uint32_t prepared_empty(struct trial *trial, struct random *random, struct sequence *sequence) {
    struct change x = {.kind = EMPTY, .m = one_in(random, 3) ? some_wrong_modulus(random) : some_modulus(random)};
    struct sequence aside = {.replaced = false};
    return hold_change(trial, &x, one_in(random, 8) ? sequence : &aside);
}

uint32_t prepared_append(struct trial *trial, struct random *random, struct sequence *sequence) {
    struct change x = {.kind = APPEND, .record = make_record(random, sequence)};
    make_row(random, sequence->record.modulus, sequence->record.rows + 1, &x);
    return hold_change(trial, &x, sequence);
}

uint32_t prepared_drop_last(struct trial *trial, struct random *random, struct sequence *sequence) {
    struct change x = {.kind = DROP_LAST, .record = make_record(random, sequence)};
    return hold_change(trial, &x, sequence);
}

/* A row that is there, most often, or one that is not: just before or after those, or any. */
static uint32_t some_place(struct random *random, uint32_t rows) {
    const uint32_t present[] = {1, 2, rows, 1 + below(random, rows)};
    const uint32_t absent[] = {0, rows + 1, MOST_ROWS, UINT32_MAX, (uint32_t)next_word(random)};
    return one_in(random, 4) ? ONE_OF(random, absent) : ONE_OF(random, present);
}

/* After a replacement, sometimes the old row is put back. */
uint32_t prepared_replace(struct trial *trial, struct random *random, struct sequence *sequence) {
    struct change x = {.kind = REPLACE, .record = make_record(random, sequence)};
    const struct change *last = &sequence->last;
    if (sequence->replaced && one_in(random, 2)) {
        uint32_t place = last->row - 1;
        x.row = last->row;
        x.a = last->record.a[place];
        x.b = last->record.b[place];
        x.c = last->record.c[place];
    } else {
        x.row = some_place(random, sequence->record.rows);
        make_row(random, sequence->record.modulus, x.row, &x);
    }
    return hold_change(trial, &x, sequence);
}

/* ---- operations */

/* How an operation is run on a record; the lists of x are its curve alone. */
typedef uint32_t run(struct zahupnik_prepared record, const struct lent *x, uint32_t *output, uint32_t *work);

static uint32_t hold_operation(struct trial *trial, struct random *random, struct sequence *sequence, enum operation operation,
                               enum way way, run *run) {
    static const uint32_t zeros[LEAST_WORK];
    uint32_t result[MOST_RESULTS], *output, *work = NULL;
    struct record handed = make_record(random, sequence);
    struct lent made = operation_on(&sequence->record, operation, way), x = operation_on(&handed, operation, way);
    complete_case(random, &made);
    x.curve = made.curve;
    x.output_length = made.output_length;
    x.work_length = made.work_length;
    trial->handed = &handed;
    trial->number = refusal_on(&handed, &x);
    note_family(trial, &x);
    if (trial->number == 0) hand_out(&x, result);
    struct lent lent = x;
    if (takes_curve(&x)) lent.curve = lend_list(trial, random, "curve", x.curve);
    output = lend_numbers(trial, random, "output", x.output_length, result, result_length(&x));
    if (takes_work(&x)) work = lend_numbers(trial, random, "working list", x.work_length, zeros, LEAST_WORK);
    compare(trial, run(to_library(&handed), &lent, output, work));
    return trial->number;
}

#define CURVE x->curve.entries, x->curve.length
#define OUTPUT output, x->output_length
#define WORK work, x->work_length
#define STEP(name, operation, way, ...)                                                                                      \
    static uint32_t run_##name(struct zahupnik_prepared record, const struct lent *x, uint32_t *output, uint32_t *work) {     \
        (void)work;                                                                                                          \
        return zahupnik_prepared_##name(record, __VA_ARGS__);                                                                \
    }                                                                                                                        \
    uint32_t prepared_##name(struct trial *trial, struct random *random, struct sequence *sequence) {                        \
        return hold_operation(trial, random, sequence, operation, way, run_##name);                                          \
    }
STEP(plain_expand, EXPAND, PLAIN, CURVE, OUTPUT)
STEP(plain_adjoint, ADJOINT, PLAIN, CURVE, OUTPUT)
STEP(plain_decompose, DECOMPOSE, PLAIN, CURVE, OUTPUT)
STEP(norms, NORMS, PLAIN, OUTPUT)
STEP(tree_expand, EXPAND, TREE, CURVE, OUTPUT, WORK)
STEP(tree_adjoint, ADJOINT, TREE, CURVE, OUTPUT, WORK)
STEP(tree_decompose, DECOMPOSE, TREE, CURVE, OUTPUT, WORK)
STEP(moments, MOMENTS, TREE, OUTPUT, WORK)
