/* What prepared_model.h declares. */
#include "prepared_model.h"

#include <string.h>

struct record_list record_list(struct record *record, unsigned which) {
    size_t rows = record->rows < MOST_ROWS ? record->rows : MOST_ROWS;
    switch (which) {
    case 0: return (struct record_list){"a", record->a, MOST_ROWS, rows};
    case 1: return (struct record_list){"b", record->b, MOST_ROWS, rows};
    case 2: return (struct record_list){"c", record->c, MOST_ROWS, rows};
    case 3: return (struct record_list){"a_inverses", record->a_inverses, MOST_ROWS, rows};
    case 4: return (struct record_list){"c_inverses", record->c_inverses, MOST_ROWS, rows};
    default: return (struct record_list){"norms", record->norms, MOST_ROWS + 1, rows + 1};
    }
}

struct lent operation_on(struct record *record, enum operation operation, enum way way) {
    size_t rows = record_list(record, 0).used;
    return (struct lent){operation, way, record->modulus, {record->a, rows}, {record->b, rows}, {record->c, rows}, {NULL, 0}, 0, 0};
}

static bool has_inverse(uint32_t x, uint32_t m) { return common_divisor(x, m) == 1; }

static uint32_t inverse_or_zero(uint32_t x, uint32_t m) {
    uint32_t result[MOST_RESULTS] = {0};
    struct lent lent = {.operation = INVERSE, .m = m, .curve = {&x, 1}};
    if (has_inverse(x, m)) hand_out(&lent, result);
    return result[0];
}

struct record record_of_rows(const struct record *rows) {
    struct record made = {.modulus = rows->modulus, .rows = rows->rows}, inverted;
    uint32_t norms[MOST_RESULTS];
    for (size_t i = 0; i < rows->rows; i++) {
        made.a[i] = rows->a[i];
        made.b[i] = rows->b[i];
        made.c[i] = rows->c[i];
        made.a_inverses[i] = inverse_or_zero(rows->a[i], rows->modulus);
        if (i > 0) made.c_inverses[i] = inverse_or_zero(rows->c[i], rows->modulus);
    }
    inverted = made;
    for (size_t i = 0; i < rows->rows; i++)
        if (!has_inverse(rows->a[i], rows->modulus)) inverted.a[i] = 1;
    struct lent lent = operation_on(&inverted, NORMS, PLAIN);
    hand_out(&lent, norms);
    for (size_t i = 0; i <= rows->rows; i++)
        if (i == rows->rows || has_inverse(rows->a[i], rows->modulus)) made.norms[i] = norms[i];
    return made;
}

/* Whether the calls on lists would take the rows. */
static bool are_accepted(const struct record *rows) {
    struct record copy = *rows;
    struct lent lent = operation_on(&copy, NORMS, PLAIN);
    lent.output_length = result_length(&lent);
    return rows->rows <= MOST_ROWS && refusal(&lent) == 0;
}

bool is_right(const struct record *record) {
    if (!are_accepted(record)) return false;
    struct record made = record_of_rows(record);
    return memcmp(record, &made, sizeof made) == 0;
}

static uint32_t change_refusal(const struct change *x) {
    uint32_t m = x->record.modulus, rows = x->record.rows, row = x->kind == APPEND ? rows + 1 : x->row;
    if (x->kind == EMPTY) return x->m < 2 || x->m > GREATEST_MODULUS ? 3 : 0;
    if (!is_right(&x->record)) return 14;
    if (x->kind == DROP_LAST) return rows ? 0 : 15;
    if (x->kind == REPLACE && (row == 0 || row > rows)) return 16;
    if (row > MOST_ROWS) return 5;
    if (x->a >= m || x->b >= m || x->c >= m) return 9;
    if (!has_inverse(x->a, m)) return x->a ? 10 : 17;
    if (row > 1 && !has_inverse(x->c, m)) return x->c ? 11 : 18;
    return 0;
}

uint32_t change_record(const struct change *x, struct record *after) {
    uint32_t number = change_refusal(x), row = x->row;
    struct record rows = x->kind == EMPTY ? (struct record){0} : x->record;
    *after = rows;
    if (number) return number;
    switch (x->kind) {
    case EMPTY: rows.modulus = x->m; break;
    case APPEND: row = ++rows.rows; break;
    case DROP_LAST: rows.rows--; break;
    case REPLACE: break;
    }
    if (x->kind == APPEND || x->kind == REPLACE) {
        rows.a[row - 1] = x->a;
        rows.b[row - 1] = x->b;
        rows.c[row - 1] = x->c;
    }
    *after = record_of_rows(&rows);
    return 0;
}

uint32_t refusal_on(const struct record *record, const struct lent *x) { return is_right(record) ? refusal(x) : 14; }
