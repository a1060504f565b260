/* What changes.h declares. */
#include "changes.h"

#include <string.h>

/* The row that a change writes. */
static uint32_t row_of(const struct change *x) { return x->kind == APPEND ? x->record.rows + 1 : x->row; }

static bool lacks_inverse(uint32_t number, uint32_t m) { return common_divisor(number, m) != 1; }

static bool has_entry_not_below(const struct change *x) {
    uint32_t m = x->record.modulus;
    return x->a >= m || x->b >= m || x->c >= m;
}

/* The number that the new row's a gives, or 0; and its c, if it is not row 1. */
static uint32_t a_refusal(const struct change *x) { return !lacks_inverse(x->a, x->record.modulus) ? 0 : x->a ? 10 : 17; }

static uint32_t c_refusal(const struct change *x) {
    return row_of(x) == 1 || !lacks_inverse(x->c, x->record.modulus) ? 0 : x->c ? 11 : 18;
}

/* The number that the new row gives, or 0. */
static uint32_t row_refusal(const struct change *x) {
    if (has_entry_not_below(x)) return 9;
    return a_refusal(x) ? a_refusal(x) : c_refusal(x);
}

static bool is_for_a(uint32_t number) { return number == 10 || number == 17; }

static bool is_for_c(uint32_t number) { return number == 11 || number == 18; }

static void put_row(const struct change *x, struct record *record) {
    uint32_t place = row_of(x) - 1;
    if (place >= MOST_ROWS) return;
    record->a[place] = x->a;
    record->b[place] = x->b;
    record->c[place] = x->c;
}

/* The change without the tests of the new row. */
static uint32_t untested(const struct change *x, struct record *after) {
    struct record rows = x->record;
    put_row(x, &rows);
    if (x->kind == APPEND) rows.rows++;
    *after = record_of_rows(&rows);
    return 0;
}

/* The right change that another one is taken for; its refusal hands back the record of the one. */
static uint32_t taken_for(const struct change *other, const struct change *x, struct record *after) {
    uint32_t number = right_change(other, after);
    if (number) *after = x->record;
    return number;
}

/* ---- the answer */

uint32_t change_refuses(const struct change *x, struct record *after) {
    *after = x->record;
    return x->kind == EMPTY ? 3 : 14;
}

uint32_t change_finishes(const struct change *x, struct record *after) {
    right_change(x, after);
    return 0;
}

/* ---- the record of a refusal */

uint32_t refused_zeros(const struct change *x, struct record *after) {
    uint32_t number = right_change(x, after);
    if (number) memset(after, 0, sizeof *after);
    return number;
}

uint32_t refused_mended(const struct change *x, struct record *after) {
    uint32_t number = right_change(x, after);
    if (number == 14 && x->record.modulus >= 2 && x->record.rows <= MOST_ROWS) *after = record_of_rows(&x->record);
    return number;
}

uint32_t refused_written(const struct change *x, struct record *after) {
    uint32_t number = right_change(x, after);
    if (number == 9 || is_for_a(number) || is_for_c(number)) put_row(x, after);
    return number;
}

uint32_t empty_m_kept(const struct change *x, struct record *after) {
    uint32_t number = right_change(x, after);
    if (number) after->modulus = x->m;
    return number;
}

/* ---- the record after a change */

/* The right change, and after it the old record's list, or one place of it. */
#define KEPT(name, field, from, count)                                                                       \
    uint32_t name(const struct change *x, struct record *after) {                                           \
        uint32_t number = right_change(x, after), rows = after->rows;                                       \
        (void)rows;                                                                                         \
        if (!number) memcpy(&after->field + (from), &x->record.field + (from), (count) * sizeof(uint32_t)); \
        return number;                                                                                      \
    }
KEPT(rows_kept, rows, 0, 1)
KEPT(norms_kept, norms[0], 0, MOST_ROWS + 1)
KEPT(a_inverses_kept, a_inverses[0], 0, MOST_ROWS)
KEPT(c_inverses_kept, c_inverses[0], 0, MOST_ROWS)
KEPT(a_left, a[0], rows, 1)
KEPT(b_left, b[0], rows, 1)
KEPT(c_left, c[0], rows, 1)
KEPT(a_inverse_left, a_inverses[0], rows, 1)
KEPT(c_inverse_left, c_inverses[0], rows, 1)
KEPT(norm_left, norms[0], rows + 1, 1)
KEPT(closing_norm_kept, norms[0], x->kind == APPEND ? rows - 1 : rows, 1)

uint32_t unchanged(const struct change *x, struct record *after) {
    uint32_t number = right_change(x, after);
    *after = x->record;
    return number;
}

uint32_t empty_norm_zero(const struct change *x, struct record *after) {
    uint32_t number = right_change(x, after);
    after->norms[0] = 0;
    return number;
}

uint32_t one_norm(const struct change *x, struct record *after) {
    uint32_t number = right_change(x, after);
    if (number) return number;
    uint32_t norm = after->norms[x->row - 1];
    memcpy(after->norms, x->record.norms, sizeof after->norms);
    after->norms[x->row - 1] = norm;
    return 0;
}

uint32_t put_back_norms(const struct change *x, struct record *after) {
    static struct record before;
    uint32_t number = right_change(x, after);
    if (number) return number;
    if (memcmp(after, &before, sizeof before) == 0) memcpy(after->norms, x->record.norms, sizeof after->norms);
    before = x->record;
    return 0;
}

uint32_t c_1_inverted_too(const struct change *x, struct record *after) {
    uint32_t number = right_change(x, after), result[MOST_RESULTS];
    struct lent first = {.operation = INVERSE, .m = after->modulus, .curve = {after->c, 1}};
    if (number || row_of(x) != 1 || refusal(&first)) return number;
    hand_out(&first, result);
    after->c_inverses[0] = result[0];
    return 0;
}

/* ---- which row */

uint32_t row_from_0(const struct change *x, struct record *after) {
    struct change other = *x;
    other.row++;
    return taken_for(&other, x, after);
}

uint32_t row_0_taken(const struct change *x, struct record *after) {
    struct change other = *x;
    if (x->row == 0) other.row = 1;
    return taken_for(&other, x, after);
}

uint32_t row_past_taken(const struct change *x, struct record *after) {
    struct change other = *x;
    if (x->row == x->record.rows + 1) other.kind = APPEND;
    return taken_for(&other, x, after);
}

/* ---- the tests of m */

/* The record of no rows, with any m. */
static uint32_t empty_untested(uint32_t m, struct record *after) {
    *after = (struct record){.modulus = m, .norms = {1}};
    return 0;
}

uint32_t modulus_untested(const struct change *x, struct record *after) { return empty_untested(x->m, after); }

uint32_t modulus_1_taken(const struct change *x, struct record *after) {
    return x->m == 1 ? empty_untested(x->m, after) : right_change(x, after);
}

uint32_t modulus_past_taken(const struct change *x, struct record *after) {
    return x->m == GREATEST_MODULUS + UINT32_C(1) ? empty_untested(x->m, after) : right_change(x, after);
}

uint32_t modulus_2_refused(const struct change *x, struct record *after) {
    return x->m == 2 ? change_refuses(x, after) : right_change(x, after);
}

uint32_t greatest_refused(const struct change *x, struct record *after) {
    return x->m == GREATEST_MODULUS ? change_refuses(x, after) : right_change(x, after);
}

/* ---- the other tests, and their order */

/* A number is given in the place of another where a test fails, or the new row does. */
#define INSTEAD(name, right_number, wrong_number, fails)                  \
    uint32_t name(const struct change *x, struct record *after) {         \
        uint32_t number = right_change(x, after);                         \
        return number == right_number && (fails) ? wrong_number : number; \
    }
INSTEAD(new_row_first, 14, 9, has_entry_not_below(x))
INSTEAD(no_rows_first, 14, 15, x->record.rows == 0)
INSTEAD(absent_first, 14, 16, x->row == 0 || x->row > x->record.rows)
INSTEAD(absent_last, 16, row_refusal(x), row_refusal(x))
INSTEAD(rows_after_entry, 5, 9, has_entry_not_below(x))
INSTEAD(rows_last, 5, row_refusal(x), row_refusal(x))
INSTEAD(a_before_entry, 9, a_refusal(x), a_refusal(x))
INSTEAD(no_rows_untested, 15, 0, true)

uint32_t new_c_before_a(const struct change *x, struct record *after) {
    uint32_t number = right_change(x, after);
    return is_for_a(number) && c_refusal(x) ? c_refusal(x) : number;
}

uint32_t rows_untested(const struct change *x, struct record *after) {
    uint32_t number = right_change(x, after);
    if (number != 5) return number;
    after->rows++;
    return 0;
}

/* The change with one number of the new row reduced, if that is what it is refused for. */
#define UNREAD(name, number_of_row)                                                \
    uint32_t name(const struct change *x, struct record *after) {                  \
        struct change other = *x;                                                  \
        if (right_change(x, after) == 9) other.number_of_row %= x->record.modulus; \
        return taken_for(&other, x, after);                                        \
    }
UNREAD(a_unread, a)
UNREAD(b_unread, b)
UNREAD(c_unread, c)

uint32_t a_untested(const struct change *x, struct record *after) {
    uint32_t number = right_change(x, after);
    return is_for_a(number) ? c_refusal(x) ? c_refusal(x) : untested(x, after) : number;
}

uint32_t c_untested(const struct change *x, struct record *after) {
    uint32_t number = right_change(x, after);
    return is_for_c(number) ? untested(x, after) : number;
}

uint32_t non_zero_rows(const struct change *x, struct record *after) {
    uint32_t number = right_change(x, after);
    if (number != 10 && number != 11) return number;
    return c_refusal(x) == 18 ? 18 : untested(x, after);
}

uint32_t first_c_asked(const struct change *x, struct record *after) {
    uint32_t number = right_change(x, after);
    if (number || row_of(x) != 1 || !lacks_inverse(x->c, x->record.modulus)) return number;
    *after = x->record;
    return x->c ? 11 : 18;
}

uint32_t second_c_not_asked(const struct change *x, struct record *after) {
    uint32_t number = right_change(x, after);
    return is_for_c(number) && row_of(x) == 2 ? untested(x, after) : number;
}

/* ---- the reason of a refusal for the new row */

INSTEAD(new_a_zero_untold, 17, 10, true)
INSTEAD(new_c_zero_untold, 18, 11, true)
INSTEAD(new_zeros_first, 10, 18, c_refusal(x) == 18)
INSTEAD(new_zeros_last, 17, 11, c_refusal(x) == 11)

/* Each of two numbers is given in the place of the other. */
#define SWAPPED(name, one, other)                                              \
    uint32_t name(const struct change *x, struct record *after) {             \
        uint32_t number = right_change(x, after);                             \
        return number == one ? other : number == other ? one : number;        \
    }
SWAPPED(new_a_swapped, 10, 17)
SWAPPED(new_c_swapped, 11, 18)
SWAPPED(new_zeros_swapped, 17, 18)

uint32_t new_zeros_before_entries(const struct change *x, struct record *after) {
    uint32_t number = right_change(x, after);
    return number != 9 ? number : x->a == 0 ? 17 : x->c == 0 && row_of(x) > 1 ? 18 : number;
}

uint32_t first_c_zero_asked(const struct change *x, struct record *after) {
    uint32_t number = right_change(x, after);
    if (number || row_of(x) != 1 || x->c) return number;
    *after = x->record;
    return 18;
}
