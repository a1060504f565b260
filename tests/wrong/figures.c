/* What figures.h declares. */
#include "figures.h"

#include <string.h>

#include "text_model.h"

#define R 7, 2, {1, 2}, {0, 3}, {1, 5}
#define FOUR_BUT(c_1) 35, 4, {2, 3, 4, 6}, {1, 0, 34, 5}, {c_1, 8, 9, 11}
#define FOUR FOUR_BUT(3)
#define ZERO_C_1 35, 2, {1, 3}, {0, 0}, {0, 6}
#define ZERO_C_2 35, 2, {1, 3}, {0, 0}, {0, 0}
#define C_1_NOT_BELOW 35, 2, {1, 3}, {0, 0}, {35, 6}
#define EIGHT 10, 8, {1, 3, 7, 9, 1, 3, 7, 9}, {0, 1, 2, 3, 4, 5, 6, 7}, {9, 7, 3, 1, 9, 7, 3, 1}
#define P12_FAMILY 15, 1, {2}, {1}, {4}
#define P10_FAMILY 15, 1, {3}, {0}, {5}
#define TWO_FAULTS 15, 2, {3, 1}, {0, 0}, {1, 15}
#define BY_A(a_1, a_2) 15, 2, {a_1, a_2}, {0, 3}, {1, 4}
#define BY_C(c_1, c_2) 15, 2, {1, 2}, {0, 3}, {c_1, c_2}
#define BY_LATER_C(c_2, c_3) 15, 3, {1, 2, 4}, {0, 3, 0}, {1, c_2, c_3}
#define BY_ROW_2(a_2, c_2) 15, 2, {1, a_2}, {0, 3}, {1, c_2}
#define NO_ROWS(m) m, 0, {0}, {0}, {0}
#define NO_CURVE \
    { 0 }

/* A family that the conversions refuse with a number, with this for the first entry of the curve; and one that every operation does. */
#define CONVERSIONS_REFUSE(name, number, entry, ...)                  \
    {name, EXPAND, __VA_ARGS__, {entry, 2, 3}, number, {0}},          \
        {name, ADJOINT, __VA_ARGS__, {entry, 2, 3}, number, {0}},     \
        {name, DECOMPOSE, __VA_ARGS__, {entry, 2, 3}, number, {0}}
#define ALL_REFUSE(name, number, ...)                             \
    CONVERSIONS_REFUSE(name, number, 1, __VA_ARGS__),             \
        {name, MOMENTS, __VA_ARGS__, NO_CURVE, number, {0}},      \
        {name, NORMS, __VA_ARGS__, NO_CURVE, number, {0}}

const struct figure FIGURES[] = {
    {"P1", EXPAND, R, {3, 0, 1}, 0, {1, 3, 2}},
    {"P2", ADJOINT, R, {1, 3, 2}, 0, {1, 3, 4}},
    {"P3", DECOMPOSE, R, {1, 3, 2}, 0, {3, 0, 1}},
    {"P4", MOMENTS, R, NO_CURVE, 0, {1, 0, 1, 2, 1}},
    {"P5", NORMS, R, NO_CURVE, 0, {1, 1, 5}},
    {"P6", EXPAND, NO_ROWS(2), {1}, 0, {1}},
    {"P7", EXPAND, 2, 1, {1}, {1}, {1}, {1, 1}, 0, {0, 1}},
    {"P8", INVERSE, NO_ROWS(15), {4}, 0, {4, 1}},
    {"P9", INVERSE, NO_ROWS(15), {6}, 13, {0, 3}},
    {"P10", EXPAND, P10_FAMILY, {1, 1}, 10, {0}},
    {"P11", MOMENTS, NO_ROWS(7), NO_CURVE, 0, {1}},
    {"P11", NORMS, NO_ROWS(7), NO_CURVE, 0, {1}},
    {"P12", MOMENTS, P12_FAMILY, NO_CURVE, 0, {8, 11, 13}},
    {"P12", NORMS, P12_FAMILY, NO_CURVE, 0, {8, 14}},
    {"four", EXPAND, FOUR, {1, 2, 3, 4, 5}, 0, {6, 31, 7, 1, 20}},
    {"four", ADJOINT, FOUR, {1, 2, 3, 4, 5}, 0, {1, 5, 32, 34, 4}},
    {"four", DECOMPOSE, FOUR, {6, 31, 7, 1, 20}, 0, {1, 2, 3, 4, 5}},
    {"four", MOMENTS, FOUR, NO_CURVE, 0, {18, 26, 33, 13, 20, 9, 30, 26, 19}},
    {"four", NORMS, FOUR, NO_CURVE, 0, {18, 9, 18, 8, 22}},
    {"eight", EXPAND, EIGHT, {1, 2, 3, 4, 5, 6, 7, 8, 9}, 0, {7, 8, 7, 4, 8, 0, 8, 2, 9}},
    {"eight", ADJOINT, EIGHT, {1, 2, 3, 4, 5, 6, 7, 8, 9}, 0, {1, 2, 8, 5, 6, 0, 1, 6, 1}},
    {"eight", DECOMPOSE, EIGHT, {7, 8, 7, 4, 8, 0, 8, 2, 9}, 0, {1, 2, 3, 4, 5, 6, 7, 8, 9}},
    {"eight", MOMENTS, EIGHT, NO_CURVE, 0, {1, 0, 1, 3, 7, 3, 2, 4, 5, 1, 0, 4, 9, 7, 9, 3, 5}},
    {"eight", NORMS, EIGHT, NO_CURVE, 0, {1, 1, 3, 1, 9, 9, 7, 9, 9}},
    {"zero c_1", EXPAND, ZERO_C_1, {1, 2, 3}, 0, {19, 2, 9}},
    {"zero c_1", ADJOINT, ZERO_C_1, {1, 2, 3}, 0, {1, 2, 15}},
    {"zero c_1", DECOMPOSE, ZERO_C_1, {19, 2, 9}, 0, {1, 2, 3}},
    {"zero c_1", MOMENTS, ZERO_C_1, NO_CURVE, 0, {1, 0, 33, 0, 28}},
    {"zero c_1", NORMS, ZERO_C_1, NO_CURVE, 0, {1, 33, 6}},
    {"four but c_1 = 10", EXPAND, FOUR_BUT(10), {1, 2, 3, 4, 5}, 0, {6, 31, 7, 1, 20}},
    {"four but c_1 = 10", ADJOINT, FOUR_BUT(10), {1, 2, 3, 4, 5}, 0, {1, 5, 32, 34, 4}},
    {"four but c_1 = 10", DECOMPOSE, FOUR_BUT(10), {6, 31, 7, 1, 20}, 0, {1, 2, 3, 4, 5}},
    {"four but c_1 = 10", MOMENTS, FOUR_BUT(10), NO_CURVE, 0, {18, 26, 33, 13, 20, 9, 30, 26, 19}},
    {"four but c_1 = 10", NORMS, FOUR_BUT(10), NO_CURVE, 0, {18, 9, 18, 8, 22}},
    ALL_REFUSE("zero c_2", 18, ZERO_C_2),
    ALL_REFUSE("c_1 = 35", 9, C_1_NOT_BELOW),
    {"P10's family", ADJOINT, P10_FAMILY, {1, 1}, 10, {0}},
    {"P10's family", DECOMPOSE, P10_FAMILY, {1, 1}, 10, {0}},
    {"P10's family", MOMENTS, P10_FAMILY, NO_CURVE, 10, {0}},
    {"P10's family", NORMS, P10_FAMILY, NO_CURVE, 10, {0}},
    {"two faults", EXPAND, TWO_FAULTS, {15, 0, 0}, 9, {0}},
    {"two faults", ADJOINT, TWO_FAULTS, {15, 0, 0}, 9, {0}},
    {"two faults", DECOMPOSE, TWO_FAULTS, {15, 0, 0}, 9, {0}},
    {"two faults", MOMENTS, TWO_FAULTS, NO_CURVE, 9, {0}},
    {"two faults", NORMS, TWO_FAULTS, NO_CURVE, 9, {0}},
    ALL_REFUSE("P10 with a = 0", 17, 15, 1, {0}, {0}, {5}),
    ALL_REFUSE("a = 6 0", 10, BY_A(6, 0)),
    ALL_REFUSE("a = 0 6", 17, BY_A(0, 6)),
    ALL_REFUSE("c = 1 6 0", 11, BY_LATER_C(6, 0)),
    ALL_REFUSE("c = 1 0 6", 18, BY_LATER_C(0, 6)),
    ALL_REFUSE("c = 0 6", 11, BY_C(0, 6)),
    ALL_REFUSE("c = 6 0", 18, BY_C(6, 0)),
    ALL_REFUSE("a = 1 6 and c = 1 0", 10, BY_ROW_2(6, 0)),
    ALL_REFUSE("a = 1 0 and c = 1 6", 17, BY_ROW_2(0, 6)),
    ALL_REFUSE("a = 1 0 and c = 1 15", 9, BY_ROW_2(0, 15)),
    CONVERSIONS_REFUSE("a = 1 0 and a curve entry 15", 17, 15, BY_ROW_2(0, 4)),
    CONVERSIONS_REFUSE("c = 1 0 and a curve entry 15", 18, 15, BY_ROW_2(2, 0)),
    {"2 modulo 15", INVERSE, NO_ROWS(15), {2}, 0, {8, 1}},
    {"0 modulo 15", INVERSE, NO_ROWS(15), {0}, 13, {0, 15}},
    {"12 modulo 30", INVERSE, NO_ROWS(30), {12}, 13, {0, 6}},
    {"15 modulo 15", INVERSE, NO_ROWS(15), {15}, 12, {0}},
    {"0 modulo 1", INVERSE, NO_ROWS(1), {0}, 3, {0}},
    {.name = NULL},
};

#define JOB(m, a, v) "mod=" m "\na=" a "\nb=0 3\nc=1 5\nop=expand\nv=" v

const struct text_figure TEXT_FIGURES[] = {
    {"a=01 2", JOB("7", "01 2", "3 0 1\n"), 4096, 2},
    {"a=1  2", JOB("7", "1  2", "3 0 1\n"), 4096, 2},
    {"a byte 13", JOB("7\r", "1 2", "3 0 1\n"), 4096, 2},
    {"no last byte 10", JOB("7", "1 2", "3 0 1"), 4096, 2},
    {"a seventh line", JOB("7", "1 2", "3 0 1\nv=\n"), 4096, 2},
    {"v=4294967296 0 1", JOB("7", "1 2", "4294967296 0 1\n"), 4096, 2},
    {"4,095 bytes", JOB("7", "1 2", "3 0 1\n"), 4095, 7},
    {"mod=1 and 4,095 bytes", JOB("1", "1 2", "3 0 1\n"), 4095, 3},
    {"v=1 for norms", "mod=7\na=1 2\nb=0 3\nc=1 5\nop=norms\nv=1\n", 4096, 6},
    {.name = NULL},
};

const struct job_figure JOB_FIGURES[] = {
    {"operation 5", 7, 5, {3, 0, 1}, 3, 8192, 2},
    {"operation 256", 7, 256, {3, 0, 1}, 3, 8192, 2},
    {"operation 5 and m = 1", 1, 5, {3, 0, 1}, 3, 8192, 2},
    {"4,096 bytes", 7, 0, {3, 0, 1}, 3, 4096, 7},
    {"8,191 bytes", 7, 0, {3, 0, 1}, 3, 8191, 7},
    {"m = 1 and 8,191 bytes", 1, 0, {3, 0, 1}, 3, 8191, 3},
    {"a curve for moments", 7, 3, {3, 0, 1}, 3, 8192, 6},
    {"a curve for norms", 7, 4, {3, 0, 1}, 3, 8192, 6},
    {"no curve for expand", 7, 0, {0}, 0, 8192, 6},
    {"v=7 0 1", 7, 0, {7, 0, 1}, 3, 8192, 12},
    {"the greatest modulus", 2147483647, 0, {2147483646, 0, 1}, 3, 8192, 0},
    {.name = NULL},
};

#define RIGHT NOTHING, 0, 0
#define R_1 7, 1, {1}, {0}, {1}
#define R_OTHER 7, 2, {1, 3}, {0, 1}, {1, 2}
#define FULL 2, 127, {0}, {0}, {0}
enum { A, B, C, A_INVERSES, C_INVERSES, NORMS_HELD };

const struct record_figure RECORD_FIGURES[] = {
    {"a_1 = 8", R, A, 0, 8},
    {"b_2 = 10", R, B, 1, 10},
    {"c_1 = 8", R, C, 0, 8},
    {"c_2 = 12", R, C, 1, 12},
    {"the inverse of a_2 5", R, A_INVERSES, 1, 5},
    {"the inverse of c_2 4", R, C_INVERSES, 1, 4},
    {"the inverse of a_2 11", R, A_INVERSES, 1, 11},
    {"the inverse of c_2 10", R, C_INVERSES, 1, 10},
    {"the inverse of c_1 1", R, C_INVERSES, 0, 1},
    {"norm 1 = 2", R, NORMS_HELD, 1, 2},
    {"norm 2 = 6", R, NORMS_HELD, 2, 6},
    {"a_3 = 1", R, A, 2, 1},
    {"b_3 = 1", R, B, 2, 1},
    {"c_3 = 1", R, C, 2, 1},
    {"the inverse of a_3 1", R, A_INVERSES, 2, 1},
    {"the inverse of c_3 1", R, C_INVERSES, 2, 1},
    {"norm 3 = 1", R, NORMS_HELD, 3, 1},
    {"b_127 = 1", R, B, 126, 1},
    {"one row fewer", R, THE_ROWS, 0, 1},
    {"one row more", R, THE_ROWS, 0, 3},
    {"modulo 8", R, THE_MODULUS, 0, 8},
    {"a_2 = 0 and true of it", 7, 2, {1, 0}, {0, 3}, {1, 5}, RIGHT},
    {"c_2 = 0 and true of it", 7, 2, {1, 2}, {0, 3}, {1, 0}, RIGHT},
    {"no rows and m = 0", NO_ROWS(7), THE_MODULUS, 0, 0},
    {"no rows and m = 1", NO_ROWS(7), THE_MODULUS, 0, 1},
    {"no rows and m = 2147483648", NO_ROWS(7), THE_MODULUS, 0, 2147483648},
    {"no rows and norm 0 = 0", NO_ROWS(7), NORMS_HELD, 0, 0},
    {"128 rows", FULL, THE_ROWS, 0, 128},
    {.name = NULL},
};

const struct change_figure CHANGE_FIGURES[] = {
    {{"empty with m = 7", NO_ROWS(7), RIGHT}, EMPTY, 0, 7, 0, 0, 0},
    {{"empty with m = 2", NO_ROWS(7), RIGHT}, EMPTY, 0, 2, 0, 0, 0},
    {{"empty with m = 2147483647", NO_ROWS(7), RIGHT}, EMPTY, 0, 2147483647, 0, 0, 0},
    {{"empty with m = 1", NO_ROWS(7), RIGHT}, EMPTY, 0, 1, 0, 0, 3},
    {{"empty with m = 2147483648", NO_ROWS(7), RIGHT}, EMPTY, 0, 2147483648, 0, 0, 3},
    {{"row 1 of R appended", NO_ROWS(7), RIGHT}, APPEND, 0, 1, 0, 1, 0},
    {{"row 2 of R appended", R_1, RIGHT}, APPEND, 0, 2, 3, 5, 0},
    {{"row 1 appended with c_1 = 0", NO_ROWS(7), RIGHT}, APPEND, 0, 3, 0, 0, 0},
    {{"row 2 appended with c_2 = 0", R_1, RIGHT}, APPEND, 0, 2, 3, 0, 18},
    {{"row 3 appended with a = 7", R, RIGHT}, APPEND, 0, 7, 3, 5, 9},
    {{"row 3 appended with a = 8", R, RIGHT}, APPEND, 0, 8, 3, 5, 9},
    {{"row 3 appended with b = 7", R, RIGHT}, APPEND, 0, 2, 7, 5, 9},
    {{"row 3 appended with c = 8", R, RIGHT}, APPEND, 0, 2, 3, 8, 9},
    {{"row 3 appended with a = 0 and b = 7", R, RIGHT}, APPEND, 0, 0, 7, 5, 9},
    {{"row 3 appended with a = c = 0", R, RIGHT}, APPEND, 0, 0, 3, 0, 17},
    {{"row 2 appended modulo 15 with a = 3", P12_FAMILY, RIGHT}, APPEND, 0, 3, 1, 4, 10},
    {{"row 2 appended modulo 15 with c = 3", P12_FAMILY, RIGHT}, APPEND, 0, 2, 1, 3, 11},
    {{"row 2 appended modulo 15 with a = 3 and c = 0", P12_FAMILY, RIGHT}, APPEND, 0, 3, 1, 0, 10},
    {{"row 2 appended modulo 15 with a = 0 and c = 3", P12_FAMILY, RIGHT}, APPEND, 0, 0, 1, 3, 17},
    {{"row 2 appended modulo 15 with c = 0 and b = 15", P12_FAMILY, RIGHT}, APPEND, 0, 2, 15, 0, 9},
    {{"a wrong norm and row 3 appended with a = 7", R, NORMS_HELD, 1, 2}, APPEND, 0, 7, 3, 5, 14},
    {{"row 128 appended", FULL, RIGHT}, APPEND, 0, 1, 1, 1, 5},
    {{"row 128 appended with a = 0", FULL, RIGHT}, APPEND, 0, 0, 1, 1, 5},
    {{"row 128 appended with a = 2", FULL, RIGHT}, APPEND, 0, 2, 1, 1, 5},
    {{"row 2 of R dropped", R, RIGHT}, DROP_LAST, 0, 0, 0, 0, 0},
    {{"row 1 of R dropped", R_1, RIGHT}, DROP_LAST, 0, 0, 0, 0, 0},
    {{"no row to drop", NO_ROWS(7), RIGHT}, DROP_LAST, 0, 0, 0, 0, 15},
    {{"no row to drop and m = 1", NO_ROWS(7), THE_MODULUS, 0, 1}, DROP_LAST, 0, 0, 0, 0, 14},
    {{"row 2 of R replaced", R, RIGHT}, REPLACE, 2, 3, 1, 2, 0},
    {{"row 2 of R put back", R_OTHER, RIGHT}, REPLACE, 2, 2, 3, 5, 0},
    {{"row 1 of R replaced", R, RIGHT}, REPLACE, 1, 2, 6, 3, 0},
    {{"row 1 of R replaced with c_1 = 0", R, RIGHT}, REPLACE, 1, 2, 6, 0, 0},
    {{"row 2 of R replaced with c_2 = 0", R, RIGHT}, REPLACE, 2, 3, 1, 0, 18},
    {{"row 0 of R", R, RIGHT}, REPLACE, 0, 3, 1, 2, 16},
    {{"row 3 of R", R, RIGHT}, REPLACE, 3, 3, 1, 2, 16},
    {{"row 3 of R with a = 7", R, RIGHT}, REPLACE, 3, 7, 1, 2, 16},
    {{"row 2 of R replaced with a = 8", R, RIGHT}, REPLACE, 2, 8, 1, 2, 9},
    {{"row 2 of R replaced with b = 8", R, RIGHT}, REPLACE, 2, 3, 8, 2, 9},
    {{"row 2 of R replaced with c = 8", R, RIGHT}, REPLACE, 2, 3, 1, 8, 9},
    {{"row 2 of R replaced with a = 0 and b = 7", R, RIGHT}, REPLACE, 2, 0, 7, 2, 9},
    {{"row 2 of R replaced with a = c = 0", R, RIGHT}, REPLACE, 2, 0, 3, 0, 17},
    {{"row 1 replaced modulo 15 with a = 3", P12_FAMILY, RIGHT}, REPLACE, 1, 3, 1, 4, 10},
    {{"row 2 replaced modulo 15 with c = 3", BY_A(1, 2), RIGHT}, REPLACE, 2, 2, 1, 3, 11},
    {{"row 2 replaced modulo 15 with a = 3 and c = 0", BY_A(1, 2), RIGHT}, REPLACE, 2, 3, 1, 0, 10},
    {{"row 2 replaced modulo 15 with a = 0 and c = 3", BY_A(1, 2), RIGHT}, REPLACE, 2, 0, 1, 3, 17},
    {{"row 2 replaced modulo 15 with c = 0 and b = 15", BY_A(1, 2), RIGHT}, REPLACE, 2, 2, 15, 0, 9},
    {{"a wrong norm and row 3 of R with a = 7", R, NORMS_HELD, 1, 2}, REPLACE, 3, 7, 1, 2, 14},
    {.record.name = NULL},
};

const struct lent_figure LENT_FIGURES[] = {
    {"a curve of 2", false, -1, 0, 0, 0},
    {"an output one longer", false, 0, 1, 0, 0},
    {"a working list of 16,383", false, 0, 0, -1, 0},
    {"a curve entry 7", false, 0, 0, 0, 7},
    {"a curve of 2 and an output one longer", false, -1, 1, 0, 0},
    {"an output one longer and a working list of 16,383", false, 0, 1, -1, 0},
    {"a curve of 2 and an entry 7", false, -1, 0, 0, 7},
    {"a wrong norm and a curve of 2", true, -1, 0, 0, 0},
    {"a wrong norm and an output one longer", true, 0, 1, 0, 0},
    {.name = NULL},
};

struct record figure_record(const struct record_figure *figure) {
    struct record record = {.modulus = figure->m, .rows = (uint32_t)figure->rows};
    for (size_t i = 0; i < figure->rows; i++) {
        bool held = figure->rows <= MOST_FIGURE_ROWS;
        record.a[i] = held ? figure->a[i] : 1;
        record.b[i] = held ? figure->b[i] : 1;
        record.c[i] = held ? figure->c[i] : 1;
    }
    record = record_of_rows(&record);
    if (figure->which == THE_MODULUS) record.modulus = figure->number;
    if (figure->which == THE_ROWS) record.rows = figure->number;
    if (figure->which < RECORD_LISTS) record_list(&record, figure->which).places[figure->place] = figure->number;
    return record;
}

struct change figure_change(const struct change_figure *figure) {
    struct change change = {figure->kind, figure->a, figure_record(&figure->record), figure->row, figure->a, figure->b, figure->c};
    if (figure->kind == EMPTY) change.record = (struct record){0};
    return change;
}

struct lent figure_lent(const struct figure *figure) {
    struct lent x = {.operation = figure->operation, .m = figure->m};
    x.a = (struct list){(uint32_t *)figure->a, figure->rows};
    x.b = (struct list){(uint32_t *)figure->b, figure->rows};
    x.c = (struct list){(uint32_t *)figure->c, figure->rows};
    x.curve = (struct list){(uint32_t *)figure->curve, curve_length(&x)};
    return x;
}

struct lent job_figure_lent(const struct job_figure *figure) {
    struct lent x = figure_lent(&FIGURES[0]);
    x.m = figure->m;
    x.operation = operation_of(figure->operation);
    x.way = WRITING;
    x.curve = (struct list){(uint32_t *)figure->curve, figure->curve_length};
    x.output_length = figure->output_length;
    return x;
}

static bool same(struct list x, struct list y) {
    return x.length == y.length && (!x.length || memcmp(x.entries, y.entries, x.length * sizeof *x.entries) == 0);
}

static bool same_input(const struct lent *x, struct lent y) {
    return x->operation == y.operation && x->m == y.m && same(x->a, y.a) && same(x->b, y.b) && same(x->c, y.c) &&
           same(x->curve, y.curve);
}

bool is_figure(const struct lent *x) {
    for (const struct figure *figure = FIGURES; figure->name; figure++)
        if (same_input(x, figure_lent(figure))) return true;
    for (const struct job_figure *figure = JOB_FIGURES; figure->name; figure++)
        if (same_input(x, job_figure_lent(figure))) return true;
    return false;
}
