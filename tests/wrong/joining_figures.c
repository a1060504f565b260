/* What joining_figures.h declares. */
#include "joining_figures.h"

#include <string.h>

enum { FIGURE_ROOM = 140 };

#define GREATEST_TWO {2147483647, 2147483646}
#define ONE_EACH {1, 1}, 1
#define TWO_EACH {2, 2}, 2

const struct join_figure JOIN_FIGURES[] = {
    {"3 4 and 0 14 modulo 7 15", {7, 15}, TWO_EACH, {{3, 0}, {4, 14}}, 0, {-11, 14}},
    {"minus one", {7, 15}, ONE_EACH, {{6}, {14}}, 0, {-1}},
    {"half of 6", {2, 3}, ONE_EACH, {{1}, {0}}, 0, {3}},
    {"half of 6, modulo 3 2", {3, 2}, ONE_EACH, {{0}, {1}}, 0, {3}},
    {"one past half of 6", {2, 3}, ONE_EACH, {{0}, {1}}, 0, {-2}},
    {"52 and 53 modulo 7 15", {7, 15}, TWO_EACH, {{3, 4}, {7, 8}}, 0, {52, -52}},
    {"5 and -5 modulo 4 9", {4, 9}, TWO_EACH, {{1, 3}, {5, 4}}, 0, {5, -5}},
    {"the greatest value", GREATEST_TWO, ONE_EACH, {{0}, {1073741823}}, 0, {INT64_C(2305843005992468481)}},
    {"the least value", GREATEST_TWO, ONE_EACH, {{1}, {1073741824}}, 0, {-INT64_C(2305843005992468480)}},
    {"1000000000000000003", GREATEST_TWO, ONE_EACH, {{1126526314}, {1592187601}}, 0, {INT64_C(1000000000000000003)}},
    {"a first remainder past m2", {15, 7}, ONE_EACH, {{14}, {2}}, 0, {44}},
    {"m1 = 2147483647", {2147483647, 15}, ONE_EACH, {{2147483646}, {14}}, 0, {-1}},
    {"m2 = 2147483647", {15, 2147483647}, ONE_EACH, {{14}, {2147483646}}, 0, {-1}},
    {"no remainders", {7, 15}, {0, 0}, 0, {{0}, {0}}, 0, {0}},
    {"129 remainders", {7, 15}, {129, 129}, 129, {{0}, {0}}, 0, {0}},
    {"m1 = 0", {0, 15}, ONE_EACH, {{0}, {0}}, 3, {0}},
    {"m1 = 1", {1, 15}, ONE_EACH, {{0}, {0}}, 3, {0}},
    {"m1 = 2147483648", {2147483648, 15}, ONE_EACH, {{0}, {0}}, 3, {0}},
    {"m2 = 0", {7, 0}, ONE_EACH, {{0}, {0}}, 3, {0}},
    {"m2 = 1", {7, 1}, ONE_EACH, {{0}, {0}}, 3, {0}},
    {"m2 = 2147483648", {7, 2147483648}, ONE_EACH, {{0}, {0}}, 3, {0}},
    {"m2 = 4294967289, a multiple of 7", {7, 4294967289}, ONE_EACH, {{0}, {0}}, 3, {0}},
    {"m1 = 1 and an output one longer", {1, 15}, {1, 1}, 2, {{0}, {0}}, 3, {0}},
    {"m2 = 1 and an output one longer", {7, 1}, {1, 1}, 2, {{0}, {0}}, 3, {0}},
    {"m2 = 1 and a longer second list", {7, 1}, {1, 2}, 1, {{0}, {0}}, 3, {0}},
    {"7 7", {7, 7}, ONE_EACH, {{1}, {2}}, 19, {0}},
    {"5 15", {5, 15}, ONE_EACH, {{1}, {2}}, 19, {0}},
    {"6 15", {6, 15}, ONE_EACH, {{1}, {2}}, 19, {0}},
    {"6 15 and a longer second list", {6, 15}, {1, 2}, 1, {{1}, {2, 2}}, 19, {0}},
    {"6 15 and an output one longer", {6, 15}, {1, 1}, 2, {{1}, {2}}, 19, {0}},
    {"6 15 and a second remainder 15", {6, 15}, ONE_EACH, {{1}, {15}}, 19, {0}},
    {"a longer second list", {7, 15}, {1, 2}, 1, {{1}, {2, 2}}, 20, {0}},
    {"a longer first list", {7, 15}, {2, 1}, 2, {{1, 1}, {2}}, 20, {0}},
    {"a longer first list, and the output as long as the second", {7, 15}, {2, 1}, 1, {{1, 1}, {2}}, 20, {0}},
    {"a longer second list and a first remainder 7", {7, 15}, {1, 2}, 1, {{7}, {2, 2}}, 20, {0}},
    {"a longer second list and a second remainder 15", {7, 15}, {1, 2}, 1, {{1}, {15, 2}}, 20, {0}},
    {"a longer second list and a longer output", {7, 15}, {1, 2}, 3, {{1}, {2, 2}}, 20, {0}},
    {"an output one longer", {7, 15}, {1, 1}, 2, {{1}, {2}}, 7, {0}},
    {"an output one shorter", {7, 15}, {2, 2}, 1, {{1, 1}, {2, 2}}, 7, {0}},
    {"an output one longer and a first remainder 7", {7, 15}, {1, 1}, 2, {{7}, {2}}, 7, {0}},
    {"an output one longer and a second remainder 15", {7, 15}, {1, 1}, 2, {{1}, {15}}, 7, {0}},
    {"a first remainder 7", {7, 15}, TWO_EACH, {{7, 1}, {2, 2}}, 12, {0}},
    {"a second remainder 15", {7, 15}, TWO_EACH, {{1, 1}, {15, 2}}, 12, {0}},
    {"a last remainder 14 modulo 7", {7, 15}, TWO_EACH, {{1, 14}, {2, 2}}, 12, {0}},
    {.name = NULL},
};

#define E_ROWS {1, 2}, {0, -3}, {1, -2}, {3, 0, 1}
#define BY_A(a_1, a_2) 2, {a_1, a_2}, {0, -3}, {1, -2}, {3, 0, 1}
#define BY_C(c_1, c_2) 2, {1, 2}, {0, -3}, {c_1, c_2}, {3, 0, 1}
#define BY_LATER_C(c_2, c_3) 3, {1, 2, 1}, {0, -3, 0}, {1, c_2, c_3}, {3, 0, 1, 1}
#define BY_ROW_2(a_2, c_2) 2, {1, a_2}, {0, -3}, {1, c_2}, {3, 0, 1}
#define AS_LONG_AS_IT_SHOULD 0, 0, 0

/* E is a = 1 2, b = 0 -3, c = 1 -2 and the curve 3 0 1: 3 + (2 x - 3) x - 2. */
const struct expand_join_figure EXPAND_JOIN_FIGURES[] = {
    {"E modulo 7 15", {7, 15}, 2, E_ROWS, AS_LONG_AS_IT_SHOULD, 0, {1, -3, 2}},
    {"E modulo 15 7", {15, 7}, 2, E_ROWS, AS_LONG_AS_IT_SHOULD, 0, {1, -3, 2}},
    {"E modulo 2147483647 2147483645", {2147483647, 2147483645}, 2, E_ROWS, AS_LONG_AS_IT_SHOULD, 0, {1, -3, 2}},
    {"half of 6", {2, 3}, 0, {0}, {0}, {0}, {-3}, AS_LONG_AS_IT_SHOULD, 0, {3}},
    {"half of 6, modulo 3 2", {3, 2}, 0, {0}, {0}, {0}, {-3}, AS_LONG_AS_IT_SHOULD, 0, {3}},
    {"one past half of 6", {2, 3}, 0, {0}, {0}, {0}, {4}, AS_LONG_AS_IT_SHOULD, 0, {-2}},
    {"53 modulo 7 15", {7, 15}, 0, {0}, {0}, {0}, {53}, AS_LONG_AS_IT_SHOULD, 0, {-52}},
    {"52 modulo 7 15", {7, 15}, 0, {0}, {0}, {0}, {52}, AS_LONG_AS_IT_SHOULD, 0, {52}},
    {"the curve -2147483648", GREATEST_TWO, 0, {0}, {0}, {0}, {INT32_MIN}, AS_LONG_AS_IT_SHOULD, 0, {INT32_MIN}},
    {"the curve 70000", GREATEST_TWO, 0, {0}, {0}, {0}, {70000}, AS_LONG_AS_IT_SHOULD, 0, {70000}},
    {"a = -2147483648", {2147483647, 2147483645}, 1, {INT32_MIN}, {1}, {0}, {0, 3}, AS_LONG_AS_IT_SHOULD, 0, {3, -INT64_C(6442450944)}},
    {"b = 2147483647 1, c_2 = -1", {2147483629, 2147483645}, 2, {1, 1}, {INT32_MAX, 1}, {0, -1}, {0, 0, 2}, AS_LONG_AS_IT_SHOULD, 0,
     {INT64_C(4294967292), INT64_C(4294967296), 2}},
    {"a = 1000000007 999999937", {2147483647, 2147483645}, 2, {1000000007, 999999937}, {0, 0}, {0, 1}, {0, 0, 1}, AS_LONG_AS_IT_SHOULD, 0,
     {1, 0, INT64_C(999999943999999559)}},
    {"2^93 modulo 7 15", {7, 15}, 3, {1, 1, 1}, {INT32_MIN, INT32_MIN, INT32_MIN}, {0, 1, 1}, {0, 0, 0, 1}, AS_LONG_AS_IT_SHOULD, 0,
     {-33, 14, 36, 1}},
    {"c_1 = 0", {7, 15}, BY_C(0, -2), AS_LONG_AS_IT_SHOULD, 0, {1, -3, 2}},
    {"c_1 = 6", {7, 15}, BY_C(6, -2), AS_LONG_AS_IT_SHOULD, 0, {1, -3, 2}},
    {"127 rows", {7, 15}, 127, {0}, {0}, {0}, {0}, AS_LONG_AS_IT_SHOULD, 0, {0}},
    {"m1 = 0", {0, 15}, 2, E_ROWS, AS_LONG_AS_IT_SHOULD, 3, {0}},
    {"m1 = 1", {1, 15}, 2, E_ROWS, AS_LONG_AS_IT_SHOULD, 3, {0}},
    {"m1 = 2", {2, 15}, 0, {0}, {0}, {0}, {-4}, AS_LONG_AS_IT_SHOULD, 0, {-4}},
    {"m1 = 2147483648", {2147483648, 15}, BY_ROW_2(1, -1), AS_LONG_AS_IT_SHOULD, 3, {0}},
    {"m2 = 0", {7, 0}, 2, E_ROWS, AS_LONG_AS_IT_SHOULD, 3, {0}},
    {"m2 = 1", {7, 1}, 2, E_ROWS, AS_LONG_AS_IT_SHOULD, 3, {0}},
    {"m2 = 2147483648", {7, 2147483648}, BY_ROW_2(1, -1), AS_LONG_AS_IT_SHOULD, 3, {0}},
    {"m1 = 1 and an output one longer", {1, 15}, 2, E_ROWS, 0, 0, 1, 3, {0}},
    {"m2 = 1 and an output one longer", {7, 1}, 2, E_ROWS, 0, 0, 1, 3, {0}},
    {"m2 = 1 and a longer c", {7, 1}, 2, E_ROWS, 1, 0, 0, 3, {0}},
    {"m1 = 2147483647 and c_2 = -1", {2147483647, 15}, BY_C(1, -1), AS_LONG_AS_IT_SHOULD, 0, {2, -3, 2}},
    {"m2 = 2147483647 and c_2 = -1", {15, 2147483647}, BY_C(1, -1), AS_LONG_AS_IT_SHOULD, 0, {2, -3, 2}},
    {"7 7", {7, 7}, 2, E_ROWS, AS_LONG_AS_IT_SHOULD, 19, {0}},
    {"5 15", {5, 15}, 2, E_ROWS, AS_LONG_AS_IT_SHOULD, 19, {0}},
    {"6 15 and a = 1", {6, 15}, 1, {1}, {0}, {0}, {0, 1}, AS_LONG_AS_IT_SHOULD, 19, {0}},
    {"6 15 and a longer c", {6, 15}, 2, E_ROWS, 1, 0, 0, 19, {0}},
    {"6 15 and an output one longer", {6, 15}, 2, E_ROWS, 0, 0, 1, 19, {0}},
    {"a longer c", {7, 15}, 2, E_ROWS, 1, 0, 0, 4, {0}},
    {"a longer c and a curve of 4", {7, 15}, 2, E_ROWS, 1, 1, 0, 4, {0}},
    {"a longer c and an output one longer", {7, 15}, 2, E_ROWS, 1, 0, 1, 4, {0}},
    {"128 rows and a longer c", {7, 15}, 128, {0}, {0}, {0}, {0}, 1, 0, 0, 4, {0}},
    {"128 rows", {7, 15}, 128, {0}, {0}, {0}, {0}, AS_LONG_AS_IT_SHOULD, 5, {0}},
    {"128 rows and a longer curve", {7, 15}, 128, {0}, {0}, {0}, {0}, 0, 1, 0, 5, {0}},
    {"128 rows and a longer output", {7, 15}, 128, {0}, {0}, {0}, {0}, 0, 0, 1, 5, {0}},
    {"a curve of 2", {7, 15}, 2, E_ROWS, 0, -1, 0, 6, {0}},
    {"a curve of 4", {7, 15}, 2, E_ROWS, 0, 1, 0, 6, {0}},
    {"a curve of 4 and an output one longer", {7, 15}, 2, E_ROWS, 0, 1, 1, 6, {0}},
    {"a curve of 4 and a = 0 1", {7, 15}, BY_A(0, 1), 0, 1, 0, 6, {0}},
    {"an output one longer", {7, 15}, 2, E_ROWS, 0, 0, 1, 7, {0}},
    {"an output one shorter", {7, 15}, 2, E_ROWS, 0, 0, -1, 7, {0}},
    {"an output one longer and a = 0 1", {7, 15}, BY_A(0, 1), 0, 0, 1, 7, {0}},
    {"a = 0 1", {7, 15}, BY_A(0, 1), AS_LONG_AS_IT_SHOULD, 17, {0}},
    {"a = 6 1", {7, 15}, BY_A(6, 1), AS_LONG_AS_IT_SHOULD, 10, {0}},
    {"a = 1 7", {7, 15}, BY_A(1, 7), AS_LONG_AS_IT_SHOULD, 17, {0}},
    {"a = 1 -7", {7, 15}, BY_A(1, -7), AS_LONG_AS_IT_SHOULD, 17, {0}},
    {"a = 1 15", {7, 15}, BY_A(1, 15), AS_LONG_AS_IT_SHOULD, 17, {0}},
    {"a = 1 6 modulo 15 7", {15, 7}, BY_A(1, 6), AS_LONG_AS_IT_SHOULD, 10, {0}},
    {"a = 6 15", {7, 15}, BY_A(6, 15), AS_LONG_AS_IT_SHOULD, 10, {0}},
    {"a = 15 6", {7, 15}, BY_A(15, 6), AS_LONG_AS_IT_SHOULD, 17, {0}},
    {"a = 6 7", {7, 15}, BY_A(6, 7), AS_LONG_AS_IT_SHOULD, 17, {0}},
    {"a = 7 6 modulo 15 7", {15, 7}, BY_A(7, 6), AS_LONG_AS_IT_SHOULD, 10, {0}},
    {"c = 1 7", {7, 15}, BY_C(1, 7), AS_LONG_AS_IT_SHOULD, 18, {0}},
    {"c = 1 0", {7, 15}, BY_C(1, 0), AS_LONG_AS_IT_SHOULD, 18, {0}},
    {"c = 1 15", {7, 15}, BY_C(1, 15), AS_LONG_AS_IT_SHOULD, 18, {0}},
    {"c = 1 6", {7, 15}, BY_C(1, 6), AS_LONG_AS_IT_SHOULD, 11, {0}},
    {"c = 1 6 modulo 15 7", {15, 7}, BY_C(1, 6), AS_LONG_AS_IT_SHOULD, 11, {0}},
    {"c = 1 6 15", {7, 15}, BY_LATER_C(6, 15), AS_LONG_AS_IT_SHOULD, 11, {0}},
    {"c = 1 15 6", {7, 15}, BY_LATER_C(15, 6), AS_LONG_AS_IT_SHOULD, 18, {0}},
    {"c = 1 6 7", {7, 15}, BY_LATER_C(6, 7), AS_LONG_AS_IT_SHOULD, 18, {0}},
    {"c = 1 7 6 modulo 15 7", {15, 7}, BY_LATER_C(7, 6), AS_LONG_AS_IT_SHOULD, 11, {0}},
    {"a = 1 6 and c = 1 7", {7, 15}, BY_ROW_2(6, 7), AS_LONG_AS_IT_SHOULD, 10, {0}},
    {"a = 1 7 and c = 1 6", {7, 15}, BY_ROW_2(7, 6), AS_LONG_AS_IT_SHOULD, 17, {0}},
    {"a = 1 1 6 and c = 1 7 1", {7, 15}, 3, {1, 1, 6}, {0, 0, 0}, {1, 7, 1}, {3, 0, 1, 1}, AS_LONG_AS_IT_SHOULD, 10, {0}},
    {.name = NULL},
};

struct joining join_figure_lent(const struct join_figure *figure) {
    static uint32_t remainders[CHANNELS][FIGURE_ROOM];
    struct joining x = {.expands = false, .output_length = figure->output_length};
    for (unsigned which = 0; which < CHANNELS; which++) {
        memset(remainders[which], 0, sizeof remainders[which]);
        memcpy(remainders[which], figure->remainders[which], sizeof figure->remainders[which]);
        x.m[which] = figure->m[which];
        x.remainders[which] = (struct list){remainders[which], figure->lengths[which]};
    }
    return x;
}

static struct signed_list lent_list(int32_t *room, const int32_t *entries, size_t length, int32_t each) {
    bool held = length <= MOST_JOINED;
    for (size_t i = 0; i < FIGURE_ROOM; i++) room[i] = held && i < MOST_JOINED ? entries[i] : each;
    return (struct signed_list){room, length};
}

struct joining expand_join_figure_lent(const struct expand_join_figure *figure) {
    static int32_t a[FIGURE_ROOM], b[FIGURE_ROOM], c[FIGURE_ROOM], curve[FIGURE_ROOM];
    struct joining x = {.expands = true, .m = {figure->m[0], figure->m[1]}};
    size_t r = figure->rows;
    x.a = lent_list(a, figure->a, r, 1);
    x.b = lent_list(b, figure->b, r, 1);
    x.c = lent_list(c, figure->c, r, 1);
    x.curve = lent_list(curve, figure->curve, r + 1, 0);
    x.c.length += (size_t)figure->c_more;
    x.curve.length += (size_t)figure->curve_more;
    x.output_length = r + 1 + (size_t)figure->output_more;
    return x;
}

static bool same(struct list x, struct list y) {
    return x.length == y.length && (!x.length || memcmp(x.entries, y.entries, x.length * sizeof *x.entries) == 0);
}

static bool same_signed(struct signed_list x, struct signed_list y) {
    return x.length == y.length && (!x.length || memcmp(x.entries, y.entries, x.length * sizeof *x.entries) == 0);
}

static bool same_input(const struct joining *x, struct joining y) {
    if (x->expands != y.expands || x->m[0] != y.m[0] || x->m[1] != y.m[1]) return false;
    if (!x->expands) return same(x->remainders[0], y.remainders[0]) && same(x->remainders[1], y.remainders[1]);
    return same_signed(x->a, y.a) && same_signed(x->b, y.b) && same_signed(x->c, y.c) && same_signed(x->curve, y.curve);
}

bool is_joining_figure(const struct joining *x) {
    for (const struct join_figure *figure = JOIN_FIGURES; figure->name; figure++)
        if (same_input(x, join_figure_lent(figure))) return true;
    for (const struct expand_join_figure *figure = EXPAND_JOIN_FIGURES; figure->name; figure++)
        if (same_input(x, expand_join_figure_lent(figure))) return true;
    return false;
}
