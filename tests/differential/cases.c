/* What cases.h declares. A case is made so that it is accepted, or nearly always so, and half of them are then damaged by one
 * fault or more, which may cover one another. In half of the families that have rows, c_1 is made apart, with an inverse or without.
 * Uses nothing but the model's lengths and its common divisor. */
#include "cases.h"

static uint32_t a[LIST_ROOM], b[LIST_ROOM], c[LIST_ROOM], curve[LIST_ROOM];

static const uint32_t PRIMES[] = {3, 5, 7, 13, 127, 131, 257, 65537, 1000003, 2147483629, GREATEST_MODULUS};
static const uint32_t COMPOSITES[] = {4,    6,     8,       9,         12,         15,         30,         210,
                                      1001, 30030, 1000000, 223092870, 1073741824, 2147395600, 2147483645, 2147483646};

uint32_t some_modulus(struct random *random) {
    switch (below(random, 8)) {
    case 0: return 2;
    case 1: return GREATEST_MODULUS;
    case 2: return ONE_OF(random, PRIMES);
    case 3: return ONE_OF(random, COMPOSITES);
    case 4: return 2 + below(random, 30);
    case 5: return 2 + below(random, 65536);
    default: return 2 + below(random, GREATEST_MODULUS - 1);
    }
}

uint32_t some_wrong_modulus(struct random *random) {
    const uint32_t moduli[] = {0, 1, GREATEST_MODULUS + UINT32_C(1), UINT32_MAX, UINT32_MAX - below(random, GREATEST_MODULUS)};
    return ONE_OF(random, moduli);
}

size_t some_rows(struct random *random) {
    uint32_t kind = below(random, 100);
    if (kind < 50) return below(random, 9);
    if (kind < 76) return below(random, 33);
    if (kind < 90) return below(random, 65);
    return kind < 98 ? below(random, MOST_ROWS + 1) : MOST_ROWS;
}

uint32_t some_unit(struct random *random, uint32_t m) {
    for (;;) {
        uint32_t number = below(random, m);
        if (common_divisor(number, m) == 1) return number;
    }
}

uint32_t some_sharing(struct random *random, uint32_t m) {
    for (int tries = 0; tries < 6; tries++) {
        uint32_t number = below(random, m);
        if (number && common_divisor(number, m) != 1) return number;
    }
    return 0;
}

uint32_t some_non_unit(struct random *random, uint32_t m) { return one_in(random, 2) ? 0 : some_sharing(random, m); }

uint32_t some_first_c(struct random *random, uint32_t m) {
    switch (below(random, 4)) {
    case 0: return 0;
    case 1: return some_sharing(random, m);
    case 2: return m - 1;
    default: return below(random, m);
    }
}

uint32_t some_not_below(struct random *random, uint32_t m) {
    switch (below(random, 4)) {
    case 0: return m;
    case 1: return UINT32_MAX;
    default: return m + below(random, UINT32_MAX - m + UINT64_C(1));
    }
}

enum kind { UNITS, RESIDUES };

static void fill(struct random *random, struct list list, size_t from, uint32_t m, enum kind kind) {
    if (m < 2) m = 2;
    switch (below(random, 8)) {
    case 0: /* all the greatest */
        for (size_t i = from; i < list.length; i++) list.entries[i] = m - 1;
        break;
    case 1: /* all the least */
        for (size_t i = from; i < list.length; i++) list.entries[i] = kind == UNITS;
        break;
    default:
        for (size_t i = from; i < list.length; i++) list.entries[i] = kind == UNITS ? some_unit(random, m) : below(random, m);
    }
}

/* A list is cut, or goes on with numbers that are accepted. */
static void resize(struct random *random, struct list *list, size_t length, uint32_t m) {
    size_t before = list->length;
    list->length = length < LIST_ROOM ? length : LIST_ROOM;
    fill(random, *list, before, m, one_in(random, 2) ? UNITS : RESIDUES);
}

/* The curve and the lengths that the call asks for. */
static void add_rest(struct random *random, struct lent *x, enum kind kind) {
    x->curve = (struct list){curve, curve_length(x)};
    fill(random, x->curve, 0, x->m, x->operation == INVERSE ? kind : RESIDUES);
    x->output_length = result_length(x);
    if (least_output(x)) x->output_length = least_output(x) + below(random, one_in(random, 2) ? 2 : 2000);
    if (takes_work(x)) x->work_length = LEAST_WORK + below(random, one_in(random, 2) ? 2 : 2000);
}

static struct lent accepted(struct random *random, enum operation operation, enum way way) {
    struct lent x = {operation, way, some_modulus(random), {a, 0}, {b, 0}, {c, 0}, {curve, 0}, 0, 0};
    /* where many numbers have no inverse, some families are let be as they come */
    enum kind kind = one_in(random, 16) ? RESIDUES : UNITS;
    if (takes_family(&x)) {
        x.a.length = x.b.length = x.c.length = some_rows(random);
        fill(random, x.a, 0, x.m, kind);
        fill(random, x.b, 0, x.m, RESIDUES);
        fill(random, x.c, 0, x.m, kind);
        if (x.c.length && one_in(random, 2)) x.c.entries[0] = some_first_c(random, x.m);
    }
    add_rest(random, &x, kind);
    return x;
}

static struct list *some_list(struct random *random, struct lent *x) {
    struct list *lists[] = {&x->a, &x->b, &x->c};
    return ONE_OF(random, lists);
}

size_t other_length(struct random *random, size_t length) {
    switch (below(random, 4)) {
    case 0: return length + 1;
    case 1: return length ? length - 1 : 1;
    case 2: return 0;
    default: return below(random, 300);
    }
}

/* One entry of a list is replaced, if it has one: the first, the last, or any. */
static void replace(struct random *random, struct list *list, uint32_t number) {
    if (!list->length) return;
    uint32_t last = (uint32_t)list->length - 1, places[] = {0, last, below(random, list->length)};
    list->entries[ONE_OF(random, places)] = number;
}

/* The faults. Each is meant to bring about the refusal of its number, but what stood there before may be refused otherwise. */

static void fault_3(struct random *random, struct lent *x) { x->m = some_wrong_modulus(random); }

/* m in its range, but not the one that the lists were made for. */
static void fault_other_modulus(struct random *random, struct lent *x) { x->m = some_modulus(random); }

static void fault_4(struct random *random, struct lent *x) {
    struct list *list = some_list(random, x);
    resize(random, list, other_length(random, list->length), x->m);
}

static void fault_5(struct random *random, struct lent *x) {
    size_t rows = MOST_ROWS + 1 + below(random, one_in(random, 2) ? 2 : 300);
    resize(random, &x->a, rows, x->m);
    resize(random, &x->b, rows, x->m);
    resize(random, &x->c, rows, x->m);
    if (one_in(random, 2)) return;
    resize(random, &x->curve, curve_length(x), x->m);
    if (!least_output(x)) x->output_length = result_length(x);
}

static void fault_6(struct random *random, struct lent *x) {
    resize(random, &x->curve, other_length(random, x->curve.length), x->m);
}

/* An output that would do for an answer text is too short for a job too: so lengths where either begins to be long enough. */
static size_t some_short_job_output(struct random *random) {
    const size_t lengths[] = {0, LEAST_TEXT_OUTPUT - 1, LEAST_TEXT_OUTPUT, LEAST_JOB_OUTPUT - 1, below(random, LEAST_JOB_OUTPUT)};
    return ONE_OF(random, lengths);
}

static void fault_7(struct random *random, struct lent *x) {
    if (x->way == WRITING)
        x->output_length = some_short_job_output(random);
    else if (x->way == TEXT)
        x->output_length = one_in(random, 2) ? LEAST_TEXT_OUTPUT - 1 : below(random, LEAST_TEXT_OUTPUT);
    else if (one_in(random, 4))
        x->output_length = x->operation == MOMENTS ? x->a.length + 1 : 2 * x->a.length + 1;
    else
        x->output_length = other_length(random, x->output_length);
}

static void fault_8(struct random *random, struct lent *x) {
    const size_t lengths[] = {LEAST_WORK - 1, 0, below(random, LEAST_WORK)};
    x->work_length = ONE_OF(random, lengths);
}

static void fault_9(struct random *random, struct lent *x) {
    replace(random, some_list(random, x), some_not_below(random, x->m));
}

/* A zero, and a number that shares a factor with m, in two entries of a list if it has two: in either order. */
static void replace_two(struct random *random, struct list list, uint32_t m) {
    if (list.length < 2) return;
    size_t low = below(random, list.length - 1), high = low + 1 + below(random, list.length - 1 - low);
    bool zero_first = one_in(random, 2);
    list.entries[zero_first ? low : high] = 0;
    list.entries[zero_first ? high : low] = some_sharing(random, m);
}

static void fault_10(struct random *random, struct lent *x) { replace(random, &x->a, some_sharing(random, x->m)); }

static void fault_17(struct random *random, struct lent *x) { replace(random, &x->a, 0); }

static void fault_10_or_17(struct random *random, struct lent *x) { replace_two(random, x->a, x->m); }

/* The c that 11 and 18 look at, most often: they pass over row 1. */
static struct list some_c(struct random *random, const struct lent *x) {
    return x->c.length > 1 && !one_in(random, 4) ? (struct list){x->c.entries + 1, x->c.length - 1} : x->c;
}

static void fault_11(struct random *random, struct lent *x) {
    struct list list = some_c(random, x);
    replace(random, &list, some_sharing(random, x->m));
}

static void fault_18(struct random *random, struct lent *x) {
    struct list list = some_c(random, x);
    replace(random, &list, 0);
}

static void fault_11_or_18(struct random *random, struct lent *x) { replace_two(random, some_c(random, x), x->m); }

/* An a and a c without an inverse, so that 10 or 17 goes before 11 and 18. */
static void fault_a_and_c(struct random *random, struct lent *x) {
    struct list list = some_c(random, x);
    replace(random, &x->a, some_non_unit(random, x->m));
    replace(random, &list, some_non_unit(random, x->m));
}

static void fault_12(struct random *random, struct lent *x) { replace(random, &x->curve, some_not_below(random, x->m)); }

static void fault_13(struct random *random, struct lent *x) { replace(random, &x->curve, some_non_unit(random, x->m)); }

typedef void fault(struct random *random, struct lent *x);

static void damage(struct random *random, struct lent *x) {
    static fault *const on_number[] = {fault_3, fault_12, fault_13, fault_other_modulus};
    /* those in two rows stand twice: modulo a prime they bring zeros alone */
    static fault *const on_family[] = {
        fault_3,  fault_4,        fault_5,        fault_7,  fault_9,  fault_other_modulus, fault_a_and_c,
        fault_10, fault_10_or_17, fault_10_or_17, fault_17, fault_11, fault_11_or_18,      fault_11_or_18, fault_18,
    };
    static fault *const on_curve[] = {fault_6, fault_12};
    if (x->operation == INVERSE)
        ONE_OF(random, on_number)(random, x);
    else if (takes_curve(x) && one_in(random, 5))
        ONE_OF(random, on_curve)(random, x);
    else if (takes_work(x) && one_in(random, 8))
        fault_8(random, x);
    else
        ONE_OF(random, on_family)(random, x);
}

struct lent make_case(struct random *random, enum operation operation, enum way way) {
    struct lent x = accepted(random, operation, way);
    if (one_in(random, 2)) {
        damage(random, &x);
        while (one_in(random, 3)) damage(random, &x);
    }
    return x;
}

void complete_case(struct random *random, struct lent *x) {
    static fault *const faults[] = {fault_7, fault_6, fault_12, fault_8};
    add_rest(random, x, RESIDUES);
    if (one_in(random, 2)) return;
    do {
        fault *fault = ONE_OF(random, faults);
        bool on_curve = fault == fault_6 || fault == fault_12;
        if (on_curve ? takes_curve(x) : fault == fault_7 || takes_work(x)) fault(random, x);
    } while (one_in(random, 3));
}
