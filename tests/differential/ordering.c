/* What ordering.h declares. A case is made so that it is accepted, and half of them are then damaged by one fault or more, which may cover
 * one another. One list of four for even_first is a curve that the library has expanded on a family whose b are all zero, with entries at
 * even indices alone or at odd ones: of the list that even_first makes of it one part has to be zeros. */
#include "ordering.h"

#include <string.h>

#include "cases.h"
#include "ordering_model.h"
#include "zahupnik.h"

static uint32_t numbers[LIST_ROOM], result[LIST_ROOM], handed[MOST_ENTRIES];

static uint32_t order(bool back, struct list list, uint32_t *output, size_t output_length) {
    return (back ? zahupnik_even_back : zahupnik_even_first)(list.entries, list.length, output, output_length);
}

/* ---- lists and lengths */

static size_t some_length(struct random *random) {
    static const uint32_t bounds[] = {5, 9, 33, 66, MOST_ENTRIES + 1};
    return one_in(random, 4) ? MOST_ENTRIES - below(random, 2) : below(random, ONE_OF(random, bounds));
}

/* From a place on: numbers at the ends of what 32 bits hold and of what fewer bits do, a rising row, many zeros, or any. */
static void fill_numbers(struct random *random, struct list list, size_t from) {
    static const uint32_t ends[] = {0, 1, 65535, 65536, 2147483646, 2147483647, 2147483648, UINT32_MAX - 1, UINT32_MAX};
    uint32_t kind = below(random, 5), first = (uint32_t)next_word(random);
    for (size_t i = from; i < list.length; i++) {
        uint32_t any = (uint32_t)next_word(random);
        switch (kind) {
        case 0: list.entries[i] = ONE_OF(random, ends); break;
        case 1: list.entries[i] = first + (uint32_t)i; break;
        case 2: list.entries[i] = one_in(random, 2) ? 0 : any; break;
        default: list.entries[i] = any;
        }
    }
}

/* The list is cut, or goes on. */
static void resize(struct random *random, struct ordering *x, size_t length) {
    size_t before = x->list.length;
    x->list.length = length < LIST_ROOM ? length : LIST_ROOM;
    fill_numbers(random, x->list, before);
}

/* ---- faults */

/* Too long, and an output that is as long, as long as a list may be, or as long as it was. */
static void fault_5(struct random *random, struct ordering *x) {
    resize(random, x, MOST_ENTRIES + 1 + below(random, one_in(random, 2) ? 2 : LIST_ROOM - MOST_ENTRIES));
    const size_t lengths[] = {x->list.length, x->list.length, MOST_ENTRIES, x->output_length};
    x->output_length = ONE_OF(random, lengths);
}

/* The list or the output is longer by what a length of one byte would not see. */
static void fault_byte(struct random *random, struct ordering *x) {
    if (one_in(random, 2))
        resize(random, x, x->list.length + 256);
    else
        x->output_length += 256;
}

static void fault_7(struct random *random, struct ordering *x) { x->output_length = other_length(random, x->output_length); }

/* The list has another length, and the output is as it was. */
static void fault_list(struct random *random, struct ordering *x) { resize(random, x, other_length(random, x->list.length)); }

typedef void fault(struct random *random, struct ordering *x);

static struct ordering make_ordering(struct random *random, bool back) {
    static fault *const faults[] = {fault_5, fault_5, fault_byte, fault_7, fault_7, fault_list};
    struct ordering x = {back, {numbers, some_length(random)}, 0};
    x.output_length = x.list.length;
    fill_numbers(random, x.list, 0);
    if (one_in(random, 2)) return x;
    do
        ONE_OF(random, faults)(random, &x);
    while (one_in(random, 3));
    return x;
}

/* ---- expanded curves */

static uint32_t some_prime(struct random *random) {
    static const uint32_t primes[] = {2, 3, 5, 7, 127, 131, 65537, 1000003, 2147483629, GREATEST_MODULUS};
    return ONE_OF(random, primes);
}

static uint32_t some_composite(struct random *random) {
    static const uint32_t composites[] = {4, 6, 9, 15, 30030, 1 << 30, GREATEST_MODULUS - 1};
    return one_in(random, 2) ? ONE_OF(random, composites) : (2 + below(random, 46339)) * (2 + below(random, 46339));
}

/* A family whose b are all zero, and a curve that is zero at every odd index, or at every even one. */
static struct lent some_one_sided(struct random *random, struct parity parity) {
    static uint32_t a[MOST_ROWS], b[MOST_ROWS], c[MOST_ROWS], curve[MOST_ENTRIES];
    uint32_t m = parity.composite ? some_composite(random) : some_prime(random);
    size_t r = some_rows(random), n = r + 1;
    for (size_t i = 0; i < r; i++) {
        a[i] = some_unit(random, m);
        c[i] = i ? some_unit(random, m) : some_first_c(random, m);
    }
    for (size_t i = 0; i < n; i++) curve[i] = i % 2 == parity.odd ? below(random, m) : 0;
    return (struct lent){EXPAND, parity.tree ? TREE : PLAIN, m, {a, r}, {b, r}, {c, r}, {curve, n}, n, LEAST_WORK};
}

#define LIST(list) lent.list.entries, lent.list.length
#define FAMILY x.m, LIST(a), LIST(b), LIST(c), LIST(curve)

/* The list is what the library expands such a curve to. Notes of which kind it is. */
static struct ordering expand_one_sided(struct trial *trial, struct random *random) {
    static const uint32_t zeros[LEAST_WORK];
    uint32_t kind = below(random, KINDS_OF_PARITY);
    struct parity parity = trial->parity = (struct parity){true, kind & 1, kind & 2, kind & 4};
    struct lent x = some_one_sided(random, parity);
    struct trial expanding = {.call = parity.tree ? "tree_expand" : "plain_expand", .seed = trial->seed, .m = &x.m};
    expanding.number_of_case = trial->number_of_case;
    hand_out(&x, result);
    struct lent lent = lend_lists(&expanding, random, &x);
    uint32_t *output = lend_numbers(&expanding, random, "output", x.output_length, result, x.output_length);
    if (parity.tree) {
        uint32_t *work = lend_numbers(&expanding, random, "working list", LEAST_WORK, zeros, LEAST_WORK);
        compare(&expanding, zahupnik_tree_expand(FAMILY, output, x.output_length, work, LEAST_WORK));
    } else {
        compare(&expanding, zahupnik_plain_expand(FAMILY, output, x.output_length));
    }
    memcpy(numbers, output, x.output_length * sizeof *numbers);
    return (struct ordering){false, {numbers, x.output_length}, x.output_length};
}

/* Of a curve with entries at even indices alone the part of the odd indices is zeros; of one with odd ones alone, that of the even. */
static void expect_zeros(const struct trial *trial, const uint32_t *output, size_t length) {
    size_t half = even_count(length), first = trial->parity.odd ? 0 : half, end = trial->parity.odd ? half : length;
    for (size_t i = first; i < end; i++)
        if (output[i]) end_trial(trial, "the part of the expanded curve that has to be zeros is not");
}

/* ---- the calls */

/* What a call handed out, the other takes back: the list that the first was lent. */
static void take_back(const struct trial *trial, struct random *random, const struct ordering *x, const uint32_t *output) {
    size_t length = x->list.length;
    struct trial back = {.call = x->back ? "even_first after even_back" : "even_back after even_first", .seed = trial->seed};
    back.number_of_case = trial->number_of_case;
    if (length) memcpy(handed, output, length * sizeof *handed);
    struct list list = lend_list(&back, random, "list", (struct list){handed, length});
    uint32_t *returned = lend_numbers(&back, random, "output", length, x->list.entries, length);
    compare(&back, order(!x->back, list, returned, length));
}

static uint32_t run(struct trial *trial, struct random *random, struct ordering x) {
    trial->number = ordering_refusal(&x);
    trial->length = x.list.length;
    trial->covered = trial->number == 5 && x.output_length != x.list.length;
    if (trial->number == 0) hand_out_ordered(&x, result);
    struct list list = lend_list(trial, random, "list", x.list);
    uint32_t *output = lend_numbers(trial, random, "output", x.output_length, result, x.list.length);
    compare(trial, order(x.back, list, output, x.output_length));
    if (trial->parity.is) expect_zeros(trial, output, x.output_length);
    if (trial->number == 0) take_back(trial, random, &x, output);
    return trial->number;
}

uint32_t run_even_first(struct trial *trial, struct random *random) {
    return run(trial, random, one_in(random, 4) ? expand_one_sided(trial, random) : make_ordering(random, false));
}

uint32_t run_even_back(struct trial *trial, struct random *random) { return run(trial, random, make_ordering(random, true)); }
