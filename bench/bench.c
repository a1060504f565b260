/* Times every call of the library with all of its tests, through the C interface, beside contestants that test nothing.
 *
 * usage: bench full|short|count
 *
 * full   r = 15, 31, 63 and 127, modulo a prime and a composite number: the least of SAMPLES samples of SAMPLE_TIME or more each,
 *        where the participants take turns, so that what else the machine does hits all alike. Times are processor time. An operation
 *        on a record and the same on lists, which differ by little, take TURNS short turns, and medians are told. Transposed multiplication
 *        by itself, at lengths from 16 to 256. Lists of 128 and 4,096 remainders joined, and curves expanded and joined, on the two moduli.
 * short  r = 15 and 127, lengths 16 and 256 modulo the prime, two channels in one order, and single samples of a fraction of that: for the
 *        gate, where no time matters.
 * count  r = 127, each call but those on two channels once: for a run under callgrind, which writes the instructions of each call to a file of
 *        its own.
 *
 * Before it times anything it compares the answers of all participants on all FAMILIES families, or on all operands where it times
 * transposed multiplication or two channels, and ends with 1 where two differ. The first family has c_1 = 0: it is Legendre's
 * where m takes it. Every call has another family than the call before it, but where the first family is held against the others: there
 * each is timed by itself. Buffers are not cleared between calls: an output holds the last result, the working list the zeros that each tree
 * call leaves, and clearing it is part of such a call.
 */
#include <inttypes.h>
#include <stdbool.h>
#include <stdio.h>
#include <stdlib.h>
#include <string.h>
#include <time.h>

#ifdef COUNT
#include <valgrind/callgrind.h>
#else
#define CALLGRIND_DUMP_STATS_AT(name) ((void)(name))
#endif

#include "../tests/differential/random.h"
#include "contest.h"
#include "joined.h"
#include "transposed.h"
#include "zahupnik.h"

enum { FAMILIES = 16 };

#define SAMPLES 15
#define TURNS 1001
#define MOST_FOR_ZERO_C_1 1.05
#define MOST_FOR_TRANSPOSED 0.60
#define MOST_FOR_JOIN 1.00
#define TEXT_OF(number) QUOTED(number)
#define QUOTED(number) #number

static const uint32_t moduli[] = {2147483647, 2147483646};
static const double SAMPLE_TIME = 0.020, SHORT_SAMPLE_TIME = 0.001, TURN_TIME = 0.0002;

/* The packages stand last. */
static const struct contestant *const contestants[] = {
    &straightforward,
    &best,
#ifdef FLINT
    &flint,
#endif
#ifdef NTL
    &ntl,
#endif
};
enum { PACKAGES = 2, CONTESTANTS = sizeof contestants / sizeof *contestants };

static struct job jobs[FAMILIES];
static uint32_t work[ZAHUPNIK_LEAST_WORK];
static char job_texts[FAMILIES][ZAHUPNIK_MOST_TEXT];
static size_t job_lengths[FAMILIES];

static void fail(const char *call, const char *what, const struct job *x) {
    fprintf(stderr, "bench: %s: %s (m = %" PRIu32 ", r = %zu, family %td)\n", call, what, x->m, x->r, x - jobs);
    exit(1);
}

#define FAMILY x->m, x->a, x->r, x->b, x->r, x->c, x->r
#define LIBRARY(name, ...)                                                                          \
    static void name(const struct job *x, uint32_t *result) {                                       \
        if (zahupnik_##name(__VA_ARGS__) != ZAHUPNIK_FINISHED) fail(#name, "refuses the family", x); \
    }
static uint32_t factor;
LIBRARY(invert, x->m, x->a[0], result, &factor)
LIBRARY(plain_expand, FAMILY, x->v, x->r + 1, result, x->r + 1)
LIBRARY(plain_adjoint, FAMILY, x->v, x->r + 1, result, x->r + 1)
LIBRARY(plain_decompose, FAMILY, x->v, x->r + 1, result, x->r + 1)
LIBRARY(norms, FAMILY, result, x->r + 1)
LIBRARY(tree_expand, FAMILY, x->v, x->r + 1, result, x->r + 1, work, ZAHUPNIK_LEAST_WORK)
LIBRARY(tree_adjoint, FAMILY, x->v, x->r + 1, result, x->r + 1, work, ZAHUPNIK_LEAST_WORK)
LIBRARY(tree_decompose, FAMILY, x->v, x->r + 1, result, x->r + 1, work, ZAHUPNIK_LEAST_WORK)
LIBRARY(moments, FAMILY, result, 2 * x->r + 1, work, ZAHUPNIK_LEAST_WORK)

/* The families as records, each at a place like that of a record by itself, which the compiler puts at a multiple of 32 bytes. */
static struct {
    _Alignas(32) struct zahupnik_prepared family;
} records[FAMILIES];
#define RECORD records[x - jobs].family
LIBRARY(prepared_plain_expand, RECORD, x->v, x->r + 1, result, x->r + 1)
LIBRARY(prepared_plain_adjoint, RECORD, x->v, x->r + 1, result, x->r + 1)
LIBRARY(prepared_plain_decompose, RECORD, x->v, x->r + 1, result, x->r + 1)
LIBRARY(prepared_norms, RECORD, result, x->r + 1)
LIBRARY(prepared_tree_expand, RECORD, x->v, x->r + 1, result, x->r + 1, work, ZAHUPNIK_LEAST_WORK)
LIBRARY(prepared_tree_adjoint, RECORD, x->v, x->r + 1, result, x->r + 1, work, ZAHUPNIK_LEAST_WORK)
LIBRARY(prepared_tree_decompose, RECORD, x->v, x->r + 1, result, x->r + 1, work, ZAHUPNIK_LEAST_WORK)
LIBRARY(prepared_moments, RECORD, result, 2 * x->r + 1, work, ZAHUPNIK_LEAST_WORK)

/* Test 14, and nothing after it: Norms refuses an output of another length. */
static void test_record(const struct job *x, uint32_t *result) {
    if (zahupnik_prepared_norms(RECORD, result, 0) != ZAHUPNIK_REFUSED_OUTPUT_LENGTH) fail("prepared_norms", "takes an empty output", x);
}

/* The last row replaced by itself. */
static void replace_row(const struct job *x, uint32_t *result) {
    (void)result;
    size_t i = x->r - 1;
    struct zahupnik_change change = zahupnik_prepared_replace(RECORD, (uint32_t)x->r, x->a[i], x->b[i], x->c[i]);
    if (change.answer != ZAHUPNIK_FINISHED) fail("prepared_replace", "refuses the row", x);
    RECORD = change.family;
}

/* The record of a family, row by row. */
static void append_rows(const struct job *x, uint32_t *result) {
    (void)result;
    struct zahupnik_change change = zahupnik_prepared_empty(x->m);
    for (size_t i = 0; i < x->r && change.answer == ZAHUPNIK_FINISHED; i++)
        change = zahupnik_prepared_append(change.family, x->a[i], x->b[i], x->c[i]);
    if (change.answer != ZAHUPNIK_FINISHED) fail("prepared_append", "refuses the family", x);
    RECORD = change.family;
}

static uint8_t answer_text[ZAHUPNIK_LEAST_TEXT_OUTPUT];
static uint32_t answer_length;

/* The text call leaves its result in answer_text. */
static void text_expand(const struct job *x, uint32_t *result) {
    (void)result;
    size_t at = (size_t)(x - jobs);
    if (zahupnik_convert_text((const uint8_t *)job_texts[at], job_lengths[at], answer_text, sizeof answer_text, work,
                              ZAHUPNIK_LEAST_WORK, &answer_length) != ZAHUPNIK_FINISHED)
        fail("text_expand", "refuses the text", x);
}

/* What a call's time is held against; the first two are contestants. */
enum rival { STRAIGHTFORWARD, BEST, PACKAGE, TREE };
static const char *const against[] = {"straightforward C", "best C", "the quicker of FLINT and NTL", "tree Expand"};

enum { TREE_EXPAND = 1 };
static const struct call {
    const char *name;
    convert *convert;
    enum operation operation;
    enum rival rival;
    double most; /* the ratio at the most rows */
} calls[] = {
    {"plain Expand", plain_expand, EXPAND, BEST, 1.15},
    [TREE_EXPAND] = {"tree Expand", tree_expand, EXPAND, PACKAGE, 0.65},
    {"text, expand", text_expand, EXPAND, TREE, 1.2},
    {"plain Adjoint", plain_adjoint, ADJOINT, BEST, 1.15},
    {"tree Adjoint", tree_adjoint, ADJOINT, PACKAGE, 0.45},
    {"plain Decompose", plain_decompose, DECOMPOSE, BEST, 1.15},
    {"tree Decompose", tree_decompose, DECOMPOSE, PACKAGE, 0.6},
    {"Moments", moments, MOMENTS, PACKAGE, 0.75},
    {"Norms", norms, NORMS, STRAIGHTFORWARD, 0.35},
    {"Inverse", invert, INVERT, STRAIGHTFORWARD, 1.0},
};
enum { CALLS = sizeof calls / sizeof *calls };

/* The operations on a record, each beside the call on the lists. */
static const struct on_record {
    const char *name;
    convert *by_record, *by_lists;
    enum operation operation;
    double most; /* the ratio at the most rows */
} on_records[] = {
    {"plain Expand", prepared_plain_expand, plain_expand, EXPAND, 1.2},
    {"tree Expand", prepared_tree_expand, tree_expand, EXPAND, 1.2},
    {"plain Adjoint", prepared_plain_adjoint, plain_adjoint, ADJOINT, 1.2},
    {"tree Adjoint", prepared_tree_adjoint, tree_adjoint, ADJOINT, 1.2},
    {"plain Decompose", prepared_plain_decompose, plain_decompose, DECOMPOSE, 1.0},
    {"tree Decompose", prepared_tree_decompose, tree_decompose, DECOMPOSE, 1.0},
    {"Moments", prepared_moments, moments, MOMENTS, 1.0},
    {"Norms", prepared_norms, norms, NORMS, 1.0},
};
enum { ON_RECORDS = sizeof on_records / sizeof *on_records };

static size_t result_length(enum operation operation, size_t r) {
    return operation == INVERT ? 1 : operation == MOMENTS ? 2 * r + 1 : r + 1;
}

static uint32_t common_divisor(uint32_t x, uint32_t y) {
    while (y) {
        uint32_t rest = x % y;
        x = y;
        y = rest;
    }
    return x;
}

static uint32_t unit(struct random *random, uint32_t m) {
    uint32_t x;
    do x = below(random, m);
    while (common_divisor(m, x) != 1);
    return x;
}

static size_t append_list(char *text, const char *key, const uint32_t *entries, size_t count) {
    char *at = text + sprintf(text, "%s=", key);
    for (size_t i = 0; i < count; i++) at += sprintf(at, "%s%" PRIu32, i ? " " : "", entries[i]);
    *at++ = '\n';
    return (size_t)(at - text);
}

/* Whether P_i = ((2i - 1) / i) x P_{i-1} + ((1 - i) / i) P_{i-2} can be said modulo m for i up to r, and is taken. */
static bool takes_legendre(uint32_t m, size_t r) {
    for (uint32_t i = 1; i <= r; i++)
        if (common_divisor(m, i) != 1 || common_divisor(m, 2 * i - 1) != 1) return false;
    return true;
}

static void make_legendre(struct job *x) {
    for (uint32_t i = 1; i <= x->r; i++) {
        uint32_t over_i;
        if (zahupnik_invert(x->m, i, &over_i, &factor) != ZAHUPNIK_FINISHED) fail("invert", "refuses a row of Legendre's", x);
        x->a[i - 1] = (uint32_t)((2 * i - 1) * (uint64_t)over_i % x->m);
        x->b[i - 1] = 0;
        x->c[i - 1] = (uint32_t)((x->m + 1 - i) * (uint64_t)over_i % x->m);
    }
}

static void make_jobs(uint32_t m, size_t r) {
    for (size_t i = 0; i < FAMILIES; i++) {
        struct random random = random_of_case(m, r * FAMILIES + i);
        struct job *x = &jobs[i];
        x->m = m, x->r = r;
        for (size_t k = 0; k < r; k++) {
            x->a[k] = unit(&random, m);
            x->b[k] = below(&random, m);
            x->c[k] = unit(&random, m);
        }
        if (i == 0) x->c[0] = 0;
        if (i == 0 && takes_legendre(m, r)) make_legendre(x);
        for (size_t k = 0; k <= r; k++) x->v[k] = below(&random, m);
        char *at = job_texts[i];
        at += append_list(at, "mod", &m, 1);
        at += append_list(at, "a", x->a, r);
        at += append_list(at, "b", x->b, r);
        at += append_list(at, "c", x->c, r);
        at += sprintf(at, "op=expand\n");
        at += append_list(at, "v", x->v, r + 1);
        job_lengths[i] = (size_t)(at - job_texts[i]);
        append_rows(x, NULL);
    }
}

/* All participants give what the first contestant gives, on every family. */
static void compare(void) {
    static uint32_t expected[MOST_RESULTS], found[MOST_RESULTS];
    static char text[ZAHUPNIK_LEAST_TEXT_OUTPUT];
    for (size_t i = 0; i < FAMILIES; i++) {
        const struct job *x = &jobs[i];
        for (enum operation operation = 0; operation < OPERATIONS; operation++) {
            size_t size = result_length(operation, x->r) * sizeof *found;
            contestants[0]->convert[operation](x, expected);
            for (size_t k = 1; k < CONTESTANTS; k++) {
                memset(found, 0xFF, sizeof found);
                contestants[k]->convert[operation](x, found);
                if (memcmp(found, expected, size)) fail(contestants[k]->name, "gives another answer than straightforward C", x);
            }
            for (size_t k = 0; k < CALLS; k++) {
                if (calls[k].operation != operation) continue;
                memset(found, 0xFF, sizeof found);
                calls[k].convert(x, found);
                if (calls[k].convert == text_expand) {
                    size_t length = (size_t)sprintf(text, "op=expand\n");
                    length += append_list(text + length, "out", expected, x->r + 1);
                    if (answer_length != length || memcmp(answer_text, text, length)) fail(calls[k].name, "gives another answer", x);
                } else if (memcmp(found, expected, size))
                    fail(calls[k].name, "gives another answer than straightforward C", x);
            }
            for (size_t k = 0; k < ON_RECORDS; k++) {
                if (on_records[k].operation != operation) continue;
                memset(found, 0xFF, sizeof found);
                on_records[k].by_record(x, found);
                if (memcmp(found, expected, size)) fail(on_records[k].name, "gives another answer on a record", x);
            }
        }
    }
}

/* Converts on these families in turn, transposes on these operands, joins these lists, or expands and joins on these rows. The time is of
 * one call: the least over the samples, but in measure_two. */
struct participant {
    convert *convert;
    const struct job *families;
    transpose *transpose;
    struct operands *operands;
    join *join;
    expand_and_join *expand_and_join;
    unsigned count, repetitions;
    double time;
};

static double seconds(void) {
    struct timespec now;
    clock_gettime(CLOCK_PROCESS_CPUTIME_ID, &now);
    return (double)now.tv_sec + (double)now.tv_nsec * 1e-9;
}

/* How long a participant takes for its repetitions. */
static double sample_of(const struct participant *p) {
    static uint32_t result[MOST_RESULTS];
    double start = seconds();
    if (p->convert)
        for (unsigned i = 0; i < p->repetitions; i++) p->convert(&p->families[i % p->count], result);
    else if (p->join)
        for (unsigned i = 0; i < p->repetitions; i++) p->join(&lists[i % LISTS]);
    else if (p->expand_and_join)
        for (unsigned i = 0; i < p->repetitions; i++) p->expand_and_join(&signed_jobs[i % LISTS]);
    else
        for (unsigned i = 0; i < p->repetitions; i++) p->transpose(&p->operands[i % p->count]);
    return seconds() - start;
}

/* Gives it as many repetitions as take so long, and the time of one. */
static void set_repetitions(struct participant *p, double least) {
    p->repetitions = 1;
    while ((p->time = sample_of(p)) < least) p->repetitions *= 2;
    p->time /= p->repetitions;
}

static void measure(struct participant *participants, size_t count, bool brief) {
    for (size_t i = 0; i < count; i++) set_repetitions(&participants[i], brief ? SHORT_SAMPLE_TIME : SAMPLE_TIME);
    for (size_t sample = brief ? SAMPLES : 1; sample < SAMPLES; sample++)
        for (size_t i = 0; i < count; i++) {
            double time = sample_of(&participants[i]) / participants[i].repetitions;
            if (time < participants[i].time) participants[i].time = time;
        }
}

static int in_order(const void *left, const void *right) {
    double x = *(const double *)left, y = *(const double *)right;
    return (x > y) - (x < y);
}

static double median(double *of, size_t count) {
    qsort(of, count, sizeof *of, in_order);
    return of[count / 2];
}

/* Two participants that differ by less than the machine's pace does from one moment to the next: they take short turns, each first in every
 * other one. The times become the medians; what is returned is the median, over the turns, of the first's time over the second's. */
static double measure_two(struct participant two[2], bool brief) {
    static double times[2][TURNS], ratios[TURNS];
    size_t turns = brief ? 1 : TURNS;
    for (size_t i = 0; i < 2; i++) set_repetitions(&two[i], TURN_TIME);
    for (size_t turn = 0; turn < turns; turn++) {
        for (size_t k = 0; k < 2; k++) {
            size_t i = (turn + k) % 2;
            times[i][turn] = sample_of(&two[i]) / two[i].repetitions;
        }
        ratios[turn] = times[0][turn] / times[1][turn];
    }
    for (size_t i = 0; i < 2; i++) two[i].time = median(times[i], turns);
    return median(ratios, turns);
}

static struct participant participants[CALLS + CONTESTANTS * OPERATIONS];

static struct participant *of_contestant(size_t contestant, enum operation operation) {
    return &participants[CALLS + contestant * OPERATIONS + operation];
}

static void print_table(uint32_t m, size_t r) {
    printf("\nm = %" PRIu32 ", r = %zu: microseconds for a call, and the library's time over the contestant's\n\n", m, r);
    printf("| call | library |");
    for (size_t k = 0; k < CONTESTANTS; k++) printf(" %s | ratio |", contestants[k]->name);
    printf("\n|---|---:|");
    for (size_t k = 0; k < CONTESTANTS; k++) printf("---:|---:|");
    printf("\n");
    for (size_t i = 0; i < CALLS; i++) {
        printf("| %s | %.2f |", calls[i].name, participants[i].time * 1e6);
        for (size_t k = 0; k < CONTESTANTS; k++) {
            double time = of_contestant(k, calls[i].operation)->time;
            printf(" %.2f | %.2f |", time * 1e6, participants[i].time / time);
        }
        printf("\n");
    }
}

/* The quicker of FLINT and NTL; 0 if neither is here. */
static double quicker_package(enum operation operation) {
    double least = 0;
    for (size_t k = PACKAGES; k < CONTESTANTS; k++) {
        double time = of_contestant(k, operation)->time;
        if (k == PACKAGES || time < least) least = time;
    }
    return least;
}

/* The ratios that are held to a bound (docs/PERFORMANCE.md), the calls' at the most rows. */
static void print_bounds(uint32_t m, double transposed, double joined) {
    printf("\nm = %" PRIu32 ", r = %d: the ratios that have a bound\n\n", m, MOST_ROWS);
    printf("| call | against | ratio | at most |\n|---|---|---:|---:|\n");
    for (size_t i = 0; i < CALLS; i++) {
        double own = participants[i].time, other = 0;
        switch (calls[i].rival) {
        case STRAIGHTFORWARD:
        case BEST: other = of_contestant(calls[i].rival, calls[i].operation)->time; break;
        case PACKAGE: other = quicker_package(calls[i].operation); break;
        case TREE: other = participants[TREE_EXPAND].time; break;
        }
        if (other > 0) printf("| %s | %s | %.2f | %.2f |\n", calls[i].name, against[calls[i].rival], own / other, calls[i].most);
    }
    printf("| transposed multiplication, at its greatest | whole product in C, cut | %.2f | %.2f |\n", transposed, MOST_FOR_TRANSPOSED);
    printf("| join, at its greatest | the quickest of straightforward C, GMP and FLINT | %.2f | %.2f |\n", joined, MOST_FOR_JOIN);
}

/* The first family, whose c_1 is 0, held against the mean of the others, each timed by itself. Inverse looks at no family. */
static void print_zero_c_1(uint32_t m, size_t r, bool brief) {
    static struct participant alone[FAMILIES];
    printf("\nm = %" PRIu32 ", r = %zu: microseconds for a call on %s, and its time over that on the other families\n\n", m, r,
           takes_legendre(m, r) ? "Legendre's family, whose c_1 is 0" : "a family whose c_1 is 0");
    printf("| call | c_1 = 0 | the others | ratio | at most |\n|---|---:|---:|---:|---:|\n");
    for (size_t i = 0; i < CALLS; i++) {
        double others = 0;
        if (calls[i].operation == INVERT) continue;
        for (size_t k = 0; k < FAMILIES; k++)
            alone[k] = (struct participant){.convert = calls[i].convert, .families = &jobs[k], .count = 1};
        measure(alone, FAMILIES, brief);
        for (size_t k = 1; k < FAMILIES; k++) others += alone[k].time / (FAMILIES - 1);
        printf("| %s | %.2f | %.2f | %.2f | %.2f |\n", calls[i].name, alone[0].time * 1e6, others * 1e6, alone[0].time / others,
               MOST_FOR_ZERO_C_1);
    }
}

/* Many curves on one family: the operations on its record held against those on its lists, the second family by itself. Then what the
 * record itself takes. */
static void print_records(uint32_t m, size_t r, bool brief) {
    static const struct {
        const char *name;
        convert *convert;
    } others[] = {{"test 14", test_record}, {"replace a row", replace_row}, {"append all rows, one by one", append_rows}};
    enum { OTHERS = sizeof others / sizeof *others };
    static struct participant alone[OTHERS];
    printf("\nm = %" PRIu32 ", r = %zu: microseconds for a curve, of hundreds on one family, by the record and by the lists: medians, and the\n"
           "median of the ratio over %d short turns\n\n",
           m, r, brief ? 1 : TURNS);
    printf("| call | record | lists | ratio |%s\n|---|---:|---:|---:|%s\n", r == MOST_ROWS ? " at most |" : "", r == MOST_ROWS ? "---:|" : "");
    for (size_t i = 0; i < ON_RECORDS; i++) {
        struct participant two[2] = {{.convert = on_records[i].by_record, .families = &jobs[1], .count = 1},
                                     {.convert = on_records[i].by_lists, .families = &jobs[1], .count = 1}};
        double ratio = measure_two(two, brief);
        printf("| %s | %.2f | %.2f | %.3f |", on_records[i].name, two[0].time * 1e6, two[1].time * 1e6, ratio);
        if (r == MOST_ROWS) printf(" %.3f |", on_records[i].most);
        printf("\n");
    }
    for (size_t i = 0; i < OTHERS; i++) alone[i] = (struct participant){.convert = others[i].convert, .families = &jobs[1], .count = 1};
    measure(alone, OTHERS, brief);
    printf("\n");
    for (size_t i = 0; i < OTHERS; i++) printf("%s: %.2f\n", others[i].name, alone[i].time * 1e6);
}

/* Transposed multiplication by itself, one product and two added up. Answers the greatest of the ratios to C. */
static double print_transposed(uint32_t m, bool brief) {
    static const size_t lengths[] = {16, 64, 128, 256};
    enum { LENGTHS = sizeof lengths / sizeof *lengths };
    double greatest = 0;
    printf("\nm = %" PRIu32 ": microseconds for transposed multiplication by itself: as many terms as the multiplier has numbers, of a list\n"
           "of twice as many. Beside it whole products that are cut, and the library's time over theirs\n\n",
           m);
    printf("| products | length | library |");
    for (size_t k = C_WAY; k < WAYS; k++) printf(" %s | ratio |", ways[k].name);
    printf(" to C at most |\n|---|---:|---:|");
    for (size_t k = C_WAY; k < WAYS; k++) printf("---:|---:|");
    printf("---:|\n");
    for (size_t i = 0; i < 2 * LENGTHS; i++) {
        struct participant by[WAYS];
        size_t length = lengths[i % LENGTHS];
        bool two = i / LENGTHS;
        if (brief && length != 16 && length != 256) continue;
        make_operands(m, length, two);
        for (size_t k = 0; k < WAYS; k++) by[k] = (struct participant){.transpose = ways[k].transpose, .operands = operands, .count = OPERANDS};
        measure(by, WAYS, brief);
        double own = by[OWN_WAY].time, ratio = own / by[C_WAY].time;
        if (ratio > greatest) greatest = ratio;
        printf("| %s | %zu | %.2f |", two ? "two added up" : "one", length, own * 1e6);
        for (size_t k = C_WAY; k < WAYS; k++) printf(" %.2f | %.2f |", by[k].time * 1e6, own / by[k].time);
        printf(" %.2f |\n", MOST_FOR_TRANSPOSED);
    }
    return greatest;
}

/* Two channels, the first of them m: lists of remainders joined, and curves expanded and joined. Answers the greatest of the ratios of join to
 * the quickest beside it, best C left out. */
static double print_joined(uint32_t m, uint32_t other, bool brief) {
    static const size_t lengths[] = {128, MOST_JOINED}, rows[] = {15, MOST_ROWS};
    double greatest = 0;
    printf("\nm = %" PRIu32 " and %" PRIu32 ": microseconds for joining two lists of remainders, and the library's time over the others'\n\n",
           m, other);
    printf("| length | library |");
    for (size_t k = BEST_JOIN; k < JOINS; k++) printf(" %s | ratio |", join_ways[k].name);
    printf(" but to best C at most |\n|---:|---:|");
    for (size_t k = BEST_JOIN; k < JOINS; k++) printf("---:|---:|");
    printf("---:|\n");
    for (size_t i = 0; i < sizeof lengths / sizeof *lengths; i++) {
        struct participant by[JOINS];
        make_lists(m, other, lengths[i]);
        for (size_t k = 0; k < JOINS; k++) by[k] = (struct participant){.join = join_ways[k].join};
        measure(by, JOINS, brief);
        printf("| %zu | %.3f |", lengths[i], by[OWN_JOIN].time * 1e6);
        for (size_t k = BEST_JOIN; k < JOINS; k++) {
            double ratio = by[OWN_JOIN].time / by[k].time;
            printf(" %.3f | %.2f |", by[k].time * 1e6, ratio);
            if (k != BEST_JOIN && ratio > greatest) greatest = ratio;
        }
        printf(" %.2f |\n", MOST_FOR_JOIN);
    }
    printf("\nm = %" PRIu32 " and %" PRIu32 ": microseconds for a curve expanded on both channels and joined\n\n| rows | library |", m, other);
    for (size_t k = STRAIGHTFORWARD_EXPAND_JOIN; k < EXPAND_JOINS; k++) printf(" %s | ratio |", expand_join_ways[k].name);
    printf("\n|---:|---:|---:|---:|---:|---:|\n");
    for (size_t i = 0; i < sizeof rows / sizeof *rows; i++) {
        struct participant by[EXPAND_JOINS];
        make_signed_jobs(m, other, rows[i]);
        for (size_t k = 0; k < EXPAND_JOINS; k++) by[k] = (struct participant){.expand_and_join = expand_join_ways[k].expand_and_join};
        measure(by, EXPAND_JOINS, brief);
        printf("| %zu | %.2f |", rows[i], by[OWN_EXPAND_JOIN].time * 1e6);
        for (size_t k = STRAIGHTFORWARD_EXPAND_JOIN; k < EXPAND_JOINS; k++)
            printf(" %.2f | %.2f |", by[k].time * 1e6, by[OWN_EXPAND_JOIN].time / by[k].time);
        printf("\n");
    }
    return greatest;
}

static void time_all(uint32_t m, size_t r, bool brief) {
    for (size_t i = 0; i < CALLS; i++)
        participants[i] = (struct participant){.convert = calls[i].convert, .families = jobs, .count = FAMILIES};
    for (size_t k = 0; k < CONTESTANTS; k++)
        for (enum operation operation = 0; operation < OPERATIONS; operation++)
            *of_contestant(k, operation) =
                (struct participant){.convert = contestants[k]->convert[operation], .families = jobs, .count = FAMILIES};
    measure(participants, sizeof participants / sizeof *participants, brief);
    print_table(m, r);
    print_records(m, r, brief);
    if (r != MOST_ROWS) return;
    print_zero_c_1(m, r, brief);
    if (brief && m != moduli[0]) return;
    double transposed = print_transposed(m, brief);
    double joined = print_joined(m, m == moduli[0] ? moduli[1] : moduli[0], brief);
    if (!brief) print_bounds(m, transposed, joined);
}

/* The second call is counted. A dump sets all counts to zero; this one is named by the modulus, the contestant and the operation, or
 * the call. */
static void count(const char *name, const char *what, convert *convert, uint32_t m) {
    static uint32_t result[MOST_RESULTS];
    char label[80];
    snprintf(label, sizeof label, "%" PRIu32 "/%s/%s", m, name, what);
    convert(&jobs[0], result);
    CALLGRIND_DUMP_STATS_AT("warm");
    convert(&jobs[1], result);
    CALLGRIND_DUMP_STATS_AT(label);
}

static void count_all(uint32_t m) {
    for (size_t i = 0; i < CALLS; i++) count("library", calls[i].name, calls[i].convert, m);
    for (size_t i = 0; i < ON_RECORDS; i++) count("record", on_records[i].name, on_records[i].by_record, m);
    for (size_t k = 0; k < CONTESTANTS; k++)
        for (enum operation operation = 0; operation < OPERATIONS; operation++) {
            static const char *const names[OPERATIONS] = {"Inverse", "Expand", "Adjoint", "Decompose", "Norms", "Moments"};
            count(contestants[k]->name, names[operation], contestants[k]->convert[operation], m);
        }
}

int main(int words, char **word) {
    static const size_t rows[] = {15, 31, 63, 127};
    bool full = words == 2 && !strcmp(word[1], "full"), brief = words == 2 && !strcmp(word[1], "short");
    bool counts = words == 2 && !strcmp(word[1], "count");
    if (!full && !brief && !counts) {
        fprintf(stderr, "usage: bench full|short|count\n");
        return 2;
    }
    if (!counts)
        printf("Each table stands after all in it gave equal answers on %d families, or %d sets of operands or lists, which then take turns. The\n"
               "library's calls make all of their tests and the others none; transposed multiplication by itself has none. Those that go\n"
               "by a tree build it in each call. Buffers are not cleared between calls: a tree call clears its working list itself, and\n"
               "that is in its time. Times are processor time, %s.\n",
               FAMILIES, OPERANDS, brief ? "from single short samples, which measure little" : "the least of " TEXT_OF(SAMPLES) " samples");
    for (size_t i = 0; i < sizeof moduli / sizeof *moduli; i++)
        for (size_t k = 0; k < sizeof rows / sizeof *rows; k++) {
            size_t r = rows[k];
            if ((brief && r != 15 && r != 127) || (counts && r != 127)) continue;
            make_jobs(moduli[i], r);
            compare();
            if (counts)
                count_all(moduli[i]);
            else
                time_all(moduli[i], r, brief);
        }
    return 0;
}
