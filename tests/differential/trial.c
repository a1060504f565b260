/* What trial.h declares. */
#define _DEFAULT_SOURCE
#include "trial.h"

#include <inttypes.h>
#include <signal.h>
#include <stdio.h>
#include <stdlib.h>
#include <string.h>
#include <sys/mman.h>
#include <unistd.h>

enum { ZONE = 256, ZONE_BYTE = 0xA5, DIRT_BYTES = 1 << 18 };

static unsigned char *ends[MOST_LENDINGS];
static uint32_t dirt_numbers[DIRT_BYTES / sizeof(uint32_t)];
static unsigned char untouched[ZONE];
static const struct trial *volatile running;

static const char *plural(size_t count) { return count == 1 ? "" : "s"; }

static size_t width_of(enum numbers kind) {
    static const size_t widths[] = {[BYTES] = 1, [NUMBERS] = 4, [SIGNED_NUMBERS] = 4, [WIDE_NUMBERS] = 8};
    return widths[kind];
}

/* What is lent before a call begins at a multiple of 4 bytes. */
static int64_t number_at(const void *numbers, enum numbers kind, size_t place) {
    int64_t wide;
    switch (kind) {
    case BYTES: return ((const unsigned char *)numbers)[place];
    case NUMBERS: return ((const uint32_t *)numbers)[place];
    case SIGNED_NUMBERS: return ((const int32_t *)numbers)[place];
    default: memcpy(&wide, (const unsigned char *)numbers + place * sizeof wide, sizeof wide); return wide;
    }
}

/* A byte of a text as it is written in C, a number in decimal. */
static void show(const void *numbers, enum numbers kind, size_t length) {
    for (size_t i = 0; i < length; i++) {
        int64_t number = number_at(numbers, kind, i);
        if (kind != BYTES)
            fprintf(stderr, " %" PRId64, number);
        else if (number == '\n')
            fprintf(stderr, "\\n");
        else if (number < ' ' || number > '~' || number == '\\' || number == '"')
            fprintf(stderr, "\\%03o", (unsigned)number);
        else
            fprintf(stderr, "%c", (int)number);
    }
    fprintf(stderr, "\n");
}

/* A record, without the zeros at the end of each list. */
static void show_record(struct record *record) {
    fprintf(stderr, "  modulus %" PRIu32 "\n  rows %" PRIu32 "\n", record->modulus, record->rows);
    for (unsigned i = 0; i < RECORD_LISTS; i++) {
        struct record_list list = record_list(record, i);
        while (list.length && !list.places[list.length - 1]) list.length--;
        fprintf(stderr, "  %s", list.name);
        show(list.places, NUMBERS, list.length);
    }
}

static void show_change(const struct change *x) {
    if (x->kind == EMPTY) fprintf(stderr, " m %" PRIu32 "\n", x->m);
    if (x->kind == REPLACE) fprintf(stderr, " row %" PRIu32 "\n", x->row);
    if (x->kind == APPEND || x->kind == REPLACE) fprintf(stderr, " a %" PRIu32 ", b %" PRIu32 ", c %" PRIu32 "\n", x->a, x->b, x->c);
}

/* The whole case. Of what the call may write the length says enough: what it held before comes back with the seed. */
static void show_case(const struct trial *trial) {
    fprintf(stderr, "differential: seed %" PRIu64 ", case %" PRIu64 ": %s\n", trial->seed, trial->number_of_case, trial->call);
    if (trial->step) fprintf(stderr, " step %" PRIu32 "\n", trial->step);
    if (trial->handed) {
        fprintf(stderr, " record\n");
        show_record(trial->handed);
    }
    if (trial->change) show_change(trial->change);
    if (trial->m) fprintf(stderr, " m%s %" PRIu32 "\n", trial->second_m ? "1" : "", *trial->m);
    if (trial->second_m) fprintf(stderr, " m2 %" PRIu32 "\n", *trial->second_m);
    if (trial->operation) fprintf(stderr, " operation %" PRIu32 "\n", *trial->operation);
    for (size_t i = 0; i < trial->lendings; i++) {
        const struct lending *x = &trial->lending[i];
        fprintf(stderr, " %s, %zu %s%s", x->name, x->length, x->numbers == BYTES ? "byte" : "number", plural(x->length));
        if (x->front) {
            fprintf(stderr, "\n");
        } else {
            fprintf(stderr, x->numbers == BYTES ? ": " : ":");
            show(x->before, x->numbers, x->length);
        }
    }
}

static void show_end(const struct trial *trial) {
    fprintf(stderr, " to repeat it: differential 1 %" PRIu64 " %" PRIu64 "\n", trial->seed, trial->number_of_case);
}

static void on_fault(int number) {
    (void)number;
    if (running) {
        show_case(running);
        fprintf(stderr, " the library touched memory that it was not lent\n");
        show_end(running);
    } else {
        fprintf(stderr, "differential: this program broke off outside the library\n");
    }
    _Exit(1);
}

/* Memory between two pages that nobody may touch; where it ends. */
static unsigned char *guarded_end(size_t bytes) {
    size_t page = (size_t)sysconf(_SC_PAGESIZE), room = (bytes + page - 1) / page * page;
    unsigned char *pages = mmap(NULL, room + 2 * page, PROT_NONE, MAP_PRIVATE | MAP_ANONYMOUS, -1, 0);
    if (pages == MAP_FAILED || mprotect(pages + page, room, PROT_READ | PROT_WRITE)) {
        fprintf(stderr, "differential: no memory for the lists\n");
        exit(1);
    }
    return pages + page + room;
}

void prepare_trials(size_t most_bytes) {
    struct random random = {0};
    for (size_t i = 0; i < MOST_LENDINGS; i++) ends[i] = guarded_end(most_bytes + ZONE);
    for (size_t i = 0; i < sizeof dirt_numbers / sizeof *dirt_numbers; i++)
        dirt_numbers[i] = i / 64 % 8 ? (uint32_t)next_word(&random) : UINT32_MAX;
    memset(untouched, ZONE_BYTE, sizeof untouched);
    signal(SIGSEGV, on_fault);
    signal(SIGBUS, on_fault);
}

const void *dirt(struct random *random, size_t bytes) {
    return dirt_numbers + below(random, (DIRT_BYTES - bytes) / sizeof *dirt_numbers);
}

/* Whether a list has a zero, and another number that has no inverse. */
static bool has_both(struct list list, uint32_t m) {
    bool zero = false, sharing = false;
    for (size_t i = 0; i < list.length; i++) {
        zero = zero || list.entries[i] == 0;
        sharing = sharing || (list.entries[i] && common_divisor(list.entries[i], m) != 1);
    }
    return zero && sharing;
}

void note_family(struct trial *trial, const struct lent *x) {
    uint32_t c_1 = x->c.length ? x->c.entries[0] : 1;
    trial->rows = x->a.length;
    trial->first_c = c_1 == 0 ? ZERO : common_divisor(c_1, x->m) != 1 ? SHARES_FACTOR : INVERTIBLE;
    if (trial->number == 10 || trial->number == 17) trial->mixed = has_both(x->a, x->m);
    if (trial->number == 11 || trial->number == 18)
        trial->mixed = has_both((struct list){x->c.entries + 1, x->c.length - 1}, x->m);
}

void watch(const struct trial *trial) { running = trial; }

void *lend(struct trial *trial, struct random *random, struct lending lending) {
    size_t place = trial->lendings++, bytes = lending.length * width_of(lending.numbers);
    trial->lending[place] = lending;
    trial->at[place] = NULL;
    if (bytes || one_in(random, 2)) {
        trial->at[place] = ends[place] - bytes;
        memset(trial->at[place] - ZONE, ZONE_BYTE, ZONE);
        if (bytes) memcpy(trial->at[place], lending.before, bytes);
    }
    watch(trial);
    return trial->at[place];
}

struct list lend_list(struct trial *trial, struct random *random, const char *name, struct list list) {
    struct lending lending = {name, NUMBERS, list.entries, list.length, NULL, 0, 0};
    return (struct list){lend(trial, random, lending), list.length};
}

struct lent lend_lists(struct trial *trial, struct random *random, const struct lent *x) {
    struct lent lent = *x;
    if (takes_family(x)) {
        lent.a = lend_list(trial, random, "a", x->a);
        lent.b = lend_list(trial, random, "b", x->b);
        lent.c = lend_list(trial, random, "c", x->c);
    }
    if (takes_curve(x)) lent.curve = lend_list(trial, random, "curve", x->curve);
    return lent;
}

uint32_t *lend_numbers(struct trial *trial, struct random *random, const char *name, size_t length, const uint32_t *front,
                       size_t front_length) {
    const void *before = dirt(random, length * sizeof *front);
    return lend(trial, random, (struct lending){name, NUMBERS, before, length, front, front_length, 0});
}

uint32_t *lend_factor(struct trial *trial, struct random *random, const uint32_t *factor) {
    const void *before = dirt(random, sizeof *factor);
    return lend(trial, random, (struct lending){"factor", NUMBERS, before, 1, factor, 1, 13});
}

static void show_returned(const char *which, uint32_t number) {
    fprintf(stderr, " %s: %s %" PRIu32 "\n", which, number ? "refusal" : "finished,", number);
}

/* Shows the first number that differs, and all of them if they are few enough to be read. */
static void show_difference(const struct lending *x, const unsigned char *at, size_t front_length) {
    size_t i = 0, shown = front_length ? front_length : x->length;
    int64_t expected = 0, got = 0;
    for (; i < x->length && expected == got; i++) {
        expected = number_at(i < front_length ? x->front : x->before, x->numbers, i);
        got = number_at(at, x->numbers, i);
    }
    if (expected == got) {
        fprintf(stderr, " %s: what stands before it was written over\n", x->name);
        return;
    }
    fprintf(stderr, " %s: differs first at place %zu, expected %" PRId64 ", got %" PRId64 "\n", x->name, i - 1, expected, got);
    if (shown > 6000) return;
    fprintf(stderr, "  expected%s", x->numbers == BYTES ? " " : "");
    show(front_length ? x->front : x->before, x->numbers, shown);
    fprintf(stderr, "  got%s", x->numbers == BYTES ? " " : "");
    show(at, x->numbers, shown);
}

/* How many numbers at the front a call writes that returns this number. */
static size_t written(const struct lending *x, uint32_t number) {
    return number == 0 || number == x->written_with ? x->front_length : 0;
}

static bool holds(const struct lending *x, const unsigned char *at, size_t front_length) {
    size_t width = width_of(x->numbers), front = front_length * width, all = x->length * width;
    if (!at) return true;
    return memcmp(at - ZONE, untouched, ZONE) == 0 && (!front || memcmp(at, x->front, front) == 0) &&
           (all == front || memcmp(at + front, (const unsigned char *)x->before + front, all - front) == 0);
}

static bool same_record(const struct trial *trial) {
    return !trial->wanted || memcmp(trial->wanted, trial->returned, sizeof *trial->wanted) == 0;
}

void compare(const struct trial *trial, uint32_t returned) {
    bool same = returned == trial->number && same_record(trial);
    running = NULL;
    for (size_t i = 0; i < trial->lendings; i++) {
        const struct lending *x = &trial->lending[i];
        same = holds(x, trial->at[i], written(x, trial->number)) && same;
    }
    if (same) return;
    show_case(trial);
    show_returned("expected", trial->number);
    show_returned("got", returned);
    if (!same_record(trial)) {
        fprintf(stderr, " record expected\n");
        show_record(trial->wanted);
        fprintf(stderr, " record got\n");
        show_record(trial->returned);
    }
    for (size_t i = 0; i < trial->lendings; i++) {
        const struct lending *x = &trial->lending[i];
        size_t front_length = written(x, trial->number);
        if (!holds(x, trial->at[i], front_length)) show_difference(x, trial->at[i], front_length);
    }
    show_end(trial);
    exit(1);
}

void end_trial(const struct trial *trial, const char *why) {
    show_case(trial);
    fprintf(stderr, " %s\n", why);
    show_end(trial);
    exit(1);
}
