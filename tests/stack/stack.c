/* Measures how much stack each call takes: it is run on a stack that is painted before and looked at after.
 *
 * usage: stack
 *
 * For each function a line: its name and the most bytes that it took, of accepted cases with r = 127 and r = 0 and of refused ones, whose
 * last a or last c is zero or shares a factor with m, modulo a prime and a composite number; of the text call and of the call that writes
 * a job, for every operation; on a record of 127, 126, 1 and 0 rows, right and damaged; on two channels, one of them prime and one
 * composite, in either order, and refused for a last remainder that is too great and for channels that share a factor as well; of the
 * calls that order a list, of every length that they take, and refused for one number more and for an output of another length. A byte
 * counts if it lies between the frame of the caller, which holds the arguments, and the lowest byte that was written; the record that a
 * change hands out is the caller's and is not counted. Exits 1 if a call gives another answer than it should.
 */
#define _XOPEN_SOURCE 700
#include <inttypes.h>
#include <stdio.h>
#include <stdlib.h>
#include <string.h>
#include <ucontext.h>

#include "zahupnik.h"

enum { STACK = 1 << 18, PAINT = 0xA5, MOST = ZAHUPNIK_MOST_ROWS, LIST = 2 * MOST + 1 };

static unsigned char stack[STACK] __attribute__((aligned(64)));
static ucontext_t here, there;

/* What the calls are lent, and what they answer. */
static uint32_t m, a[MOST], b[MOST], c[MOST], curve[MOST + 1], output[LIST], work[ZAHUPNIK_LEAST_WORK];
static size_t r, n, text_length, job_entries;
static uint8_t text[ZAHUPNIK_MOST_TEXT], text_output[ZAHUPNIK_LEAST_TEXT_OUTPUT], job_output[ZAHUPNIK_LEAST_JOB_OUTPUT];
static uint32_t operation, length, answer;
static struct zahupnik_prepared family;
static struct zahupnik_change change;
static uint32_t second_m, first[MOST + 1], second[MOST + 1];
static int32_t signed_a[MOST], signed_b[MOST], signed_c[MOST], signed_curve[MOST + 1];
static int64_t joined[MOST + 1];
static uint32_t list[ZAHUPNIK_MOST_ENTRIES + 1];
static size_t list_length, output_length;
static unsigned char *frame;

#define FAMILY m, a, r, b, r, c, r
#define CALL(name, ...)                                               \
    static __attribute__((noinline)) void name(void) {                \
        frame = __builtin_frame_address(0);                           \
        answer = zahupnik_##name(__VA_ARGS__);                        \
    }
CALL(version, )
CALL(invert, m, r ? a[r - 1] : 1, &output[0], &output[1])
CALL(plain_expand, FAMILY, curve, n, output, n)
CALL(plain_adjoint, FAMILY, curve, n, output, n)
CALL(plain_decompose, FAMILY, curve, n, output, n)
CALL(norms, FAMILY, output, n)
CALL(tree_expand, FAMILY, curve, n, output, n, work, ZAHUPNIK_LEAST_WORK)
CALL(tree_adjoint, FAMILY, curve, n, output, n, work, ZAHUPNIK_LEAST_WORK)
CALL(tree_decompose, FAMILY, curve, n, output, n, work, ZAHUPNIK_LEAST_WORK)
CALL(moments, FAMILY, output, 2 * n - 1, work, ZAHUPNIK_LEAST_WORK)
CALL(convert_text, text, text_length, text_output, sizeof text_output, work, ZAHUPNIK_LEAST_WORK, &length)
CALL(write_job, FAMILY, operation, curve, job_entries, job_output, sizeof job_output, &length)

/* A change hands its record out beside the stack that is measured. */
#define CHANGE(name, ...)                              \
    static __attribute__((noinline)) void name(void) { \
        frame = __builtin_frame_address(0);            \
        change = zahupnik_##name(__VA_ARGS__);         \
        answer = change.answer;                        \
    }
CHANGE(prepared_empty, m)
CHANGE(prepared_append, family, a[0], b[0], c[0])
CHANGE(prepared_drop_last, family)
CHANGE(prepared_replace, family, (uint32_t)r, a[0], b[0], c[0])
CALL(prepared_plain_expand, family, curve, n, output, n)
CALL(prepared_plain_adjoint, family, curve, n, output, n)
CALL(prepared_plain_decompose, family, curve, n, output, n)
CALL(prepared_norms, family, output, n)
CALL(prepared_tree_expand, family, curve, n, output, n, work, ZAHUPNIK_LEAST_WORK)
CALL(prepared_tree_adjoint, family, curve, n, output, n, work, ZAHUPNIK_LEAST_WORK)
CALL(prepared_tree_decompose, family, curve, n, output, n, work, ZAHUPNIK_LEAST_WORK)
CALL(prepared_moments, family, output, 2 * n - 1, work, ZAHUPNIK_LEAST_WORK)
CALL(join, m, second_m, first, n, second, n, joined, n)
CALL(expand_join, m, second_m, signed_a, r, signed_b, r, signed_c, r, signed_curve, n, joined, n)
CALL(even_first, list, list_length, output, output_length)
CALL(even_back, list, list_length, output, output_length)

static const struct {
    const char *name;
    void (*run)(void);
} calls[] = {
    {"zahupnik_version", version},
    {"zahupnik_invert", invert},
    {"zahupnik_plain_expand", plain_expand},
    {"zahupnik_plain_adjoint", plain_adjoint},
    {"zahupnik_plain_decompose", plain_decompose},
    {"zahupnik_norms", norms},
    {"zahupnik_tree_expand", tree_expand},
    {"zahupnik_tree_adjoint", tree_adjoint},
    {"zahupnik_tree_decompose", tree_decompose},
    {"zahupnik_moments", moments},
    {"zahupnik_convert_text", convert_text},
    {"zahupnik_write_job", write_job},
    {"zahupnik_prepared_empty", prepared_empty},
    {"zahupnik_prepared_append", prepared_append},
    {"zahupnik_prepared_drop_last", prepared_drop_last},
    {"zahupnik_prepared_replace", prepared_replace},
    {"zahupnik_prepared_plain_expand", prepared_plain_expand},
    {"zahupnik_prepared_plain_adjoint", prepared_plain_adjoint},
    {"zahupnik_prepared_plain_decompose", prepared_plain_decompose},
    {"zahupnik_prepared_norms", prepared_norms},
    {"zahupnik_prepared_tree_expand", prepared_tree_expand},
    {"zahupnik_prepared_tree_adjoint", prepared_tree_adjoint},
    {"zahupnik_prepared_tree_decompose", prepared_tree_decompose},
    {"zahupnik_prepared_moments", prepared_moments},
    {"zahupnik_join", join},
    {"zahupnik_expand_join", expand_join},
    {"zahupnik_even_first", even_first},
    {"zahupnik_even_back", even_back},
};
enum { CALLS = sizeof calls / sizeof *calls, FIRST_ORDER = CALLS - 2, FIRST_ON_CHANNELS = FIRST_ORDER - 2 };
enum { FIRST_ON_RECORDS = FIRST_ON_CHANNELS - 12 };

/* How many bytes of the painted stack lie between the caller's frame and the lowest that the call wrote. */
static size_t measure(const char *name, void (*run)(void), uint32_t wanted) {
    memset(stack, PAINT, sizeof stack);
    if (getcontext(&there) != 0) abort();
    there.uc_stack.ss_sp = stack;
    there.uc_stack.ss_size = sizeof stack;
    there.uc_link = &here;
    makecontext(&there, run, 0);
    if (swapcontext(&here, &there) != 0) abort();
    size_t lowest = 0;
    while (lowest < sizeof stack && stack[lowest] == PAINT) lowest++;
    if (answer != wanted || lowest == 0) {
        fprintf(stderr, "stack: %s with m = %" PRIu32 ", r = %zu: answers %" PRIu32 " and not %" PRIu32 "\n", name, m, r, answer, wanted);
        exit(1);
    }
    return (size_t)(frame - (stack + lowest));
}

/* Numbers that look random, and are the same at each run; odd ones below the modulus for a and c, which 2^30 takes. */
static uint32_t next(void) {
    static uint64_t state = 20240229;
    state = state * UINT64_C(6364136223846793005) + UINT64_C(1442695040888963407);
    return (uint32_t)(state >> 33);
}
static void make_case(uint32_t modulus, size_t rows) {
    m = modulus;
    r = rows;
    n = rows + 1;
    for (size_t i = 0; i < MOST; i++) {
        a[i] = next() % m | 1;
        b[i] = next() % m;
        c[i] = next() % m | 1;
    }
    for (size_t i = 0; i <= MOST; i++) curve[i] = next() % m;
}

static char *write_list(char *at, const char *key, const uint32_t *list, size_t count) {
    at += sprintf(at, "%s=", key);
    for (size_t i = 0; i < count; i++) at += sprintf(at, "%s%" PRIu32, i ? " " : "", list[i]);
    return at + sprintf(at, "\n");
}
static void make_text(void) {
    static const char *const names[] = {[ZAHUPNIK_EXPAND] = "expand",       [ZAHUPNIK_ADJOINT] = "adjoint",
                                        [ZAHUPNIK_DECOMPOSE] = "decompose", [ZAHUPNIK_MOMENTS] = "moments",
                                        [ZAHUPNIK_NORMS] = "norms"};
    char *at = (char *)text;
    at = write_list(at, "mod", &m, 1);
    at = write_list(at, "a", a, r);
    at = write_list(at, "b", b, r);
    at = write_list(at, "c", c, r);
    at += sprintf(at, "op=%s\n", names[operation]);
    at = write_list(at, "v", curve, job_entries);
    text_length = (size_t)(at - (char *)text);
}

/* The most that a call takes of the case at hand: a call on a job, for every operation. */
static size_t most_of(size_t i, uint32_t wanted) {
    size_t most = 0;
    if (calls[i].run != convert_text && calls[i].run != write_job) return measure(calls[i].name, calls[i].run, wanted);
    for (operation = ZAHUPNIK_EXPAND; operation <= ZAHUPNIK_NORMS; operation++) {
        job_entries = operation == ZAHUPNIK_MOMENTS || operation == ZAHUPNIK_NORMS ? 0 : n;
        make_text();
        size_t bytes = measure(calls[i].name, calls[i].run, wanted);
        if (bytes > most) most = bytes;
    }
    return most;
}

/* The rows at hand as a record. */
static void make_record(void) {
    change = zahupnik_prepared_empty(m);
    for (size_t i = 0; i < r; i++) change = zahupnik_prepared_append(change.family, a[i], b[i], c[i]);
    family = change.family;
}

/* What a call on the record at hand answers, which is right. */
static uint32_t on_record(void (*run)(void)) {
    if (run == prepared_append && r == MOST) return ZAHUPNIK_REFUSED_ROWS;
    if (run == prepared_drop_last && r == 0) return ZAHUPNIK_REFUSED_NO_ROWS;
    if (run == prepared_replace && r == 0) return ZAHUPNIK_REFUSED_ABSENT_ROW;
    return ZAHUPNIK_FINISHED;
}

static size_t greater(size_t x, size_t y) { return x < y ? y : x; }

/* The most that a call takes of the case at hand with another number in its last row, for which those on a family are refused. Inverse is
 * lent the last a. */
static size_t most_with(size_t i, uint32_t *place, uint32_t number, uint32_t refused) {
    const uint32_t before = *place;
    if (calls[i].run == invert) refused = place == &a[MOST - 1] ? ZAHUPNIK_REFUSED_NO_INVERSE : ZAHUPNIK_FINISHED;
    *place = number;
    size_t most = most_of(i, refused);
    *place = before;
    return most;
}

static size_t most_on_lists(size_t i, uint32_t modulus) {
    make_case(modulus, MOST);
    size_t most = most_of(i, ZAHUPNIK_FINISHED);
    most = greater(most, most_with(i, &c[MOST - 1], 0, ZAHUPNIK_REFUSED_C_ZERO));
    most = greater(most, most_with(i, &a[MOST - 1], 0, ZAHUPNIK_REFUSED_A_ZERO));
    if (modulus % 2 == 0) {
        most = greater(most, most_with(i, &c[MOST - 1], 2, ZAHUPNIK_REFUSED_C_INVERSE));
        most = greater(most, most_with(i, &a[MOST - 1], 2, ZAHUPNIK_REFUSED_A_INVERSE));
    }
    make_case(modulus, 0);
    return greater(most, most_of(i, ZAHUPNIK_FINISHED));
}

static size_t most_on_records(size_t i, uint32_t modulus) {
    static const size_t rows[] = {MOST, MOST - 1, 1, 0};
    size_t most = 0;
    for (size_t k = 0; k < sizeof rows / sizeof *rows; k++) {
        make_case(modulus, rows[k]);
        make_record();
        most = greater(most, most_of(i, on_record(calls[i].run)));
        family.norms[0] ^= 1;
        most = greater(most, most_of(i, calls[i].run == prepared_empty ? ZAHUPNIK_FINISHED : ZAHUPNIK_REFUSED_RECORD));
    }
    return most;
}

/* Odd numbers for a and c, with either sign: both channels take them. */
static void make_channels(uint32_t modulus, uint32_t second_modulus, size_t rows) {
    make_case(modulus, rows);
    second_m = second_modulus;
    for (size_t i = 0; i < MOST; i++) {
        signed_a[i] = (int32_t)(next() | 1) - (1 << 30);
        signed_b[i] = (int32_t)next() - (1 << 30);
        signed_c[i] = (int32_t)(next() | 1) - (1 << 30);
    }
    for (size_t i = 0; i <= MOST; i++) {
        signed_curve[i] = -(int32_t)next();
        first[i] = next() % m;
        second[i] = next() % second_m;
    }
}

/* The most that expand_join takes with another number in its last row, for which it is refused; join does not look at it. */
static size_t most_with_signed(size_t i, int32_t *place, int32_t number, uint32_t refused) {
    const int32_t before = *place;
    *place = number;
    size_t most = most_of(i, calls[i].run == join ? ZAHUPNIK_FINISHED : refused);
    *place = before;
    return most;
}

static size_t most_on_channels(size_t i, uint32_t modulus, uint32_t second_modulus) {
    make_channels(modulus, second_modulus, MOST);
    size_t most = most_of(i, ZAHUPNIK_FINISHED);
    most = greater(most, most_with_signed(i, &signed_c[MOST - 1], 0, ZAHUPNIK_REFUSED_C_ZERO));
    most = greater(most, most_with_signed(i, &signed_a[MOST - 1], 0, ZAHUPNIK_REFUSED_A_ZERO));
    most = greater(most, most_with_signed(i, &signed_c[MOST - 1], -2, ZAHUPNIK_REFUSED_C_INVERSE));
    most = greater(most, most_with_signed(i, &signed_a[MOST - 1], -2, ZAHUPNIK_REFUSED_A_INVERSE));
    second[MOST] = second_m;
    most = greater(most, most_of(i, calls[i].run == join ? ZAHUPNIK_REFUSED_CURVE_ENTRY : ZAHUPNIK_FINISHED));
    second_m = m;
    most = greater(most, most_of(i, ZAHUPNIK_REFUSED_SHARED_FACTOR));
    make_channels(modulus, second_modulus, 0);
    return greater(most, most_of(i, ZAHUPNIK_FINISHED));
}

/* The most that a call which orders a list takes, of these lengths. */
static size_t most_of_lengths(size_t i, size_t numbers, size_t places, uint32_t wanted) {
    list_length = numbers;
    output_length = places;
    return most_of(i, wanted);
}

static size_t most_on_orders(size_t i) {
    size_t most = 0;
    for (size_t k = 0; k <= ZAHUPNIK_MOST_ENTRIES; k++) {
        list[k] = next();
        most = greater(most, most_of_lengths(i, k, k, ZAHUPNIK_FINISHED));
        most = greater(most, most_of_lengths(i, k, k + 1, ZAHUPNIK_REFUSED_OUTPUT_LENGTH));
    }
    most = greater(most, most_of_lengths(i, ZAHUPNIK_MOST_ENTRIES, 0, ZAHUPNIK_REFUSED_OUTPUT_LENGTH));
    return greater(most, most_of_lengths(i, ZAHUPNIK_MOST_ENTRIES + 1, ZAHUPNIK_MOST_ENTRIES + 1, ZAHUPNIK_REFUSED_ROWS));
}

static size_t most_on(size_t i, uint32_t modulus, uint32_t other) {
    if (calls[i].run == version) return most_of(i, ZAHUPNIK_VERSION);
    if (i < FIRST_ON_RECORDS) return most_on_lists(i, modulus);
    if (i < FIRST_ON_CHANNELS) return most_on_records(i, modulus);
    return i < FIRST_ORDER ? most_on_channels(i, modulus, other) : most_on_orders(i);
}

int main(void) {
    static const uint32_t moduli[] = {ZAHUPNIK_GREATEST_MODULUS, UINT32_C(1) << 30};
    for (size_t i = 0; i < CALLS; i++) {
        size_t most = 0;
        for (size_t j = 0; j < 2; j++) most = greater(most, most_on(i, moduli[j], moduli[1 - j]));
        printf("%-33s %6zu\n", calls[i].name, most);
    }
    return 0;
}
