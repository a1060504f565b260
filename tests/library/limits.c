/* Holds the header's constants against the library: every function is taken to its limits, and every refusal that its comment
 * lists is provoked.
 *
 * usage: limits
 *
 * Prints how many cases are as the header says and exits 0; says the first that is not and exits 1.
 */
#define _DEFAULT_SOURCE
#include <inttypes.h>
#include <stdio.h>
#include <stdlib.h>
#include <string.h>
#include <sys/mman.h>
#include <unistd.h>

#include "zahupnik.h"

enum { ROOM = ZAHUPNIK_MOST_ROWS + 3, OUTPUT_ROOM = 2 * ROOM, WORK_ROOM = ZAHUPNIK_LEAST_WORK + 3 };
enum { JOB_ROOM = ZAHUPNIK_LEAST_JOB_OUTPUT + 3, LONGEST_JOB = 5635 };

static const char paper_job[] = "mod=7\na=1 2\nb=0 3\nc=1 5\nop=expand\nv=3 0 1\n";
static unsigned long cases;

static void expect(const char *function, const char *with, const char *what, int64_t given, int64_t wanted) {
    if (given != wanted) {
        fprintf(stderr, "limits: %s with %s: %s is %" PRId64 " and not %" PRId64 "\n", function, with, what, given, wanted);
        exit(1);
    }
}

/* A change answers with the number and hands out the record. */
static void hands_out(const char *function, const char *with, struct zahupnik_change change, uint32_t number,
                      const struct zahupnik_prepared *record) {
    expect(function, with, "the answer", change.answer, number);
    expect(function, with, "that the record is the one wanted", !memcmp(&change.family, record, sizeof *record), 1);
    cases++;
}

/* The record of so many rows 1 1 1 modulo 7, at most as many as there may be. */
static struct zahupnik_prepared of_ones(size_t rows) {
    static struct zahupnik_prepared records[ZAHUPNIK_MOST_ROWS + 1];
    if (!records[0].modulus) {
        records[0] = zahupnik_prepared_empty(7).family;
        for (size_t i = 0; i < ZAHUPNIK_MOST_ROWS; i++) records[i + 1] = zahupnik_prepared_append(records[i], 1, 1, 1).family;
    }
    return records[rows < ZAHUPNIK_MOST_ROWS ? rows : ZAHUPNIK_MOST_ROWS];
}

/* What a function on families is lent: lists, or a record. */
struct input {
    struct zahupnik_prepared family;
    uint32_t m, a[ROOM], b[ROOM], c[ROOM], curve[ROOM];
    size_t a_length, b_length, c_length, curve_length, output_length, work_length;
};

#define FAMILY x->m, x->a, x->a_length, x->b, x->b_length, x->c, x->c_length
#define CURVE x->curve, x->curve_length
#define OUTPUT output, x->output_length
#define WORK work, x->work_length
#define FUNCTION(name, ...)                                                         \
    static uint32_t name(const struct input *x, uint32_t *output, uint32_t *work) { \
        (void)work;                                                                 \
        return zahupnik_##name(__VA_ARGS__);                                        \
    }
FUNCTION(plain_expand, FAMILY, CURVE, OUTPUT)
FUNCTION(plain_adjoint, FAMILY, CURVE, OUTPUT)
FUNCTION(plain_decompose, FAMILY, CURVE, OUTPUT)
FUNCTION(norms, FAMILY, OUTPUT)
FUNCTION(tree_expand, FAMILY, CURVE, OUTPUT, WORK)
FUNCTION(tree_adjoint, FAMILY, CURVE, OUTPUT, WORK)
FUNCTION(tree_decompose, FAMILY, CURVE, OUTPUT, WORK)
FUNCTION(moments, FAMILY, OUTPUT, WORK)
FUNCTION(prepared_plain_expand, x->family, CURVE, OUTPUT)
FUNCTION(prepared_plain_adjoint, x->family, CURVE, OUTPUT)
FUNCTION(prepared_plain_decompose, x->family, CURVE, OUTPUT)
FUNCTION(prepared_norms, x->family, OUTPUT)
FUNCTION(prepared_tree_expand, x->family, CURVE, OUTPUT, WORK)
FUNCTION(prepared_tree_adjoint, x->family, CURVE, OUTPUT, WORK)
FUNCTION(prepared_tree_decompose, x->family, CURVE, OUTPUT, WORK)
FUNCTION(prepared_moments, x->family, OUTPUT, WORK)

/* A function by its name, whether it takes a curve, how long its output is with no rows and how much longer with each row, and how
 * many numbers at the front of the working list are zero when it has finished. The function that writes a job stands here once for
 * each operation, by the operation's number, and has nothing to run. */
struct function {
    const char *name;
    uint32_t (*run)(const struct input *, uint32_t *, uint32_t *);
    size_t takes_curve, output, each_row, cleared;
    uint32_t operation;
};

/* An input that the function takes: rows 1 1 1 and a curve of ones, modulo 7. */
static struct input accepted(const struct function *f, size_t rows) {
    struct input x = {.m = 7, .a_length = rows, .b_length = rows, .c_length = rows, .work_length = ZAHUPNIK_LEAST_WORK};
    x.family = of_ones(rows);
    x.curve_length = f->takes_curve ? rows + 1 : 0;
    x.output_length = f->output + f->each_row * rows;
    for (size_t i = 0; i < ROOM; i++) x.a[i] = x.b[i] = x.c[i] = x.curve[i] = 1;
    return x;
}

/* The function returns the number and clears what it must of the working list; a refusal leaves both lists as they were, and no
 * function writes past the length that it is told. */
static void gives(const struct function *f, const char *with, const struct input *x, uint32_t number) {
    static uint32_t work[WORK_ROOM];
    uint32_t output[OUTPUT_ROOM];
    size_t written = number == ZAHUPNIK_FINISHED ? x->output_length : 0;
    size_t cleared = number == ZAHUPNIK_FINISHED ? f->cleared : 0;
    for (size_t i = 0; i < OUTPUT_ROOM; i++) output[i] = UINT32_MAX;
    for (size_t i = 0; i < WORK_ROOM; i++) work[i] = (uint32_t)(UINT32_MAX - i);
    expect(f->name, with, "the number returned", f->run(x, output, work), number);
    for (size_t i = written; i < OUTPUT_ROOM; i++)
        expect(f->name, with, "an entry that is not to be written", output[i], UINT32_MAX);
    for (size_t i = 0; i < WORK_ROOM; i++)
        expect(f->name, with, "a number of the working list", work[i], i < cleared ? 0 : (uint32_t)(UINT32_MAX - i));
    cases++;
}

/* The text of the job that was written last. */
static uint8_t job[JOB_ROOM];
static uint32_t job_length;

/* The job is written and the text call carries it out, or the number is returned. Nothing is written but the text and its length. */
static void writes(const struct function *f, const char *with, const struct input *x, uint32_t number) {
    static uint8_t answer[ZAHUPNIK_LEAST_TEXT_OUTPUT];
    static uint32_t work[ZAHUPNIK_LEAST_WORK];
    uint32_t length;
    memset(job, UINT8_MAX, sizeof job);
    job_length = UINT32_MAX;
    expect(f->name, with, "the number returned",
           zahupnik_write_job(FAMILY, f->operation, CURVE, job, x->output_length, &job_length), number);
    if (number == ZAHUPNIK_FINISHED) {
        expect(f->name, with, "that the length is at most 5635", job_length <= LONGEST_JOB, 1);
        expect(f->name, with, "the number of the text call on the text",
               zahupnik_convert_text(job, job_length, answer, sizeof answer, work, ZAHUPNIK_LEAST_WORK, &length), number);
    } else {
        expect(f->name, with, "the length", job_length, UINT32_MAX);
    }
    for (size_t i = number == ZAHUPNIK_FINISHED ? job_length : 0; i < sizeof job; i++)
        expect(f->name, with, "a byte that is not to be written", job[i], UINT8_MAX);
    cases++;
}

/* Changed in one thing, an accepted input of some rows gives the number. */
#define GIVES(number, rows, change)                                                   \
    do {                                                                              \
        struct input x = accepted(f, rows);                                           \
        change;                                                                       \
        (f->run ? gives : writes)(f, #rows " rows, " #change, &x, ZAHUPNIK_##number); \
    } while (0)

static void on_family(const struct function *f) {
    GIVES(REFUSED_MODULUS, 2, x.m = 0);
    GIVES(REFUSED_MODULUS, 2, x.m = 1);
    GIVES(FINISHED, 2, x.m = 2);
    GIVES(FINISHED, 2, x.m = ZAHUPNIK_GREATEST_MODULUS);
    GIVES(REFUSED_MODULUS, 2, x.m = ZAHUPNIK_GREATEST_MODULUS + 1);
    GIVES(REFUSED_MODULUS, 2, x.m = UINT32_MAX);
    GIVES(REFUSED_LENGTHS, 2, x.a_length = 1);
    GIVES(REFUSED_LENGTHS, 2, x.b_length = 3);
    GIVES(REFUSED_LENGTHS, 2, x.c_length = 0);
    GIVES(FINISHED, 0, x.a[0] = x.b[0] = x.c[0] = 0);
    GIVES(FINISHED, ZAHUPNIK_MOST_ROWS, x.m = 2);
    GIVES(REFUSED_ROWS, ZAHUPNIK_MOST_ROWS + 1, x.m = 2);
    GIVES(REFUSED_OUTPUT_LENGTH, 2, x.output_length = 0);
    GIVES(REFUSED_OUTPUT_LENGTH, 2, x.output_length--);
    GIVES(FINISHED, 2, x.a[1] = x.b[1] = x.c[1] = 6);
    GIVES(REFUSED_ENTRY, 2, x.a[1] = 7);
    GIVES(REFUSED_ENTRY, 2, x.b[1] = 7);
    GIVES(REFUSED_ENTRY, 2, x.c[1] = 7);
    GIVES(REFUSED_ENTRY, 1, x.c[0] = 7);
    GIVES(REFUSED_ENTRY, 2, x.c[0] = 7);
    GIVES(FINISHED, 2, x.b[1] = 0);
    GIVES(REFUSED_A_ZERO, 1, x.a[0] = 0);
    GIVES(REFUSED_A_ZERO, 2, x.a[1] = 0);
    GIVES(REFUSED_C_ZERO, 2, x.c[1] = 0);
    GIVES(REFUSED_A_INVERSE, 2, (x.m = 15, x.a[1] = 6));
    GIVES(REFUSED_C_INVERSE, 2, (x.m = 15, x.c[1] = 6));
    GIVES(FINISHED, 1, x.c[0] = 0);
    GIVES(FINISHED, 2, x.c[0] = 0);
    GIVES(FINISHED, 2, (x.m = 15, x.c[0] = 6));
    GIVES(FINISHED, ZAHUPNIK_MOST_ROWS, x.c[0] = 0);
    GIVES(REFUSED_A_ZERO, ZAHUPNIK_MOST_ROWS, x.a[ZAHUPNIK_MOST_ROWS - 1] = 0);
    GIVES(REFUSED_C_ZERO, ZAHUPNIK_MOST_ROWS, x.c[ZAHUPNIK_MOST_ROWS - 1] = 0);
    GIVES(REFUSED_A_INVERSE, ZAHUPNIK_MOST_ROWS, (x.m = 15, x.a[ZAHUPNIK_MOST_ROWS - 1] = 5));
    GIVES(REFUSED_C_INVERSE, ZAHUPNIK_MOST_ROWS, (x.m = 15, x.c[ZAHUPNIK_MOST_ROWS - 1] = 5));
}

/* Of the rows without an inverse the lowest says why, for the a and then for the c from row 2 on. */
static void on_lowest_row(const struct function *f) {
    GIVES(REFUSED_A_INVERSE, 1, (x.m = 15, x.a[0] = 3, x.b[0] = 0, x.c[0] = 5));
    GIVES(REFUSED_A_ZERO, 1, (x.m = 15, x.a[0] = 0, x.b[0] = 0, x.c[0] = 5));
    GIVES(REFUSED_A_INVERSE, 3, (x.m = 15, x.a[1] = 6, x.a[2] = 0));
    GIVES(REFUSED_A_ZERO, 3, (x.m = 15, x.a[1] = 0, x.a[2] = 6));
    GIVES(REFUSED_A_INVERSE, 3, (x.m = 15, x.a[0] = 6, x.a[1] = x.a[2] = 0));
    GIVES(REFUSED_A_ZERO, 3, (x.m = 15, x.a[0] = 0, x.a[1] = x.a[2] = 6));
    GIVES(REFUSED_C_INVERSE, 3, (x.m = 15, x.c[1] = 6, x.c[2] = 0));
    GIVES(REFUSED_C_ZERO, 3, (x.m = 15, x.c[1] = 0, x.c[2] = 6));
    GIVES(REFUSED_C_INVERSE, 3, (x.m = 15, x.c[0] = 0, x.c[1] = 6));
    GIVES(REFUSED_C_ZERO, 3, (x.m = 15, x.c[0] = 6, x.c[1] = 0));
    GIVES(REFUSED_A_INVERSE, 2, (x.m = 15, x.a[1] = 6, x.c[1] = 0));
    GIVES(REFUSED_A_ZERO, 2, (x.m = 15, x.a[1] = 0, x.c[1] = 6));
    GIVES(REFUSED_A_INVERSE, 3, (x.m = 15, x.a[2] = 6, x.c[1] = 0));
    GIVES(REFUSED_A_ZERO, 3, (x.m = 15, x.a[2] = 0, x.c[1] = 6));
    GIVES(REFUSED_A_INVERSE, ZAHUPNIK_MOST_ROWS, (x.m = 15, x.a[0] = 6, x.a[ZAHUPNIK_MOST_ROWS - 1] = 0));
    GIVES(REFUSED_A_ZERO, ZAHUPNIK_MOST_ROWS, (x.m = 15, x.a[0] = 0, x.a[ZAHUPNIK_MOST_ROWS - 1] = 6));
    GIVES(REFUSED_C_INVERSE, ZAHUPNIK_MOST_ROWS, (x.m = 15, x.c[1] = 6, x.c[ZAHUPNIK_MOST_ROWS - 1] = 0));
    GIVES(REFUSED_C_ZERO, ZAHUPNIK_MOST_ROWS, (x.m = 15, x.c[1] = 0, x.c[ZAHUPNIK_MOST_ROWS - 1] = 6));
    GIVES(REFUSED_ENTRY, 2, (x.a[0] = 0, x.b[1] = 7));
    GIVES(REFUSED_ENTRY, 2, (x.c[1] = 0, x.a[0] = 7));
    GIVES(REFUSED_A_ZERO, 2, (x.a[1] = 0, x.curve[0] = 7));
    GIVES(REFUSED_C_ZERO, 2, (x.c[1] = 0, x.curve[0] = 7));
}

/* The record of the rows 1 1 1 in which something else stands: that of another family, or not right, which goes before all else. */
static void on_record(const struct function *f) {
    GIVES(FINISHED, 0, x.family.rows = 0);
    GIVES(FINISHED, ZAHUPNIK_MOST_ROWS, x.family.rows = ZAHUPNIK_MOST_ROWS);
    GIVES(FINISHED, 0, x.family.modulus = 8);
    GIVES(FINISHED, 0, x.family.modulus = ZAHUPNIK_GREATEST_MODULUS);
    GIVES(REFUSED_RECORD, 0, x.family.modulus = 0);
    GIVES(REFUSED_RECORD, 0, x.family.modulus = 1);
    GIVES(REFUSED_RECORD, 0, x.family.modulus = ZAHUPNIK_GREATEST_MODULUS + 1);
    GIVES(REFUSED_RECORD, 2, x.family.modulus = 0);
    GIVES(REFUSED_RECORD, 2, x.family.modulus = 8);
    GIVES(REFUSED_RECORD, 2, x.family.rows = 0);
    GIVES(REFUSED_RECORD, 2, x.family.rows = 1);
    GIVES(REFUSED_RECORD, 2, x.family.rows = 3);
    GIVES(REFUSED_RECORD, ZAHUPNIK_MOST_ROWS, x.family.rows = ZAHUPNIK_MOST_ROWS + 1);
    GIVES(REFUSED_RECORD, ZAHUPNIK_MOST_ROWS, x.family.rows = UINT32_MAX);
    GIVES(FINISHED, 2, x.family.b[1] = 6);
    GIVES(FINISHED, 2, x.family.c[0] = 0);
    GIVES(REFUSED_RECORD, 2, x.family.a[1] = 0);
    GIVES(REFUSED_RECORD, 2, x.family.a[1] = 2);
    GIVES(REFUSED_RECORD, 2, x.family.a[1] = 8);
    GIVES(REFUSED_RECORD, 2, x.family.b[1] = 7);
    GIVES(REFUSED_RECORD, 2, x.family.c[0] = 7);
    GIVES(REFUSED_RECORD, 2, x.family.c[1] = 0);
    GIVES(REFUSED_RECORD, 2, x.family.c[1] = 8);
    GIVES(REFUSED_RECORD, 2, x.family.a_inverses[0] = 8);
    GIVES(REFUSED_RECORD, 2, x.family.a_inverses[1] = 0);
    GIVES(REFUSED_RECORD, 2, x.family.c_inverses[0] = 1);
    GIVES(REFUSED_RECORD, 2, x.family.c_inverses[1] = 8);
    GIVES(REFUSED_RECORD, 2, x.family.norms[0] = 0);
    GIVES(REFUSED_RECORD, 2, x.family.norms[2] = 8);
    GIVES(REFUSED_RECORD, 2, x.family.a[2] = 1);
    GIVES(REFUSED_RECORD, 2, x.family.b[2] = 1);
    GIVES(REFUSED_RECORD, 2, x.family.c[2] = 1);
    GIVES(REFUSED_RECORD, 2, x.family.a_inverses[2] = 1);
    GIVES(REFUSED_RECORD, 2, x.family.c_inverses[2] = 1);
    GIVES(REFUSED_RECORD, 2, x.family.norms[3] = 1);
    GIVES(REFUSED_RECORD, 2, x.family.b[ZAHUPNIK_MOST_ROWS - 1] = 1);
    GIVES(REFUSED_RECORD, 2, x.family.norms[ZAHUPNIK_MOST_ROWS] = 1);
    GIVES(REFUSED_RECORD, ZAHUPNIK_MOST_ROWS, x.family.norms[ZAHUPNIK_MOST_ROWS] = 0);
    GIVES(REFUSED_RECORD, 2, (x.family.norms[2] = 0, x.curve_length = x.output_length = x.work_length = 0));
    GIVES(REFUSED_RECORD, 2, (x.family.norms[2] = 0, x.curve[2] = 7));
    GIVES(REFUSED_OUTPUT_LENGTH, 2, x.output_length = 0);
    GIVES(REFUSED_OUTPUT_LENGTH, 2, x.output_length--);
}

/* Changed in one thing, the record of some rows 1 1 1 is handed back with the number. */
#define HANDED_BACK(number, rows, change, function, ...)                                                     \
    do {                                                                                                     \
        struct zahupnik_prepared x = of_ones(rows);                                                          \
        change;                                                                                              \
        hands_out(#function, #rows " rows, " #change ", given " #__VA_ARGS__, zahupnik_##function(__VA_ARGS__), \
                  ZAHUPNIK_##number, &x);                                                                    \
    } while (0)

/* The record of one or two rows 1 1 1 once more, modulo 15: only norm 1, which is -1, is another number then. */
#define MODULO_15 (x.modulus = 15, x.norms[1] = 14)

static void on_changes(void) {
    HANDED_BACK(REFUSED_RECORD, 2, x.modulus = 0, prepared_append, x, 1, 1, 1);
    HANDED_BACK(REFUSED_RECORD, 2, x.norms[2] = 0, prepared_append, x, 7, 7, 7);
    HANDED_BACK(REFUSED_RECORD, ZAHUPNIK_MOST_ROWS, x.rows++, prepared_append, x, 1, 1, 1);
    HANDED_BACK(REFUSED_ROWS, ZAHUPNIK_MOST_ROWS, x.b[0] = 0, prepared_append, x, 1, 1, 1);
    HANDED_BACK(REFUSED_ROWS, ZAHUPNIK_MOST_ROWS, x.b[0] = 0, prepared_append, x, 7, 0, 0);
    HANDED_BACK(REFUSED_ENTRY, 2, x.b[0] = 0, prepared_append, x, 7, 1, 1);
    HANDED_BACK(REFUSED_ENTRY, 2, x.b[0] = 0, prepared_append, x, 0, 7, 0);
    HANDED_BACK(REFUSED_ENTRY, 0, x.modulus = 7, prepared_append, x, 1, 1, 7);
    HANDED_BACK(REFUSED_A_ZERO, 0, x.modulus = 7, prepared_append, x, 0, 1, 1);
    HANDED_BACK(REFUSED_A_ZERO, 0, x.modulus = 15, prepared_append, x, 0, 1, 6);
    HANDED_BACK(REFUSED_A_INVERSE, 0, x.modulus = 15, prepared_append, x, 6, 1, 0);
    HANDED_BACK(REFUSED_A_ZERO, 2, x.b[0] = 0, prepared_append, x, 0, 1, 0);
    HANDED_BACK(REFUSED_A_ZERO, 1, MODULO_15, prepared_append, x, 0, 1, 6);
    HANDED_BACK(REFUSED_A_INVERSE, 1, MODULO_15, prepared_append, x, 6, 1, 0);
    HANDED_BACK(REFUSED_C_ZERO, 1, x.b[0] = 0, prepared_append, x, 1, 1, 0);
    HANDED_BACK(REFUSED_C_ZERO, 2, x.b[0] = 0, prepared_append, x, 1, 1, 0);
    HANDED_BACK(REFUSED_C_ZERO, 1, MODULO_15, prepared_append, x, 1, 1, 0);
    HANDED_BACK(REFUSED_C_INVERSE, 1, MODULO_15, prepared_append, x, 1, 1, 6);

    HANDED_BACK(REFUSED_RECORD, 0, x.norms[0] = 0, prepared_drop_last, x);
    HANDED_BACK(REFUSED_RECORD, 2, x.a[2] = 1, prepared_drop_last, x);
    HANDED_BACK(REFUSED_NO_ROWS, 0, x.modulus = 7, prepared_drop_last, x);

    HANDED_BACK(REFUSED_RECORD, 2, x.c_inverses[1] = 8, prepared_replace, x, 2, 1, 1, 1);
    HANDED_BACK(REFUSED_RECORD, 2, x.c_inverses[1] = 8, prepared_replace, x, 0, 7, 7, 7);
    HANDED_BACK(REFUSED_ABSENT_ROW, 0, x.modulus = 7, prepared_replace, x, 1, 1, 1, 1);
    HANDED_BACK(REFUSED_ABSENT_ROW, 2, x.b[0] = 0, prepared_replace, x, 0, 1, 1, 1);
    HANDED_BACK(REFUSED_ABSENT_ROW, 2, x.b[0] = 0, prepared_replace, x, 3, 7, 0, 0);
    HANDED_BACK(REFUSED_ABSENT_ROW, ZAHUPNIK_MOST_ROWS, x.b[0] = 0, prepared_replace, x, ZAHUPNIK_MOST_ROWS + 1, 1, 1, 1);
    HANDED_BACK(REFUSED_ABSENT_ROW, ZAHUPNIK_MOST_ROWS, x.b[0] = 0, prepared_replace, x, UINT32_MAX, 1, 1, 1);
    HANDED_BACK(REFUSED_ENTRY, 2, x.b[0] = 0, prepared_replace, x, 1, 1, 1, 7);
    HANDED_BACK(REFUSED_ENTRY, 2, x.b[0] = 0, prepared_replace, x, 2, 0, 7, 0);
    HANDED_BACK(REFUSED_A_ZERO, 2, x.b[0] = 0, prepared_replace, x, 1, 0, 1, 0);
    HANDED_BACK(REFUSED_A_ZERO, 2, x.b[0] = 0, prepared_replace, x, 2, 0, 1, 0);
    HANDED_BACK(REFUSED_A_INVERSE, 1, MODULO_15, prepared_replace, x, 1, 6, 1, 0);
    HANDED_BACK(REFUSED_A_ZERO, 2, MODULO_15, prepared_replace, x, 2, 0, 1, 6);
    HANDED_BACK(REFUSED_A_INVERSE, 2, MODULO_15, prepared_replace, x, 2, 6, 1, 0);
    HANDED_BACK(REFUSED_C_ZERO, 2, x.b[0] = 0, prepared_replace, x, 2, 1, 1, 0);
    HANDED_BACK(REFUSED_C_INVERSE, 2, MODULO_15, prepared_replace, x, 2, 1, 1, 6);
    HANDED_BACK(REFUSED_C_ZERO, ZAHUPNIK_MOST_ROWS, x.b[0] = 0, prepared_replace, x, ZAHUPNIK_MOST_ROWS, 1, 1, 0);

    /* A row that is already there. */
    HANDED_BACK(FINISHED, 2, x.b[0] = 0, prepared_replace, x, 1, 1, 0, 1);
    HANDED_BACK(FINISHED, ZAHUPNIK_MOST_ROWS, x.b[0] = 0, prepared_replace, x, ZAHUPNIK_MOST_ROWS, 1, 1, 1);
}

/* The records of the paper's rows, by the names of their parts. */
static void on_records(void) {
    const struct zahupnik_prepared zeros = {.modulus = 0}, none = {.modulus = 7, .norms = {1}};
    const struct zahupnik_prepared one = {.modulus = 7, .rows = 1, .a = {1}, .c = {1}, .a_inverses = {1}, .norms = {1, 6}};
    const struct zahupnik_prepared two = {.modulus = 7, .rows = 2, .a = {1, 2}, .b = {0, 3}, .c = {1, 5},
                                          .a_inverses = {1, 4}, .c_inverses = {0, 3}, .norms = {1, 1, 5}};
    struct zahupnik_prepared other = two;
    other.a[0] = 3;
    other.b[0] = 4;
    other.c[0] = 0;
    other.a_inverses[0] = other.norms[0] = 5;
    hands_out("prepared_empty", "m = 0", zahupnik_prepared_empty(0), ZAHUPNIK_REFUSED_MODULUS, &zeros);
    hands_out("prepared_empty", "m = 1", zahupnik_prepared_empty(1), ZAHUPNIK_REFUSED_MODULUS, &zeros);
    hands_out("prepared_empty", "m = 7", zahupnik_prepared_empty(7), ZAHUPNIK_FINISHED, &none);
    hands_out("prepared_empty", "m = 2147483648", zahupnik_prepared_empty(2147483648), ZAHUPNIK_REFUSED_MODULUS, &zeros);
    hands_out("prepared_empty", "m = 4294967295", zahupnik_prepared_empty(UINT32_MAX), ZAHUPNIK_REFUSED_MODULUS, &zeros);
    hands_out("prepared_append", "no rows", zahupnik_prepared_append(none, 1, 0, 1), ZAHUPNIK_FINISHED, &one);
    hands_out("prepared_append", "one row", zahupnik_prepared_append(one, 2, 3, 5), ZAHUPNIK_FINISHED, &two);
    hands_out("prepared_drop_last", "two rows", zahupnik_prepared_drop_last(two), ZAHUPNIK_FINISHED, &one);
    hands_out("prepared_drop_last", "one row", zahupnik_prepared_drop_last(one), ZAHUPNIK_FINISHED, &none);
    hands_out("prepared_replace", "row 1", zahupnik_prepared_replace(two, 1, 3, 4, 0), ZAHUPNIK_FINISHED, &other);
    hands_out("prepared_replace", "the old row 1", zahupnik_prepared_replace(other, 1, 1, 0, 1), ZAHUPNIK_FINISHED, &two);
}

static void on_curve(const struct function *f) {
    GIVES(REFUSED_CURVE_LENGTH, 2, x.curve_length = 2);
    GIVES(REFUSED_CURVE_LENGTH, 2, x.curve_length = 4);
    GIVES(FINISHED, 2, x.curve[2] = 6);
    GIVES(REFUSED_CURVE_ENTRY, 2, x.curve[2] = 7);
}

static void on_work(const struct function *f) {
    GIVES(REFUSED_WORK_TOO_SHORT, 2, x.work_length = 0);
    GIVES(REFUSED_WORK_TOO_SHORT, 2, x.work_length = ZAHUPNIK_LEAST_WORK - 1);
    GIVES(REFUSED_WORK_TOO_SHORT, ZAHUPNIK_MOST_ROWS, x.work_length = ZAHUPNIK_LEAST_WORK - 1);
    GIVES(FINISHED, 2, x.work_length = ZAHUPNIK_LEAST_WORK);
    GIVES(FINISHED, 2, x.work_length = ZAHUPNIK_LEAST_WORK + 1);
    GIVES(FINISHED, ZAHUPNIK_MOST_ROWS, x.work_length = ZAHUPNIK_LEAST_WORK + 3);
}

static void on_result(const struct function *f) { GIVES(REFUSED_OUTPUT_LENGTH, 2, x.output_length++); }

static void on_job(const struct function *f) {
    GIVES(REFUSED_OUTPUT_LENGTH, 2, x.output_length = ZAHUPNIK_LEAST_TEXT_OUTPUT);
    GIVES(REFUSED_OUTPUT_LENGTH, ZAHUPNIK_MOST_ROWS, x.output_length = LONGEST_JOB);
    GIVES(FINISHED, 2, x.output_length++);
    GIVES(FINISHED, ZAHUPNIK_MOST_ROWS, x.output_length = JOB_ROOM);
    if (!f->takes_curve) {
        GIVES(REFUSED_CURVE_LENGTH, 2, x.curve_length = 1);
        GIVES(REFUSED_CURVE_LENGTH, 2, x.curve_length = 3);
    }
}

/* A number that names no operation goes before all else that may be wrong. */
static void on_no_operation(const struct function *f) {
    GIVES(REFUSED_TEXT_FORM, 2, x.m = 7);
    GIVES(REFUSED_TEXT_FORM, 2, x.m = 0);
    GIVES(REFUSED_TEXT_FORM, ZAHUPNIK_MOST_ROWS + 1, x.c_length = 0);
    GIVES(REFUSED_TEXT_FORM, 2, x.output_length = 0);
}

static const struct function jobs[] = {
    [ZAHUPNIK_EXPAND] = {"write_job, expand", NULL, 1, ZAHUPNIK_LEAST_JOB_OUTPUT, 0, 0, ZAHUPNIK_EXPAND},
    [ZAHUPNIK_ADJOINT] = {"write_job, adjoint", NULL, 1, ZAHUPNIK_LEAST_JOB_OUTPUT, 0, 0, ZAHUPNIK_ADJOINT},
    [ZAHUPNIK_DECOMPOSE] = {"write_job, decompose", NULL, 1, ZAHUPNIK_LEAST_JOB_OUTPUT, 0, 0, ZAHUPNIK_DECOMPOSE},
    [ZAHUPNIK_MOMENTS] = {"write_job, moments", NULL, 0, ZAHUPNIK_LEAST_JOB_OUTPUT, 0, 0, ZAHUPNIK_MOMENTS},
    [ZAHUPNIK_NORMS] = {"write_job, norms", NULL, 0, ZAHUPNIK_LEAST_JOB_OUTPUT, 0, 0, ZAHUPNIK_NORMS},
};

/* The job's text is this one. */
static void says(const struct function *f, const char *with, const struct input *x, const char *text) {
    writes(f, with, x, ZAHUPNIK_FINISHED);
    expect(f->name, with, "the length", job_length, (uint32_t)strlen(text));
    for (size_t i = 0; i < job_length; i++) expect(f->name, with, "a byte of the text", job[i], (uint8_t)text[i]);
}

static void on_job_text(void) {
    struct input x = {.m = 7, .a = {1, 2}, .b = {0, 3}, .c = {1, 5}, .curve = {3, 0, 1}};
    x.a_length = x.b_length = x.c_length = 2;
    x.curve_length = 3;
    x.output_length = ZAHUPNIK_LEAST_JOB_OUTPUT;
    says(&jobs[ZAHUPNIK_EXPAND], "the paper's job", &x, paper_job);
    says(&jobs[ZAHUPNIK_ADJOINT], "the paper's lists", &x, "mod=7\na=1 2\nb=0 3\nc=1 5\nop=adjoint\nv=3 0 1\n");
    says(&jobs[ZAHUPNIK_DECOMPOSE], "the paper's lists", &x, "mod=7\na=1 2\nb=0 3\nc=1 5\nop=decompose\nv=3 0 1\n");
    x.curve_length = 0;
    says(&jobs[ZAHUPNIK_MOMENTS], "the paper's lists", &x, "mod=7\na=1 2\nb=0 3\nc=1 5\nop=moments\nv=\n");
    says(&jobs[ZAHUPNIK_NORMS], "the paper's lists", &x, "mod=7\na=1 2\nb=0 3\nc=1 5\nop=norms\nv=\n");

    /* The longest text: most rows, numbers of ten digits, and the operation with the longest name. */
    const struct function *decompose = &jobs[ZAHUPNIK_DECOMPOSE];
    x = accepted(decompose, ZAHUPNIK_MOST_ROWS);
    x.m = ZAHUPNIK_GREATEST_MODULUS;
    for (size_t i = 0; i < ROOM; i++) x.a[i] = x.b[i] = x.c[i] = x.curve[i] = x.m - 1;
    writes(decompose, "the longest job", &x, ZAHUPNIK_FINISHED);
    expect(decompose->name, "the longest job", "the length", job_length, LONGEST_JOB);
}

/* Inverse returns the number and leaves these in the two numbers that it is lent, which held UNWRITTEN. */
static const uint32_t UNWRITTEN = UINT32_MAX;
static void inverse_leaves(const char *with, uint32_t m, uint32_t x, uint32_t number, uint32_t wanted, uint32_t wanted_factor) {
    uint32_t inverse = UNWRITTEN, factor = UNWRITTEN;
    expect("invert", with, "the number returned", zahupnik_invert(m, x, &inverse, &factor), number);
    expect("invert", with, "the inverse", inverse, wanted);
    expect("invert", with, "the factor", factor, wanted_factor);
    cases++;
}

static void inverts(const char *with, uint32_t m, uint32_t x, uint32_t inverse) {
    inverse_leaves(with, m, x, ZAHUPNIK_FINISHED, inverse, 1);
}

static void has_none(const char *with, uint32_t m, uint32_t x, uint32_t factor) {
    inverse_leaves(with, m, x, ZAHUPNIK_REFUSED_NO_INVERSE, UNWRITTEN, factor);
}

static void is_untouched(const char *with, uint32_t m, uint32_t x, uint32_t number) {
    inverse_leaves(with, m, x, number, UNWRITTEN, UNWRITTEN);
}

static void on_number(void) {
    const uint32_t greatest = ZAHUPNIK_GREATEST_MODULUS, moduli[] = {2, 3, 4, 15, 30, 65536, 223092870, 2147483646, greatest};
    is_untouched("m = 0", 0, 0, ZAHUPNIK_REFUSED_MODULUS);
    is_untouched("m = 0 and 1", 0, 1, ZAHUPNIK_REFUSED_MODULUS);
    is_untouched("m = 1", 1, 0, ZAHUPNIK_REFUSED_MODULUS);
    is_untouched("m = 1 and 1", 1, 1, ZAHUPNIK_REFUSED_MODULUS);
    is_untouched("m one too great", greatest + 1, 1, ZAHUPNIK_REFUSED_MODULUS);
    is_untouched("m one too great and 0", greatest + 1, 0, ZAHUPNIK_REFUSED_MODULUS);
    is_untouched("m one too great and 2", greatest + 1, 2, ZAHUPNIK_REFUSED_MODULUS);
    is_untouched("m = 4294967295 and 3", UINT32_MAX, 3, ZAHUPNIK_REFUSED_MODULUS);
    is_untouched("16 modulo 15", 15, 16, ZAHUPNIK_REFUSED_CURVE_ENTRY);
    is_untouched("18 modulo 15", 15, 18, ZAHUPNIK_REFUSED_CURVE_ENTRY);
    is_untouched("4294967295 modulo 15", 15, UINT32_MAX, ZAHUPNIK_REFUSED_CURVE_ENTRY);
    inverts("1 modulo 2", 2, 1, 1);
    inverts("2 modulo the greatest m", greatest, 2, 1073741824);
    inverts("4 modulo 15", 15, 4, 4);
    inverts("8 modulo 15", 15, 8, 2);
    has_none("6 modulo 15", 15, 6, 3);
    has_none("10 modulo 15", 15, 10, 5);
    has_none("4 modulo 8", 8, 4, 4);
    has_none("12 modulo 30", 30, 12, 6);
    has_none("18 modulo 30", 30, 18, 6);
    has_none("15 modulo 30", 30, 15, 15);
    has_none("the half of 2147483646", 2147483646, 1073741823, 1073741823);
    for (size_t i = 0; i < sizeof moduli / sizeof *moduli; i++) {
        has_none("zero", moduli[i], 0, moduli[i]);
        inverts("m - 1", moduli[i], moduli[i] - 1, moduli[i] - 1);
        is_untouched("m", moduli[i], moduli[i], ZAHUPNIK_REFUSED_CURVE_ENTRY);
    }
}

/* The text call returns the number; it leaves the answer text and its length, or everything as it was. */
static void answers(const char *with, const char *text, size_t text_length, size_t output_length, size_t work_length,
                    uint32_t number, const char *answer) {
    static uint8_t output[ZAHUPNIK_LEAST_TEXT_OUTPUT + 3];
    static uint32_t work[WORK_ROOM];
    uint32_t length = UINT32_MAX;
    size_t written = strlen(answer), cleared = number == ZAHUPNIK_FINISHED ? ZAHUPNIK_LEAST_WORK : 0;
    memset(output, UINT8_MAX, sizeof output);
    for (size_t i = 0; i < WORK_ROOM; i++) work[i] = (uint32_t)(UINT32_MAX - i);
    expect("convert_text", with, "the number returned",
           zahupnik_convert_text((const uint8_t *)text, text_length, output, output_length, work, work_length, &length), number);
    expect("convert_text", with, "the length", length, number == ZAHUPNIK_FINISHED ? (uint32_t)written : UINT32_MAX);
    for (size_t i = 0; i < sizeof output; i++)
        expect("convert_text", with, "a byte of the output", output[i], i < written ? (uint8_t)answer[i] : UINT8_MAX);
    for (size_t i = 0; i < WORK_ROOM; i++)
        expect("convert_text", with, "a number of the working list", work[i], i < cleared ? 0 : (uint32_t)(UINT32_MAX - i));
    cases++;
}

/* The text call refuses the paper's job with other numbers. */
static void refuses(const char *m, const char *a, const char *c, const char *v, uint32_t number) {
    char text[100];
    const size_t length = (size_t)sprintf(text, "mod=%s\na=%s\nb=0 3\nc=%s\nop=expand\nv=%s\n", m, a, c, v);
    answers(text, text, length, ZAHUPNIK_LEAST_TEXT_OUTPUT, ZAHUPNIK_LEAST_WORK, number, "");
}

static void on_text(void) {
    const size_t bytes = ZAHUPNIK_LEAST_TEXT_OUTPUT, work = ZAHUPNIK_LEAST_WORK, most = ZAHUPNIK_MOST_TEXT;
    const char *answer = "op=expand\nout=1 3 2\n";
    const size_t length = strlen(paper_job);
    answers("the paper's job", paper_job, length, bytes, work, ZAHUPNIK_FINISHED, answer);
    answers("more room", paper_job, length, bytes + 3, work + 3, ZAHUPNIK_FINISHED, answer);
    answers("too little room", paper_job, length, bytes - 1, work - 1, ZAHUPNIK_REFUSED_OUTPUT_LENGTH, "");
    answers("too short a working list", paper_job, length, bytes, work - 1, ZAHUPNIK_REFUSED_WORK_TOO_SHORT, "");
    answers("no byte 10 at the end", paper_job, length - 1, bytes, work, ZAHUPNIK_REFUSED_TEXT_FORM, "");
    answers("no text", NULL, 0, bytes, work, ZAHUPNIK_REFUSED_TEXT_FORM, "");
    refuses("1", "1 2", "1 5", "3 0 1", ZAHUPNIK_REFUSED_MODULUS);
    refuses("7", "1", "1 5", "3 0 1", ZAHUPNIK_REFUSED_LENGTHS);
    refuses("7", "1 2", "1 5", "3 0", ZAHUPNIK_REFUSED_CURVE_LENGTH);
    char rows[3 * 2 * (ZAHUPNIK_MOST_ROWS + 1) + 100], *at = rows + sprintf(rows, "mod=7");
    for (const char *key = "abc"; *key; key++) {
        at += sprintf(at, "\n%c=1", *key);
        for (size_t i = 0; i < ZAHUPNIK_MOST_ROWS; i++) at += sprintf(at, " 1");
    }
    at += sprintf(at, "\nop=norms\nv=\n");
    answers("a row too many", rows, (size_t)(at - rows), bytes, work, ZAHUPNIK_REFUSED_ROWS, "");
    refuses("7", "0 2", "1 7", "3 0 1", ZAHUPNIK_REFUSED_ENTRY);
    refuses("7", "1 0", "1 5", "3 0 7", ZAHUPNIK_REFUSED_A_ZERO);
    refuses("15", "6 0", "1 0", "3 0 1", ZAHUPNIK_REFUSED_A_INVERSE);
    refuses("15", "0 6", "1 6", "3 0 1", ZAHUPNIK_REFUSED_A_ZERO);
    refuses("15", "1 2", "0 6", "3 0 1", ZAHUPNIK_REFUSED_C_INVERSE);
    refuses("15", "1 2", "6 0", "3 0 15", ZAHUPNIK_REFUSED_C_ZERO);
    refuses("15", "1 2", "0 4", "3 0 15", ZAHUPNIK_REFUSED_CURVE_ENTRY);

    /* Of the form, and with far too many numbers in v: as long as a text may be, and one byte longer. */
    char text[ZAHUPNIK_MOST_TEXT + 1];
    memset(text, '1', sizeof text);
    const size_t head = (size_t)sprintf(text, "mod=7\na=\nb=\nc=\nop=expand\nv=");
    text[head] = '1';
    for (size_t i = head + 2; i < most - 2; i += 2) text[i] = ' ';
    text[most - 1] = '\n';
    answers("as long a text as may be", text, most, bytes, work, ZAHUPNIK_REFUSED_CURVE_LENGTH, "");
    memmove(text + head + 1, text + head, most - head);
    answers("a byte more", text, most + 1, bytes, work, ZAHUPNIK_REFUSED_TEXT_TOO_LONG, "");
}

/* ---- two channels */

enum { LONG_LIST = 100000, UNCHANGED = 3 };

/* What a call on two channels is lent. */
struct channels {
    uint32_t m1, m2, first[ROOM], second[ROOM];
    int32_t a[ROOM], b[ROOM], c[ROOM], curve[ROOM];
    size_t first_length, second_length, a_length, b_length, c_length, curve_length, output_length;
};

/* An input that both calls take: rows 1 1 1 and a curve of ones, and remainders 1, one for each entry of the curve. */
static struct channels channels_of(size_t rows) {
    struct channels x = {.m1 = 7, .m2 = 15, .a_length = rows, .b_length = rows, .c_length = rows, .curve_length = rows + 1};
    x.first_length = x.second_length = x.output_length = rows + 1;
    for (size_t i = 0; i < ROOM; i++) {
        x.first[i] = x.second[i] = 1;
        x.a[i] = x.b[i] = x.c[i] = x.curve[i] = 1;
    }
    return x;
}

static uint32_t remainder_of(int64_t number, uint32_t m) {
    int64_t rest = number % (int64_t)m;
    return (uint32_t)(rest < 0 ? rest + m : rest);
}

/* v leaves both remainders and has 2 v greater than -(m1 m2) and at most m1 m2: so it is the joined value. */
static void is_joined(const char *function, const char *with, int64_t v, uint32_t m1, uint32_t x, uint32_t m2, uint32_t y) {
    const int64_t product = (int64_t)m1 * m2, least = -((product - 1) / 2), greatest = product / 2;
    expect(function, with, "the remainder modulo m1", remainder_of(v, m1), x);
    expect(function, with, "the remainder modulo m2", remainder_of(v, m2), y);
    expect(function, with, "that it is in the range of a joined value", least <= v && v <= greatest, 1);
}

static uint32_t join(const struct channels *x, int64_t *output) {
    return zahupnik_join(x->m1, x->m2, x->first, x->first_length, x->second, x->second_length, output, x->output_length);
}

static uint32_t expand_join(const struct channels *x, int64_t *output) {
    return zahupnik_expand_join(x->m1, x->m2, x->a, x->a_length, x->b, x->b_length, x->c, x->c_length, x->curve, x->curve_length,
                                output, x->output_length);
}

/* What plain_expand makes of the remainders modulo a channel number. */
static void expand_modulo(uint32_t m, const struct channels *x, uint32_t *list) {
    struct input rows = {.m = m};
    for (size_t i = 0; i < ROOM; i++) {
        rows.a[i] = remainder_of(x->a[i], m);
        rows.b[i] = remainder_of(x->b[i], m);
        rows.c[i] = remainder_of(x->c[i], m);
        rows.curve[i] = remainder_of(x->curve[i], m);
    }
    rows.a_length = rows.b_length = rows.c_length = x->a_length;
    rows.curve_length = rows.output_length = x->a_length + 1;
    expect("plain_expand", "the remainders of a channel", "the number returned", plain_expand(&rows, list, NULL), ZAHUPNIK_FINISHED);
}

/* The call returns the number. What it leaves is the joined list; or what was there, if it refuses; and past the output what was there. */
static void joins(const char *function, const char *with, const struct channels *x, uint32_t number) {
    const int expands = !strcmp(function, "expand_join");
    int64_t output[ROOM + UNCHANGED];
    uint32_t first[ROOM], second[ROOM];
    size_t written = number == ZAHUPNIK_FINISHED ? x->output_length : 0;
    for (size_t i = 0; i < ROOM + UNCHANGED; i++) output[i] = INT64_MAX - (int64_t)i;
    expect(function, with, "the number returned", (expands ? expand_join : join)(x, output), number);
    for (size_t i = written; i < ROOM + UNCHANGED; i++)
        expect(function, with, "an entry that is not to be written", output[i], INT64_MAX - (int64_t)i);
    if (expands && written) {
        expand_modulo(x->m1, x, first);
        expand_modulo(x->m2, x, second);
    }
    for (size_t i = 0; i < written; i++)
        is_joined(function, with, output[i], x->m1, expands ? first[i] : x->first[i], x->m2, expands ? second[i] : x->second[i]);
    cases++;
}

/* Changed in one thing or more, an input of some rows gives the number. */
#define JOINS(function, number, rows, change)                                \
    do {                                                                     \
        struct channels x = channels_of(rows);                               \
        change;                                                              \
        joins(function, #rows " rows, " #change, &x, ZAHUPNIK_##number);     \
    } while (0)

/* The channel numbers: 3 of the first, 3 of the second, 19, before all else that may be wrong. */
static void on_channel_numbers(const char *function) {
    const uint32_t wrong[] = {0, 1, ZAHUPNIK_GREATEST_MODULUS + 1, UINT32_MAX};
    for (size_t i = 0; i < sizeof wrong / sizeof *wrong; i++) {
        JOINS(function, REFUSED_MODULUS, 2, x.m1 = wrong[i]);
        JOINS(function, REFUSED_MODULUS, 2, x.m2 = wrong[i]);
        JOINS(function, REFUSED_MODULUS, 2, x.m1 = x.m2 = wrong[i]);
        JOINS(function, REFUSED_MODULUS, 2, (x.m1 = wrong[i], x.a_length = x.second_length = x.output_length = x.curve_length = 0));
        JOINS(function, REFUSED_MODULUS, 2, (x.m2 = wrong[i], x.a_length = x.second_length = x.output_length = x.curve_length = 0));
    }
    JOINS(function, FINISHED, 2, x.m1 = 2);
    JOINS(function, FINISHED, 2, x.m2 = 2);
    JOINS(function, FINISHED, 2, (x.m1 = 3, x.m2 = 2));
    JOINS(function, FINISHED, 2, x.m1 = ZAHUPNIK_GREATEST_MODULUS);
    JOINS(function, FINISHED, 2, x.m2 = ZAHUPNIK_GREATEST_MODULUS);
    JOINS(function, FINISHED, 2, (x.m1 = ZAHUPNIK_GREATEST_MODULUS, x.m2 = ZAHUPNIK_GREATEST_MODULUS - 1));
    JOINS(function, FINISHED, 2, (x.m1 = 1073741824, x.m2 = ZAHUPNIK_GREATEST_MODULUS));
    JOINS(function, FINISHED, 2, (x.m1 = 4, x.m2 = 9));
    JOINS(function, REFUSED_SHARED_FACTOR, 2, x.m1 = 15);
    JOINS(function, REFUSED_SHARED_FACTOR, 2, x.m1 = 5);
    JOINS(function, REFUSED_SHARED_FACTOR, 2, x.m1 = 45);
    JOINS(function, REFUSED_SHARED_FACTOR, 2, x.m1 = 6);
    JOINS(function, REFUSED_SHARED_FACTOR, 2, x.m2 = 14);
    JOINS(function, REFUSED_SHARED_FACTOR, 2, (x.m1 = x.m2 = ZAHUPNIK_GREATEST_MODULUS));
    JOINS(function, REFUSED_SHARED_FACTOR, 2, (x.m1 = 1073741824, x.m2 = ZAHUPNIK_GREATEST_MODULUS - 1));
    JOINS(function, REFUSED_SHARED_FACTOR, 2, (x.m1 = x.m2 = 2));
    JOINS(function, REFUSED_SHARED_FACTOR, 2, (x.m1 = 6, x.a_length = x.second_length = x.output_length = x.curve_length = 0));
}

static void on_join(void) {
    static const char f[] = "join";
    on_channel_numbers(f);
    JOINS(f, FINISHED, 0, x.first_length = x.second_length = x.output_length = 0);
    JOINS(f, FINISHED, ZAHUPNIK_MOST_ROWS + 1, x.m1 = 2);
    JOINS(f, REFUSED_REMAINDERS, 2, x.first_length--);
    JOINS(f, REFUSED_REMAINDERS, 2, x.first_length++);
    JOINS(f, REFUSED_REMAINDERS, 2, x.second_length--);
    JOINS(f, REFUSED_REMAINDERS, 2, x.second_length++);
    JOINS(f, REFUSED_REMAINDERS, 2, x.first_length = 0);
    JOINS(f, REFUSED_REMAINDERS, 2, x.second_length = 0);
    JOINS(f, REFUSED_REMAINDERS, 2, (x.second_length++, x.output_length++));
    JOINS(f, REFUSED_REMAINDERS, 2, (x.second_length++, x.output_length = 0));
    JOINS(f, REFUSED_REMAINDERS, 2, (x.second_length++, x.first[0] = 7));
    JOINS(f, REFUSED_REMAINDERS, 2, (x.second_length++, x.second[0] = 15));
    JOINS(f, REFUSED_OUTPUT_LENGTH, 2, x.output_length = 0);
    JOINS(f, REFUSED_OUTPUT_LENGTH, 2, x.output_length--);
    JOINS(f, REFUSED_OUTPUT_LENGTH, 2, x.output_length++);
    JOINS(f, REFUSED_OUTPUT_LENGTH, 0, x.first_length = x.second_length = 0);
    JOINS(f, REFUSED_OUTPUT_LENGTH, 2, (x.output_length++, x.first[0] = 7));
    JOINS(f, REFUSED_OUTPUT_LENGTH, 2, (x.output_length++, x.second[0] = 15));
    JOINS(f, FINISHED, 2, (x.first[0] = x.first[2] = 6, x.second[0] = x.second[2] = 14));
    JOINS(f, REFUSED_CURVE_ENTRY, 2, x.first[0] = 7);
    JOINS(f, REFUSED_CURVE_ENTRY, 2, x.first[2] = 7);
    JOINS(f, REFUSED_CURVE_ENTRY, 2, x.first[2] = 14);
    JOINS(f, REFUSED_CURVE_ENTRY, 2, x.first[1] = UINT32_MAX);
    JOINS(f, REFUSED_CURVE_ENTRY, 2, x.second[0] = 15);
    JOINS(f, REFUSED_CURVE_ENTRY, 2, x.second[2] = 15);
    JOINS(f, REFUSED_CURVE_ENTRY, 2, x.second[1] = UINT32_MAX);
    JOINS(f, REFUSED_CURVE_ENTRY, 2, (x.m1 = 15, x.m2 = 7, x.second[2] = 14));
    JOINS(f, REFUSED_CURVE_ENTRY, 2, (x.first[2] = 7, x.second[0] = 15));
}

/* The numbers of a row without an inverse modulo 7 are the multiples of 7: zeros. Modulo 15 there are zeros and others. */
static void on_expand_join(void) {
    static const char f[] = "expand_join";
    const size_t most = ZAHUPNIK_MOST_ROWS;
    on_channel_numbers(f);
    JOINS(f, REFUSED_LENGTHS, 2, x.a_length = 1);
    JOINS(f, REFUSED_LENGTHS, 2, x.b_length = 3);
    JOINS(f, REFUSED_LENGTHS, 2, x.c_length = 0);
    JOINS(f, REFUSED_LENGTHS, ZAHUPNIK_MOST_ROWS + 1, (x.b_length--, x.curve_length = x.output_length = 0));
    JOINS(f, REFUSED_LENGTHS, 2, (x.c_length--, x.a[0] = 0));
    JOINS(f, FINISHED, 0, x.a[0] = 0);
    JOINS(f, FINISHED, ZAHUPNIK_MOST_ROWS, x.b[most - 1] = -1);
    JOINS(f, REFUSED_ROWS, ZAHUPNIK_MOST_ROWS + 1, x.m1 = 2);
    JOINS(f, REFUSED_ROWS, ZAHUPNIK_MOST_ROWS + 1, (x.curve_length = x.output_length = 0, x.a[0] = 0));
    JOINS(f, REFUSED_CURVE_LENGTH, 2, x.curve_length--);
    JOINS(f, REFUSED_CURVE_LENGTH, 2, x.curve_length++);
    JOINS(f, REFUSED_CURVE_LENGTH, 0, x.curve_length = 0);
    JOINS(f, REFUSED_CURVE_LENGTH, 2, (x.curve_length--, x.output_length--, x.a[0] = 0));
    JOINS(f, REFUSED_OUTPUT_LENGTH, 2, x.output_length = 0);
    JOINS(f, REFUSED_OUTPUT_LENGTH, 2, x.output_length--);
    JOINS(f, REFUSED_OUTPUT_LENGTH, 2, x.output_length++);
    JOINS(f, REFUSED_OUTPUT_LENGTH, 2, (x.output_length++, x.a[0] = 0));

    /* any number is taken: there is no 9 and no 12 */
    JOINS(f, FINISHED, 2, x.a[1] = x.b[1] = x.c[1] = x.curve[1] = INT32_MIN);
    JOINS(f, FINISHED, 2, x.a[1] = x.b[1] = x.c[1] = x.curve[1] = INT32_MAX);
    JOINS(f, FINISHED, 2, x.a[1] = x.b[1] = x.c[1] = x.curve[1] = -1);
    JOINS(f, FINISHED, 2, x.a[1] = x.b[1] = x.c[1] = x.curve[1] = 106);
    JOINS(f, FINISHED, 2, (x.b[1] = x.curve[2] = 0, x.b[0] = -7, x.curve[1] = -15));
    JOINS(f, FINISHED, 2, (x.m1 = ZAHUPNIK_GREATEST_MODULUS, x.a[1] = x.curve[0] = INT32_MIN));
    JOINS(f, FINISHED, 2, (x.m2 = ZAHUPNIK_GREATEST_MODULUS, x.c[1] = x.curve[2] = INT32_MIN));

    JOINS(f, REFUSED_A_ZERO, 2, x.a[0] = 0);
    JOINS(f, REFUSED_A_ZERO, 2, x.a[1] = 7);
    JOINS(f, REFUSED_A_ZERO, 2, x.a[1] = -7);
    JOINS(f, REFUSED_A_ZERO, 2, x.a[1] = INT32_MIN + 2);
    JOINS(f, REFUSED_A_ZERO, 2, x.a[1] = 15);
    JOINS(f, REFUSED_A_ZERO, 2, x.a[1] = -15);
    JOINS(f, REFUSED_A_ZERO, 2, (x.m1 = ZAHUPNIK_GREATEST_MODULUS, x.a[1] = INT32_MAX));
    JOINS(f, REFUSED_A_ZERO, 2, (x.m2 = ZAHUPNIK_GREATEST_MODULUS, x.a[1] = -INT32_MAX));
    JOINS(f, REFUSED_A_ZERO, 2, (x.m1 = 1073741824, x.a[1] = INT32_MIN));
    JOINS(f, REFUSED_A_INVERSE, 2, x.a[0] = 6);
    JOINS(f, REFUSED_A_INVERSE, 2, x.a[1] = -6);
    JOINS(f, REFUSED_A_INVERSE, 2, (x.m1 = 15, x.m2 = 7, x.a[1] = -10));
    JOINS(f, REFUSED_C_ZERO, 2, x.c[1] = 0);
    JOINS(f, REFUSED_C_ZERO, 2, x.c[1] = -7);
    JOINS(f, REFUSED_C_ZERO, 2, x.c[1] = 30);
    JOINS(f, REFUSED_C_INVERSE, 2, x.c[1] = 6);
    JOINS(f, REFUSED_C_INVERSE, 2, (x.m1 = 15, x.m2 = 7, x.c[1] = -10));
    JOINS(f, REFUSED_A_ZERO, ZAHUPNIK_MOST_ROWS, x.a[most - 1] = -15);
    JOINS(f, REFUSED_A_INVERSE, ZAHUPNIK_MOST_ROWS, x.a[most - 1] = -5);
    JOINS(f, REFUSED_C_ZERO, ZAHUPNIK_MOST_ROWS, x.c[most - 1] = -15);
    JOINS(f, REFUSED_C_INVERSE, ZAHUPNIK_MOST_ROWS, x.c[most - 1] = -5);

    /* c of row 1 is not looked at */
    JOINS(f, FINISHED, 1, x.c[0] = 0);
    JOINS(f, FINISHED, 2, x.c[0] = -7);
    JOINS(f, FINISHED, 2, x.c[0] = 6);
    JOINS(f, FINISHED, ZAHUPNIK_MOST_ROWS, x.c[0] = 15);
    JOINS(f, REFUSED_C_INVERSE, 2, (x.c[0] = 0, x.c[1] = 6));
    JOINS(f, REFUSED_C_ZERO, 2, (x.c[0] = 6, x.c[1] = 15));

    /* of a channel's rows without an inverse the lowest says why */
    JOINS(f, REFUSED_A_INVERSE, 3, (x.a[1] = 6, x.a[2] = 15));
    JOINS(f, REFUSED_A_ZERO, 3, (x.a[1] = 15, x.a[2] = 6));
    JOINS(f, REFUSED_C_INVERSE, 3, (x.c[1] = 6, x.c[2] = 15));
    JOINS(f, REFUSED_C_ZERO, 3, (x.c[1] = 15, x.c[2] = 6));
    JOINS(f, REFUSED_A_INVERSE, 3, (x.m1 = 15, x.m2 = 7, x.a[1] = 6, x.a[2] = 15));
    JOINS(f, REFUSED_A_ZERO, 3, (x.m1 = 15, x.m2 = 7, x.a[1] = 15, x.a[2] = 6));

    /* the first channel before the second, whichever row is lower, and the a of both before the c of either */
    JOINS(f, REFUSED_A_ZERO, 2, (x.a[0] = 6, x.a[1] = 7));
    JOINS(f, REFUSED_A_INVERSE, 2, (x.m1 = 15, x.m2 = 7, x.a[0] = 7, x.a[1] = 6));
    JOINS(f, REFUSED_C_ZERO, 3, (x.c[1] = 6, x.c[2] = 7));
    JOINS(f, REFUSED_C_INVERSE, 3, (x.m1 = 15, x.m2 = 7, x.c[1] = 7, x.c[2] = 6));
    JOINS(f, REFUSED_A_INVERSE, 2, (x.a[1] = 6, x.c[1] = 7));
    JOINS(f, REFUSED_A_ZERO, 2, (x.m1 = 15, x.m2 = 7, x.a[1] = 7, x.c[1] = 6));
    JOINS(f, REFUSED_A_ZERO, 2, (x.a[1] = 7, x.c[1] = 6));
    JOINS(f, REFUSED_A_INVERSE, 2, (x.m1 = 15, x.m2 = 7, x.a[1] = 6, x.c[1] = 7));
}

/* The joined value of these two remainders. */
static void joins_to(const char *with, uint32_t m1, uint32_t m2, uint32_t first, uint32_t second, int64_t wanted) {
    int64_t v = INT64_MIN;
    expect("join", with, "the number returned", zahupnik_join(m1, m2, &first, 1, &second, 1, &v, 1), ZAHUPNIK_FINISHED);
    expect("join", with, "the joined value", v, wanted);
    cases++;
}

/* The remainders of a value that is in its range are joined to it. */
static void joins_back(const char *with, uint32_t m1, uint32_t m2, int64_t value) {
    joins_to(with, m1, m2, remainder_of(value, m1), remainder_of(value, m2), value);
}

static void on_values(void) {
    const uint32_t greatest = ZAHUPNIK_GREATEST_MODULUS;
    const int64_t half = INT64_C(2305843005992468481);
    joins_to("half of 6", 2, 3, 1, 0, 3);
    joins_to("half of 6, the other way round", 3, 2, 0, 1, 3);
    joins_to("one past half of 6", 2, 3, 0, 1, -2);
    joins_to("minus one", 7, 15, 6, 14, -1);
    joins_to("half of 105, cut", 7, 15, 3, 7, 52);
    joins_to("one past it", 7, 15, 4, 8, -52);
    joins_back("the greatest joined value", greatest, greatest - 1, half);
    joins_back("the greatest, the other way round", greatest - 1, greatest, half);
    joins_back("the least joined value", greatest, greatest - 1, 1 - half);
    joins_back("the least, the other way round", greatest - 1, greatest, 1 - half);
    joins_back("minus one modulo the greatest", greatest, greatest - 1, -1);
}

/* A list as long as one likes, and its last remainder one too great. */
static void on_long_list(void) {
    static uint32_t first[LONG_LIST], second[LONG_LIST];
    static int64_t output[LONG_LIST + UNCHANGED];
    const uint32_t m1 = 2147483629, m2 = 1073741824;
    uint64_t state = 20240229;
    for (size_t i = 0; i < LONG_LIST + UNCHANGED; i++) output[i] = INT64_MAX;
    for (size_t i = 0; i < LONG_LIST; i++) {
        state = state * UINT64_C(6364136223846793005) + UINT64_C(1442695040888963407);
        first[i] = (uint32_t)(state >> 33) % m1;
        second[i] = (uint32_t)(state >> 17) % m2;
    }
    second[LONG_LIST - 1] = m2;
    expect("join", "a long list", "the number returned",
           zahupnik_join(m1, m2, first, LONG_LIST, second, LONG_LIST, output, LONG_LIST), ZAHUPNIK_REFUSED_CURVE_ENTRY);
    for (size_t i = 0; i < LONG_LIST; i++) expect("join", "a long list that is refused", "the output", output[i], INT64_MAX);
    second[LONG_LIST - 1] = m2 - 1;
    expect("join", "a long list", "the number returned",
           zahupnik_join(m1, m2, first, LONG_LIST, second, LONG_LIST, output, LONG_LIST), ZAHUPNIK_FINISHED);
    for (size_t i = 0; i < LONG_LIST; i++) is_joined("join", "a long list", output[i], m1, first[i], m2, second[i]);
    for (size_t i = LONG_LIST; i < LONG_LIST + UNCHANGED; i++) expect("join", "a long list", "what follows the output", output[i], INT64_MAX);
    cases += 2;
}

/* Chebyshev's T_0 to T_40, of which each coefficient is in the range of the joined value: over the whole numbers, exactly. */
static void on_whole_numbers(void) {
    enum { DEGREE = 40 };
    struct channels x = channels_of(DEGREE);
    int64_t T[DEGREE + 1][DEGREE + 1] = {{1}, {0, 1}}, output[DEGREE + 1];
    x.m1 = ZAHUPNIK_GREATEST_MODULUS;
    x.m2 = ZAHUPNIK_GREATEST_MODULUS - 2;
    for (size_t i = 0; i < DEGREE; i++) {
        x.a[i] = i ? 2 : 1;
        x.b[i] = 0;
        x.c[i] = i ? -1 : 0;
    }
    for (size_t i = 2; i <= DEGREE; i++)
        for (size_t k = 0; k <= i; k++) T[i][k] = (k ? 2 * T[i - 1][k - 1] : 0) - T[i - 2][k];
    for (size_t i = 0; i <= DEGREE; i++) {
        for (size_t k = 0; k <= DEGREE; k++) x.curve[k] = k == i ? -3 : 0;
        expect("expand_join", "Chebyshev's rows", "the number returned", expand_join(&x, output), ZAHUPNIK_FINISHED);
        for (size_t k = 0; k <= DEGREE; k++) expect("expand_join", "Chebyshev's rows", "a coefficient", output[k], -3 * T[i][k]);
        cases++;
    }
}

/* The call returns the number and leaves the entry in what it is lent to write one to, which held UINT32_MAX. */
#define NO_LIST NULL, 0
#define NO_ROWS 7, NO_LIST, NO_LIST, NO_LIST
#define LEAVES(call, number, entry)                                                     \
    do {                                                                                \
        uint32_t output[] = {UINT32_MAX};                                               \
        expect(#call, "NULL for lists of length 0", "the number returned", call, number); \
        expect(#call, "NULL for lists of length 0", "the output", output[0], entry);    \
        cases++;                                                                        \
    } while (0)

static void on_null(void) {
    static uint32_t work[ZAHUPNIK_LEAST_WORK];
    const uint32_t curve[] = {3};
    LEAVES(zahupnik_plain_expand(NO_ROWS, curve, 1, output, 1), ZAHUPNIK_FINISHED, 3);
    LEAVES(zahupnik_plain_adjoint(NO_ROWS, curve, 1, output, 1), ZAHUPNIK_FINISHED, 3);
    LEAVES(zahupnik_plain_decompose(NO_ROWS, curve, 1, output, 1), ZAHUPNIK_FINISHED, 3);
    LEAVES(zahupnik_norms(NO_ROWS, output, 1), ZAHUPNIK_FINISHED, 1);
    LEAVES(zahupnik_plain_expand(NO_ROWS, NO_LIST, output, 1), ZAHUPNIK_REFUSED_CURVE_LENGTH, UINT32_MAX);
    LEAVES(zahupnik_plain_expand(NO_ROWS, curve, 1, NO_LIST), ZAHUPNIK_REFUSED_OUTPUT_LENGTH, UINT32_MAX);
    LEAVES(zahupnik_norms(NO_ROWS, NO_LIST), ZAHUPNIK_REFUSED_OUTPUT_LENGTH, UINT32_MAX);
    LEAVES(zahupnik_tree_expand(NO_ROWS, curve, 1, output, 1, work, ZAHUPNIK_LEAST_WORK), ZAHUPNIK_FINISHED, 3);
    LEAVES(zahupnik_tree_adjoint(NO_ROWS, curve, 1, output, 1, work, ZAHUPNIK_LEAST_WORK), ZAHUPNIK_FINISHED, 3);
    LEAVES(zahupnik_tree_decompose(NO_ROWS, curve, 1, output, 1, work, ZAHUPNIK_LEAST_WORK), ZAHUPNIK_FINISHED, 3);
    LEAVES(zahupnik_moments(NO_ROWS, output, 1, work, ZAHUPNIK_LEAST_WORK), ZAHUPNIK_FINISHED, 1);
    LEAVES(zahupnik_tree_expand(NO_ROWS, curve, 1, output, 1, NO_LIST), ZAHUPNIK_REFUSED_WORK_TOO_SHORT, UINT32_MAX);
    LEAVES(zahupnik_tree_adjoint(NO_ROWS, curve, 1, output, 1, NO_LIST), ZAHUPNIK_REFUSED_WORK_TOO_SHORT, UINT32_MAX);
    LEAVES(zahupnik_tree_decompose(NO_ROWS, curve, 1, output, 1, NO_LIST), ZAHUPNIK_REFUSED_WORK_TOO_SHORT, UINT32_MAX);
    LEAVES(zahupnik_moments(NO_ROWS, output, 1, NO_LIST), ZAHUPNIK_REFUSED_WORK_TOO_SHORT, UINT32_MAX);

    const struct zahupnik_prepared family = zahupnik_prepared_empty(7).family;
    LEAVES(zahupnik_prepared_plain_expand(family, NO_LIST, output, 1), ZAHUPNIK_REFUSED_CURVE_LENGTH, UINT32_MAX);
    LEAVES(zahupnik_prepared_plain_adjoint(family, NO_LIST, output, 1), ZAHUPNIK_REFUSED_CURVE_LENGTH, UINT32_MAX);
    LEAVES(zahupnik_prepared_plain_decompose(family, curve, 1, NO_LIST), ZAHUPNIK_REFUSED_OUTPUT_LENGTH, UINT32_MAX);
    LEAVES(zahupnik_prepared_norms(family, NO_LIST), ZAHUPNIK_REFUSED_OUTPUT_LENGTH, UINT32_MAX);
    LEAVES(zahupnik_prepared_tree_expand(family, curve, 1, output, 1, NO_LIST), ZAHUPNIK_REFUSED_WORK_TOO_SHORT, UINT32_MAX);
    LEAVES(zahupnik_prepared_tree_adjoint(family, curve, 1, output, 1, NO_LIST), ZAHUPNIK_REFUSED_WORK_TOO_SHORT, UINT32_MAX);
    LEAVES(zahupnik_prepared_tree_decompose(family, curve, 1, output, 1, NO_LIST), ZAHUPNIK_REFUSED_WORK_TOO_SHORT, UINT32_MAX);
    LEAVES(zahupnik_prepared_moments(family, output, 1, NO_LIST), ZAHUPNIK_REFUSED_WORK_TOO_SHORT, UINT32_MAX);

    /* what a job leaves there is the length of its text */
    static uint8_t text[ZAHUPNIK_LEAST_JOB_OUTPUT];
    LEAVES(zahupnik_write_job(NO_ROWS, ZAHUPNIK_NORMS, NO_LIST, text, sizeof text, output), ZAHUPNIK_FINISHED, 27);
    LEAVES(zahupnik_write_job(NO_ROWS, ZAHUPNIK_EXPAND, curve, 1, text, sizeof text, output), ZAHUPNIK_FINISHED, 29);
    LEAVES(zahupnik_write_job(NO_ROWS, ZAHUPNIK_EXPAND, NO_LIST, text, sizeof text, output), ZAHUPNIK_REFUSED_CURVE_LENGTH, UINT32_MAX);
    LEAVES(zahupnik_write_job(NO_ROWS, ZAHUPNIK_NORMS, NO_LIST, NO_LIST, output), ZAHUPNIK_REFUSED_OUTPUT_LENGTH, UINT32_MAX);
    LEAVES(zahupnik_write_job(NO_ROWS, 5, NO_LIST, NO_LIST, output), ZAHUPNIK_REFUSED_TEXT_FORM, UINT32_MAX);
}

#define LEAVES_SIGNED(call, number, entry)                                                \
    do {                                                                                  \
        int64_t output[] = {INT64_MIN};                                                   \
        expect(#call, "NULL for lists of length 0", "the number returned", call, number); \
        expect(#call, "NULL for lists of length 0", "the output", output[0], entry);      \
        cases++;                                                                          \
    } while (0)
#define NO_ROWS_OF_TWO 7, 15, NO_LIST, NO_LIST, NO_LIST

static void on_null_of_two(void) {
    const uint32_t one[] = {1};
    const int32_t curve[] = {-3};
    LEAVES_SIGNED(zahupnik_join(7, 15, NO_LIST, NO_LIST, NO_LIST), ZAHUPNIK_FINISHED, INT64_MIN);
    LEAVES_SIGNED(zahupnik_join(7, 15, NO_LIST, NO_LIST, output, 0), ZAHUPNIK_FINISHED, INT64_MIN);
    LEAVES_SIGNED(zahupnik_join(7, 15, one, 1, NO_LIST, output, 1), ZAHUPNIK_REFUSED_REMAINDERS, INT64_MIN);
    LEAVES_SIGNED(zahupnik_join(7, 15, NO_LIST, one, 1, output, 1), ZAHUPNIK_REFUSED_REMAINDERS, INT64_MIN);
    LEAVES_SIGNED(zahupnik_join(7, 15, NO_LIST, one, 1, NO_LIST), ZAHUPNIK_REFUSED_REMAINDERS, INT64_MIN);
    LEAVES_SIGNED(zahupnik_join(7, 15, NO_LIST, NO_LIST, output, 1), ZAHUPNIK_REFUSED_OUTPUT_LENGTH, INT64_MIN);
    LEAVES_SIGNED(zahupnik_join(7, 15, one, 1, one, 1, NO_LIST), ZAHUPNIK_REFUSED_OUTPUT_LENGTH, INT64_MIN);
    LEAVES_SIGNED(zahupnik_join(7, 21, NO_LIST, NO_LIST, NO_LIST), ZAHUPNIK_REFUSED_SHARED_FACTOR, INT64_MIN);
    LEAVES_SIGNED(zahupnik_join(7, 0, NO_LIST, NO_LIST, NO_LIST), ZAHUPNIK_REFUSED_MODULUS, INT64_MIN);
    LEAVES_SIGNED(zahupnik_expand_join(NO_ROWS_OF_TWO, curve, 1, output, 1), ZAHUPNIK_FINISHED, -3);
    LEAVES_SIGNED(zahupnik_expand_join(NO_ROWS_OF_TWO, NO_LIST, output, 1), ZAHUPNIK_REFUSED_CURVE_LENGTH, INT64_MIN);
    LEAVES_SIGNED(zahupnik_expand_join(NO_ROWS_OF_TWO, curve, 1, NO_LIST), ZAHUPNIK_REFUSED_OUTPUT_LENGTH, INT64_MIN);
    LEAVES_SIGNED(zahupnik_expand_join(7, 15, NO_LIST, curve, 1, NO_LIST, NO_LIST, output, 1), ZAHUPNIK_REFUSED_LENGTHS, INT64_MIN);
    LEAVES_SIGNED(zahupnik_expand_join(7, 21, NO_LIST, NO_LIST, NO_LIST, NO_LIST, NO_LIST), ZAHUPNIK_REFUSED_SHARED_FACTOR, INT64_MIN);
}

/* ---- even powers first */

enum { MOST_ENTRIES = ZAHUPNIK_MOST_ENTRIES, ORDER_ROOM = 3 * MOST_ENTRIES };

static const struct order {
    const char *name;
    int back;
    uint32_t (*run)(const uint32_t *list, size_t list_length, uint32_t *output, size_t output_length);
} orders[] = {{"even_first", 0, zahupnik_even_first}, {"even_back", 1, zahupnik_even_back}};
enum { ORDERS = sizeof orders / sizeof *orders };

/* Where entry i of a list of n stands, even powers first. */
static size_t place_of(size_t i, size_t n) { return i % 2 == 0 ? i / 2 : (n + 1) / 2 + i / 2; }

/* What an output holds before a call. */
static uint32_t unordered(size_t i) { return (uint32_t)(3000000000 + 7 * i); }

/* The call returns the number. What it leaves is the list in its order, or what was there, if it refuses; past the output what was there;
 * and the list as it was. */
static void puts_in_order(const struct order *f, const char *with, const uint32_t *list, size_t length, size_t output_length,
                          uint32_t number) {
    uint32_t lent[ORDER_ROOM], output[ORDER_ROOM + UNCHANGED];
    size_t written = number == ZAHUPNIK_FINISHED ? length : 0;
    memcpy(lent, list, sizeof lent);
    for (size_t i = 0; i < ORDER_ROOM + UNCHANGED; i++) output[i] = unordered(i);
    expect(f->name, with, "the number returned", f->run(lent, length, output, output_length), number);
    for (size_t i = 0; i < written; i++) {
        size_t place = place_of(i, length);
        expect(f->name, with, "an entry of the list in order", output[f->back ? i : place], list[f->back ? place : i]);
    }
    for (size_t i = written; i < ORDER_ROOM + UNCHANGED; i++)
        expect(f->name, with, "an entry that is not to be written", output[i], unordered(i));
    for (size_t i = 0; i < ORDER_ROOM; i++) expect(f->name, with, "an entry of the list after the call", lent[i], list[i]);
    cases++;
}

static void on_order(const struct order *f) {
    static const size_t taken[] = {0, 1, 2, 3, 4, 5, 63, 64, 65, MOST_ENTRIES - 2, MOST_ENTRIES - 1, MOST_ENTRIES};
    static const size_t too_long[] = {MOST_ENTRIES + 1, MOST_ENTRIES + 2, 2 * MOST_ENTRIES - 1, 2 * MOST_ENTRIES, 2 * MOST_ENTRIES + 3};
    uint32_t rising[ORDER_ROOM], zeros[ORDER_ROOM] = {0}, greatest[ORDER_ROOM], both[ORDER_ROOM], held[ORDER_ROOM];
    for (size_t i = 0; i < ORDER_ROOM; i++) {
        rising[i] = (uint32_t)(i + 1);
        greatest[i] = UINT32_MAX;
        both[i] = i % 2 ? 0 : UINT32_MAX;
        held[i] = unordered(i);
    }
    for (size_t k = 0; k < sizeof taken / sizeof *taken; k++) {
        size_t length = taken[k];
        puts_in_order(f, "rising numbers", rising, length, length, ZAHUPNIK_FINISHED);
        puts_in_order(f, "zeros", zeros, length, length, ZAHUPNIK_FINISHED);
        puts_in_order(f, "numbers 4294967295", greatest, length, length, ZAHUPNIK_FINISHED);
        puts_in_order(f, "4294967295 and 0 in turn", both, length, length, ZAHUPNIK_FINISHED);
        puts_in_order(f, "what the output holds", held, length, length, ZAHUPNIK_FINISHED);
        puts_in_order(f, "an output one longer", rising, length, length + 1, ZAHUPNIK_REFUSED_OUTPUT_LENGTH);
        puts_in_order(f, "an output of 256 numbers more", rising, length, length + 256, ZAHUPNIK_REFUSED_OUTPUT_LENGTH);
        if (!length) continue;
        puts_in_order(f, "an output one shorter", rising, length, length - 1, ZAHUPNIK_REFUSED_OUTPUT_LENGTH);
        puts_in_order(f, "no output", rising, length, 0, ZAHUPNIK_REFUSED_OUTPUT_LENGTH);
    }
    for (size_t k = 0; k < sizeof too_long / sizeof *too_long; k++) {
        size_t length = too_long[k];
        puts_in_order(f, "too many numbers", rising, length, length, ZAHUPNIK_REFUSED_ROWS);
        puts_in_order(f, "too many zeros", zeros, length, length, ZAHUPNIK_REFUSED_ROWS);
        puts_in_order(f, "too many numbers, and an output of 128", rising, length, MOST_ENTRIES, ZAHUPNIK_REFUSED_ROWS);
        puts_in_order(f, "too many numbers, and an output one shorter", rising, length, length - 1, ZAHUPNIK_REFUSED_ROWS);
        puts_in_order(f, "too many numbers, and an output one longer", rising, length, length + 1, ZAHUPNIK_REFUSED_ROWS);
        puts_in_order(f, "too many numbers, and no output", rising, length, 0, ZAHUPNIK_REFUSED_ROWS);
    }
}

/* Lengths that no list has are refused all the same, and nothing is looked at: the memory that is lent for them is a page that nobody may
 * touch. Some leave a length that is taken where they are cut to 32 bits, or where they are counted in bytes. */
static void on_great_lengths(const struct order *f) {
    static const size_t few[] = {0, 1, 5, MOST_ENTRIES};
    static const size_t great[] = {SIZE_MAX - MOST_ENTRIES, (size_t)1 << 32, (size_t)1 << 62, (size_t)1 << 63};
    uint32_t *page = mmap(NULL, (size_t)sysconf(_SC_PAGESIZE), PROT_NONE, MAP_PRIVATE | MAP_ANONYMOUS, -1, 0);
    uint32_t list[MOST_ENTRIES] = {0}, output[MOST_ENTRIES];
    expect(f->name, "great lengths", "that there is a page", page != MAP_FAILED, 1);
    for (size_t i = 0; i < MOST_ENTRIES; i++) output[i] = unordered(i);
    for (size_t k = 0; k < sizeof great / sizeof *great; k++) {
        for (size_t j = 0; j < sizeof few / sizeof *few; j++) {
            size_t length = few[j], more = great[k] + length;
            expect(f->name, "a great length of both", "the number returned", f->run(page, more, page, more), ZAHUPNIK_REFUSED_ROWS);
            expect(f->name, "a great length of the list", "the number returned", f->run(page, more, output, length), ZAHUPNIK_REFUSED_ROWS);
            expect(f->name, "a great length of the output", "the number returned", f->run(list, length, page, more),
                   ZAHUPNIK_REFUSED_OUTPUT_LENGTH);
            cases += 3;
        }
    }
    for (size_t i = 0; i < MOST_ENTRIES; i++) expect(f->name, "great lengths", "an entry of the output", output[i], unordered(i));
    munmap(page, (size_t)sysconf(_SC_PAGESIZE));
}

/* Of a family whose b are all zero the curve of ones at even indices, or at odd ones, is expanded and put even first: one part is zeros,
 * and the other is not. */
static void leaves_zeros(uint32_t m, size_t rows, size_t odd) {
    static uint32_t work[ZAHUPNIK_LEAST_WORK];
    uint32_t ones[MOST_ENTRIES], zeros[MOST_ENTRIES] = {0}, curve[MOST_ENTRIES], list[2][MOST_ENTRIES], output[MOST_ENTRIES];
    size_t n = rows + 1, half = (n + 1) / 2;
    for (size_t i = 0; i < MOST_ENTRIES; i++) {
        ones[i] = 1;
        curve[i] = i % 2 == odd;
    }
    expect("plain_expand", "no b", "the number returned",
           zahupnik_plain_expand(m, ones, rows, zeros, rows, ones, rows, curve, n, list[0], n), ZAHUPNIK_FINISHED);
    expect("tree_expand", "no b", "the number returned",
           zahupnik_tree_expand(m, ones, rows, zeros, rows, ones, rows, curve, n, list[1], n, work, ZAHUPNIK_LEAST_WORK),
           ZAHUPNIK_FINISHED);
    for (size_t way = 0; way < 2; way++) {
        size_t others = 0;
        expect("even_first", "an expanded curve", "the number returned", zahupnik_even_first(list[way], n, output, n), ZAHUPNIK_FINISHED);
        for (size_t i = 0; i < n; i++) {
            if ((i < half) == odd)
                expect("even_first", "an expanded curve", "an entry of the part of zeros", output[i], 0);
            else
                others += output[i] != 0;
        }
        expect("even_first", "an expanded curve", "that there are other entries", others > 0, n > odd);
        cases++;
    }
}

static void on_zeros(void) {
    static const uint32_t moduli[] = {2, 4, 7, 15, 2147483646, ZAHUPNIK_GREATEST_MODULUS};
    static const size_t rows[] = {0, 1, 2, 3, 64, ZAHUPNIK_MOST_ROWS - 1, ZAHUPNIK_MOST_ROWS};
    for (size_t i = 0; i < sizeof moduli / sizeof *moduli; i++)
        for (size_t k = 0; k < sizeof rows / sizeof *rows; k++) {
            leaves_zeros(moduli[i], rows[k], 0);
            leaves_zeros(moduli[i], rows[k], 1);
        }
}

static void on_null_of_orders(void) {
    const uint32_t one[] = {1};
    LEAVES(zahupnik_even_first(NO_LIST, NO_LIST), ZAHUPNIK_FINISHED, UINT32_MAX);
    LEAVES(zahupnik_even_first(NO_LIST, output, 0), ZAHUPNIK_FINISHED, UINT32_MAX);
    LEAVES(zahupnik_even_first(one, 0, NO_LIST), ZAHUPNIK_FINISHED, UINT32_MAX);
    LEAVES(zahupnik_even_first(NO_LIST, output, 1), ZAHUPNIK_REFUSED_OUTPUT_LENGTH, UINT32_MAX);
    LEAVES(zahupnik_even_first(one, 1, NO_LIST), ZAHUPNIK_REFUSED_OUTPUT_LENGTH, UINT32_MAX);
    LEAVES(zahupnik_even_first(one, 1, output, 1), ZAHUPNIK_FINISHED, 1);
    LEAVES(zahupnik_even_back(NO_LIST, NO_LIST), ZAHUPNIK_FINISHED, UINT32_MAX);
    LEAVES(zahupnik_even_back(NO_LIST, output, 0), ZAHUPNIK_FINISHED, UINT32_MAX);
    LEAVES(zahupnik_even_back(one, 0, NO_LIST), ZAHUPNIK_FINISHED, UINT32_MAX);
    LEAVES(zahupnik_even_back(NO_LIST, output, 1), ZAHUPNIK_REFUSED_OUTPUT_LENGTH, UINT32_MAX);
    LEAVES(zahupnik_even_back(one, 1, NO_LIST), ZAHUPNIK_REFUSED_OUTPUT_LENGTH, UINT32_MAX);
    LEAVES(zahupnik_even_back(one, 1, output, 1), ZAHUPNIK_FINISHED, 1);
}

int main(void) {
    const struct function functions[] = {
        {"plain_expand", plain_expand, 1, 1, 1, 0, 0},
        {"plain_adjoint", plain_adjoint, 1, 1, 1, 0, 0},
        {"plain_decompose", plain_decompose, 1, 1, 1, 0, 0},
        {"norms", norms, 0, 1, 1, 0, 0},
        {"tree_expand", tree_expand, 1, 1, 1, ZAHUPNIK_LEAST_WORK, 0},
        {"tree_adjoint", tree_adjoint, 1, 1, 1, ZAHUPNIK_LEAST_WORK, 0},
        {"tree_decompose", tree_decompose, 1, 1, 1, ZAHUPNIK_LEAST_WORK, 0},
        {"moments", moments, 0, 1, 2, ZAHUPNIK_LEAST_WORK, 0},
    };
    const struct function prepared[] = {
        {"prepared_plain_expand", prepared_plain_expand, 1, 1, 1, 0, 0},
        {"prepared_plain_adjoint", prepared_plain_adjoint, 1, 1, 1, 0, 0},
        {"prepared_plain_decompose", prepared_plain_decompose, 1, 1, 1, 0, 0},
        {"prepared_norms", prepared_norms, 0, 1, 1, 0, 0},
        {"prepared_tree_expand", prepared_tree_expand, 1, 1, 1, ZAHUPNIK_LEAST_WORK, 0},
        {"prepared_tree_adjoint", prepared_tree_adjoint, 1, 1, 1, ZAHUPNIK_LEAST_WORK, 0},
        {"prepared_tree_decompose", prepared_tree_decompose, 1, 1, 1, ZAHUPNIK_LEAST_WORK, 0},
        {"prepared_moments", prepared_moments, 0, 1, 2, ZAHUPNIK_LEAST_WORK, 0},
    };
    const struct function none[] = {
        {"write_job, operation 5", NULL, 1, ZAHUPNIK_LEAST_JOB_OUTPUT, 0, 0, 5},
        {"write_job, operation 4294967295", NULL, 0, ZAHUPNIK_LEAST_JOB_OUTPUT, 0, 0, UINT32_MAX},
    };
    expect("version", "no parameter", "the number returned", zahupnik_version(), ZAHUPNIK_VERSION);
    for (size_t i = 0; i < sizeof functions / sizeof *functions; i++) {
        const struct function *f = &functions[i];
        on_family(f);
        on_lowest_row(f);
        on_result(f);
        if (f->takes_curve) on_curve(f);
        if (f->cleared) on_work(f);
    }
    for (size_t i = 0; i < sizeof prepared / sizeof *prepared; i++) {
        const struct function *f = &prepared[i];
        on_record(f);
        on_result(f);
        if (f->takes_curve) on_curve(f);
        if (f->cleared) on_work(f);
    }
    for (size_t i = 0; i < sizeof jobs / sizeof *jobs; i++) {
        const struct function *f = &jobs[i];
        on_family(f);
        on_lowest_row(f);
        on_job(f);
        if (f->takes_curve) on_curve(f);
    }
    for (size_t i = 0; i < sizeof none / sizeof *none; i++) on_no_operation(&none[i]);
    on_job_text();
    on_changes();
    on_records();
    on_number();
    on_null();
    on_text();
    on_join();
    on_expand_join();
    on_values();
    on_long_list();
    on_whole_numbers();
    on_null_of_two();
    for (size_t i = 0; i < ORDERS; i++) {
        on_order(&orders[i]);
        on_great_lengths(&orders[i]);
    }
    on_zeros();
    on_null_of_orders();
    printf("limits: %lu cases are as the header says\n", cases);
    return 0;
}
