/* Runs the reference's vectors of the prepared family through the library and compares.
 *
 * usage: prepared IN OUT
 *
 * IN and OUT are what tests/reference/prepared_vectors.py writes: a line for each step with a record, and the line of what the step
 * must leave. The record that a call is handed is also held against what it was. Prints how many steps agree and how many pairs of a
 * function and an answer they met, and exits 0; shows the first step that differs and exits 1; exits 2 if a file cannot be read or is
 * not of the form.
 */
#define PROGRAM "prepared"
#include "vector_files.h"

#define STANDS(type, field, at) _Static_assert(offsetof(struct type, field) == (at), #field " stands elsewhere")
_Static_assert(sizeof(struct zahupnik_prepared) == 3060, "a record is 765 numbers");
STANDS(zahupnik_prepared, modulus, 0);
STANDS(zahupnik_prepared, rows, 4);
STANDS(zahupnik_prepared, a, 8);
STANDS(zahupnik_prepared, b, 516);
STANDS(zahupnik_prepared, c, 1024);
STANDS(zahupnik_prepared, a_inverses, 1532);
STANDS(zahupnik_prepared, c_inverses, 2040);
STANDS(zahupnik_prepared, norms, 2548);
_Static_assert(sizeof(struct zahupnik_change) == 3064, "a change is its answer and a record");
STANDS(zahupnik_change, answer, 0);
STANDS(zahupnik_change, family, 4);

enum { WORDS = 765, ANSWERS = ZAHUPNIK_REFUSED_C_ZERO + 1 };

union record {
    struct zahupnik_prepared family;
    uint32_t words[WORDS];
};

/* The record that the step before left, and a copy of it. */
static union record record, copy;

static void expect_words(const char *what, const union record *given, const union record *wanted) {
    for (size_t i = 0; i < WORDS; i++) expect(what, i, given->words[i], wanted->words[i]);
}

/* A list that stands on a line up to its last number that is not zero. */
static void read_places(struct file *file, uint32_t *places, size_t length) {
    size_t count = next_number(file);
    if (count > length) unusable(file, "a list of a record is too long");
    for (size_t i = 0; i < length; i++) places[i] = i < count ? next_number(file) : 0;
}

static union record next_record(struct file *file) {
    union record next;
    next.family.modulus = next_number(file);
    next.family.rows = next_number(file);
    read_places(file, next.family.a, ZAHUPNIK_MOST_ROWS);
    read_places(file, next.family.b, ZAHUPNIK_MOST_ROWS);
    read_places(file, next.family.c, ZAHUPNIK_MOST_ROWS);
    read_places(file, next.family.a_inverses, ZAHUPNIK_MOST_ROWS);
    read_places(file, next.family.c_inverses, ZAHUPNIK_MOST_ROWS);
    read_places(file, next.family.norms, ZAHUPNIK_MOST_ROWS + 1);
    return next;
}

/* A step that is no call: what norms answers, lent no output. */
static uint32_t made(void) {
    end_line(&in);
    expect_next("the answer of norms without an output", 0, zahupnik_prepared_norms(record.family, NULL, 0));
    return ZAHUPNIK_FINISHED;
}

static uint32_t make_record(void) {
    record = next_record(&in);
    return made();
}

static uint32_t set_word(void) {
    uint32_t place = next_number(&in);
    if (place >= WORDS) unusable(&in, "a place that a record does not have");
    record.words[place] = next_number(&in);
    return made();
}

static void read_numbers(uint32_t *numbers, size_t count) {
    for (size_t i = 0; i < count; i++) numbers[i] = next_number(&in);
    end_line(&in);
}

/* A change handed out the answer and the record on the line of OUT. */
static uint32_t changed(struct zahupnik_change change) {
    expect_next("the answer", 0, change.answer);
    union record wanted = next_record(&out);
    expect_words("the record handed in", &record, &copy);
    record.family = change.family;
    expect_words("the record handed out", &record, &wanted);
    return change.answer;
}

/* The changes by their names, how many numbers each is given, and what it is lent. */
#define CHANGES(CHANGE)                         \
    CHANGE(empty, 1, x[0])                      \
    CHANGE(append, 3, FAMILY, x[0], x[1], x[2]) \
    CHANGE(drop_last, 0, FAMILY)                \
    CHANGE(replace, 4, FAMILY, x[0], x[1], x[2], x[3])
#define FAMILY record.family
#define CHANGE(name, count, ...)                               \
    static uint32_t name(void) {                               \
        uint32_t x[4];                                         \
        read_numbers(x, count);                                \
        return changed(zahupnik_prepared_##name(__VA_ARGS__)); \
    }
CHANGES(CHANGE)

/* What an operation is lent besides the record, and where its curve stands on the line. */
struct lent {
    char *at;
    struct list curve, output, work;
};

static struct lent lend_lists(int curve, int work) {
    struct lent x = {.at = in.at};
    x.curve = curve ? next_list(&in) : make_list(0);
    x.output = make_output(next_number(&in));
    x.work = make_work(work ? next_number(&in) : 0);
    end_line(&in);
    return x;
}

/* An operation left what the line of OUT says, and the rest as it was. */
static uint32_t finished(struct lent x, int curve, int work, uint32_t number) {
    expect_next("the number returned", 0, number);
    expect_output(x.output);
    if (work) expect_work(x.work);
    in.at = x.at;
    if (curve) expect_unchanged("the curve", x.curve);
    expect_words("the record handed in", &record, &copy);
    free_list(x.curve);
    free_list(x.output);
    free_list(x.work);
    return number;
}

/* The operations by their names, whether each is lent a curve and a working list, and what it is lent. */
#define OPERATIONS(OPERATION)                             \
    OPERATION(plain_expand, 1, 0, CURVE, OUTPUT)          \
    OPERATION(plain_adjoint, 1, 0, CURVE, OUTPUT)         \
    OPERATION(plain_decompose, 1, 0, CURVE, OUTPUT)       \
    OPERATION(norms, 0, 0, OUTPUT)                        \
    OPERATION(tree_expand, 1, 1, CURVE, OUTPUT, WORK)     \
    OPERATION(tree_adjoint, 1, 1, CURVE, OUTPUT, WORK)    \
    OPERATION(tree_decompose, 1, 1, CURVE, OUTPUT, WORK)  \
    OPERATION(moments, 0, 1, OUTPUT, WORK)
#define CURVE x.curve.entries, x.curve.length
#define OUTPUT x.output.entries, x.output.length
#define WORK x.work.entries, x.work.length
#define OPERATION(name, curve, work, ...)                                                       \
    static uint32_t name(void) {                                                                \
        struct lent x = lend_lists(curve, work);                                                \
        return finished(x, curve, work, zahupnik_prepared_##name(record.family, __VA_ARGS__));  \
    }
OPERATIONS(OPERATION)

#define STEP(name, ...) {#name, name},
static const struct step {
    const char *name;
    uint32_t (*run)(void);
} STEPS[] = {CHANGES(STEP) OPERATIONS(STEP){"record", make_record}, {"set", set_word}};
enum { STEP_COUNT = sizeof STEPS / sizeof *STEPS, FUNCTION_COUNT = STEP_COUNT - 2 };

static unsigned long met[STEP_COUNT][ANSWERS];

/* Runs the step of a line of IN, and holds what it leaves against the line of OUT. */
static void run_step(void) {
    size_t length = strcspn(in.at, " \n"), step = 0;
    while (step < STEP_COUNT && (strlen(STEPS[step].name) != length || strncmp(STEPS[step].name, in.at, length))) step++;
    if (step == STEP_COUNT) unusable(&in, "a step that this program does not know");
    in.at += length;
    copy = record;
    uint32_t answer = STEPS[step].run();
    end_line(&out);
    if (answer >= ANSWERS) unusable(&out, "an answer that no function gives");
    met[step][answer]++;
}

int main(int argc, char **argv) {
    unsigned long steps = run_files(argc, argv, run_step), pairs = 0;
    for (size_t i = 0; i < FUNCTION_COUNT; i++)
        for (size_t answer = 0; answer < ANSWERS; answer++) pairs += met[i][answer] != 0;
    printf("prepared: %lu steps agree, and met %lu pairs of a function and an answer\n", steps, pairs);
    return 0;
}
