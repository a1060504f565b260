/* Runs the figures through the calls.
 *
 * usage: try_figures CALL
 *
 * CALL is a call by its name in the header without zahupnik_, or `every`. Prints the names of the figures on which a call differs
 * and, for the first, what it gives and what it should; exits 1 then, and 0 if every figure agrees.
 */
#include <inttypes.h>
#include <stdio.h>
#include <string.h>

#include "figures.h"
#include "joining_figures.h"
#include "library_record.h"
#include "ordering_figures.h"
#include "text_model.h"
#include "zahupnik.h"

enum { MOST = MOST_RESULTS, WORK = LEAST_WORK + 1, DIRT = 99, DIRT_BYTE = 1, WORDS_ROOM = 8192, SHOWN = 120, SHOWN_WORDS = 240 };

/* What a call gives is told in words, so that a difference can be read. */
typedef char words[WORDS_ROOM];

static void tell(char *told, const char *format, uint32_t number) {
    size_t length = strlen(told);
    snprintf(told + length, WORDS_ROOM - length, format, number);
}

static uint32_t work[WORK], factor;

static void fill(uint32_t *list, size_t length) {
    for (size_t i = 0; i < length; i++) list[i] = DIRT;
}

/* What is amiss with the working list, of so many numbers, after a call that is finished, or refused, as it should. */
static void tell_work(char *told, bool finished, size_t length) {
    for (uint32_t i = 0; i < length; i++) {
        if (work[i] != (finished && i < LEAST_WORK ? 0 : DIRT)) {
            tell(told, ", working list wrong at place %" PRIu32, i);
            return;
        }
    }
}

/* ---- lists */

#define LISTS x->m, x->a.entries, x->a.length, x->b.entries, x->b.length, x->c.entries, x->c.length
#define CURVE x->curve.entries, x->curve.length
#define OUTPUT output, x->output_length
#define BY_THE_TREE work, WORK
#define CALLS(CALL)                                                    \
    CALL(invert, INVERSE, x->m, x->curve.entries[0], output, &factor)  \
    CALL(plain_expand, EXPAND, LISTS, CURVE, OUTPUT)                   \
    CALL(plain_adjoint, ADJOINT, LISTS, CURVE, OUTPUT)                 \
    CALL(plain_decompose, DECOMPOSE, LISTS, CURVE, OUTPUT)             \
    CALL(norms, NORMS, LISTS, OUTPUT)                                  \
    CALL(tree_expand, EXPAND, LISTS, CURVE, OUTPUT, BY_THE_TREE)       \
    CALL(tree_adjoint, ADJOINT, LISTS, CURVE, OUTPUT, BY_THE_TREE)     \
    CALL(tree_decompose, DECOMPOSE, LISTS, CURVE, OUTPUT, BY_THE_TREE) \
    CALL(moments, MOMENTS, LISTS, OUTPUT, BY_THE_TREE)
#define FUNCTION(name, operation, ...) \
    static uint32_t name(const struct lent *x, uint32_t *output) { return zahupnik_##name(__VA_ARGS__); }
#define ROW(name, operation, ...) {#name, operation, name},

CALLS(FUNCTION)

/* A call on lists: its name, its operation, and how it is run. */
static const struct call {
    const char *name;
    enum operation operation;
    uint32_t (*run)(const struct lent *x, uint32_t *output);
} LIST_CALLS[] = {CALLS(ROW)};

static void tell_numbers(char *told, const uint32_t *list, size_t length) {
    for (size_t i = 0; i < length; i++) tell(told, i ? " %" PRIu32 : "%" PRIu32, list[i]);
}

static void tell_list(char *told, uint32_t number, const uint32_t *output, size_t length) {
    if (!number) {
        tell_numbers(told, output, length);
        return;
    }
    tell(told, "refusal %" PRIu32, number);
    for (size_t i = 0; i < length; i++) {
        if (output[i] != DIRT) {
            strcat(told, ", output ");
            tell_numbers(told, output, length);
            return;
        }
    }
}

/* A factor that is handed out. */
static void tell_factor(char *told, bool handed, uint32_t number) {
    if (handed) tell(told, ", factor %" PRIu32, number);
}

static void run_on_lists(const struct call *call, const struct figure *figure, char *given, char *wanted) {
    struct lent x = figure_lent(figure);
    uint32_t output[MOST], untouched[MOST];
    x.output_length = result_length(&x);
    fill(output, MOST);
    fill(untouched, MOST);
    fill(work, WORK);
    fill(&factor, 1);
    uint32_t number = call->run(&x, output);
    tell_list(given, number, output, x.output_length);
    tell_list(wanted, figure->number, figure->number ? untouched : figure->result, x.output_length);
    if (x.operation == INVERSE) {
        tell_factor(given, factor != DIRT, factor);
        tell_factor(wanted, figure->result[1], figure->result[1]);
    }
    bool takes_work = call->operation == MOMENTS || !strncmp(call->name, "tree", strlen("tree"));
    if (takes_work && number == figure->number) tell_work(given, !number, WORK);
}

/* ---- records */

#define RECORD to_library(record)
#define LENT_WORK work, x->work_length
#define RECORD_CALLS(CALL)                                                           \
    CALL(prepared_plain_expand, EXPAND, PLAIN, RECORD, CURVE, OUTPUT)                \
    CALL(prepared_plain_adjoint, ADJOINT, PLAIN, RECORD, CURVE, OUTPUT)              \
    CALL(prepared_plain_decompose, DECOMPOSE, PLAIN, RECORD, CURVE, OUTPUT)          \
    CALL(prepared_norms, NORMS, PLAIN, RECORD, OUTPUT)                               \
    CALL(prepared_tree_expand, EXPAND, TREE, RECORD, CURVE, OUTPUT, LENT_WORK)       \
    CALL(prepared_tree_adjoint, ADJOINT, TREE, RECORD, CURVE, OUTPUT, LENT_WORK)     \
    CALL(prepared_tree_decompose, DECOMPOSE, TREE, RECORD, CURVE, OUTPUT, LENT_WORK) \
    CALL(prepared_moments, MOMENTS, TREE, RECORD, OUTPUT, LENT_WORK)
#define RECORD_FUNCTION(name, operation, way, ...)                                              \
    static uint32_t name(const struct record *record, const struct lent *x, uint32_t *output) { \
        return zahupnik_##name(__VA_ARGS__);                                                    \
    }
#define RECORD_ROW(name, operation, way, ...) {#name, operation, way, name},

RECORD_CALLS(RECORD_FUNCTION)

/* An operation on a record: its name, and how it is run. */
static const struct record_call {
    const char *name;
    enum operation operation;
    enum way way;
    uint32_t (*run)(const struct record *record, const struct lent *x, uint32_t *output);
} ON_RECORDS[] = {RECORD_CALLS(RECORD_ROW)};

/* What an operation gives; the model says what it should where there is no result. */
static void run_operation(const struct record_call *call, const struct record *record, const struct lent *x, const uint32_t *result,
                          char *given, char *wanted) {
    uint32_t output[MOST + 1], untouched[MOST + 1], wanted_number = refusal_on(record, x);
    fill(output, MOST + 1);
    fill(untouched, MOST + 1);
    fill(work, WORK);
    uint32_t number = call->run(record, x, output);
    tell_list(given, number, output, x->output_length);
    tell_list(wanted, wanted_number, wanted_number ? untouched : result, x->output_length);
    if (takes_work(x) && number == wanted_number) tell_work(given, !number, x->work_length);
}

/* An operation on a record, lent this curve and what else it asks for. */
static struct lent lent_on(const struct record_call *call, struct record *record, uint32_t *curve) {
    struct lent x = operation_on(record, call->operation, call->way);
    x.curve = (struct list){curve, curve_length(&x)};
    x.output_length = result_length(&x);
    x.work_length = WORK;
    return x;
}

static void run_figure_on_record(const struct record_call *call, const struct figure *figure, char *given, char *wanted) {
    struct record_figure rows = {.m = figure->m, .rows = figure->rows, .which = NOTHING};
    memcpy(rows.a, figure->a, sizeof rows.a);
    memcpy(rows.b, figure->b, sizeof rows.b);
    memcpy(rows.c, figure->c, sizeof rows.c);
    struct record record = figure_record(&rows);
    struct lent x = lent_on(call, &record, (uint32_t *)figure->curve);
    run_operation(call, &record, &x, figure->result, given, wanted);
}

static void run_on_record(const struct record_call *call, const struct record_figure *figure, char *given, char *wanted) {
    uint32_t curve[MOST] = {0};
    struct record record = figure_record(figure);
    struct lent x = lent_on(call, &record, curve);
    run_operation(call, &record, &x, NULL, given, wanted);
}

static void run_on_lent(const struct record_call *call, const struct lent_figure *figure, char *given, char *wanted) {
    static const struct record_figure RIGHT = {"", 7, 2, {1, 2}, {0, 3}, {1, 5}, NOTHING, 0, 0};
    uint32_t curve[] = {figure->entry ? figure->entry : 3, 0, 1}, result[MOST];
    struct record record = figure_record(&RIGHT);
    struct lent x = lent_on(call, &record, curve);
    if (takes_curve(&x)) x.curve.length += (size_t)figure->curve_more;
    x.output_length += (size_t)figure->output_more;
    x.work_length = LEAST_WORK + (size_t)figure->work_more;
    if (figure->damaged) record.norms[1]++;
    if (!refusal_on(&record, &x)) hand_out(&x, result);
    run_operation(call, &record, &x, result, given, wanted);
}

/* The lists of a record without the zeros at their ends. */
static void tell_record(char *told, struct record *record) {
    tell(told, "modulus %" PRIu32, record->modulus);
    tell(told, ", rows %" PRIu32, record->rows);
    for (unsigned i = 0; i < RECORD_LISTS; i++) {
        struct record_list list = record_list(record, i);
        while (list.length && !list.places[list.length - 1]) list.length--;
        if (!list.length) continue;
        strcat(strcat(strcat(told, ", "), list.name), " ");
        tell_numbers(told, list.places, list.length);
    }
}

/* The number, and the record if it is not the one handed back by a refusal. */
static void tell_change(char *told, uint32_t number, struct record *after, const struct record *handed) {
    if (number) tell(told, "refusal %" PRIu32, number);
    if (number && !memcmp(after, handed, sizeof *after)) return;
    if (number) strcat(told, ", ");
    tell_record(told, after);
}

static struct zahupnik_change run_change(const struct change *x) {
    switch (x->kind) {
    case EMPTY: return zahupnik_prepared_empty(x->m);
    case APPEND: return zahupnik_prepared_append(to_library(&x->record), x->a, x->b, x->c);
    case DROP_LAST: return zahupnik_prepared_drop_last(to_library(&x->record));
    default: return zahupnik_prepared_replace(to_library(&x->record), x->row, x->a, x->b, x->c);
    }
}

/* What a change gives. The number is stated, and the record is the model's. */
static void change(const struct change *x, uint32_t number, char *given, char *wanted) {
    struct zahupnik_change made = run_change(x);
    struct record after = from_library(&made.family), model;
    change_record(x, &model);
    tell_change(given, made.answer, &after, &x->record);
    tell_change(wanted, number, &model, &x->record);
}

static const char *const CHANGES[] = {"prepared_empty", "prepared_append", "prepared_drop_last", "prepared_replace"};

/* ---- two channels */

enum { JOINED_ROOM = 140 };

/* The joined list, or the refusal, and what of the output it has touched. */
static void tell_joined(char *told, uint32_t number, const int64_t *output, size_t length) {
    bool touched = false;
    for (size_t i = 0; i < length; i++) touched = touched || output[i] != DIRT;
    if (number) tell(told, touched ? "refusal %" PRIu32 ", output " : "refusal %" PRIu32, number);
    for (size_t i = 0; i < length && (touched || !number); i++) {
        size_t used = strlen(told);
        snprintf(told + used, WORDS_ROOM - used, i ? " %" PRId64 : "%" PRId64, output[i]);
    }
}

/* What a call gives, and what it should; a result that is longer than the figure holds is zeros. */
static void run_joining(const struct joining *x, uint32_t wanted_number, const int64_t *result, char *given, char *wanted) {
    int64_t output[JOINED_ROOM], expected[JOINED_ROOM];
    const struct list *lists = x->remainders;
    uint32_t number;
    for (size_t i = 0; i < JOINED_ROOM; i++) {
        output[i] = DIRT;
        expected[i] = wanted_number ? DIRT : i < MOST_JOINED ? result[i] : 0;
    }
    if (x->expands)
        number = zahupnik_expand_join(x->m[0], x->m[1], x->a.entries, x->a.length, x->b.entries, x->b.length, x->c.entries, x->c.length,
                                      x->curve.entries, x->curve.length, output, x->output_length);
    else
        number = zahupnik_join(x->m[0], x->m[1], lists[0].entries, lists[0].length, lists[1].entries, lists[1].length, output,
                               x->output_length);
    tell_joined(given, number, output, x->output_length);
    tell_joined(wanted, wanted_number, expected, x->output_length);
}

static void run_join(const struct join_figure *figure, char *given, char *wanted) {
    struct joining x = join_figure_lent(figure);
    run_joining(&x, figure->number, figure->result, given, wanted);
}

static void run_expand_join(const struct expand_join_figure *figure, char *given, char *wanted) {
    struct joining x = expand_join_figure_lent(figure);
    run_joining(&x, figure->number, figure->result, given, wanted);
}

/* ---- orders */

/* What a call gives, and what it should; it is told too if it has written to the list. */
static void run_ordering(const struct ordering_figure *figure, bool back, char *given, char *wanted) {
    uint32_t output[ORDERING_ROOM], untouched[ORDERING_ROOM], list[ORDERING_ROOM];
    struct ordering x = ordering_figure_lent(figure, back);
    size_t bytes = x.list.length * sizeof *list;
    memcpy(list, x.list.entries, bytes);
    fill(output, ORDERING_ROOM);
    fill(untouched, ORDERING_ROOM);
    uint32_t number = (back ? zahupnik_even_back : zahupnik_even_first)(x.list.entries, x.list.length, output, x.output_length);
    tell_list(given, number, output, x.output_length);
    tell_list(wanted, figure->number, figure->number ? untouched : ordering_figure_result(figure, back), x.output_length);
    if (memcmp(list, x.list.entries, bytes) == 0) return;
    strcat(given, ", the list ");
    tell_numbers(given, x.list.entries, x.list.length);
}

/* ---- texts */

static uint8_t output[LEAST_JOB_OUTPUT];

/* A text of so many bytes with / for its bytes 10. */
static void tell_bytes(char *told, const uint8_t *bytes, size_t length) {
    told += strlen(told);
    for (size_t i = 0; i < length && i < SHOWN; i++)
        *told++ = bytes[i] == '\n' ? '/' : bytes[i] < ' ' || bytes[i] > '~' ? '?' : (char)bytes[i];
    *told = 0;
}

/* What a call that writes a text gives; the text has to have the stated length, if there is one. */
static void tell_text(char *told, uint32_t number, size_t output_length, uint32_t length, uint32_t wanted_length) {
    uint32_t written = number || length > output_length ? 0 : wanted_length ? wanted_length : length;
    if (number)
        tell(told, "refusal %" PRIu32, number);
    else
        tell_bytes(told, output, written);
    if (length != (number ? DIRT : wanted_length)) tell(told, ", length %" PRIu32, length);
    for (uint32_t i = written; i < output_length; i++) {
        if (output[i] != DIRT_BYTE) {
            tell(told, ", output written at place %" PRIu32, i);
            return;
        }
    }
}

static void tell_wanted(char *told, uint32_t number, const uint8_t *text, size_t length) {
    if (number)
        tell(told, "refusal %" PRIu32, number);
    else
        tell_bytes(told, text, length);
}

/* A text that a call is lent, or has to write. */
struct text {
    uint8_t bytes[1000];
    uint32_t length;
};

/* What the text call gives for a job. */
static void run_text(const struct text *job, size_t output_length, uint32_t wanted_number, const struct text *answer, char *given,
                     char *wanted) {
    uint32_t length = DIRT;
    memset(output, DIRT_BYTE, sizeof output);
    fill(work, WORK);
    uint32_t number = zahupnik_convert_text(job->bytes, job->length, output, output_length, work, WORK, &length);
    tell_text(given, number, output_length, length, answer->length);
    if (number == wanted_number) tell_work(given, !number, WORK);
    tell_wanted(wanted, wanted_number, answer->bytes, answer->length);
}

static void run_on_figure(const struct figure *figure, char *given, char *wanted) {
    struct text job, answer = {.length = 0};
    struct lent x = figure_lent(figure);
    struct list result = {(uint32_t *)figure->result, result_length(&x)};
    job.length = write_job(&x, job.bytes);
    if (!figure->number) answer.length = write_result(figure->operation, result, answer.bytes);
    run_text(&job, LEAST_TEXT_OUTPUT, figure->number, &answer, given, wanted);
}

static void run_on_text(const struct text_figure *figure, char *given, char *wanted) {
    struct text job = {.length = (uint32_t)strlen(figure->text)}, answer = {.length = 0};
    memcpy(job.bytes, figure->text, job.length);
    run_text(&job, figure->output_length, figure->number, &answer, given, wanted);
}

/* What write_job gives for a job. */
static void run_job(const struct lent *x, uint32_t operation, uint32_t wanted_number, char *given, char *wanted) {
    struct text job = {.length = 0};
    uint32_t length = DIRT;
    memset(output, DIRT_BYTE, sizeof output);
    if (!wanted_number) job.length = write_job(x, job.bytes);
    uint32_t number = zahupnik_write_job(LISTS, operation, CURVE, OUTPUT, &length);
    tell_text(given, number, x->output_length, length, job.length);
    tell_wanted(wanted, wanted_number, job.bytes, job.length);
}

static void write_figure(const struct figure *figure, char *given, char *wanted) {
    struct lent x = figure_lent(figure);
    uint32_t operation = 0;
    while (operation_of(operation) != figure->operation) operation++;
    x.output_length = LEAST_JOB_OUTPUT;
    run_job(&x, operation, figure->number, given, wanted);
}

static void write_job_figure(const struct job_figure *figure, char *given, char *wanted) {
    struct lent x = job_figure_lent(figure);
    run_job(&x, figure->operation, figure->number, given, wanted);
}

/* ---- all figures */

static const char *first, *last;
static words first_given, first_wanted;

static void compare(const char *name, const char *given, const char *wanted) {
    if (!strcmp(given, wanted)) return;
    if (!first) {
        strcpy(first_given, given);
        strcpy(first_wanted, wanted);
        first = last = name;
        printf("%s", name);
    }
    if (strcmp(last, name)) printf(", %s", name);
    last = name;
}

/* Whether a call is asked for: by its name, or as one of every. */
static const char *asked;
static bool is_asked(const char *name) { return !strcmp(asked, "every") || !strcmp(asked, name); }

/* Tries a figure by a function that tells what is given and what is wanted. */
#define TRY(name, function, ...)             \
    do {                                     \
        words given = "", wanted = "";       \
        function(__VA_ARGS__, given, wanted); \
        compare(name, given, wanted);        \
    } while (0)

static void try_figure(const struct figure *figure) {
    for (size_t i = 0; i < sizeof LIST_CALLS / sizeof *LIST_CALLS; i++)
        if (LIST_CALLS[i].operation == figure->operation && is_asked(LIST_CALLS[i].name))
            TRY(figure->name, run_on_lists, &LIST_CALLS[i], figure);
    for (size_t i = 0; i < sizeof ON_RECORDS / sizeof *ON_RECORDS; i++)
        if (ON_RECORDS[i].operation == figure->operation && is_asked(ON_RECORDS[i].name))
            TRY(figure->name, run_figure_on_record, &ON_RECORDS[i], figure);
    if (figure->operation == INVERSE) return;
    if (is_asked("convert_text")) TRY(figure->name, run_on_figure, figure);
    if (is_asked("write_job")) TRY(figure->name, write_figure, figure);
}

/* Whether an operation is lent what the figure changes. */
static bool is_lent(const struct record_call *call, const struct lent_figure *figure) {
    const struct lent x = {.operation = call->operation, .way = call->way};
    return (takes_curve(&x) || !(figure->curve_more || figure->entry)) && (takes_work(&x) || !figure->work_more);
}

/* The figures of operations on a record that are not of one operation alone. */
static void try_on_records(const struct record_call *call) {
    if (!is_asked(call->name)) return;
    for (const struct record_figure *figure = RECORD_FIGURES; figure->name; figure++) TRY(figure->name, run_on_record, call, figure);
    for (const struct lent_figure *figure = LENT_FIGURES; figure->name; figure++)
        if (is_lent(call, figure)) TRY(figure->name, run_on_lent, call, figure);
}

/* Every change of a record that is not right, with a row that would do. */
static void try_on_damaged(const struct record_figure *figure) {
    for (enum kind_of_change kind = APPEND; kind <= REPLACE; kind++) {
        struct change x = {kind, 0, figure_record(figure), 1, 1, 0, 1};
        if (is_asked(CHANGES[kind])) TRY(figure->name, change, &x, 14);
    }
}

int main(int argc, char **argv) {
    if (argc != 2) {
        fprintf(stderr, "usage: try_figures CALL\n");
        return 2;
    }
    asked = argv[1];
    for (const struct figure *figure = FIGURES; figure->name; figure++) try_figure(figure);
    for (const struct text_figure *figure = TEXT_FIGURES; is_asked("convert_text") && figure->name; figure++)
        TRY(figure->name, run_on_text, figure);
    for (const struct job_figure *figure = JOB_FIGURES; is_asked("write_job") && figure->name; figure++)
        TRY(figure->name, write_job_figure, figure);
    for (const struct change_figure *figure = CHANGE_FIGURES; figure->record.name; figure++) {
        struct change x = figure_change(figure);
        if (is_asked(CHANGES[x.kind])) TRY(figure->record.name, change, &x, figure->number);
    }
    for (const struct record_figure *figure = RECORD_FIGURES; figure->name; figure++) try_on_damaged(figure);
    for (size_t i = 0; i < sizeof ON_RECORDS / sizeof *ON_RECORDS; i++) try_on_records(&ON_RECORDS[i]);
    for (const struct join_figure *figure = JOIN_FIGURES; is_asked("join") && figure->name; figure++) TRY(figure->name, run_join, figure);
    for (const struct expand_join_figure *figure = EXPAND_JOIN_FIGURES; is_asked("expand_join") && figure->name; figure++)
        TRY(figure->name, run_expand_join, figure);
    for (const struct ordering_figure *figure = ORDERING_FIGURES; figure->name; figure++) {
        if (is_asked("even_first")) TRY(figure->name, run_ordering, figure, false);
        if (is_asked("even_back")) TRY(figure->name, run_ordering, figure, true);
    }
    if (first) printf("; %s: %.*s, not %.*s\n", first, SHOWN_WORDS, first_given, SHOWN_WORDS, first_wanted);
    return first != NULL;
}
