/* The functions of version.h, and those in the place of the library's, which do what was chosen. */
#include <stdio.h>
#include <stdlib.h>
#include <string.h>

#include "library_record.h"
#include "text_model.h"
#include "version.h"

/* ---- the choice */

/* Which calls have a wrong version, and which. */
static unsigned wrong_calls;
static const struct version *wrong;

static bool opens(const char *word, const char *name) {
    return !strncmp(word, name, strlen(name)) && word[strlen(name)] == ':';
}

static void choose(const char *word) {
    if (opens(word, "every")) wrong_calls = ALL;
    for (unsigned i = 0; i < CALLS; i++)
        if (opens(word, CALL_NAMES[i])) wrong_calls = 1U << i;
    for (const struct version *version = VERSIONS; version->name; version++)
        if ((version->calls & wrong_calls) && !strcmp(strchr(word, ':') + 1, version->name)) wrong = version;
    if (!wrong) {
        fprintf(stderr, "wrong: there is no version '%s'\n", word);
        exit(2);
    }
    wrong_calls &= wrong->calls;
}

/* The version of a call, or NULL if it is the library's own. */
static const struct version *chosen(unsigned call) {
    static bool asked;
    if (!asked && getenv("WRONG")) choose(getenv("WRONG"));
    asked = true;
    return wrong_calls & call ? wrong : NULL;
}

/* ---- the right calls */

#define FAMILY \
    uint32_t m, const uint32_t *a, size_t a_length, const uint32_t *b, size_t b_length, const uint32_t *c, size_t c_length
#define CURVE const uint32_t *curve, size_t curve_count
#define OUTPUT uint32_t *output, size_t output_length
#define WORK uint32_t *work, size_t work_length
#define BYTES uint8_t *output, size_t output_length
#define TEXTS const uint8_t *text, size_t text_length, BYTES, WORK, uint32_t *length
#define JOBS FAMILY, uint32_t operation, CURVE, BYTES, uint32_t *length
#define PREPARED struct zahupnik_prepared family
#define NEW_ROW uint32_t a, uint32_t b, uint32_t c
#define TWO_CHANNELS uint32_t m1, uint32_t m2
#define REMAINDERS const uint32_t *first, size_t first_length, const uint32_t *second, size_t second_length
#define SIGNED_ROWS \
    const int32_t *a, size_t a_length, const int32_t *b, size_t b_length, const int32_t *c, size_t c_length
#define SIGNED_CURVE const int32_t *curve, size_t curve_count
#define JOINED int64_t *output, size_t output_length
#define ORDERED const uint32_t *list, size_t list_length, OUTPUT

/* What ld --wrap calls the library's functions, and the functions in their places. */
#define BOTH(type, name, ...)                 \
    type __real_zahupnik_##name(__VA_ARGS__); \
    type __wrap_zahupnik_##name(__VA_ARGS__);
#define WRAPPED(name, ...) BOTH(uint32_t, name, __VA_ARGS__)
#define WRAPPED_CHANGE(name, ...) BOTH(struct zahupnik_change, name, __VA_ARGS__)
WRAPPED(invert, uint32_t m, uint32_t x, uint32_t *inverse, uint32_t *factor)
WRAPPED(plain_expand, FAMILY, CURVE, OUTPUT)
WRAPPED(plain_adjoint, FAMILY, CURVE, OUTPUT)
WRAPPED(plain_decompose, FAMILY, CURVE, OUTPUT)
WRAPPED(norms, FAMILY, OUTPUT)
WRAPPED(tree_expand, FAMILY, CURVE, OUTPUT, WORK)
WRAPPED(tree_adjoint, FAMILY, CURVE, OUTPUT, WORK)
WRAPPED(tree_decompose, FAMILY, CURVE, OUTPUT, WORK)
WRAPPED(moments, FAMILY, OUTPUT, WORK)
WRAPPED(convert_text, TEXTS)
WRAPPED(write_job, JOBS)
WRAPPED_CHANGE(prepared_empty, uint32_t m)
WRAPPED_CHANGE(prepared_append, PREPARED, NEW_ROW)
WRAPPED_CHANGE(prepared_drop_last, PREPARED)
WRAPPED_CHANGE(prepared_replace, PREPARED, uint32_t row, NEW_ROW)
WRAPPED(prepared_plain_expand, PREPARED, CURVE, OUTPUT)
WRAPPED(prepared_plain_adjoint, PREPARED, CURVE, OUTPUT)
WRAPPED(prepared_plain_decompose, PREPARED, CURVE, OUTPUT)
WRAPPED(prepared_norms, PREPARED, OUTPUT)
WRAPPED(prepared_tree_expand, PREPARED, CURVE, OUTPUT, WORK)
WRAPPED(prepared_tree_adjoint, PREPARED, CURVE, OUTPUT, WORK)
WRAPPED(prepared_tree_decompose, PREPARED, CURVE, OUTPUT, WORK)
WRAPPED(prepared_moments, PREPARED, OUTPUT, WORK)
WRAPPED(join, TWO_CHANNELS, REMAINDERS, JOINED)
WRAPPED(expand_join, TWO_CHANNELS, SIGNED_ROWS, SIGNED_CURVE, JOINED)
WRAPPED(even_first, ORDERED)
WRAPPED(even_back, ORDERED)

#define LISTS x->m, x->a.entries, x->a.length, x->b.entries, x->b.length, x->c.entries, x->c.length
#define OUT call->output, x->output_length
#define BY(operation)                                                                                                  \
    tree ? __real_zahupnik_tree_##operation(LISTS, x->curve.entries, x->curve.length, OUT, call->work, x->work_length) \
         : __real_zahupnik_plain_##operation(LISTS, x->curve.entries, x->curve.length, OUT)

uint32_t right(const struct call *call) {
    const struct lent *x = &call->lent;
    bool tree = x->way == TREE;
    switch (x->operation) {
    case INVERSE: return __real_zahupnik_invert(x->m, x->curve.entries[0], call->output, call->factor);
    case EXPAND: return BY(expand);
    case ADJOINT: return BY(adjoint);
    case DECOMPOSE: return BY(decompose);
    case NORMS: return __real_zahupnik_norms(LISTS, OUT);
    default: return __real_zahupnik_moments(LISTS, OUT, call->work, x->work_length);
    }
}

static uint32_t right_job(const struct job *job, const struct text_call *call) {
    const struct lent *x = &job->lent;
    return __real_zahupnik_write_job(LISTS, job->operation, x->curve.entries, x->curve.length, call->output, call->output_length,
                                     call->length);
}

uint32_t right_text(const struct text_call *call) {
    if (call->job) return right_job(call->job, call);
    return __real_zahupnik_convert_text(call->text, call->text_length, call->output, call->output_length, call->work,
                                        call->work_length, call->length);
}

static struct zahupnik_change real_change(const struct change *x) {
    struct zahupnik_prepared record = to_library(&x->record);
    switch (x->kind) {
    case EMPTY: return __real_zahupnik_prepared_empty(x->m);
    case APPEND: return __real_zahupnik_prepared_append(record, x->a, x->b, x->c);
    case DROP_LAST: return __real_zahupnik_prepared_drop_last(record);
    default: return __real_zahupnik_prepared_replace(record, x->row, x->a, x->b, x->c);
    }
}

uint32_t right_change(const struct change *change, struct record *after) {
    struct zahupnik_change made = real_change(change);
    *after = from_library(&made.family);
    return made.answer;
}

#define BY_RECORD(operation)                                                                                                     \
    tree ? __real_zahupnik_prepared_tree_##operation(record, x->curve.entries, x->curve.length, OUT, call->work, x->work_length) \
         : __real_zahupnik_prepared_plain_##operation(record, x->curve.entries, x->curve.length, OUT)

uint32_t right_on_record(const struct record_call *made) {
    const struct call *call = &made->call;
    const struct lent *x = &call->lent;
    struct zahupnik_prepared record = to_library(&made->record);
    bool tree = x->way == TREE;
    switch (x->operation) {
    case EXPAND: return BY_RECORD(expand);
    case ADJOINT: return BY_RECORD(adjoint);
    case DECOMPOSE: return BY_RECORD(decompose);
    case NORMS: return __real_zahupnik_prepared_norms(record, OUT);
    default: return __real_zahupnik_prepared_moments(record, OUT, call->work, x->work_length);
    }
}

uint32_t right_joined(const struct joining_call *call) {
    const struct joining *x = &call->lent;
    const struct list *lists = x->remainders;
    if (x->expands)
        return __real_zahupnik_expand_join(x->m[0], x->m[1], x->a.entries, x->a.length, x->b.entries, x->b.length, x->c.entries,
                                           x->c.length, x->curve.entries, x->curve.length, call->output, x->output_length);
    return __real_zahupnik_join(x->m[0], x->m[1], lists[0].entries, lists[0].length, lists[1].entries, lists[1].length, call->output,
                                x->output_length);
}

uint32_t right_ordered(const struct ordering_call *call) {
    const struct ordering *x = &call->lent;
    return x->back ? __real_zahupnik_even_back(x->list.entries, x->list.length, OUT)
                   : __real_zahupnik_even_first(x->list.entries, x->list.length, OUT);
}

/* ---- the library's functions */

static uint32_t answer(unsigned name, const struct call *call) {
    const struct version *version = chosen(name);
    return version ? version->on_lists(call) : right(call);
}

static uint32_t answer_text(unsigned name, const struct text_call *call) {
    const struct version *version = chosen(name);
    if (!version) return right_text(call);
    return version->on_text ? version->on_text(call) : convert_job(call, version->on_lists);
}

static struct zahupnik_change answer_change(unsigned name, const struct change *change) {
    const struct version *version = chosen(name);
    struct zahupnik_change made;
    struct record after;
    made.answer = version ? version->on_change(change, &after) : right_change(change, &after);
    made.family = to_library(&after);
    return made;
}

static uint32_t answer_on_record(unsigned name, const struct record_call *call) {
    const struct version *version = chosen(name);
    if (!version) return right_on_record(call);
    if (version->on_record) return version->on_record(call);
    return is_right(&call->record) ? version->on_lists(&call->call) : 14;
}

static uint32_t answer_joined(unsigned name, const struct joining_call *call) {
    const struct version *version = chosen(name);
    return version ? version->on_channels(call) : right_joined(call);
}

static uint32_t answer_ordered(unsigned name, const struct ordering_call *call) {
    const struct version *version = chosen(name);
    return version ? version->on_orders(call) : right_ordered(call);
}

/* Of what a call may not write, a version writes to a list that it orders, and to nothing else. */
static struct list lent_list(const uint32_t *entries, size_t length) { return (struct list){(uint32_t *)entries, length}; }

static struct signed_list lent_signed(const int32_t *entries, size_t length) { return (struct signed_list){(int32_t *)entries, length}; }

static struct call call_of(enum operation operation, enum way way, FAMILY, CURVE, OUTPUT, WORK) {
    struct lent lent = {.operation = operation, .way = way, .m = m, .output_length = output_length, .work_length = work_length};
    lent.a = lent_list(a, a_length);
    lent.b = lent_list(b, b_length);
    lent.c = lent_list(c, c_length);
    lent.curve = lent_list(curve, curve_count);
    return (struct call){lent, output, work, NULL};
}

#define NONE NULL, 0
#define ROWS m, a, a_length, b, b_length, c, c_length
#define MADE(bit, ...)                         \
    {                                          \
        struct call call = call_of(__VA_ARGS__); \
        return answer(bit, &call);             \
    }
#define PLAIN_CALL(name, bit, operation)                   \
    uint32_t __wrap_zahupnik_##name(FAMILY, CURVE, OUTPUT) \
        MADE(bit, operation, PLAIN, ROWS, curve, curve_count, output, output_length, NONE)
#define TREE_CALL(name, bit, operation)                          \
    uint32_t __wrap_zahupnik_##name(FAMILY, CURVE, OUTPUT, WORK) \
        MADE(bit, operation, TREE, ROWS, curve, curve_count, output, output_length, work, work_length)

uint32_t __wrap_zahupnik_invert(uint32_t m, uint32_t x, uint32_t *inverse, uint32_t *factor) {
    struct call call = call_of(INVERSE, PLAIN, m, NONE, NONE, NONE, &x, 1, inverse, 1, NONE);
    call.factor = factor;
    return answer(INVERT, &call);
}
PLAIN_CALL(plain_expand, PLAIN_EXPAND, EXPAND)
PLAIN_CALL(plain_adjoint, PLAIN_ADJOINT, ADJOINT)
PLAIN_CALL(plain_decompose, PLAIN_DECOMPOSE, DECOMPOSE)
uint32_t __wrap_zahupnik_norms(FAMILY, OUTPUT) MADE(NORMS_CALL, NORMS, PLAIN, ROWS, NONE, output, output_length, NONE)
TREE_CALL(tree_expand, TREE_EXPAND, EXPAND)
TREE_CALL(tree_adjoint, TREE_ADJOINT, ADJOINT)
TREE_CALL(tree_decompose, TREE_DECOMPOSE, DECOMPOSE)
uint32_t __wrap_zahupnik_moments(FAMILY, OUTPUT, WORK)
    MADE(MOMENTS_CALL, MOMENTS, TREE, ROWS, NONE, output, output_length, work, work_length)

uint32_t __wrap_zahupnik_convert_text(TEXTS) {
    const struct text_call call = {NULL, text, text_length, output, output_length, work, work_length, length};
    return answer_text(CONVERT_TEXT, &call);
}

uint32_t __wrap_zahupnik_write_job(JOBS) {
    struct call lists = call_of(operation_of(operation), WRITING, ROWS, curve, curve_count, NULL, output_length, NONE);
    const struct job job = {lists.lent, operation};
    const struct text_call call = {&job, NONE, output, output_length, NONE, length};
    return answer_text(WRITE_JOB, &call);
}

struct zahupnik_change __wrap_zahupnik_prepared_empty(uint32_t m) {
    const struct change change = {.kind = EMPTY, .m = m};
    return answer_change(PREPARED_EMPTY, &change);
}

struct zahupnik_change __wrap_zahupnik_prepared_append(PREPARED, NEW_ROW) {
    const struct change change = {APPEND, 0, from_library(&family), 0, a, b, c};
    return answer_change(PREPARED_APPEND, &change);
}

struct zahupnik_change __wrap_zahupnik_prepared_drop_last(PREPARED) {
    const struct change change = {.kind = DROP_LAST, .record = from_library(&family)};
    return answer_change(PREPARED_DROP_LAST, &change);
}

struct zahupnik_change __wrap_zahupnik_prepared_replace(PREPARED, uint32_t row, NEW_ROW) {
    const struct change change = {REPLACE, 0, from_library(&family), row, a, b, c};
    return answer_change(PREPARED_REPLACE, &change);
}

static uint32_t on_record(unsigned name, enum operation operation, enum way way, PREPARED, CURVE, OUTPUT, WORK) {
    struct record_call made = {.record = from_library(&family)};
    made.call = (struct call){operation_on(&made.record, operation, way), output, work, NULL};
    made.call.lent.curve = lent_list(curve, curve_count);
    made.call.lent.output_length = output_length;
    made.call.lent.work_length = work_length;
    return answer_on_record(name, &made);
}

#define PLAIN_ON_RECORD(name, bit, operation)                                                             \
    uint32_t __wrap_zahupnik_prepared_##name(PREPARED, CURVE, OUTPUT) {                                   \
        return on_record(bit, operation, PLAIN, family, curve, curve_count, output, output_length, NONE); \
    }
#define TREE_ON_RECORD(name, bit, operation)                                                                          \
    uint32_t __wrap_zahupnik_prepared_##name(PREPARED, CURVE, OUTPUT, WORK) {                                         \
        return on_record(bit, operation, TREE, family, curve, curve_count, output, output_length, work, work_length); \
    }

PLAIN_ON_RECORD(plain_expand, PREPARED_PLAIN_EXPAND, EXPAND)
PLAIN_ON_RECORD(plain_adjoint, PREPARED_PLAIN_ADJOINT, ADJOINT)
PLAIN_ON_RECORD(plain_decompose, PREPARED_PLAIN_DECOMPOSE, DECOMPOSE)
uint32_t __wrap_zahupnik_prepared_norms(PREPARED, OUTPUT) {
    return on_record(PREPARED_NORMS, NORMS, PLAIN, family, NONE, output, output_length, NONE);
}
TREE_ON_RECORD(tree_expand, PREPARED_TREE_EXPAND, EXPAND)
TREE_ON_RECORD(tree_adjoint, PREPARED_TREE_ADJOINT, ADJOINT)
TREE_ON_RECORD(tree_decompose, PREPARED_TREE_DECOMPOSE, DECOMPOSE)
uint32_t __wrap_zahupnik_prepared_moments(PREPARED, OUTPUT, WORK) {
    return on_record(PREPARED_MOMENTS, MOMENTS, TREE, family, NONE, output, output_length, work, work_length);
}

uint32_t __wrap_zahupnik_join(TWO_CHANNELS, REMAINDERS, JOINED) {
    struct joining_call call = {{.expands = false, .m = {m1, m2}, .output_length = output_length}, output};
    call.lent.remainders[0] = lent_list(first, first_length);
    call.lent.remainders[1] = lent_list(second, second_length);
    return answer_joined(JOIN, &call);
}

uint32_t __wrap_zahupnik_expand_join(TWO_CHANNELS, SIGNED_ROWS, SIGNED_CURVE, JOINED) {
    struct joining_call call = {{.expands = true, .m = {m1, m2}, .output_length = output_length}, output};
    call.lent.a = lent_signed(a, a_length);
    call.lent.b = lent_signed(b, b_length);
    call.lent.c = lent_signed(c, c_length);
    call.lent.curve = lent_signed(curve, curve_count);
    return answer_joined(EXPAND_JOIN, &call);
}

static uint32_t on_order(unsigned name, bool back, ORDERED) {
    struct ordering_call call = {{back, lent_list(list, list_length), output_length}, output};
    return answer_ordered(name, &call);
}

uint32_t __wrap_zahupnik_even_first(ORDERED) { return on_order(EVEN_FIRST, false, list, list_length, output, output_length); }

uint32_t __wrap_zahupnik_even_back(ORDERED) { return on_order(EVEN_BACK, true, list, list_length, output, output_length); }
