/* What job.h declares. A case is one of an operation (cases.h), accepted or damaged, and it has the number of that operation, now
 * and then of another or of none. */
#include "job.h"

#include "cases.h"
#include "text.h"
#include "text_model.h"
#include "zahupnik.h"

enum { JOB_ROOM = LEAST_JOB_OUTPUT };

/* A number that no operation has: the least, the greatest, one that some bits make an operation's if they are lost, or any. */
static uint32_t some_number_of_none(struct random *random) {
    const uint32_t bits[] = {1 << 3, 1 << 8, 1 << 16, UINT32_C(1) << 31};
    switch (below(random, 4)) {
    case 0: return OPERATIONS;
    case 1: return UINT32_MAX - below(random, OPERATIONS);
    case 2: return ONE_OF(random, bits) + below(random, OPERATIONS);
    default: return OPERATIONS + below(random, UINT32_MAX - OPERATIONS + UINT64_C(1));
    }
}

/* The lists of the longest text, which is one for decompose: 127 rows, and ten digits in each number. */
static void lengthen(struct lent *x) {
    struct list *lists[] = {&x->a, &x->b, &x->c, &x->curve};
    x->m = GREATEST_MODULUS;
    for (size_t i = 0; i < 4; i++) {
        lists[i]->length = MOST_ROWS + (lists[i] == &x->curve);
        for (size_t k = 0; k < lists[i]->length; k++) lists[i]->entries[k] = x->m - 1;
    }
}

static struct lent make_job(struct random *random, uint32_t *operation) {
    *operation = below(random, OPERATIONS);
    struct lent x = make_case(random, operation_of(*operation), WRITING);
    if (one_in(random, 64) && x.operation == DECOMPOSE) lengthen(&x);
    switch (below(random, 16)) {
    case 0: /* the curve is then often of another length than it should be */
        *operation = below(random, OPERATIONS);
        x.operation = operation_of(*operation);
        break;
    case 1: *operation = some_number_of_none(random); break;
    }
    return x;
}

#define LIST(list) lent.list.entries, lent.list.length

uint32_t run_on_job(struct trial *trial, struct random *random) {
    uint8_t job[JOB_ROOM];
    uint32_t operation, job_length = 0;
    struct lent x = make_job(random, &operation);
    trial->m = &x.m;
    trial->operation = &operation;
    trial->number = writing_refusal(operation, &x);
    note_family(trial, &x);
    if (trial->number == 0) job_length = write_job(&x, job);
    struct lent lent = lend_lists(trial, random, &x);
    const void *before = dirt(random, x.output_length);
    uint8_t *output = lend(trial, random, (struct lending){"output", BYTES, before, x.output_length, job, job_length, 0});
    uint32_t *length = lend_numbers(trial, random, "length", 1, &job_length, 1);
    compare(trial, zahupnik_write_job(x.m, LIST(a), LIST(b), LIST(c), operation, LIST(curve), output, x.output_length, length));
    if (trial->number == 0) {
        struct trial read = {.seed = trial->seed, .number_of_case = trial->number_of_case};
        read.call = "convert_text on what write_job wrote";
        x.output_length = LEAST_TEXT_OUTPUT;
        x.work_length = LEAST_WORK;
        hold_text_call(&read, random, job, job_length, &x);
    }
    return trial->number;
}
