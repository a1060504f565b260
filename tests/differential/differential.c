/* Holds the library against a separate implementation of the scope paper (model.h) on random cases of every call.
 *
 * usage: differential [CASES [SEED [FIRST]]]
 *
 * Of the first 3,840,000 cases each thirty-second is of a call that orders a list by even and odd indices, even_first and even_back in
 * turn: 120,000. Of the first 720,000 others each sixth is of a call on two channels, join and expand_join in turn: 120,000. Of the first
 * 180,000 others again each twelfth is a sequence of up to 48 calls on a prepared family: 15,000 sequences. Of the first 1,100,000 of the
 * rest each eleventh is of write_job, and each of those left is of any of the other ten calls on lists and texts. Those after them,
 * 4,550,000 if CASES is not stated, are of the five quick calls in turn. So each quick call has a million cases and more, the two on two
 * channels and the two that order a list have 60,000 each, the twelve on a prepared family 370,000 together, and each of the others about
 * 100,000. What write_job wrote is read by the text call in the same case, and what one of the two that order a list handed out the other
 * takes back.
 *
 * Compares the number and the record returned, all that a call writes, and that it writes nothing else (trial.h). Prints how many cases
 * each call had, how often it gave each answer, how often it finished with a c_1 that is 0 and with one that shares a factor with m, and
 * how often it was refused with 17, 10, 18 and 11 for a list that has zeros and shared factors both, so that the lowest row had to
 * decide. Of a call on two channels, how often an answer was for the second channel or the second list, how often half of m1 m2 was handed
 * out, and how often the coefficients were those over the whole numbers. Of a call that orders a list, with how many lengths it finished
 * and how often it was refused with 5 where 7 was the case too; and how often even_first was lent an expanded curve of a family whose b are
 * all zero, and left the zeros where they have to be. Then exits 0. Shows the first case that differs and exits 1. It exits 1 too if some
 * call never gave one of the answers that it can give, on two channels for either of them, if one on families never finished with such a
 * c_1, if one on lists was never refused so for such a list, if half or whole numbers were never met, if 5 never covered 7 or always did,
 * or if some kind of expanded curve was never met (with even or odd indices alone, by either way, with m prime or composite), unless FIRST,
 * the number of the first case, is stated. Bad arguments exit with 2.
 */
#include <inttypes.h>
#include <stdio.h>
#include <stdlib.h>

#include "cases.h"
#include "job.h"
#include "joining.h"
#include "ordering.h"
#include "ordering_model.h"
#include "prepared.h"
#include "text.h"
#include "trial.h"
#include "zahupnik.h"

static const uint64_t ORDERINGS = 120000, JOININGS = 120000, SEQUENCES = 15000, ALL_CALLS = 1100000, QUICK_CALLS = 4550000;
static const uint64_t SEED = 20240229;

enum { ANSWERS = 21, QUICK = 5, EACH_ORDERING = 32, EACH_JOINING = 6, EACH_SEQUENCE = 12, MOST_STEPS = 48 };

/* The refusals for which the lowest row decides. */
static const int BY_LOWEST_ROW[] = {17, 10, 18, 11};
enum { BY_LOWEST_ROW_COUNT = sizeof BY_LOWEST_ROW / sizeof *BY_LOWEST_ROW };

/* A call by its name in the header without zahupnik_, which answers it can give, how it is run on lists, how often it gave each
 * answer, and how often for a list with both kinds, whether it finished with so many rows, and how often with such a c_1. What writes a
 * text, is on two channels or orders a list is not run so: its cases are run alone. Nor is what is on a prepared family: its cases are
 * steps of a sequence. Of what is on two channels, the answers that are of one of them, how often each was of the second, and how often it
 * handed out half of m1 m2 and whole coefficients. Of what orders a list, whether it finished with so many numbers, how often 5 covered 7,
 * and how often it was lent an expanded curve of each kind. */
struct call {
    const char *name;
    const char *answers;
    enum operation operation;
    enum way way;
    uint32_t (*run)(const struct lent *x, uint32_t *output, uint32_t *work, uint32_t *factor);
    unsigned long met[ANSWERS], met_mixed[ANSWERS];
    bool finished[MOST_ROWS + 1];
    unsigned long finished_with[KINDS_OF_FIRST_C];
    uint32_t (*run_alone)(struct trial *trial, struct random *random);
    step *run_step;
    const char *of_either;
    unsigned long met_second[ANSWERS], met_half, met_whole;
    bool ordered[MOST_ENTRIES + 1];
    unsigned long met_covered, met_parity[KINDS_OF_PARITY];
};

#define LIST(list) x->list.entries, x->list.length
#define FAMILY x->m, LIST(a), LIST(b), LIST(c)
#define OUTPUT output, x->output_length
#define WORK work, x->work_length
#define RUN(name, ...)                                                                               \
    static uint32_t name(const struct lent *x, uint32_t *output, uint32_t *work, uint32_t *factor) { \
        (void)work;                                                                                  \
        (void)factor;                                                                                \
        return zahupnik_##name(__VA_ARGS__);                                                         \
    }
RUN(invert, x->m, x->curve.entries[0], output, factor)
RUN(plain_expand, FAMILY, LIST(curve), OUTPUT)
RUN(plain_adjoint, FAMILY, LIST(curve), OUTPUT)
RUN(plain_decompose, FAMILY, LIST(curve), OUTPUT)
RUN(norms, FAMILY, OUTPUT)
RUN(tree_expand, FAMILY, LIST(curve), OUTPUT, WORK)
RUN(tree_adjoint, FAMILY, LIST(curve), OUTPUT, WORK)
RUN(tree_decompose, FAMILY, LIST(curve), OUTPUT, WORK)
RUN(moments, FAMILY, OUTPUT, WORK)

/* Answers: a sign for each number from 0 to 20, a point where the call cannot give it. The quick calls come first, and write_job comes
 * last of those that are not run in steps. Of those that are, the changes come first, in the order of their kinds. Then come those on two
 * channels, and last of all those that order a list. */
#define ON_LISTS(call, can_give, by, by_way) {.name = #call, .answers = can_give, .operation = by, .way = by_way, .run = call}
#define ALONE(call, can_give, function) {.name = #call, .answers = can_give, .run_alone = function}
#define IN_STEPS(call, can_give) {.name = #call, .answers = can_give, .run_step = call}
#define JOINED(call, can_give, of_one, function) {.name = #call, .answers = can_give, .of_either = of_one, .run_alone = function}
static struct call calls[] = {
    ON_LISTS(invert, "0..3........CD.......", INVERSE, PLAIN),
    ON_LISTS(plain_expand, "0..34567.9ABC....HI..", EXPAND, PLAIN),
    ON_LISTS(plain_adjoint, "0..34567.9ABC....HI..", ADJOINT, PLAIN),
    ON_LISTS(plain_decompose, "0..34567.9ABC....HI..", DECOMPOSE, PLAIN),
    ON_LISTS(norms, "0..345.7.9AB.....HI..", NORMS, PLAIN),
    ON_LISTS(tree_expand, "0..3456789ABC....HI..", EXPAND, TREE),
    ON_LISTS(tree_adjoint, "0..3456789ABC....HI..", ADJOINT, TREE),
    ON_LISTS(tree_decompose, "0..3456789ABC....HI..", DECOMPOSE, TREE),
    ON_LISTS(moments, "0..345.789AB.....HI..", MOMENTS, TREE),
    ALONE(convert_text, "0123456789ABC....HI..", run_on_text),
    ALONE(write_job, "0.234567.9ABC....HI..", run_on_job),
    IN_STEPS(prepared_empty, "0..3................."),
    IN_STEPS(prepared_append, "0....5...9AB..E..HI.."),
    IN_STEPS(prepared_drop_last, "0.............EF....."),
    IN_STEPS(prepared_replace, "0........9AB..E.GHI.."),
    IN_STEPS(prepared_plain_expand, "0.....67....C.E......"),
    IN_STEPS(prepared_plain_adjoint, "0.....67....C.E......"),
    IN_STEPS(prepared_plain_decompose, "0.....67....C.E......"),
    IN_STEPS(prepared_norms, "0......7......E......"),
    IN_STEPS(prepared_tree_expand, "0.....678...C.E......"),
    IN_STEPS(prepared_tree_adjoint, "0.....678...C.E......"),
    IN_STEPS(prepared_tree_decompose, "0.....678...C.E......"),
    IN_STEPS(prepared_moments, "0......78.....E......"),
    JOINED(join, "0..3...7....C......JK", "...3........C........", run_on_remainders),
    JOINED(expand_join, "0..34567..AB.....HIJ.", "...3......AB.....HI..", run_on_two_channels),
    ALONE(even_first, "0....5.7.............", run_even_first),
    ALONE(even_back, "0....5.7.............", run_even_back),
};
enum { COUNT = sizeof calls / sizeof *calls, CHANGES = 4, OPERATIONS = 8, ON_TWO_CHANNELS = 2, ORDERS = 2 };
enum { FIRST_ORDERED = COUNT - ORDERS, FIRST_JOINED = FIRST_ORDERED - ON_TWO_CHANNELS };
enum { IN_NO_STEPS = FIRST_JOINED - CHANGES - OPERATIONS, WRITE_JOB = IN_NO_STEPS - 1 };

static bool can_give(const struct call *call, int answer) { return call->answers[answer] != '.'; }

/* Whether an answer is one of either channel, or of either list. */
static bool is_of_either(const struct call *call, int answer) { return call->of_either && call->of_either[answer] != '.'; }

static bool is_on_families(const struct call *call) { return can_give(call, 11) || can_give(call, 14); }

/* Whether the lists that a call is lent, or reads in a text, can have several rows that are refused. */
static bool is_on_rows(const struct call *call) { return can_give(call, 11) && !call->run_step; }

static void count(struct call *call, const struct trial *trial, uint32_t answer) {
    const struct parity *parity = &trial->parity;
    call->met[answer]++;
    call->met_mixed[answer] += trial->mixed;
    call->met_second[answer] += trial->of_second;
    call->met_covered += trial->covered;
    if (answer != 0) return;
    if (parity->is) call->met_parity[parity->odd + 2 * parity->tree + 4 * parity->composite]++;
    call->ordered[trial->length] = true;
    call->met_half += trial->half;
    call->met_whole += trial->whole;
    call->finished[trial->rows] = true;
    call->finished_with[trial->first_c]++;
}

/* Runs a random case of a call on lists and holds it against the model; the answer. */
static uint32_t run_on_lists(const struct call *call, struct trial *trial, struct random *random) {
    static const uint32_t zeros[LEAST_WORK];
    uint32_t result[MOST_RESULTS], handed_factor, *output, *work = NULL, *factor = NULL;
    struct lent x = make_case(random, call->operation, call->way);
    trial->m = &x.m;
    trial->number = refusal(&x);
    note_family(trial, &x);
    if (trial->number == 0) hand_out(&x, result);
    struct lent lent = lend_lists(trial, random, &x);
    output = lend_numbers(trial, random, "output", x.output_length, result, result_length(&x));
    if (takes_work(&x)) work = lend_numbers(trial, random, "working list", x.work_length, zeros, LEAST_WORK);
    if (x.operation == INVERSE) {
        handed_factor = factor_of(&x);
        factor = lend_factor(trial, random, &handed_factor);
    }
    compare(trial, call->run(&lent, output, work, factor));
    return trial->number;
}

/* The call of a case that is no sequence, and its random source. The cases of write_job that come before it and the others are counted
 * apart, so that the share of write_job moves no other case. */
static struct call *call_of_case(uint64_t seed, uint64_t number, struct random *random) {
    bool of_all = number < ALL_CALLS;
    uint64_t jobs = (of_all ? number : ALL_CALLS) / IN_NO_STEPS, others = number - jobs;
    if (of_all && number % IN_NO_STEPS == WRITE_JOB) {
        *random = random_of_case(~seed, jobs);
        return &calls[WRITE_JOB];
    }
    *random = random_of_case(seed, others);
    return &calls[of_all ? below(random, WRITE_JOB) : others % QUICK];
}

/* Half of the steps are changes, and of these more append a row than drop one, since more of them are refused. */
static struct call *call_of_step(struct random *random) {
    static const enum kind_of_change changes[] = {EMPTY, APPEND, APPEND, APPEND, DROP_LAST, REPLACE, REPLACE, REPLACE};
    return &calls[IN_NO_STEPS + (one_in(random, 2) ? ONE_OF(random, changes) : CHANGES + below(random, OPERATIONS))];
}

static void run_sequence(uint64_t seed, uint64_t number_of_case, struct random random) {
    static struct sequence sequence;
    uint32_t steps = 1 + below(&random, MOST_STEPS);
    begin_sequence(&random, &sequence);
    for (uint32_t step = 1; step <= steps; step++) {
        struct call *call = call_of_step(&random);
        struct trial trial = {.call = call->name, .seed = seed, .number_of_case = number_of_case, .step = step};
        count(call, &trial, call->run_step(&trial, &random, &sequence));
    }
}

static void run_one(struct call *call, uint64_t seed, uint64_t number_of_case, struct random random) {
    struct trial trial = {.call = call->name, .seed = seed, .number_of_case = number_of_case};
    count(call, &trial, call->run ? run_on_lists(call, &trial, &random) : call->run_alone(&trial, &random));
}

/* Each of so many cases, up to a count of these, is of a kind that is counted apart: whether this one is, and how many of them and of the
 * others come before it. */
static bool is_apart(uint64_t number, uint64_t each, uint64_t most, uint64_t *apart, uint64_t *others) {
    *apart = number / each < most ? number / each : most;
    *others = number - *apart;
    return *apart < most && number % each == each - 1;
}

/* The calls that order a list, those on two channels and the sequences are counted apart too, so that they move no other case. */
static void run_case(uint64_t seed, uint64_t number_of_case) {
    uint64_t orderings, joinings, sequences, others;
    struct random random;
    if (is_apart(number_of_case, EACH_ORDERING, ORDERINGS, &orderings, &others)) {
        run_one(&calls[FIRST_ORDERED + orderings % ORDERS], seed, number_of_case, random_of_case(~mixed(seed), orderings));
    } else if (is_apart(others, EACH_JOINING, JOININGS, &joinings, &others)) {
        run_one(&calls[FIRST_JOINED + joinings % ON_TWO_CHANNELS], seed, number_of_case, random_of_case(mixed(seed), joinings));
    } else if (is_apart(others, EACH_SEQUENCE, SEQUENCES, &sequences, &others)) {
        run_sequence(seed, number_of_case, random_of_case(mixed(~seed), sequences));
    } else {
        struct call *call = call_of_case(seed, others, &random);
        run_one(call, seed, number_of_case, random);
    }
}

/* How often something was met, where it can be. */
static void print_met(bool can_be, unsigned long met) {
    if (can_be)
        printf(" %6lu", met);
    else
        printf(" %6s", "-");
}

/* How many cases each call had, how often it gave each answer, with how many different numbers of rows it finished, how often with a c_1
 * that is 0 and with one that shares a factor with m, and how often the lowest row decided against others. */
static void print_table(void) {
    printf("%-24s %7s", "answer", "cases");
    for (int answer = 0; answer < ANSWERS; answer++) printf(" %6d", answer);
    printf("  rows  c_1=0 shares");
    for (int i = 0; i < BY_LOWEST_ROW_COUNT; i++) printf("  low%d", BY_LOWEST_ROW[i]);
    printf("\n");
    for (size_t i = 0; i < COUNT; i++) {
        unsigned long cases = 0;
        for (int answer = 0; answer < ANSWERS; answer++) cases += calls[i].met[answer];
        printf("%-24s %7lu", calls[i].name, cases);
        for (int answer = 0; answer < ANSWERS; answer++) print_met(can_give(&calls[i], answer), calls[i].met[answer]);
        int numbers_of_rows = 0;
        for (int rows = 0; rows <= MOST_ROWS; rows++) numbers_of_rows += calls[i].finished[rows];
        printf(" %5d", numbers_of_rows);
        for (int kind = ZERO; kind <= SHARES_FACTOR; kind++) print_met(is_on_families(&calls[i]), calls[i].finished_with[kind]);
        for (int k = 0; k < BY_LOWEST_ROW_COUNT; k++) print_met(is_on_rows(&calls[i]), calls[i].met_mixed[BY_LOWEST_ROW[k]]);
        printf("\n");
    }
}

/* Of the calls on two channels, how often each answer that is of either of them was of the second, and what else is to be met. */
static void print_second(void) {
    for (size_t i = FIRST_JOINED; i < FIRST_ORDERED; i++) {
        printf("%s: of the second channel or list", calls[i].name);
        for (int answer = 0; answer < ANSWERS; answer++)
            if (is_of_either(&calls[i], answer)) printf(" %d %lu times,", answer, calls[i].met_second[answer]);
        printf(" half of m1 m2 handed out in %lu cases", calls[i].met_half);
        if (is_on_rows(&calls[i])) printf(", coefficients found over the whole numbers in %lu", calls[i].met_whole);
        printf("\n");
    }
}

/* Of the calls that order a list, with how many lengths they finished, how often 5 covered 7, and the expanded curves. */
static void print_ordered(void) {
    for (size_t i = FIRST_ORDERED; i < COUNT; i++) {
        unsigned long lengths = 0, curves = 0;
        for (size_t length = 0; length <= MOST_ENTRIES; length++) lengths += calls[i].ordered[length];
        for (size_t kind = 0; kind < KINDS_OF_PARITY; kind++) curves += calls[i].met_parity[kind];
        printf("%s: finished with %lu lengths, 5 where 7 was the case too %lu times", calls[i].name, lengths, calls[i].met_covered);
        if (curves) printf(", expanded curves with zeros where they have to be %lu times", curves);
        printf("\n");
    }
}

/* Whether the call gave each answer that it can give; says which is the first that was not met. */
static bool met_answers(const struct call *call) {
    for (int answer = 0; answer < ANSWERS; answer++) {
        if (can_give(call, answer) && call->met[answer] == 0) {
            fprintf(stderr, "differential: no case of %s had the answer %d: take more cases\n", call->name, answer);
            return false;
        }
    }
    return true;
}

/* Whether the call, if it is on families, finished with a c_1 that is 0 and with one that shares a factor with m. */
static bool met_first_c(const struct call *call) {
    static const char *const kinds[] = {[ZERO] = "is 0", [SHARES_FACTOR] = "shares a factor with m"};
    for (int kind = ZERO; kind <= SHARES_FACTOR; kind++) {
        if (is_on_families(call) && call->finished_with[kind] == 0) {
            fprintf(stderr, "differential: no case of %s finished with a c_1 that %s: take more cases\n", call->name, kinds[kind]);
            return false;
        }
    }
    return true;
}

/* Whether the call, if it is lent rows, was refused for lists with both kinds, the lowest row of one and of the other. */
static bool met_lowest_rows(const struct call *call) {
    for (int i = 0; i < BY_LOWEST_ROW_COUNT; i++) {
        if (is_on_rows(call) && call->met_mixed[BY_LOWEST_ROW[i]] == 0) {
            fprintf(stderr, "differential: no case of %s had the answer %d for a list with zeros and shared factors: take more cases\n",
                    call->name, BY_LOWEST_ROW[i]);
            return false;
        }
    }
    return true;
}

/* Whether the call, if it is on two channels, gave each answer that is of one of them for either, and handed out half of m1 m2 and, if it
 * expands, coefficients over the whole numbers, and others. */
static bool met_either(const struct call *call) {
    if (!call->of_either) return true;
    for (int answer = 0; answer < ANSWERS; answer++) {
        unsigned long second = call->met_second[answer];
        if (is_of_either(call, answer) && (second == 0 || second == call->met[answer])) {
            fprintf(stderr, "differential: no case of %s had the answer %d for the %s channel or list: take more cases\n", call->name, answer,
                    second ? "first" : "second");
            return false;
        }
    }
    if (call->met_half && (!is_on_rows(call) || (call->met_whole && call->met_whole < call->met[0]))) return true;
    fprintf(stderr, "differential: no case of %s had half of m1 m2, or whole coefficients, or others: take more cases\n", call->name);
    return false;
}

/* Whether a call that orders a list was refused with 5 where 7 was the case too and where it was not, and even_first was lent expanded
 * curves of every kind. */
static bool met_ordered(const struct call *call) {
    if (call->met_covered == 0 || call->met_covered == call->met[5]) {
        fprintf(stderr, "differential: no case of %s had the answer 5 where 7 %s the case: take more cases\n", call->name,
                call->met_covered ? "was not" : "was");
        return false;
    }
    for (int kind = 0; kind < KINDS_OF_PARITY; kind++) {
        if (call->run_alone == run_even_first && call->met_parity[kind] == 0) {
            fprintf(stderr, "differential: no case of %s had a curve with %s indices alone, by the %s way, m %s: take more cases\n",
                    call->name, kind & 1 ? "odd" : "even", kind & 2 ? "tree" : "plain", kind & 4 ? "composite" : "prime");
            return false;
        }
    }
    return true;
}

static bool met_all(void) {
    for (size_t i = 0; i < COUNT; i++) {
        const struct call *call = &calls[i];
        if (!met_answers(call) || !met_first_c(call) || !met_lowest_rows(call) || !met_either(call)) return false;
        if (i >= FIRST_ORDERED && !met_ordered(call)) return false;
    }
    return true;
}

/* An argument: a whole number in decimal that fits into 64 bits. */
static uint64_t argument(int argc, char **argv, int place, uint64_t otherwise) {
    uint64_t value = 0;
    if (place >= argc) return otherwise;
    const char *word = argv[place], *digit = word;
    for (; *digit >= '0' && *digit <= '9' && value <= (UINT64_MAX - (uint64_t)(*digit - '0')) / 10; digit++)
        value = value * 10 + (uint64_t)(*digit - '0');
    if (*digit || digit == word) {
        fprintf(stderr, "differential: '%s' is not a whole number below 2^64\n", word);
        exit(2);
    }
    return value;
}

int main(int argc, char **argv) {
    if (argc > 4) {
        fprintf(stderr, "usage: differential [CASES [SEED [FIRST]]]\n");
        return 2;
    }
    uint64_t cases = argument(argc, argv, 1, ORDERINGS + JOININGS + SEQUENCES + ALL_CALLS + QUICK_CALLS);
    uint64_t seed = argument(argc, argv, 2, SEED), first = argument(argc, argv, 3, 0);
    prepare_trials(WORK_ROOM * sizeof(uint32_t));
    for (uint64_t i = 0; i < cases; i++) run_case(seed, first + i);
    print_table();
    print_second();
    print_ordered();
    if (argc < 4 && !met_all()) return 1;
    printf("differential: %" PRIu64 " cases agree, seed %" PRIu64 "\n", cases, seed);
    return 0;
}
