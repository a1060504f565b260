/* Calls products::transposed, a function of the library's own, on many cases, and compares all of w with a plain model; then shows that
 * the same cases tell wrong versions of it. Measures the stack that it takes.
 *
 * usage: transposed [VERSION]     VERSION, of tests/compiled/transposed_versions.c, alone and in the place of the library's function
 *
 * The first cases are figures, small enough to be worked out by hand. The others are random ones, short lists first.
 *
 * Prints for each wrong version the first case that tells it and how many do, and for the right ones the stack. Exits 0 only if the
 * library's function and a right one in C pass every case, every wrong version is told, and the function takes no more stack than a few
 * numbers need: so neither it nor anything that it calls keeps an array. A right version with such an array has to take more. Of a
 * VERSION alone it exits 1 if it is told by a case or by its stack, and 2 if there is no such version.
 */
#define _XOPEN_SOURCE 700
#include <inttypes.h>
#include <stdio.h>
#include <stdlib.h>
#include <string.h>
#include <ucontext.h>
#include <unistd.h>

#include "random.h"
#include "transposed_versions.h"

transposed_product compiled_transposed;

enum { LONGEST = 257, MORE_TERMS = 3, GUARD = 64, SPACE = 6 * LONGEST, ROOM = GUARD + SPACE + GUARD, MOST_STACK = 256, MOST_SECONDS = 300 };
enum { P, Q, V, U, SOURCES, TARGET = SOURCES, PLACES };

/* Where a list stands in w, and how long it is. */
struct place {
    size_t at, length;
};

/* The four lists, P as long as Q and V as long as U, and the wanted terms. The room holds w and numbers before and behind it. */
struct trial {
    uint32_t m;
    struct place place[PLACES];
    uint32_t room[ROOM];
};

/* What a version did wrong: a wanted term, or another place of w, counted from the first wanted term. */
struct fault {
    bool touched;
    ptrdiff_t place;
    uint32_t found, wanted;
};

/* ---- the model */

static uint32_t list_at(const struct trial *trial, int list, size_t k) {
    return k < trial->place[list].length ? trial->room[GUARD + trial->place[list].at + k] : 0;
}

static uint32_t wanted_term(const struct trial *trial, size_t i) {
    uint64_t sum = 0;
    for (size_t j = 0; j < trial->place[P].length; j++)
        sum = (sum + (uint64_t)list_at(trial, P, j) * list_at(trial, V, i + j) % trial->m) % trial->m;
    for (size_t j = 0; j < trial->place[Q].length; j++)
        sum = (sum + (uint64_t)list_at(trial, Q, j) * list_at(trial, U, i + j) % trial->m) % trial->m;
    return (uint32_t)sum;
}

/* ---- one case */

static void call(transposed_product *run, const struct trial *trial, uint32_t *w) {
    const struct place *place = trial->place;
    run(trial->m, w, place[TARGET].at, place[TARGET].length, place[P].at, place[Q].at, place[P].length,
        place[V].at, place[U].at, place[V].length);
}

/* Whether the version does right by the case; if not, the first fault. */
static bool passes(transposed_product *run, const struct trial *trial, struct fault *fault) {
    static uint32_t after[ROOM];
    size_t first = GUARD + trial->place[TARGET].at, n = trial->place[TARGET].length;
    memcpy(after, trial->room, sizeof after);
    call(run, trial, after + GUARD);
    for (size_t i = 0; i < n; i++) {
        *fault = (struct fault){false, (ptrdiff_t)i, after[first + i], wanted_term(trial, i)};
        if (fault->found != fault->wanted) return false;
    }
    for (size_t i = 0; i < ROOM; i++) {
        *fault = (struct fault){true, (ptrdiff_t)i - (ptrdiff_t)first, after[i], trial->room[i]};
        if ((i < first || i >= first + n) && fault->found != fault->wanted) return false;
    }
    return true;
}

static void tell_list(const struct trial *trial, const char *name, int list) {
    enum { SHOWN = 8 };
    size_t length = trial->place[list].length;
    printf(", %s =", name);
    for (size_t k = 0; k < length && k < SHOWN; k++) printf(" %" PRIu32, list_at(trial, list, k));
    if (length > SHOWN) printf(" .. (%zu numbers)", length);
    if (!length) printf(" nothing");
}

static void tell(const struct trial *trial, const struct fault *fault) {
    static const char *const names[] = {"p", "q", "v", "u"};
    ptrdiff_t n = (ptrdiff_t)trial->place[TARGET].length, place = fault->place;
    printf("m = %" PRIu32, trial->m);
    for (int list = P; list <= U; list++) tell_list(trial, names[list], list);
    printf(", %td wanted: ", n);
    if (!fault->touched)
        printf("term %td is %" PRIu32 " and not %" PRIu32, place, fault->found, fault->wanted);
    else
        printf("place %td %s the wanted terms is %" PRIu32 " and was %" PRIu32, place < 0 ? -place : place - n + 1,
               place < 0 ? "before" : "past", fault->found, fault->wanted);
}

/* ---- figures */

enum { MOST_FIGURE = 4, FILL = 99 };

/* The lists stand side by side in this order, as the four of a matrix do in the working list, and the wanted terms behind them. In the
 * last figure p ends in a zero and q does not. */
static const struct figure {
    uint32_t m;
    size_t pn, vn, n;
    uint32_t list[SOURCES][MOST_FIGURE];
} FIGURES[] = {
    {15, 3, 4, 3, {{1, 2, 3}, {2, 1, 4}, {3, 4, 5, 6}, {7, 8, 9, 2}}},
#define GREATEST 2147483646, 2147483646, 2147483646
    {2147483647, 3, 3, 1, {{GREATEST}, {GREATEST}, {GREATEST}, {GREATEST}}},
    {15, 3, 4, 3, {{1, 2, 0}, {2, 1, 4}, {3, 4, 5, 6}, {7, 8, 9, 2}}},
};
enum { FIGURE_COUNT = sizeof FIGURES / sizeof *FIGURES };

static void set_figure(struct trial *trial, const struct figure *figure) {
    size_t at = 0;
    trial->m = figure->m;
    for (size_t i = 0; i < ROOM; i++) trial->room[i] = FILL;
    for (int list = P; list <= U; list++) {
        size_t length = list < V ? figure->pn : figure->vn;
        trial->place[list] = (struct place){at, length};
        memcpy(trial->room + GUARD + at, figure->list[list], length * sizeof *trial->room);
        at += length;
    }
    trial->place[TARGET] = (struct place){at, figure->n};
}

/* ---- random cases */

/* How long the lists get, in so many cases each. */
static const size_t LIMITS[] = {1, 2, 3, 5, 9, 17, 33, 65, 129, LONGEST};
enum { OF_EACH_LIMIT = 1000, CASES = FIGURE_COUNT + OF_EACH_LIMIT * sizeof LIMITS / sizeof *LIMITS, SEED = 4 };

static uint32_t random_modulus(struct random *random) {
    static const uint32_t moduli[] = {1, 2, 3, 4, 15, 65536, 2147483646, 2147483647};
    return one_in(random, 3) ? 1 + below(random, 2147483647) : ONE_OF(random, moduli);
}

/* From 1 on for lists and wanted terms: the library hands in no fewer, and the compiler, which sees all of its calls, may count on it.
 * Multipliers may be empty, as those of a curve of zeros are. */
static size_t random_length(struct random *random, size_t least, size_t limit) {
    return one_in(random, 3) ? limit : least + below(random, limit - least + 1);
}

/* All five in any order, one behind another or with gaps. */
static void place_apart(struct random *random, struct trial *trial) {
    size_t gap = one_in(random, 2) ? 0 : 4, at = below(random, gap + 1);
    int order[PLACES];
    for (int i = 0; i < PLACES; i++) {
        int j = (int)below(random, (uint64_t)i + 1);
        order[i] = order[j];
        order[j] = i;
    }
    for (int i = 0; i < PLACES; i++) {
        trial->place[order[i]].at = at;
        at += trial->place[order[i]].length + below(random, gap + 1);
    }
}

/* Each list by itself before or behind the wanted terms, touching them or not, so that lists stand on one another. */
static void place_over(struct random *random, struct trial *trial, size_t limit) {
    size_t target = limit + below(random, limit + 1), behind = target + trial->place[TARGET].length;
    trial->place[TARGET].at = target;
    for (int list = P; list <= U; list++) {
        struct place *place = &trial->place[list];
        bool touching = one_in(random, 2);
        if (one_in(random, 2))
            place->at = touching ? target - place->length : below(random, target - place->length + 1);
        else
            place->at = touching ? behind : behind + below(random, limit + 1);
    }
}

/* Random numbers, the greatest everywhere, few that are not zero, or nothing but zeros; then zeros at the end, or not. */
static void fill_list(struct random *random, uint32_t m, uint32_t *list, size_t length) {
    enum { ANY, GREATEST_ONLY, SPARSE, ZEROS, STYLES } style = below(random, STYLES + 2) % STYLES;
    size_t kept = one_in(random, 3) ? below(random, length + 1) : length;
    for (size_t k = 0; k < length; k++) {
        bool zero = k >= kept || style == ZEROS || (style == SPARSE && !one_in(random, 8));
        list[k] = zero ? 0 : style == GREATEST_ONLY ? m - 1 : below(random, m);
    }
}

static void set_random(struct trial *trial, size_t number) {
    struct random random = random_of_case(SEED, number);
    size_t limit = LIMITS[number / OF_EACH_LIMIT];
    trial->m = random_modulus(&random);
    trial->place[P].length = trial->place[Q].length = random_length(&random, 0, limit);
    trial->place[V].length = trial->place[U].length = random_length(&random, 1, limit);
    trial->place[TARGET].length = random_length(&random, 1, limit + MORE_TERMS);
    if (one_in(&random, 2))
        place_apart(&random, trial);
    else
        place_over(&random, trial, limit);
    for (size_t i = 0; i < ROOM; i++) trial->room[i] = (uint32_t)next_word(&random);
    for (uint32_t i = 0, first = below(&random, SOURCES); i < SOURCES; i++) {
        struct place place = trial->place[(first + i) % SOURCES];
        fill_list(&random, trial->m, trial->room + GUARD + place.at, place.length);
    }
}

static void set_case(struct trial *trial, size_t number) {
    if (number < FIGURE_COUNT)
        set_figure(trial, &FIGURES[number]);
    else
        set_random(trial, number - FIGURE_COUNT);
}

/* Whether a version passes every case; tells the first that it does not pass, and how many they are. */
static bool passes_all(const struct version *version) {
    static struct trial trial;
    struct fault fault;
    size_t told = 0;
    printf("%-20s %-42s ", version->name, version->what);
    for (size_t number = 0; number < CASES; number++) {
        set_case(&trial, number);
        if (passes(version->run, &trial, &fault) || told++) continue;
        printf("case %zu: ", number);
        tell(&trial, &fault);
        printf("; ");
    }
    printf("told by %zu of %d cases\n", told, (int)CASES);
    return !told;
}

/* ---- the stack */

enum { STACK = 1 << 16, PAINT = 0xA5 };

static unsigned char stack[STACK] __attribute__((aligned(64)));
static ucontext_t here, there;
static transposed_product *measured;
static struct trial measured_trial;
static size_t lowest;

/* Looks for the lowest byte that the call wrote while it stands above it, before anything else is called. */
static void run_measured(void) {
    call(measured, &measured_trial, measured_trial.room + GUARD);
    for (lowest = 0; lowest < sizeof stack && stack[lowest] == PAINT;) lowest++;
}

static size_t lowest_byte(transposed_product *run) {
    measured = run;
    memset(stack, PAINT, sizeof stack);
    if (getcontext(&there) != 0) abort();
    there.uc_stack.ss_sp = stack;
    there.uc_stack.ss_size = sizeof stack;
    there.uc_link = &here;
    makecontext(&there, run_measured, 0);
    if (swapcontext(&here, &there) != 0) abort();
    return lowest;
}

/* What a call takes below what every call takes, which is its arguments and the place to return to. */
static size_t stack_of(transposed_product *run) {
    struct random random = random_of_case(SEED, CASES);
    static const size_t lengths[PLACES] = {128, 128, 256, 256, 128};
    size_t at = 0;
    measured_trial.m = 2147483647;
    for (int i = 0; i < PLACES; i++) {
        measured_trial.place[i] = (struct place){at, lengths[i]};
        at += lengths[i];
    }
    for (size_t i = 0; i < ROOM; i++) measured_trial.room[i] = below(&random, measured_trial.m);
    return lowest_byte(untouched) - lowest_byte(run);
}

static bool within(const struct version *version) {
    size_t bytes = stack_of(version->run);
    printf("%-20s takes %zu bytes of stack, of %d that are granted\n", version->name, bytes, (int)MOST_STACK);
    return bytes <= MOST_STACK;
}

/* ---- all of it */

static bool as_it_should(const struct version *version) {
    bool passed = passes_all(version);
    if (version->kind == WRONG) return !passed;
    return passed && within(version) == (version->kind == RIGHT);
}

static int failed(const char *why) {
    fflush(stdout);
    fprintf(stderr, "transposed: %s\n", why);
    return 1;
}

static int one_alone(const char *name) {
    for (const struct version *version = VERSIONS; version->name; version++)
        if (!strcmp(version->name, name)) return !(passes_all(version) && within(version));
    fprintf(stderr, "transposed: there is no version '%s'\n", name);
    return 2;
}

int main(int argc, char **argv) {
    alarm(MOST_SECONDS); /* a version that does not end is ended, and the run fails */
    const struct version library = {"library", "products::transposed", RIGHT, compiled_transposed};
    if (argc > 2) {
        fprintf(stderr, "usage: transposed [VERSION]\n");
        return 2;
    }
    if (argc == 2) return one_alone(argv[1]);
    if (!as_it_should(&library)) return failed("the library's function is wrong, or takes more stack than is granted");
    for (const struct version *version = VERSIONS; version->name; version++) {
        if (as_it_should(version)) continue;
        if (version->kind == WRONG) return failed("no case tells that version");
        return failed(version->kind == RIGHT ? "that version should pass" : "that version should be told by its stack alone");
    }
    return 0;
}
