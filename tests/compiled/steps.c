/* Counts what products::transposed runs through: in every case it writes once for each wanted term, and multiplies what the wanted terms ask
 * for, without the zeros that end both multipliers or both lists. So it forms the wanted terms alone, and each once. Then shows that versions in
 * C that give the same terms and do more are told by these counts (tests/compiled/steps_versions.c).
 *
 * usage: steps <PLACES
 *
 * Standard input has a line for each place to be counted: the function, `write` or `multiply`, and the address in hexadecimal, as
 * tests/compiled/one_pass.py --places prints them: whole-number multiplications, and writes elsewhere than to the stack. A breakpoint
 * stands at each while the function runs.
 *
 * A remainder multiplies too, as often for one term as for another: how often is taken from two cases, has to be little, and is held against the
 * others. A term without a product may take fewer. Prints a line for each function; exits 0 only if the library's and the right version in
 * C do as they should in every case, and each of the others does not.
 */
#include <inttypes.h>
#include <stdbool.h>
#include <stdio.h>
#include <stdlib.h>
#include <string.h>
#include <unistd.h>

#include "breakpoints.h"
#include "random.h"
#include "steps_versions.h"

transposed_product compiled_transposed;

static const struct {
    const char *name;
    transposed_product *run;
    bool right;
} functions[] = {
    {"compiled_transposed", compiled_transposed, true}, {"terms_alone", terms_alone, true},
    {"zeros_multiplied", zeros_multiplied, false},      {"whole_formed", whole_formed, false},
    {"two_rounds", two_rounds, false},                  {"put_back", put_back, false},
    {"kept_first", kept_first, false},
};
enum { FUNCTIONS = sizeof functions / sizeof *functions, KINDS = 2, MOST_SECONDS = 300 };
static const char *const kinds[KINDS] = {"write", "multiply"};
enum { WRITE, MULTIPLY };

static void cannot(const char *what) {
    fflush(stdout);
    fprintf(stderr, "steps: %s\n", what);
    exit(1);
}

/* Which of the names it is. */
static unsigned place_of(const char *name, const char *const *names, unsigned count) {
    for (unsigned i = 0; i < count; i++)
        if (!strcmp(names[i], name)) return i;
    cannot("it is told a place of another function, or of another kind");
    return 0;
}

static void read_places(void) {
    const char *names[FUNCTIONS];
    unsigned told[KINDS * FUNCTIONS] = {0};
    char line[256], name[64], kind[16], more;
    uintptr_t address;
    for (unsigned i = 0; i < FUNCTIONS; i++) names[i] = functions[i].name;
    while (fgets(line, sizeof line, stdin)) {
        if (sscanf(line, "%63s %15s %" SCNxPTR " %c", name, kind, &address, &more) != 3) cannot("it is told a place in another form");
        unsigned which = KINDS * place_of(name, names, FUNCTIONS) + place_of(kind, kinds, KINDS);
        told[which]++;
        watch(address, which);
    }
    for (unsigned i = 0; i < KINDS * FUNCTIONS; i++)
        if (!told[i]) cannot("it is told no place of a function, or of a kind");
}

/* ---- a case */

enum { MOST = 260, P = 0, Q = P + MOST, V = Q + MOST, U = V + MOST, TARGET = U + MOST, ROOM = TARGET + MOST };

/* The modulus; lengths, and how many numbers are left of both multipliers and of both lists without the zeros at their ends. */
struct sizes {
    uint32_t m;
    size_t n, pn, vn, used, held;
};

static uint32_t room[ROOM], wanted[ROOM], found[ROOM];

static void fill(uint32_t m, size_t at, size_t length, size_t kept, struct random *random) {
    for (size_t k = 0; k < length; k++) room[at + k] = k < kept ? 1 + below(random, m - 1) : 0;
}

/* The products of the wanted terms; each term has some, or not. */
static unsigned long products(const struct sizes *l, bool *each) {
    unsigned long sum = 0;
    *each = true;
    for (size_t i = 0; i < l->n; i++) {
        size_t left = i < l->held ? l->held - i : 0, pairs = left < l->used ? left : l->used;
        sum += 2 * pairs;
        *each = *each && pairs;
    }
    return sum;
}

static void set_case(const struct sizes *l) {
    struct random random = random_of_case(l->m, ((l->n * MOST + l->pn) * MOST + l->vn) * MOST + l->used + l->held);
    for (size_t k = 0; k < ROOM; k++) room[k] = (uint32_t)next_word(&random);
    fill(l->m, P, l->pn, l->used, &random), fill(l->m, Q, l->pn, l->used, &random);
    fill(l->m, V, l->vn, l->held, &random), fill(l->m, U, l->vn, l->held, &random);
    memcpy(wanted, room, sizeof room);
    for (size_t i = 0; i < l->n; i++) {
        uint64_t sum = 0;
        for (size_t j = 0; j < l->pn && i + j < l->vn; j++)
            sum = (sum + (uint64_t)room[P + j] * room[V + i + j] % l->m + (uint64_t)room[Q + j] * room[U + i + j] % l->m) % l->m;
        wanted[TARGET + i] = (uint32_t)sum;
    }
}

struct counts {
    unsigned long writes, multiplies;
};

static struct counts run_case(unsigned function, const struct sizes *l) {
    set_case(l);
    memcpy(found, room, sizeof room);
    begin_count();
    functions[function].run(l->m, found, TARGET, l->n, P, Q, l->pn, V, U, l->vn);
    end_count();
    if (memcmp(found, wanted, sizeof wanted)) cannot("a function gives other terms, or touches another place");
    return (struct counts){passed[KINDS * function + WRITE], passed[KINDS * function + MULTIPLY]};
}

/* ---- all cases */

/* The multiplications of a function besides the products: for each remainder, and once for all. */
struct beside {
    unsigned long term, once;
};
enum { MOST_FOR_TERM = 8, MOST_ONCE = 4 };

/* From cases in which the whole product has the wanted terms alone. */
static bool found_beside(unsigned function, struct beside *beside) {
    static const struct sizes one = {2147483647, 1, 1, 1, 1, 1}, two = {2147483647, 2, 1, 2, 1, 2};
    unsigned long first = run_case(function, &one).multiplies, second = run_case(function, &two).multiplies;
    beside->term = second - first - 2;
    beside->once = first - 2 - beside->term;
    if (beside->term <= MOST_FOR_TERM && beside->once <= MOST_ONCE) return true;
    printf("%-20s multiplies %lu times for one term of one product, and %lu times for two\n", functions[function].name, first, second);
    return false;
}

static bool as_it_should(unsigned function, const struct beside *beside, const struct sizes *l) {
    bool each;
    struct counts counts = run_case(function, l);
    unsigned long least = products(l, &each), most = least + beside->term * l->n + beside->once;
    if (counts.writes == l->n && counts.multiplies <= most && counts.multiplies >= (each ? most : least)) return true;
    printf("%-20s %zu terms of multipliers of %zu (%zu) and lists of %zu (%zu): writes %lu times, and multiplies %lu times, %lu to %lu wanted\n",
           functions[function].name, l->n, l->pn, l->used, l->vn, l->held, counts.writes, counts.multiplies, each ? most : least, most);
    return false;
}

/* The same with so many zeros at each end. */
static struct sizes with_zeros(struct sizes l, size_t zeros) {
    l.used = l.pn > zeros ? l.pn - zeros : 0;
    l.held = l.vn > zeros ? l.vn - zeros : 0;
    return l;
}

#define COUNT(list) (sizeof(list) / sizeof *(list))

static bool passes(unsigned function) {
    static const size_t terms[] = {1, 2, 5, 16, 33}, lengths[] = {0, 1, 2, 7, 16, 33}, zeros[] = {0, 1, 4};
    static const struct sizes longer[] = {{.n = 70, .pn = 40, .vn = 129}, {.n = 257, .pn = 3, .vn = 260}, {.n = 20, .pn = 130, .vn = 260},
                                          {.n = 130, .pn = 129, .vn = 257}};
    static const uint32_t moduli[] = {2147483647, 2147483646, 15};
    struct beside beside;
    unsigned cases = 0;
    if (!found_beside(function, &beside)) return false;
    for (size_t x = 0; x < COUNT(zeros); x++) {
        for (size_t i = 0; i < COUNT(terms); i++)
            for (size_t j = 0; j < COUNT(lengths); j++)
                for (size_t k = 1; k < COUNT(lengths); k++, cases++) {
                    struct sizes l = with_zeros((struct sizes){moduli[0], terms[i], lengths[j], lengths[k], 0, 0}, zeros[x]);
                    if (!as_it_should(function, &beside, &l)) return false;
                }
        for (size_t i = 0; i < COUNT(longer); i++, cases++) {
            struct sizes l = with_zeros(longer[i], zeros[x]);
            l.m = moduli[x];
            if (!as_it_should(function, &beside, &l)) return false;
        }
    }
    printf("%-20s writes once for each wanted term, and multiplies what these ask for, %lu times for each remainder and %lu times besides, in %u cases\n",
           functions[function].name, beside.term, beside.once, cases);
    return true;
}

int main(void) {
    alarm(MOST_SECONDS); /* a function that does not end is ended, and the run fails */
    read_places();
    for (unsigned function = 0; function < FUNCTIONS; function++)
        if (passes(function) != functions[function].right)
            cannot(functions[function].right ? "that function does more or less than the wanted terms ask for" : "that version is not told");
    return 0;
}
