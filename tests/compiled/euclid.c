/* Counts the divisions that each call runs through, for families that differ in c_1 alone: as many for every c_1, so that Euclid's
 * algorithm is run once for a list and not for each row, whether c_1 has an inverse or not. Of join, for lists that differ in length: as
 * many for every length, so that one inverse is found for a list, and no remainder is found by a division for each entry. Of expand_join,
 * no more than its parts take, plain_expand on either channel and join, and one for each number that it reduces, for each channel, those of
 * the a and the c twice, and a run of the algorithm for each column of rows and channel.
 *
 * usage: euclid <ADDRESSES
 *
 * Standard input has the addresses of this program's own divisions, in hexadecimal, one a line. A breakpoint stands at each while a call
 * runs. A refusal by the last a or the last c, zero or with a factor of m, is the only one that looks for its row, entry by entry: it shows
 * what a run of the algorithm for each row would take.
 *
 * Prints the counts and exits 0; exits 1 if a call takes more for one c_1 or length than for another, if expand_join takes more than its
 * parts, if a refusal takes no more than that or has another number, or if there is no division to count.
 */
#include <inttypes.h>
#include <stdio.h>
#include <stdlib.h>

#include "breakpoints.h"
#include "zahupnik.h"

/* 2147483646 is 2 3^2 7 11 31 151 331. */
enum { MODULUS = 2147483646, ROWS = ZAHUPNIK_MOST_ROWS, N = ROWS + 1, MOMENTS = 2 * ROWS + 1 };

static void cannot(const char *what) {
    fprintf(stderr, "euclid: %s\n", what);
    exit(1);
}

/* ---- the calls */

static uint32_t a[ROWS], b[ROWS], c[ROWS], curve[N], output[MOMENTS], work[ZAHUPNIK_LEAST_WORK];

#define FAMILY MODULUS, a, ROWS, b, ROWS, c, ROWS
#define CALL(name, ...) \
    static uint32_t name(void) { return zahupnik_##name(FAMILY, __VA_ARGS__); }
CALL(plain_expand, curve, N, output, N)
CALL(plain_adjoint, curve, N, output, N)
CALL(plain_decompose, curve, N, output, N)
CALL(norms, output, N)
CALL(tree_expand, curve, N, output, N, work, ZAHUPNIK_LEAST_WORK)
CALL(tree_adjoint, curve, N, output, N, work, ZAHUPNIK_LEAST_WORK)
CALL(tree_decompose, curve, N, output, N, work, ZAHUPNIK_LEAST_WORK)
CALL(moments, output, MOMENTS, work, ZAHUPNIK_LEAST_WORK)

static const struct call {
    const char *name;
    uint32_t (*run)(void);
} calls[] = {
    {"plain_expand", plain_expand}, {"plain_adjoint", plain_adjoint}, {"plain_decompose", plain_decompose}, {"norms", norms},
    {"tree_expand", tree_expand},   {"tree_adjoint", tree_adjoint},   {"tree_decompose", tree_decompose},   {"moments", moments},
};

/* The divisions of a call on the family with these for its first and last c and its last a; it has to return this number. */
static unsigned long counted(const struct call *call, uint32_t first_c, uint32_t last_c, uint32_t last_a, uint32_t number) {
    c[0] = first_c;
    c[ROWS - 1] = last_c;
    a[ROWS - 1] = last_a;
    begin_count();
    uint32_t returned = call->run();
    end_count();
    if (returned != number) {
        fprintf(stderr, "euclid: %s returns %" PRIu32 " and not %" PRIu32 "\n", call->name, returned, number);
        exit(1);
    }
    printf(" %8lu", passed[0]);
    return passed[0];
}

static int holds(const struct call *call) {
    static const uint32_t others[] = {MODULUS - 1, 0, 6, 2};
    static const struct {
        uint32_t last_c, last_a, number;
    } refused[] = {{0, 1, ZAHUPNIK_REFUSED_C_ZERO}, {6, 1, ZAHUPNIK_REFUSED_C_INVERSE}, {1, 0, ZAHUPNIK_REFUSED_A_ZERO}, {1, 6, ZAHUPNIK_REFUSED_A_INVERSE}};
    int right = 1;
    printf("%-16s", call->name);
    unsigned long wanted = counted(call, 1, 1, 1, ZAHUPNIK_FINISHED);
    for (size_t i = 0; i < sizeof others / sizeof *others; i++)
        right = counted(call, others[i], 1, 1, ZAHUPNIK_FINISHED) == wanted && right;
    for (size_t i = 0; i < sizeof refused / sizeof *refused; i++)
        right = counted(call, 1, refused[i].last_c, refused[i].last_a, refused[i].number) > wanted + ROWS && right;
    printf("\n");
    return right;
}

/* ---- two channels */

/* Euclid's algorithm takes at most 45 divisions for numbers below 2^31. The a and the c are reduced twice, to be tested and to expand. */
enum { SECOND_MODULUS = 2147483647, LONGEST = 4096, REDUCED = 2 * (5 * ROWS + N), COLUMNS = 2 * 2, LONGEST_EUCLID = 45 };

static uint32_t first[LONGEST], second[LONGEST], modulus;
static int32_t signed_a[ROWS], signed_b[ROWS], signed_c[ROWS], signed_curve[N];
static int64_t joined[LONGEST];
static size_t length;

static uint32_t join(void) { return zahupnik_join(MODULUS, SECOND_MODULUS, first, length, second, length, joined, length); }

static uint32_t expand_join(void) {
    return zahupnik_expand_join(MODULUS, SECOND_MODULUS, signed_a, ROWS, signed_b, ROWS, signed_c, ROWS, signed_curve, N, joined, N);
}

/* On the lists of the other calls, which either channel takes. */
static uint32_t plain_expand_modulo(void) { return zahupnik_plain_expand(modulus, a, ROWS, b, ROWS, c, ROWS, curve, N, output, N); }

static unsigned long counted_alone(const char *name, uint32_t (*run)(void)) {
    begin_count();
    uint32_t returned = run();
    end_count();
    if (returned != ZAHUPNIK_FINISHED) {
        fprintf(stderr, "euclid: %s returns %" PRIu32 "\n", name, returned);
        exit(1);
    }
    printf(" %8lu", passed[0]);
    return passed[0];
}

static unsigned long counted_join(size_t entries) {
    length = entries;
    return counted_alone("join", join);
}

static unsigned long counted_modulo(uint32_t m) {
    modulus = m;
    return counted_alone("plain_expand", plain_expand_modulo);
}

static int join_holds(void) {
    static const size_t lengths[] = {1, 2, N, 1000, LONGEST};
    int right = 1;
    printf("%-16s %8s %8s %8s %8s %8s\n%-16s", "length", "1", "2", "128", "1000", "4096", "join");
    unsigned long wanted = counted_join(lengths[0]);
    for (size_t i = 1; i < sizeof lengths / sizeof *lengths; i++) right = counted_join(lengths[i]) == wanted && right;
    printf("\n");
    return right;
}

static int expand_join_holds(void) {
    static const int32_t first_c[] = {1, -1, 0, 6, INT32_MIN};
    int right = 1;
    printf("%-16s", "its parts");
    unsigned long most = REDUCED + COLUMNS * LONGEST_EUCLID + counted_modulo(MODULUS) + counted_modulo(SECOND_MODULUS) + counted_join(N);
    printf("\n%-16s %8s %8s %8s %8s %8s %8s\n%-16s", "c_1", "1", "-1", "0", "6", "-2^31", "at most", "expand_join");
    for (size_t i = 0; i < sizeof first_c / sizeof *first_c; i++) {
        signed_c[0] = first_c[i];
        right = counted_alone("expand_join", expand_join) <= most && right;
    }
    printf(" %8lu\n", most);
    return right;
}

/* Remainders for both lists, and the rows and the curve of the other calls with every second number below zero. */
static void make_channels(void) {
    for (size_t i = 0; i < LONGEST; i++) {
        first[i] = (uint32_t)(MODULUS - 1 - i * 300007);
        second[i] = (uint32_t)(i * 500009);
    }
    for (size_t i = 0; i < N; i++) {
        int32_t sign = i % 2 ? 1 : -1;
        if (i < ROWS) {
            signed_a[i] = sign * (int32_t)a[i];
            signed_b[i] = -sign * (int32_t)b[i];
            signed_c[i] = sign * (int32_t)c[i];
        }
        signed_curve[i] = sign * (int32_t)curve[i];
    }
}

int main(void) {
    uintptr_t address;
    int all = 1;
    while (scanf("%" SCNxPTR, &address) == 1) watch(address, 0);
    /* powers of 5 and of 13, which have inverses */
    for (uint64_t i = 0, x = 5, y = 13; i < ROWS; i++, x = x * 5 % MODULUS, y = y * 13 % MODULUS) {
        a[i] = (uint32_t)x;
        b[i] = curve[i] = (uint32_t)(x * y % MODULUS);
        c[i] = (uint32_t)y;
    }
    printf("%-16s %8s %8s %8s %8s %8s %8s %8s %8s %8s\n", "divisions", "c_1 = 1", "m - 1", "0", "6", "2", "c_r = 0", "6", "a_r = 0", "6");
    for (size_t i = 0; i < sizeof calls / sizeof *calls; i++) all = holds(&calls[i]) && all;
    if (!all) cannot("a call's divisions depend on c_1, or a refusal by the last row takes no more than an answer");
    a[ROWS - 1] = c[0] = c[ROWS - 1] = 1;
    make_channels();
    if (!join_holds()) cannot("the divisions of join depend on the length of its lists");
    if (!expand_join_holds()) cannot("expand_join takes more divisions than its parts, its remainders and its columns");
    return 0;
}
