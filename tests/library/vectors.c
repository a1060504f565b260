/* Runs the reference's vectors through the library and compares.
 *
 * usage: vectors IN OUT
 *
 * IN and OUT are what tests/reference/vectors.py writes: a line of decimal numbers for each case, and the line that the call must
 * give. Prints how many cases of each call agree and exits 0; shows the first case that differs and exits 1; exits 2 if a file
 * cannot be read or is not of the form.
 */
#define PROGRAM "vectors"
#include "vector_files.h"

/* The calls: the number in IN, the function's name, and what it is lent. From FIRST_WITH_WORK on they are lent a working list. */
#define CALLS(CALL)                                      \
    CALL(1, plain_expand, FAMILY, CURVE, OUTPUT)         \
    CALL(2, plain_adjoint, FAMILY, CURVE, OUTPUT)        \
    CALL(3, plain_decompose, FAMILY, CURVE, OUTPUT)      \
    CALL(4, norms, FAMILY, OUTPUT)                       \
    CALL(5, invert, m, v.entries[0], INVERTED)           \
    CALL(6, tree_expand, FAMILY, CURVE, OUTPUT, WORK)    \
    CALL(7, tree_adjoint, FAMILY, CURVE, OUTPUT, WORK)   \
    CALL(8, tree_decompose, FAMILY, CURVE, OUTPUT, WORK) \
    CALL(9, moments, FAMILY, OUTPUT, WORK)
#define FAMILY m, a.entries, a.length, b.entries, b.length, c.entries, c.length
#define CURVE v.entries, v.length
#define OUTPUT output.entries, output.length
#define WORK work.entries, work.length
#define INVERTED output.entries, factor.entries
enum { INVERT = 5, FIRST_WITH_WORK = 6 };

#define NAME(number, name, ...) [number] = #name,
static const char *const NAMES[] = {CALLS(NAME)};
enum { NUMBERS = sizeof NAMES / sizeof *NAMES };

static unsigned long agreed[NUMBERS];

/* OUT says next whether a number was handed out, by 1 and the number, or by 0: then the lent one is as it was. */
static void expect_handed(const char *what, struct list lent) {
    uint32_t count = next_number(&out);
    if (count > 1) unusable(&out, "neither one number handed out nor none");
    expect(what, 0, lent.entries[0], count ? next_number(&out) : UINT32_MAX);
}

/* Runs the case of a line of IN, and holds what it gives against the line of OUT. */
static void run_case(void) {
    unsigned call = next_number(&in);
    uint32_t m = next_number(&in);
    struct list a = next_list(&in), b = next_list(&in), c = next_list(&in), v = next_list(&in);
    size_t output_length = next_number(&in), work_length = next_number(&in);
    end_line(&in);
    if (call < FIRST_WITH_WORK && work_length) unusable(&in, "a working list, which the call is not lent");
    if (call == INVERT && v.length != 1) unusable(&in, "not one number to invert");

    /* the inverse is written to one number, and the factor to another */
    struct list output = make_output(call == INVERT ? 1 : output_length);
    struct list factor = make_output(call == INVERT), work = make_work(work_length);
    uint32_t returned = 0;
#define RUN(number, name, ...) \
    case number: returned = zahupnik_##name(__VA_ARGS__); break;
    switch (call) {
        CALLS(RUN)
    default: unusable(&in, "a call that this program does not know");
    }

    expect_next("the number returned", 0, returned);
    if (call == INVERT) {
        expect_handed("the inverse", output);
        expect_handed("the factor", factor);
    } else {
        expect_output(output);
    }
    if (call >= FIRST_WITH_WORK) expect_work(work);
    end_line(&out);
    free_list(a);
    free_list(b);
    free_list(c);
    free_list(v);
    free_list(output);
    free_list(factor);
    free_list(work);
    agreed[call]++;
}

int main(int argc, char **argv) {
    unsigned long cases = run_files(argc, argv, run_case);
    printf("vectors: %lu cases agree (", cases);
    for (unsigned call = 1; call < NUMBERS; call++) printf("%s%s %lu", call == 1 ? "" : ", ", NAMES[call], agreed[call]);
    printf(")\n");
    return 0;
}
