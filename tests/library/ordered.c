/* Runs the reference's vectors for the calls that order a list by even and odd indices through the library and compares.
 *
 * usage: ordered IN OUT
 *
 * IN and OUT are the reference's: a line of decimal numbers for each case, and the line that the call must give. What a call hands out, the
 * other must take back; and a list or an output of length 0 is lent once more as NULL. Prints how many cases of each call agree and exits
 * 0; shows the first that differs and exits 1; exits 2 if a file cannot be read or is not of the form.
 */
#define PROGRAM "ordered"
#include "vector_files.h"

/* The calls by their numbers in IN. */
enum { EVEN_FIRST = 1, EVEN_BACK = 2 };

typedef uint32_t order(const uint32_t *list, size_t list_length, uint32_t *output, size_t output_length);
static order *const orders[] = {[EVEN_FIRST] = zahupnik_even_first, [EVEN_BACK] = zahupnik_even_back};

static unsigned long agreed[EVEN_BACK + 1], finished[EVEN_BACK + 1];

/* The call once more, with NULL for what has no entries: it returns the same number and leaves the other list as it is. */
static void run_with_null(uint32_t call, uint32_t returned, struct list list, struct list output) {
    struct list fresh = make_output(output.length);
    expect("the number returned, with NULL for a length of 0", 0,
           orders[call](list.length ? list.entries : NULL, list.length, output.length ? fresh.entries : NULL, output.length), returned);
    for (size_t i = 0; i < output.length; i++) expect("the output, with NULL for the list", i, fresh.entries[i], output.entries[i]);
    free_list(fresh);
}

/* The other call makes of the output what the first was lent. */
static void expect_taken_back(uint32_t call, struct list list, struct list output) {
    struct list back = make_output(list.length);
    uint32_t returned = orders[call == EVEN_FIRST ? EVEN_BACK : EVEN_FIRST](output.entries, output.length, back.entries, back.length);
    expect("the number of the other call on the output", 0, returned, ZAHUPNIK_FINISHED);
    for (size_t i = 0; i < list.length; i++) expect("what the other call makes of the output", i, back.entries[i], list.entries[i]);
    free_list(back);
}

/* Runs the case of a line of IN, and holds what it gives against the line of OUT. */
static void run_case(void) {
    uint32_t call = next_number(&in);
    if (call != EVEN_FIRST && call != EVEN_BACK) unusable(&in, "a call that this program does not know");
    char *lent = in.at;
    struct list list = next_list(&in), output = make_output(next_number(&in));
    end_line(&in);
    uint32_t returned = orders[call](list.entries, list.length, output.entries, output.length);
    expect_next("the number returned", 0, returned);
    expect_output(output);
    end_line(&out);
    in.at = lent;
    expect_unchanged("the list", list);
    if (!list.length || !output.length) run_with_null(call, returned, list, output);
    if (returned == ZAHUPNIK_FINISHED) expect_taken_back(call, list, output);
    free_list(list);
    free_list(output);
    agreed[call]++;
    finished[call] += returned == ZAHUPNIK_FINISHED;
}

int main(int argc, char **argv) {
    unsigned long cases = run_files(argc, argv, run_case);
    printf("ordered: %lu cases agree (even_first %lu, of them %lu finished; even_back %lu, of them %lu finished)\n", cases,
           agreed[EVEN_FIRST], finished[EVEN_FIRST], agreed[EVEN_BACK], finished[EVEN_BACK]);
    return 0;
}
