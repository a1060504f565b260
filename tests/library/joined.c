/* Runs the reference's vectors for the calls on two channels through the library and compares.
 *
 * usage: joined IN OUT
 *
 * IN and OUT are the reference's: a line of decimal numbers for each case, and the line that the call must give. What expand_join gives
 * has to be put together from its parts too: plain_expand on the remainders of each channel, and join on the two lists. Prints how many
 * cases of each call agree and exits 0; shows the first that differs and exits 1; exits 2 if a file cannot be read or is not of the form.
 */
#define PROGRAM "joined"
#include "vector_files.h"

/* The calls by their numbers in IN. */
enum { JOIN = 1, EXPAND_JOIN = 2 };

enum { MOST = ZAHUPNIK_MOST_ROWS + 1 };

static unsigned long agreed[EXPAND_JOIN + 1], finished[EXPAND_JOIN + 1];

/* The call returned the first number on the line of OUT and left the output that stands there. */
static void expect_answer(unsigned call, uint32_t returned, struct wide_list output) {
    expect_next("the number returned", 0, returned);
    expect_wide_output(output);
    end_line(&out);
    agreed[call]++;
    finished[call] += returned == ZAHUPNIK_FINISHED;
}

static void run_join(uint32_t m1, uint32_t m2) {
    char *lists = in.at;
    struct list first = next_list(&in), second = next_list(&in);
    struct wide_list output = make_wide_output(next_number(&in));
    end_line(&in);
    uint32_t returned = zahupnik_join(m1, m2, first.entries, first.length, second.entries, second.length, output.entries, output.length);
    expect_answer(JOIN, returned, output);
    in.at = lists;
    expect_unchanged("the first list", first);
    expect_unchanged("the second list", second);
    free_list(first);
    free_list(second);
    free_wide_list(output);
}

struct rows {
    struct signed_list a, b, c, curve;
};

static const uint32_t *remainders(struct signed_list list, uint32_t m, uint32_t *room) {
    for (size_t i = 0; i < list.length; i++) {
        int64_t rest = list.entries[i] % (int64_t)m;
        room[i] = (uint32_t)(rest < 0 ? rest + m : rest);
    }
    return room;
}

/* Expand modulo one channel number, as the library does it, of rows that expand_join took. */
static void expand(const struct rows *x, uint32_t m, uint32_t *list) {
    uint32_t a[MOST], b[MOST], c[MOST], curve[MOST];
    size_t r = x->a.length, n = r + 1;
    uint32_t number = zahupnik_plain_expand(m, remainders(x->a, m, a), r, remainders(x->b, m, b), r, remainders(x->c, m, c), r,
                                            remainders(x->curve, m, curve), n, list, n);
    expect("the number of plain_expand on the remainders", 0, number, ZAHUPNIK_FINISHED);
}

static void expect_parts(const struct rows *x, uint32_t m1, uint32_t m2, struct wide_list output) {
    uint32_t first[MOST], second[MOST];
    int64_t joined[MOST];
    size_t n = output.length;
    expand(x, m1, first);
    expand(x, m2, second);
    expect("the number of join on the two lists", 0, zahupnik_join(m1, m2, first, n, second, n, joined, n), ZAHUPNIK_FINISHED);
    for (size_t i = 0; i < n; i++) expect("what join makes of the two lists", i, joined[i], output.entries[i]);
}

static void run_expand_join(uint32_t m1, uint32_t m2) {
    struct rows x;
    char *lists = in.at;
    x.a = next_signed_list(&in);
    x.b = next_signed_list(&in);
    x.c = next_signed_list(&in);
    x.curve = next_signed_list(&in);
    struct wide_list output = make_wide_output(next_number(&in));
    end_line(&in);
    uint32_t returned = zahupnik_expand_join(m1, m2, x.a.entries, x.a.length, x.b.entries, x.b.length, x.c.entries, x.c.length,
                                             x.curve.entries, x.curve.length, output.entries, output.length);
    expect_answer(EXPAND_JOIN, returned, output);
    if (returned == ZAHUPNIK_FINISHED) expect_parts(&x, m1, m2, output);
    in.at = lists;
    expect_signed_unchanged("the list a", x.a);
    expect_signed_unchanged("the list b", x.b);
    expect_signed_unchanged("the list c", x.c);
    expect_signed_unchanged("the curve", x.curve);
    free_signed_list(x.a);
    free_signed_list(x.b);
    free_signed_list(x.c);
    free_signed_list(x.curve);
    free_wide_list(output);
}

/* Runs the case of a line of IN, and holds what it gives against the line of OUT. */
static void run_case(void) {
    uint32_t call = next_number(&in), m1 = next_number(&in), m2 = next_number(&in);
    switch (call) {
    case JOIN: run_join(m1, m2); break;
    case EXPAND_JOIN: run_expand_join(m1, m2); break;
    default: unusable(&in, "a call that this program does not know");
    }
}

int main(int argc, char **argv) {
    unsigned long cases = run_files(argc, argv, run_case);
    printf("joined: %lu cases agree (join %lu, of them %lu finished; expand_join %lu, of them %lu finished)\n", cases, agreed[JOIN],
           finished[JOIN], agreed[EXPAND_JOIN], finished[EXPAND_JOIN]);
    return 0;
}
