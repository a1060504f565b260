/* The tests 3 to 6, 9 to 12, 17 and 18 of a job, each over all rows and entries, with the numbers and where they stand.
 *
 * A test is a function that returns its refusal number, or 0 if it finds no fault, and prints its faults, a line each, unless `out` is
 * NULL. A test that makes no sense before another is mended (an inverse where m is out of range, the curve's length where the number
 * of rows is not known) finds none. */
#include <inttypes.h>
#include "faults.h"
#include "zahupnik_refusal.h"

static const char *plural(size_t count) { return count == 1 ? "" : "s"; }

static uint32_t modulus_of(const struct job *job) { return job->lines[MOD].numbers[0]; }
static int has_modulus(const struct job *job) { return modulus_of(job) >= 2 && modulus_of(job) <= ZAHUPNIK_GREATEST_MODULUS; }
static int has_rows(const struct job *job) {
    return job->lines[A].length == job->lines[B].length && job->lines[B].length == job->lines[C].length;
}

static uint32_t test_modulus(FILE *out, const struct job *job) {
    if (has_modulus(job)) return 0;
    if (out)
        fprintf(out, "line 1, place %zu: mod is %" PRIu32 "; it is from 2 to %" PRIu32 "\n", job->lines[MOD].places[0], modulus_of(job),
                ZAHUPNIK_GREATEST_MODULUS);
    return ZAHUPNIK_REFUSED_MODULUS;
}

static uint32_t test_lengths(FILE *out, const struct job *job) {
    if (has_rows(job)) return 0;
    if (out)
        for (int i = A; i <= C; i++)
            fprintf(out, "line %d: %s has %zu number%s\n", i + 1, keys[i], job->lines[i].length, plural(job->lines[i].length));
    return ZAHUPNIK_REFUSED_LENGTHS;
}

static uint32_t test_rows(FILE *out, const struct job *job) {
    size_t rows = job->lines[A].length;
    if (!has_rows(job) || rows <= ZAHUPNIK_MOST_ROWS) return 0;
    if (out) fprintf(out, "lines 2 to 4: there are %zu rows; a family has at most %d\n", rows, ZAHUPNIK_MOST_ROWS);
    return ZAHUPNIK_REFUSED_ROWS;
}

static uint32_t test_curve_length(FILE *out, const struct job *job) {
    size_t length = job->lines[V].length, rows = job->lines[A].length;
    if (!takes_curve(job->operation)) {
        if (length == 0) return 0;
        if (out)
            fprintf(out, "line 6: v= has %zu number%s; for %s it has none\n", length, plural(length), operations[job->operation]);
        return ZAHUPNIK_REFUSED_CURVE_LENGTH;
    }
    if (!has_rows(job) || rows > ZAHUPNIK_MOST_ROWS || length == rows + 1) return 0;
    if (out)
        fprintf(out, "line 6: v= has %zu number%s; with r = %zu row%s it has n = r + 1 = %zu\n", length, plural(length), rows, plural(rows),
                rows + 1);
    return ZAHUPNIK_REFUSED_CURVE_LENGTH;
}

/* Whether the family needs an inverse of the number in this line and row, counted from 0: c_1 needs none, nor does any b. */
static int needs_inverse(int line, size_t row) { return line == A || (line == C && row > 0); }

/* Says after a number why it has no inverse modulo m; says nothing and returns 0 if it has one. */
static uint32_t without_inverse(FILE *out, uint32_t m, uint32_t number) {
    uint32_t inverse = 0, factor = 0;
    if (zahupnik_invert(m, number, &inverse, &factor) != ZAHUPNIK_REFUSED_NO_INVERSE) return 0;
    if (out && factor == m) fprintf(out, "zero, and zero has no inverse");
    if (out && factor != m) fprintf(out, "%" PRIu32 ", which shares the factor %" PRIu32 " with m = %" PRIu32, number, factor, m);
    return factor;
}

static uint32_t test_entries(FILE *out, const struct job *job) {
    uint32_t m = modulus_of(job), found = 0;
    if (!has_modulus(job)) return 0;
    size_t most = 0;
    for (int i = A; i <= C; i++)
        if (job->lines[i].length > most) most = job->lines[i].length;
    for (size_t row = 0; row < most; row++)
        for (int i = A; i <= C; i++) {
            const struct list *list = &job->lines[i];
            if (row >= list->length || list->numbers[row] < m) continue;
            found = ZAHUPNIK_REFUSED_ENTRY;
            if (!out) return found;
            uint32_t remainder = list->numbers[row] % m;
            fprintf(out, "row %zu: %c is %" PRIu32 ", not below m = %" PRIu32 "; its remainder is ", row + 1, *keys[i],
                    list->numbers[row], m);
            if (!needs_inverse(i, row) || !without_inverse(out, m, remainder)) fprintf(out, "%" PRIu32, remainder);
            fprintf(out, " (line %d, place %zu)\n", i + 1, list->places[row]);
        }
    return found;
}

/* Every number of a line that is below m and needs an inverse that it has not. The lowest row of these decides between the two refusals. */
static uint32_t test_inverses(FILE *out, const struct job *job, int line, uint32_t zero, uint32_t shared) {
    const struct list *list = &job->lines[line];
    uint32_t m = modulus_of(job), found = 0;
    if (!has_modulus(job)) return 0;
    for (size_t row = 0; row < list->length; row++) {
        uint32_t number = list->numbers[row];
        if (!needs_inverse(line, row) || number >= m || !without_inverse(NULL, m, number)) continue;
        if (!found) found = number == 0 ? zero : shared;
        if (!out) return found;
        fprintf(out, "row %zu: %c is ", row + 1, *keys[line]);
        without_inverse(out, m, number);
        fprintf(out, " (line %d, place %zu)\n", line + 1, list->places[row]);
    }
    return found;
}
static uint32_t test_a_inverses(FILE *out, const struct job *job) {
    return test_inverses(out, job, A, ZAHUPNIK_REFUSED_A_ZERO, ZAHUPNIK_REFUSED_A_INVERSE);
}
static uint32_t test_c_inverses(FILE *out, const struct job *job) {
    return test_inverses(out, job, C, ZAHUPNIK_REFUSED_C_ZERO, ZAHUPNIK_REFUSED_C_INVERSE);
}

static uint32_t test_curve_entries(FILE *out, const struct job *job) {
    const struct list *curve = &job->lines[V];
    uint32_t m = modulus_of(job), found = 0;
    if (!has_modulus(job) || !takes_curve(job->operation)) return 0;
    const char *belongs = job->operation == ZAHUPNIK_EXPAND ? "F_" : "x^";
    for (size_t i = 0; i < curve->length; i++) {
        if (curve->numbers[i] < m) continue;
        found = ZAHUPNIK_REFUSED_CURVE_ENTRY;
        if (!out) return found;
        fprintf(out, "curve[%zu], which belongs to %s%zu, is %" PRIu32 ", not below m = %" PRIu32 "; its remainder is %" PRIu32
                " (line 6, place %zu)\n", i, belongs, i, curve->numbers[i], m, curve->numbers[i] % m, curve->places[i]);
    }
    return found;
}

void print_faults(FILE *out, const struct job *job, uint32_t number) {
    static uint32_t (*const tests[])(FILE *, const struct job *) = {
        test_modulus, test_lengths,    test_rows,       test_curve_length,
        test_entries, test_a_inverses, test_c_inverses, test_curve_entries,
    };
    int headed = 0;
    for (size_t i = 0; i < sizeof tests / sizeof *tests; i++) {
        uint32_t found = tests[i](NULL, job);
        if (found == 0) continue;
        if (found != number) {
            if (!headed++) fprintf(out, "when that is mended, these are next:\n");
            fprintf(out, "%" PRIu32 ": %s\n", found, zahupnik_refusal(found));
        }
        tests[i](out, job);
    }
}
