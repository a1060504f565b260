/* Asks the text call for its number and says the rest in words. The number is the call's own: what is found here besides explains it and
 * never decides it. */
#include <inttypes.h>
#include "explain.h"
#include "faults.h"
#include "job.h"
#include "slips.h"
#include "zahupnik_refusal.h"

enum { FEW = 8 }; /* as many numbers, or rows, are shown */

static void print_length(FILE *out, const struct input *input) {
    if (input->bytes >= MOST_COUNTED)
        fprintf(out, "the text has %d bytes or more, where counting stopped; a job has at most %d\n", MOST_COUNTED, ZAHUPNIK_MOST_TEXT);
    else
        fprintf(out, "the text has %zu bytes; a job has at most %d\n", input->bytes, ZAHUPNIK_MOST_TEXT);
    size_t lines = input->ended_lines + (input->open_line > 0);
    fprintf(out, "it has %zu line%s; a job has 6\n", lines, lines == 1 ? "" : "s");
    fprintf(out, "its longest line is line %zu, of %zu bytes with its end\n", input->longest_line, input->longest_line_bytes);
}

static void print_list(FILE *out, const char *name, const struct list *list) {
    fprintf(out, "the %s", name);
    if (list->length > FEW) {
        fprintf(out, " of %zu numbers", list->length);
        return;
    }
    for (size_t i = 0; i < list->length; i++) fprintf(out, " %" PRIu32, list->numbers[i]);
}

static void print_family(FILE *out, const struct job *job) {
    size_t rows = job->lines[A].length;
    fprintf(out, "a family of %zu row%s, modulo %" PRIu32, rows, rows == 1 ? "" : "s", job->lines[MOD].numbers[0]);
}

/* The polynomials of the family, where they are few. */
static void print_polynomials(FILE *out, const struct job *job) {
    const uint32_t *a = job->lines[A].numbers, *b = job->lines[B].numbers, *c = job->lines[C].numbers;
    size_t rows = job->lines[A].length;
    if (rows > FEW) return;
    fprintf(out, "F_0 = 1\n");
    for (size_t i = 1; i <= rows; i++) {
        fprintf(out, "F_%zu = (%" PRIu32 " x + %" PRIu32 ") F_%zu", i, a[i - 1], b[i - 1], i - 1);
        if (i > 1) fprintf(out, " + %" PRIu32 " F_%zu", c[i - 1], i - 2);
        fprintf(out, "\n");
    }
}

static void print_job(FILE *out, const struct job *job) {
    const struct list *curve = &job->lines[V];
    size_t n = job->lines[A].length + 1, numbers = job->operation == ZAHUPNIK_MOMENTS ? 2 * n - 1 : n;
    switch (job->operation) {
    case ZAHUPNIK_EXPAND:
        fprintf(out, "Expand: the coefficients of x^0 to x^%zu of ", n - 1);
        print_list(out, "curve", curve);
        fprintf(out, " on ");
        break;
    case ZAHUPNIK_ADJOINT:
        fprintf(out, "Adjoint, transposed Expand: of ");
        print_list(out, "list", curve);
        fprintf(out, " the sums with the coefficients of F_0, and so on to F_%zu, of ", n - 1);
        break;
    case ZAHUPNIK_DECOMPOSE:
        fprintf(out, "Decompose: the curve that has ");
        print_list(out, "coefficients", curve);
        fprintf(out, " of x^0 to x^%zu, on ", n - 1);
        break;
    case ZAHUPNIK_MOMENTS: fprintf(out, "Moments: the moments 0 to %zu of ", numbers - 1); break;
    default: fprintf(out, "Norms: the norms 0 to %zu of ", numbers - 1);
    }
    print_family(out, job);
    fprintf(out, "\n");
    print_polynomials(out, job);
    fprintf(out, "channel answers it with %zu number%s\n", numbers, numbers == 1 ? "" : "s");
}

uint32_t explain(FILE *out, const struct input *input) {
    static uint8_t answer[ZAHUPNIK_LEAST_TEXT_OUTPUT];
    static uint32_t work[ZAHUPNIK_LEAST_WORK];
    static struct job job;
    uint32_t length = 0;
    uint32_t number =
        zahupnik_convert_text(input->text, input->length, answer, sizeof answer, work, sizeof work / sizeof *work, &length);
    if (number == ZAHUPNIK_FINISHED)
        fprintf(out, "accepted: ");
    else
        fprintf(out, "refused=%" PRIu32 ": %s\n", number,
                number == ZAHUPNIK_REFUSED_TEXT_FORM ? "the text is not of its form: mend what is named below" : zahupnik_refusal(number));
    if (number == ZAHUPNIK_REFUSED_TEXT_TOO_LONG)
        print_length(out, input);
    else if (number == ZAHUPNIK_REFUSED_TEXT_FORM) {
        if (tell_slips(out, input->text, input->length) == 0) fprintf(out, "where it is not of the form this program does not see\n");
    } else if (!read_job(input->text, input->length, &job))
        fprintf(out, "what the job says this program does not see\n");
    else if (number == ZAHUPNIK_FINISHED)
        print_job(out, &job);
    else
        print_faults(out, &job, number);
    return number;
}
