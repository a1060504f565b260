/* Runs the reference's vectors for the call that writes a job through the library and compares.
 *
 * usage: written IN OUT
 *
 * IN and OUT are what tests/reference/written.py writes: a line of decimal numbers for each job, and the line of the answer that
 * the call must give. A text that was written is then carried out: the text call must answer with the operation's result on the
 * lists. Prints how many jobs agree and exits 0; shows the first that differs and exits 1; exits 2 if a file cannot be read or is not
 * of the form.
 */
#define PROGRAM "written"
#include "vector_files.h"

static unsigned long finished;

struct job {
    uint32_t m, operation;
    struct list a, b, c, v;
};

#define FAMILY job->m, job->a.entries, job->a.length, job->b.entries, job->b.length, job->c.entries, job->c.length
#define CURVE job->v.entries, job->v.length

/* The text call finishes on the text, and answers with what the operation's own call gives on the lists, the plain way if it can. */
static void carry_out(const struct job *job, struct text_output text) {
    static uint32_t work[ZAHUPNIK_LEAST_WORK], result[2 * ZAHUPNIK_MOST_ROWS + 1];
    static char answer[ZAHUPNIK_LEAST_TEXT_OUTPUT + 1];
    size_t n = job->a.length + 1, entries = job->operation == ZAHUPNIK_MOMENTS ? 2 * n - 1 : n;
    uint32_t length, number = UINT32_MAX;
    switch (job->operation) {
    case ZAHUPNIK_EXPAND: number = zahupnik_plain_expand(FAMILY, CURVE, result, entries); break;
    case ZAHUPNIK_ADJOINT: number = zahupnik_plain_adjoint(FAMILY, CURVE, result, entries); break;
    case ZAHUPNIK_DECOMPOSE: number = zahupnik_plain_decompose(FAMILY, CURVE, result, entries); break;
    case ZAHUPNIK_MOMENTS: number = zahupnik_moments(FAMILY, result, entries, work, ZAHUPNIK_LEAST_WORK); break;
    case ZAHUPNIK_NORMS: number = zahupnik_norms(FAMILY, result, entries); break;
    }
    expect("the number of the operation", 0, number, ZAHUPNIK_FINISHED);
    number = zahupnik_convert_text(text.bytes, *text.length, (uint8_t *)answer, sizeof answer - 1, work, ZAHUPNIK_LEAST_WORK,
                                   &length);
    expect("the number of the text call", 0, number, ZAHUPNIK_FINISHED);
    answer[length] = '\0';
    char *at = strstr(answer, "\nout=");
    expect("the second line of the text call's answer", 0, at != NULL, 1);
    at += strlen("\nout=");
    for (size_t i = 0; i < entries; i++) expect("the text call's answer", i, (uint32_t)strtoul(at, &at, 10), result[i]);
    expect("the end of the text call's answer", 0, (uint32_t)strcmp(at, "\n"), 0);
}

/* Runs the job of a line of IN, and holds what the call leaves against the line of OUT. */
static void run_job(void) {
    struct job lent, *job = &lent;
    job->operation = next_number(&in);
    job->m = next_number(&in);
    char *lists = in.at;
    job->a = next_list(&in);
    job->b = next_list(&in);
    job->c = next_list(&in);
    job->v = next_list(&in);
    struct text_output text = make_text_output(next_number(&in));
    end_line(&in);

    uint32_t number = zahupnik_write_job(FAMILY, job->operation, CURVE, text.bytes, text.room, text.length);
    expect_text(number, text);
    in.at = lists;
    expect_unchanged("the list a", job->a);
    expect_unchanged("the list b", job->b);
    expect_unchanged("the list c", job->c);
    expect_unchanged("the curve", job->v);
    if (number == ZAHUPNIK_FINISHED) carry_out(job, text);
    finished += number == ZAHUPNIK_FINISHED;
    free_list(job->a);
    free_list(job->b);
    free_list(job->c);
    free_list(job->v);
    free_text_output(text);
}

int main(int argc, char **argv) {
    unsigned long jobs = run_files(argc, argv, run_job);
    printf("written: %lu jobs agree, %lu of them written and carried out\n", jobs, finished);
    return 0;
}
