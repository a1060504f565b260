/* Runs the reference's text vectors through the library and compares.
 *
 * usage: texts IN OUT
 *
 * IN and OUT are what tests/reference/texts.py writes: a line for each text with the lengths that are lent, and the line of the
 * answer that the call must give. Prints how many texts agree and exits 0; shows the first that differs and exits 1; exits 2 if a
 * file cannot be read or is not of the form.
 */
#define PROGRAM "texts"
#include "vector_files.h"

static unsigned long finished;

/* Runs the text of a line of IN, and holds what the call leaves against the line of OUT. */
static void run_text(void) {
    struct text_output output = make_text_output(next_number(&in));
    struct list work = make_work(next_number(&in));
    read_text(&in);
    uint8_t *text = lend(in.length);
    memcpy(text, in.bytes, in.length);

    uint32_t number = zahupnik_convert_text(text, in.length, output.bytes, output.room, work.entries, work.length, output.length);
    expect_text(number, output);
    for (size_t i = 0; i < in.length; i++) expect("the text", i, text[i], in.bytes[i]);
    for (size_t i = 0; i < work.length; i++)
        expect("the working list", i, work.entries[i], number == ZAHUPNIK_FINISHED && i < ZAHUPNIK_LEAST_WORK ? 0 : work_before(i));
    finished += number == ZAHUPNIK_FINISHED;
    take_back(text, in.length);
    free_text_output(output);
    free_list(work);
}

int main(int argc, char **argv) {
    unsigned long texts = run_files(argc, argv, run_text);
    printf("texts: %lu texts agree, %lu of them finished\n", texts, finished);
    return 0;
}
