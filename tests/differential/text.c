/* What text.h declares. */
#include "text.h"

#include "text_cases.h"
#include "text_model.h"
#include "zahupnik.h"

void hold_text_call(struct trial *trial, struct random *random, const uint8_t *text, size_t length, const struct lent *x) {
    static const uint32_t zeros[LEAST_WORK];
    uint8_t answer[ANSWER_ROOM];
    uint32_t answer_length = trial->number ? 0 : write_answer(x, answer);
    const void *before = dirt(random, x->output_length);
    uint8_t *lent = lend(trial, random, (struct lending){"text", BYTES, text, length, NULL, 0, 0});
    uint8_t *output = lend(trial, random, (struct lending){"output", BYTES, before, x->output_length, answer, answer_length, 0});
    uint32_t *work = lend_numbers(trial, random, "working list", x->work_length, zeros, LEAST_WORK);
    uint32_t *counted = lend_numbers(trial, random, "length", 1, &answer_length, 1);
    compare(trial, zahupnik_convert_text(lent, length, output, x->output_length, work, x->work_length, counted));
}

uint32_t run_on_text(struct trial *trial, struct random *random) {
    static struct text text;
    struct lent x = {0};
    make_text(random, &text, &x.output_length, &x.work_length);
    trial->number = read_text(text.bytes, text.length, &x);
    if (trial->number == 0) trial->number = refusal(&x);
    note_family(trial, &x);
    hold_text_call(trial, random, text.bytes, text.length, &x);
    return trial->number;
}
