/* What texts.h declares. A wrong reader is the right one on a text that was mended before. */
#include "texts.h"

#include <inttypes.h>
#include <stdio.h>
#include <string.h>

#include "text_model.h"

enum { ROOM = 1 << 17 };

/* Where the right call writes what a wrong version does not hand out. */
static uint8_t spare_output[ROOM];
static uint32_t spare_work[ROOM], spare_length;

static const char ANSWER[] = "op=expand\nout=1 3 2\n";

static uint32_t with_text(const struct text_call *call, const uint8_t *text, size_t length) {
    struct text_call other = *call;
    other.text = text;
    other.text_length = length;
    return right_text(&other);
}

uint32_t with_output(const struct text_call *call, uint8_t *output, uint32_t *length) {
    struct text_call other = *call;
    other.output = output;
    other.length = length;
    return right_text(&other);
}

static uint32_t with_work(const struct text_call *call, uint32_t *work) {
    struct text_call other = *call;
    other.work = work;
    return right_text(&other);
}

uint32_t verdict_of(const struct text_call *call) {
    struct text_call other = *call;
    other.output = spare_output;
    other.work = spare_work;
    other.length = &spare_length;
    return right_text(&other);
}

static bool lists_in_order(uint32_t number) { return number == 0 || number > 8; }

/* ---- the answer */

uint32_t text_refuses(const struct text_call *call) {
    (void)call;
    return 2;
}

uint32_t text_last_untried(const struct text_call *call) {
    uint32_t number = verdict_of(call);
    return number ? number : 12;
}

uint32_t text_finishes(const struct text_call *call) {
    right_text(call);
    return 0;
}

uint32_t output_first(const struct text_call *call) {
    uint32_t number = right_text(call);
    size_t least = call->job ? LEAST_JOB_OUTPUT : LEAST_TEXT_OUTPUT;
    return number > 2 && call->output_length < least ? 7 : number;
}

/* ---- the length */

uint32_t length_one_more(const struct text_call *call) {
    uint32_t number = right_text(call);
    if (!number) ++*call->length;
    return number;
}

uint32_t length_of_output(const struct text_call *call) {
    uint32_t number = right_text(call);
    if (!number) *call->length = (uint32_t)call->output_length;
    return number;
}

uint32_t length_refused(const struct text_call *call) {
    uint32_t number = right_text(call);
    if (number) *call->length = 0;
    return number;
}

/* ---- the output */

void write_text(const struct text_call *call, const void *text, size_t length) {
    if (length > call->output_length) length = call->output_length;
    memcpy(call->output, text, length);
    *call->length = (uint32_t)length;
}

uint32_t text_constant(const struct text_call *call) {
    uint32_t number = with_output(call, spare_output, &spare_length);
    if (!number) write_text(call, ANSWER, strlen(ANSWER));
    return number;
}

uint32_t text_copied(const struct text_call *call) {
    uint32_t number = with_output(call, spare_output, &spare_length);
    if (!number) write_text(call, call->text, call->text_length);
    return number;
}

uint32_t text_untouched(const struct text_call *call) { return with_output(call, spare_output, call->length); }

uint32_t text_touched(const struct text_call *call) {
    uint32_t number = right_text(call);
    if (number && lists_in_order(number)) call->output[0] = 'r';
    return number;
}

uint32_t zero_after(const struct text_call *call) {
    uint32_t number = right_text(call);
    if (!number && *call->length < call->output_length) call->output[*call->length] = 0;
    return number;
}

uint32_t last_line_open(const struct text_call *call) {
    uint32_t number = right_text(call);
    if (!number) call->output[*call->length - 1] = ' ';
    return number;
}

/* ---- the working list */

uint32_t text_work_kept(const struct text_call *call) { return with_work(call, spare_work); }

uint32_t text_work_dirty(const struct text_call *call) {
    uint32_t last = call->work_length < LEAST_WORK ? 0 : call->work[LEAST_WORK - 1], number = right_text(call);
    if (!number) call->work[LEAST_WORK - 1] = last;
    return number;
}

uint32_t text_work_past(const struct text_call *call) {
    uint32_t number = right_text(call);
    if (!number && call->work_length > LEAST_WORK) call->work[LEAST_WORK] = 0;
    return number;
}

uint32_t text_work_refused(const struct text_call *call) {
    uint32_t number = right_text(call);
    if (number && lists_in_order(number)) memset(call->work, 0, LEAST_WORK * sizeof *call->work);
    return number;
}

/* The job of a text of the form. */
static bool read_job(const struct text_call *call, struct lent *x) { return read_text(call->text, call->text_length, x) == 0; }

uint32_t norms_keep_work(const struct text_call *call) {
    struct lent x;
    return with_work(call, read_job(call, &x) && x.operation == NORMS ? spare_work : call->work);
}

/* ---- the form */

/* A text with some of its bytes left out, if it is not too long. */
static uint32_t without(const struct text_call *call, bool (*left_out)(const struct text_call *call, size_t place)) {
    static uint8_t mended[ROOM];
    size_t length = 0;
    if (call->text_length > LONGEST_TEXT) return right_text(call);
    for (size_t i = 0; i < call->text_length; i++)
        if (!left_out(call, i)) mended[length++] = call->text[i];
    return with_text(call, mended, length);
}

/* The byte at a place; 0 before the text and after it. */
static uint8_t byte_at(const struct text_call *call, size_t place) { return place < call->text_length ? call->text[place] : 0; }

static bool digit_at(const struct text_call *call, size_t place) {
    return byte_at(call, place) >= '0' && byte_at(call, place) <= '9';
}

static bool is_leading_zero(const struct text_call *call, size_t place) {
    size_t first = place;
    while (first > 0 && byte_at(call, first) == '0' && byte_at(call, first - 1) == '0') first--;
    return byte_at(call, place) == '0' && digit_at(call, place + 1) && !(first > 0 && digit_at(call, first - 1));
}

static bool is_doubled_space(const struct text_call *call, size_t place) {
    return byte_at(call, place) == ' ' && byte_at(call, place + 1) == ' ';
}

static bool is_carriage_return(const struct text_call *call, size_t place) {
    return byte_at(call, place) == '\r' && byte_at(call, place + 1) == '\n';
}

uint32_t leading_zeros(const struct text_call *call) { return without(call, is_leading_zero); }

uint32_t doubled_spaces(const struct text_call *call) { return without(call, is_doubled_space); }

uint32_t carriage_returns(const struct text_call *call) { return without(call, is_carriage_return); }

uint32_t last_byte_missing(const struct text_call *call) {
    static uint8_t mended[ROOM];
    size_t length = call->text_length;
    if (length >= LONGEST_TEXT || (length && call->text[length - 1] == '\n')) return right_text(call);
    if (length) memcpy(mended, call->text, length);
    mended[length] = '\n';
    return with_text(call, mended, length + 1);
}

uint32_t more_lines(const struct text_call *call) {
    size_t length = 0, lines = 0;
    while (length < call->text_length && lines < 6) lines += call->text[length++] == '\n';
    return call->text_length > LONGEST_TEXT ? right_text(call) : with_text(call, call->text, length);
}

/* Every number that does not begin with 0 is written anew, modulo 2^32. */
uint32_t number_wraps(const struct text_call *call) {
    static uint8_t mended[ROOM];
    size_t length = 0;
    if (call->text_length > LONGEST_TEXT) return right_text(call);
    for (size_t i = 0; i < call->text_length;) {
        uint32_t number = 0;
        if (!digit_at(call, i) || byte_at(call, i) == '0') {
            mended[length++] = call->text[i++];
            continue;
        }
        for (; digit_at(call, i); i++) number = number * 10 + (call->text[i] - (uint32_t)'0');
        length += (size_t)sprintf((char *)mended + length, "%" PRIu32, number);
    }
    return with_text(call, mended, length);
}

uint32_t one_byte_more(const struct text_call *call) {
    uint32_t number = right_text(call);
    return call->text_length == LONGEST_TEXT + 1 ? 2 : number;
}

uint32_t one_byte_fewer(const struct text_call *call) { return call->text_length == LONGEST_TEXT ? 1 : right_text(call); }

uint32_t output_one_shorter(const struct text_call *call) {
    struct text_call other = *call;
    if (call->output_length != LEAST_TEXT_OUTPUT - 1) return right_text(call);
    other.output = spare_output;
    other.output_length++;
    uint32_t number = right_text(&other);
    if (!number) memcpy(call->output, spare_output, *call->length);
    return number;
}

/* ---- the job */

static uint32_t convert_as(const struct text_call *call, struct lent x, enum operation written,
                           uint32_t (*on_lists)(const struct call *call)) {
    static uint32_t result[MOST_RESULTS];
    x.way = x.operation == NORMS ? PLAIN : TREE;
    x.output_length = result_length(&x);
    x.work_length = call->work_length;
    uint32_t number = on_lists(&(struct call){x, result, call->work, NULL});
    if (number) return number;
    memset(call->work, 0, LEAST_WORK * sizeof *call->work);
    *call->length = write_result(written, (struct list){result, result_length(&x)}, call->output);
    return 0;
}

uint32_t convert_job(const struct text_call *call, uint32_t (*on_lists)(const struct call *call)) {
    struct lent x;
    uint32_t number = verdict_of(call);
    if (!lists_in_order(number) || !read_job(call, &x)) return number;
    return convert_as(call, x, x.operation, on_lists);
}

uint32_t names_swapped(const struct text_call *call) {
    struct lent x;
    uint32_t number = verdict_of(call);
    if (number || !read_job(call, &x) || (x.operation != NORMS && x.operation != MOMENTS)) return right_text(call);
    enum operation written = x.operation;
    x.operation = written == NORMS ? MOMENTS : NORMS;
    return convert_as(call, x, written, right);
}

uint32_t curve_ignored(const struct text_call *call) {
    struct lent x;
    uint32_t number = verdict_of(call);
    if (number != 6 || !read_job(call, &x) || (x.operation != NORMS && x.operation != MOMENTS)) return right_text(call);
    x.output_length = call->output_length;
    x.work_length = call->work_length;
    x.curve.length = 0;
    number = refusal(&x);
    return number ? number : convert_as(call, x, x.operation, right);
}
