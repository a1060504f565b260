/* What jobs.h declares. A wrong test is the model's on a job that was changed before, and a wrong text the right one, edited. */
#include "jobs.h"

#include <string.h>

#include "figures.h"
#include "lists.h"
#include "slips.h"
#include "text_model.h"
#include "texts.h"

enum { ROOM = 1 << 15 };

static const char PAPERS_JOB[] = "mod=7\na=1 2\nb=0 3\nc=1 5\nop=expand\nv=3 0 1\n";

/* The answer with this number: a refusal, or 0 and then the text of this job. */
static uint32_t answer(const struct text_call *call, uint32_t number, const struct lent *x) {
    static uint8_t text[ROOM];
    if (!number) write_text(call, text, write_job(x, text));
    return number;
}

uint32_t text_without_a_slip(const struct text_call *call) {
    if (!call->job) return convert_job(call, without_a_slip);
    return answer(call, writing_refusal(call->job->operation, &call->job->lent), &call->job->lent);
}

/* ---- the operation's number */

static bool past_four(const struct text_call *call) { return call->job->operation >= OPERATIONS; }

uint32_t operation_as_expand(const struct text_call *call) {
    return past_four(call) ? answer(call, refusal(&call->job->lent), &call->job->lent) : right_text(call);
}

uint32_t operation_as_6(const struct text_call *call) {
    struct lent x = call->job->lent;
    x.curve.length = x.a.length;
    return past_four(call) ? refusal(&x) : right_text(call);
}

uint32_t operation_after_3(const struct text_call *call) {
    uint32_t number = right_text(call);
    return number == 2 && refusal(&call->job->lent) == 3 ? 3 : number;
}

uint32_t operation_cut(const struct text_call *call) {
    struct lent x = call->job->lent;
    uint32_t last_byte = call->job->operation % 256;
    x.operation = operation_of(last_byte);
    return answer(call, writing_refusal(last_byte, &x), &x);
}

uint32_t operation_swapped(const struct text_call *call) {
    struct lent x = call->job->lent;
    x.operation = x.operation == NORMS ? MOMENTS : x.operation == MOMENTS ? NORMS : x.operation;
    return answer(call, verdict_of(call), &x);
}

/* ---- the tests */

static bool without_curve(const struct text_call *call) { return !past_four(call) && curve_length(&call->job->lent) == 0; }

/* The answer of a job without a curve, whose own curve was not looked at. */
static uint32_t passed_over(const struct text_call *call, bool written) {
    struct lent x = call->job->lent, other = x;
    other.curve.length = 0;
    return without_curve(call) ? answer(call, refusal(&other), written ? &x : &other) : right_text(call);
}

uint32_t curve_taken(const struct text_call *call) { return passed_over(call, true); }

uint32_t curve_dropped(const struct text_call *call) { return passed_over(call, false); }

uint32_t curve_asked(const struct text_call *call) {
    struct lent x = call->job->lent, other = x;
    other.operation = EXPAND;
    return !past_four(call) && x.operation == NORMS ? answer(call, refusal(&other), &x) : right_text(call);
}

uint32_t curve_untested(const struct text_call *call) {
    uint32_t number = right_text(call);
    return number == 12 ? answer(call, 0, &call->job->lent) : number;
}

uint32_t job_curve_first(const struct text_call *call) { return curve_before_rows(&call->job->lent, right_text(call)); }

uint32_t job_row_by_row(const struct text_call *call) { return rows_in_turn(&call->job->lent, right_text(call)); }

uint32_t tested_by(const struct text_call *call, uint32_t (*refusal_with)(const struct lent *x)) {
    return past_four(call) ? 2 : answer(call, refusal_with(&call->job->lent), &call->job->lent);
}

uint32_t job_non_zero(const struct text_call *call) { return tested_by(call, refusal_non_zero); }
uint32_t job_powering(const struct text_call *call) { return tested_by(call, refusal_powering); }
uint32_t job_c_1_asked(const struct text_call *call) { return tested_by(call, refusal_c_1_asked); }
uint32_t job_c_2_not_asked(const struct text_call *call) { return tested_by(call, refusal_c_2_not_asked); }
uint32_t job_a_1_not_asked(const struct text_call *call) { return tested_by(call, refusal_a_1_not_asked); }
uint32_t job_c_1_unread(const struct text_call *call) { return tested_by(call, refusal_c_1_unread); }
uint32_t job_one_row_untested(const struct text_call *call) { return tested_by(call, refusal_one_row_untested); }

uint32_t output_of_answer(const struct text_call *call) {
    struct lent x = call->job->lent;
    x.output_length += LEAST_JOB_OUTPUT - LEAST_TEXT_OUTPUT;
    return answer(call, writing_refusal(call->job->operation, &x), &x);
}

uint32_t output_one_longer(const struct text_call *call) {
    struct lent x = call->job->lent;
    if (x.output_length == LEAST_JOB_OUTPUT) x.output_length--;
    return answer(call, writing_refusal(call->job->operation, &x), &x);
}

/* ---- the text */

uint32_t job_constant(const struct text_call *call) {
    uint32_t number = verdict_of(call);
    if (!number) write_text(call, PAPERS_JOB, strlen(PAPERS_JOB));
    return number;
}

uint32_t job_figures_only(const struct text_call *call) {
    return is_figure(&call->job->lent) ? right_text(call) : job_constant(call);
}

uint32_t job_b_and_c_swapped(const struct text_call *call) {
    struct lent x = call->job->lent;
    x.b = call->job->lent.c;
    x.c = call->job->lent.b;
    return answer(call, verdict_of(call), &x);
}

/* A text with a zero byte after it. */
struct string {
    char bytes[ROOM];
    size_t length;
};

/* The right answer, with the text edited. */
static uint32_t edited(const struct text_call *call, void (*edit)(struct string *text)) {
    static struct string text;
    uint32_t length, number = with_output(call, (uint8_t *)text.bytes, &length);
    if (number) return number;
    text.length = length;
    text.bytes[length] = 0;
    edit(&text);
    write_text(call, text.bytes, text.length);
    return 0;
}

/* Takes out bytes at a place and puts others there. */
static void splice(struct string *text, size_t at, size_t taken, const char *bytes) {
    size_t count = strlen(bytes);
    memmove(text->bytes + at + count, text->bytes + at + taken, text->length + 1 - at - taken);
    memcpy(text->bytes + at, bytes, count);
    text->length += count - taken;
}

/* Where these bytes stand first; the text's length if they do not. */
static size_t place_of(const struct string *text, const char *bytes) {
    const char *at = strstr(text->bytes, bytes);
    return at ? (size_t)(at - text->bytes) : text->length;
}

static void leave_out_curve(struct string *text) {
    size_t at = place_of(text, "v=") + strlen("v=");
    splice(text, at, text->length - at, "\n");
}

static void move_lines(struct string *text) {
    static char line[ROOM];
    size_t at = place_of(text, "v=");
    strcpy(line, text->bytes + at);
    splice(text, at, text->length - at, "");
    splice(text, place_of(text, "op="), 0, line);
}

static void change_key(struct string *text) { splice(text, place_of(text, "c="), 1, "b"); }

static void double_space(struct string *text) {
    size_t at = place_of(text, " ");
    if (at < text->length) splice(text, at, 1, "  ");
}

static void add_space(struct string *text) { splice(text, text->length - 1, 0, " "); }

static void add_zero(struct string *text) { splice(text, strlen("mod="), 0, "0"); }

/* Takes out the first digit of every number that has so many digits, the first of them one of these. */
static void leave_out_first_digits(struct string *text, size_t count, const char *first) {
    for (size_t at = 0, digits; at < text->length; at += digits + 1) {
        digits = strspn(text->bytes + at, "0123456789");
        if (digits != count || !strchr(first, text->bytes[at])) continue;
        splice(text, at, 1, "");
        digits--;
    }
}

static void leave_out_zeros(struct string *text) { leave_out_first_digits(text, 1, "0"); }

static void leave_out_tenth_digits(struct string *text) { leave_out_first_digits(text, 10, "123456789"); }

static void leave_out_last_byte(struct string *text) { splice(text, text->length - 1, 1, ""); }

uint32_t curve_left_out(const struct text_call *call) { return edited(call, leave_out_curve); }
uint32_t lines_moved(const struct text_call *call) { return edited(call, move_lines); }
uint32_t key_wrong(const struct text_call *call) { return edited(call, change_key); }
uint32_t space_doubled(const struct text_call *call) { return edited(call, double_space); }
uint32_t space_last(const struct text_call *call) { return edited(call, add_space); }
uint32_t zero_first(const struct text_call *call) { return edited(call, add_zero); }
uint32_t zero_empty(const struct text_call *call) { return edited(call, leave_out_zeros); }
uint32_t nine_digits(const struct text_call *call) { return edited(call, leave_out_tenth_digits); }
uint32_t last_byte_left_out(const struct text_call *call) { return edited(call, leave_out_last_byte); }
