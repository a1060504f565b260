/* Writes the text of a job from the words of its command line, so that nobody has to mind the spacing.
 *
 * usage: write_job mod=7 a=1 2 b=0 3 c=1 5 op=expand v=3 0 1
 *
 * A word with = opens a line of the text, and the words up to the next one with = go on with it. The six lines come in any order,
 * each once; a= alone is an empty list. Prints the text and exits 0. If it cannot, standard error says why: it exits 1 if the job is
 * refused or printing fails, and 2 if the words are not of this form.
 */
#include <stdio.h>
#include <stdlib.h>
#include <string.h>
#include "zahupnik.h"
#include "zahupnik_refusal.h"

/* The lines of a job, each as numbers, the operation's too. No text has room for more of them than a line has here. */
enum { MOD, A, B, C, OP, V, LINES };
static struct line {
    int opened;
    size_t length;
    uint32_t numbers[ZAHUPNIK_MOST_TEXT / 2];
} lines[LINES];

static const char *const keys[LINES] = {"mod=", "a=", "b=", "c=", "op=", "v="};
static const char *const operations[] = {
    [ZAHUPNIK_EXPAND] = "expand",   [ZAHUPNIK_ADJOINT] = "adjoint", [ZAHUPNIK_DECOMPOSE] = "decompose",
    [ZAHUPNIK_MOMENTS] = "moments", [ZAHUPNIK_NORMS] = "norms",
};

static _Noreturn void misuse(const char *word, const char *why) {
    fprintf(stderr, "write_job: '%s' %s\nusage: write_job mod=7 a=1 2 b=0 3 c=1 5 op=expand v=3 0 1\n", word, why);
    fprintf(stderr, "op= is expand, adjoint, decompose, moments or norms; for the last two v= stands alone\n");
    exit(2);
}

static uint32_t read_operation(const char *word) {
    for (uint32_t i = 0; i < sizeof operations / sizeof *operations; i++)
        if (strcmp(word, operations[i]) == 0) return i;
    misuse(word, "is not expand, adjoint, decompose, moments or norms");
}

static uint32_t read_number(const char *word) {
    unsigned long long number = strtoull(word, NULL, 10);
    if (!*word || word[strspn(word, "0123456789")] || number > UINT32_MAX) misuse(word, "is not a number from 0 to 4294967295");
    return (uint32_t)number;
}

/* A key that lacks its = is told from a number. */
static void expect_no_key(const char *word) {
    for (int i = 0; i < LINES; i++)
        if (strlen(word) + 1 == strlen(keys[i]) && strncmp(word, keys[i], strlen(word)) == 0)
            misuse(word, "wants its = right behind it, with no space between");
}

/* The line that a word opens. */
static int open_line(const char *word) {
    for (int i = 0; i < LINES; i++) {
        if (strncmp(word, keys[i], strlen(keys[i])) != 0) continue;
        if (lines[i].opened++) misuse(word, "opens a line that was opened before");
        return i;
    }
    misuse(word, "does not open with mod=, a=, b=, c=, op= or v=");
}

/* mod= and op= have one word each, the others any number of them. */
static int takes_one(int line) { return line == MOD || line == OP; }

static void read_words(char **words) {
    int at = LINES; /* no line is opened yet */
    for (; *words; words++) {
        const char *word = *words;
        if (strchr(word, '=')) {
            at = open_line(word);
            word += strlen(keys[at]);
            if (!*word) continue;
        }
        expect_no_key(word);
        if (at == LINES) misuse(word, "stands before every word with =");
        struct line *line = &lines[at];
        size_t room = takes_one(at) ? 1 : sizeof line->numbers / sizeof *line->numbers;
        if (line->length == room) misuse(word, "is one too many for its line");
        line->numbers[line->length++] = at == OP ? read_operation(word) : read_number(word);
    }
    for (at = 0; at < LINES; at++) {
        if (!lines[at].opened) misuse(keys[at], takes_one(at) ? "is missing" : "is missing; alone it is an empty list");
        if (takes_one(at) && !lines[at].length) misuse(keys[at], "has nothing after it");
    }
}

#define LIST(line) lines[line].numbers, lines[line].length

int main(int argc, char **argv) {
    static uint8_t text[ZAHUPNIK_LEAST_JOB_OUTPUT];
    uint32_t length = 0;
    read_words(argv + (argc > 0));
    uint32_t number = zahupnik_write_job(*lines[MOD].numbers, LIST(A), LIST(B), LIST(C), *lines[OP].numbers, LIST(V), text,
                                         sizeof text, &length);
    if (number != ZAHUPNIK_FINISHED) {
        fprintf(stderr, "write_job: refused with %u: %s\n", (unsigned)number, zahupnik_refusal(number));
        return 1;
    }
    if (fwrite(text, 1, length, stdout) != length || fclose(stdout) != 0) {
        perror("write_job: the text cannot be printed");
        return 1;
    }
    return 0;
}
