/* Says of a job text, in words, why and where it is refused, or what the job is.
 *
 * usage: why < JOB
 *        why --help | --version
 *
 * At a terminal it says what it waits for, if standard error is one too. Exit status: 0 it was explained, whatever the number; 1 reading
 * or writing failed, and standard error says so; 2 it was started with an argument that it does not know.
 */
#define _POSIX_C_SOURCE 200809L /* isatty */
#include <errno.h>
#include <stdio.h>
#include <string.h>
#include <unistd.h>
#include "explain.h"

static const char usage[] =
    "usage: why < JOB\n"
    "       why --help | --version\n"
    "Says of a job text what is wrong with it, where, and what is expected there, or what the job is.\n"
    "The first line opens with what the program channel answers, as refused=2, or with accepted.\n"
    "Exit status: 0 it was explained, whatever the number; 1 reading or writing failed; 2 another argument.\n";

static int failed(const char *what) {
    fprintf(stderr, "why: %s: %s\n", what, strerror(errno));
    return 1;
}

/* Ends the output: what was printed may fail as late as here. */
static int finish(void) {
    int lost = ferror(stdout);
    return fclose(stdout) != 0 || lost ? failed("the words cannot be printed") : 0;
}

int main(int argc, char **argv) {
    static struct input input;
    static uint8_t piece[1 << 16];
    int asks_help = argc > 1 && strcmp(argv[1], "--help") == 0, asks_version = argc > 1 && strcmp(argv[1], "--version") == 0;
    if (argc > 1 + (asks_help || asks_version)) {
        fprintf(stderr, "why: it takes no argument '%s'\n%s", argv[1 + (asks_help || asks_version)], usage);
        return 2;
    }
    if (asks_help) fputs(usage, stdout);
    if (asks_version) printf("why %d.%d.%d\n", ZAHUPNIK_VERSION_MAJOR, ZAHUPNIK_VERSION_MINOR, ZAHUPNIK_VERSION_PATCH);
    if (asks_help || asks_version) return finish();
    if (isatty(STDIN_FILENO) && isatty(STDERR_FILENO))
        fprintf(stderr, "why: waiting for a job text, six lines: mod= a= b= c= op= v=; Ctrl-D on a new line ends it\n");
    while (input.bytes < MOST_COUNTED) {
        size_t length = fread(piece, 1, sizeof piece, stdin);
        take_piece(&input, piece, length);
        if (ferror(stdin)) return failed("the text cannot be read");
        if (length < sizeof piece) break;
    }
    explain(stdout, &input);
    return finish();
}
