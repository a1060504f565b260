/* What the programs share that run the reference's vectors: the files IN and OUT, read line by line, and lists that are lent.
 *
 * A program defines PROGRAM, its name, which opens its messages, before it includes this. It ends with 2 if a file cannot be read or
 * is not of the form, and with 1 at the first case that differs.
 */
#ifndef VECTOR_FILES_H
#define VECTOR_FILES_H

#define _DEFAULT_SOURCE
#include <errno.h>
#include <inttypes.h>
#include <stdio.h>
#include <stdlib.h>
#include <string.h>
#include <sys/mman.h>
#include <unistd.h>

#include "zahupnik.h"

enum { LONGEST_LINE = 1 << 17 };

/* A file that is read line by line, and the bytes that stand between the quotes of its line. */
struct file {
    FILE *stream;
    const char *name;
    unsigned long line;
    char words[LONGEST_LINE];
    char *at;
    uint8_t bytes[LONGEST_LINE];
    size_t length;
};

static struct file in, out;

static inline void unusable(const struct file *file, const char *why) {
    fprintf(stderr, PROGRAM ": %s, line %lu: %s\n", file->name, file->line, why);
    exit(2);
}

static inline void open_file(struct file *file, const char *name) {
    file->name = name;
    file->stream = fopen(name, "r");
    if (!file->stream) {
        fprintf(stderr, PROGRAM ": %s cannot be read\n", name);
        exit(2);
    }
}

/* 0 at the end of the file. */
static inline int next_line(struct file *file) {
    file->at = file->words;
    if (!fgets(file->words, sizeof file->words, file->stream)) return 0;
    file->line++;
    if (!strchr(file->words, '\n')) unusable(file, "too long, or without its end");
    return 1;
}

static inline uint32_t next_number(struct file *file) {
    char *end;
    unsigned long long value = strtoull(file->at, &end, 10);
    if (end == file->at || value > UINT32_MAX) unusable(file, "a number of 32 bits is missing");
    file->at = end;
    return (uint32_t)value;
}

/* A number with a sign: - before it if it is below zero. It has to lie in these bounds. */
static inline int64_t next_signed(struct file *file, int64_t least, int64_t greatest) {
    char *end;
    errno = 0;
    long long value = strtoll(file->at, &end, 10);
    if (end == file->at || errno || value < least || value > greatest) unusable(file, "a number with a sign is missing, or does not fit");
    file->at = end;
    return value;
}

static inline void end_line(struct file *file) {
    if (strcmp(file->at, "\n")) unusable(file, "more stands there than the call takes or gives");
}

/* One byte of a quoted text: itself, \n, or \x and two hexadecimal digits. */
static inline uint8_t next_byte(struct file *file) {
    unsigned value;
    int used = 0;
    if (*file->at != '\\') return (uint8_t)*file->at++;
    if (file->at[1] == 'n') {
        file->at += 2;
        return '\n';
    }
    if (sscanf(file->at, "\\x%2x%n", &value, &used) != 1 || used != 4) unusable(file, "a backslash before something else");
    file->at += used;
    return (uint8_t)value;
}

/* The quoted text that ends the line. */
static inline void read_text(struct file *file) {
    if (strncmp(file->at, " \"", 2)) unusable(file, "a text is missing");
    file->at += 2;
    for (file->length = 0; *file->at != '"' && *file->at != '\n'; file->length++) file->bytes[file->length] = next_byte(file);
    if (strcmp(file->at, "\"\n")) unusable(file, "the text does not end the line");
}

/* What was given is what OUT wants; if not, the case is shown. */
static inline void expect(const char *what, size_t place, int64_t given, int64_t wanted) {
    if (given == wanted) return;
    fprintf(stderr, PROGRAM ": case %lu: %s at %zu is %" PRId64 " and not %" PRId64 "\n case %s wanted %s", in.line, what, place,
            given, wanted, in.words, out.words);
    exit(1);
}

/* What the call gave is the next number of OUT. */
static inline void expect_next(const char *what, size_t place, uint32_t given) { expect(what, place, given, next_number(&out)); }

/* The bytes of the whole pages that so many bytes take. */
static inline size_t room(size_t bytes) {
    size_t page = (size_t)sysconf(_SC_PAGESIZE);
    return (bytes + page - 1) / page * page;
}

/* The library is compiled without a checker of memory, so whatever is lent ends at a page that nobody may touch: a step past its
 * end stops this program. */
static inline void *lend(size_t bytes) {
    size_t page = (size_t)sysconf(_SC_PAGESIZE);
    char *pages = mmap(NULL, room(bytes) + page, PROT_READ | PROT_WRITE, MAP_PRIVATE | MAP_ANONYMOUS, -1, 0);
    if (pages == MAP_FAILED || mprotect(pages + room(bytes), page, PROT_NONE)) unusable(&in, "no memory for what is lent");
    return pages + room(bytes) - bytes;
}

/* Nothing was written in front of what was lent. */
static inline void take_back(void *lent, size_t bytes) {
    char *pages = (char *)lent + bytes - room(bytes);
    for (char *at = pages; at < (char *)lent; at++) expect("a byte in front of what is lent", (size_t)(at - pages), (uint8_t)*at, 0);
    munmap(pages, room(bytes) + (size_t)sysconf(_SC_PAGESIZE));
}

struct list {
    uint32_t *entries;
    size_t length;
};

static inline struct list make_list(size_t length) {
    struct list list = {lend(length * sizeof(uint32_t)), length};
    return list;
}

static inline void free_list(struct list list) { take_back(list.entries, list.length * sizeof *list.entries); }

/* A list as it stands on a line, preceded by its length. */
static inline struct list next_list(struct file *file) {
    struct list list = make_list(next_number(file));
    for (size_t i = 0; i < list.length; i++) list.entries[i] = next_number(file);
    return list;
}

/* The list holds what stands next on the line of IN that it was read from. */
static inline void expect_unchanged(const char *what, struct list list) {
    expect(what, 0, (uint32_t)list.length, next_number(&in));
    for (size_t i = 0; i < list.length; i++) expect(what, i, list.entries[i], next_number(&in));
}

/* An output as it is before a call. */
static inline struct list make_output(size_t length) {
    struct list output = make_list(length);
    for (size_t i = 0; i < length; i++) output.entries[i] = (uint32_t)(UINT32_MAX - i);
    return output;
}

/* The output is the list that stands next on the line of OUT. */
static inline void expect_output(struct list output) {
    expect_next("the length of the output", 0, (uint32_t)output.length);
    for (size_t i = 0; i < output.length; i++) expect_next("the output", i, output.entries[i]);
}

/* Lists with a sign: what is lent has numbers of 32 bits, and an output numbers of 64. */
struct signed_list {
    int32_t *entries;
    size_t length;
};

struct wide_list {
    int64_t *entries;
    size_t length;
};

static inline struct signed_list next_signed_list(struct file *file) {
    size_t length = next_number(file);
    struct signed_list list = {lend(length * sizeof(int32_t)), length};
    for (size_t i = 0; i < length; i++) list.entries[i] = (int32_t)next_signed(file, INT32_MIN, INT32_MAX);
    return list;
}

static inline void free_signed_list(struct signed_list list) { take_back(list.entries, list.length * sizeof *list.entries); }

static inline void expect_signed_unchanged(const char *what, struct signed_list list) {
    expect(what, 0, (int64_t)list.length, next_number(&in));
    for (size_t i = 0; i < list.length; i++) expect(what, i, list.entries[i], next_signed(&in, INT32_MIN, INT32_MAX));
}

static inline struct wide_list make_wide_output(size_t length) {
    struct wide_list output = {lend(length * sizeof(int64_t)), length};
    for (size_t i = 0; i < length; i++) output.entries[i] = INT64_MAX - (int64_t)i;
    return output;
}

static inline void free_wide_list(struct wide_list list) { take_back(list.entries, list.length * sizeof *list.entries); }

static inline void expect_wide_output(struct wide_list output) {
    expect("the length of the output", 0, (int64_t)output.length, next_number(&out));
    for (size_t i = 0; i < output.length; i++) expect("the output", i, output.entries[i], next_signed(&out, INT64_MIN, INT64_MAX));
}

/* What a working list holds before a call. */
static inline uint32_t work_before(size_t i) { return (uint32_t)(4000000000 + i % 1000); }

static inline struct list make_work(size_t length) {
    struct list work = make_list(length);
    for (size_t i = 0; i < length; i++) work.entries[i] = work_before(i);
    return work;
}

/* What OUT says of a working list: how many of its numbers are zero, and their sum modulo 4294967291. */
static inline void expect_work(struct list work) {
    uint32_t zeros = 0;
    uint64_t sum = 0;
    for (size_t i = 0; i < work.length; i++) {
        zeros += work.entries[i] == 0;
        sum += work.entries[i];
    }
    expect_next("the count of zeros in the working list", 0, zeros);
    expect_next("the sum of the working list", 0, (uint32_t)(sum % 4294967291));
}

/* What a call that writes a text is lent for it: the output, and the place of its length. */
struct text_output {
    uint8_t *bytes;
    size_t room;
    uint32_t *length;
};

static inline uint8_t byte_before(size_t i) { return (uint8_t)(255 - i % 251); }

static inline struct text_output make_text_output(size_t bytes) {
    struct text_output output = {lend(bytes), bytes, lend(sizeof(uint32_t))};
    for (size_t i = 0; i < bytes; i++) output.bytes[i] = byte_before(i);
    *output.length = UINT32_MAX;
    return output;
}

static inline void free_text_output(struct text_output output) {
    take_back(output.bytes, output.room);
    take_back(output.length, sizeof *output.length);
}

/* The call returned the number on the line of OUT. It left the text that stands there, its length, and past the text what was there;
 * or, if it refused, everything as it was. */
static inline void expect_text(uint32_t returned, struct text_output output) {
    uint32_t number = next_number(&out);
    int finished = number == ZAHUPNIK_FINISHED;
    read_text(&out);
    if (!finished && out.length) unusable(&out, "a text after a refusal");
    expect("the number returned", 0, returned, number);
    expect("the length", 0, *output.length, finished ? (uint32_t)out.length : UINT32_MAX);
    for (size_t i = 0; i < output.room; i++)
        expect("the output", i, output.bytes[i], i < out.length ? out.bytes[i] : byte_before(i));
}

/* Runs a case for each line of the two files that the command line names; returns how many there were. */
static inline unsigned long run_files(int argc, char **argv, void (*run_case)(void)) {
    if (argc != 3) {
        fprintf(stderr, "usage: " PROGRAM " IN OUT\n");
        exit(2);
    }
    open_file(&in, argv[1]);
    open_file(&out, argv[2]);
    while (next_line(&in)) {
        if (!next_line(&out)) unusable(&out, "ends before IN does");
        run_case();
    }
    if (next_line(&out)) unusable(&out, "goes on after the end of IN");
    if (!in.line) unusable(&in, "holds no case");
    return in.line;
}

#endif
