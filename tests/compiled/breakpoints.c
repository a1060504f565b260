/* What breakpoints.h declares. */
#define _GNU_SOURCE
#include "breakpoints.h"

#include <signal.h>
#include <stdio.h>
#include <stdlib.h>
#include <string.h>
#include <sys/mman.h>
#include <ucontext.h>
#include <unistd.h>

enum { MOST_PLACES = 1000, BREAKPOINT = 0xCC, TRAP_FLAG = 0x100 };

static struct place {
    uint8_t *at, first_byte;
    unsigned kind;
} places[MOST_PLACES], *stepped;
static size_t known;
unsigned long passed[MOST_KINDS];

static void no_count(const char *what) {
    fprintf(stderr, "breakpoints: %s\n", what);
    exit(1);
}

void watch(uintptr_t address, unsigned kind) {
    uintptr_t page = (uintptr_t)sysconf(_SC_PAGESIZE);
    uint8_t *at = (uint8_t *)address, *first = at - address % page;
    if (known == MOST_PLACES || kind >= MOST_KINDS) no_count("there are more places or kinds than it has room for");
    if (mprotect(first, (size_t)page, PROT_READ | PROT_WRITE | PROT_EXEC)) no_count("an address cannot be written to");
    places[known++] = (struct place){at, *at, kind};
}

/* At a breakpoint the instruction is put back and run alone; after it the breakpoint is set again. */
static void on_trap(int number, siginfo_t *info, void *context) {
    greg_t *registers = ((ucontext_t *)context)->uc_mcontext.gregs;
    (void)number;
    if (info->si_code == TRAP_TRACE) {
        registers[REG_EFL] &= ~TRAP_FLAG;
        *stepped->at = BREAKPOINT;
        return;
    }
    registers[REG_EFL] |= TRAP_FLAG;
    registers[REG_RIP]--;
    for (stepped = places; stepped < places + known && stepped->at != (uint8_t *)registers[REG_RIP];) stepped++;
    if (stepped == places + known) _exit(1); /* a breakpoint of the program's own */
    *stepped->at = stepped->first_byte;
    passed[stepped->kind]++;
}

void begin_count(void) {
    struct sigaction action = {.sa_sigaction = on_trap, .sa_flags = SA_SIGINFO};
    if (!known) no_count("it is told no address");
    if (sigaction(SIGTRAP, &action, NULL)) no_count("it cannot catch a trap");
    memset(passed, 0, sizeof passed);
    for (size_t i = 0; i < known; i++) *places[i].at = BREAKPOINT;
}

void end_count(void) {
    for (size_t i = 0; i < known; i++) *places[i].at = places[i].first_byte;
}
