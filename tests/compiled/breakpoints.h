/* Counts how often places of this program's own code are run through: a breakpoint stands at each while it is counted. The program is linked
 * with -no-pie, so that objdump's addresses are its own. */
#ifndef BREAKPOINTS_H
#define BREAKPOINTS_H

#include <stdint.h>

/* One place more to be counted, the first byte of an instruction, each of another. Ends the program with 1 if it cannot be written to. */
void watch(uintptr_t address, unsigned kind);

/* How often the places of each kind were run through since the count began. */
enum { MOST_KINDS = 64 };
extern unsigned long passed[MOST_KINDS];

void begin_count(void);
void end_count(void);

#endif
