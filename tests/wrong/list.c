/* Prints the table of the wrong versions: a line for each call of each, with its word for WRONG, a tab, and what is wrong.
 *
 * usage: list wrong | list controls
 */
#include <stdio.h>
#include <string.h>

#include "version.h"

int main(int argc, char **argv) {
    if (argc != 2 || (strcmp(argv[1], "wrong") && strcmp(argv[1], "controls"))) {
        fprintf(stderr, "usage: list wrong | list controls\n");
        return 2;
    }
    bool controls = !strcmp(argv[1], "controls");
    for (unsigned i = 0; i < CALLS; i++)
        for (const struct version *version = VERSIONS; version->name; version++)
            if (version->control == controls && (version->calls >> i & 1))
                printf("%s:%s\t%s\n", CALL_NAMES[i], version->name, version->what);
    return 0;
}
