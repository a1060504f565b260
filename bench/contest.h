/* What the benchmark asks of a contestant: for each operation a function that converts and tests nothing. The definitions are those
 * of include/zahupnik.h. A contestant may keep memory between its calls. */
#ifndef CONTEST_H
#define CONTEST_H

#include <stddef.h>
#include <stdint.h>

#ifdef __cplusplus
extern "C" {
#endif

enum { MOST_ROWS = 127, MOST_RESULTS = 2 * MOST_ROWS + 1 };

enum operation { INVERT, EXPAND, ADJOINT, DECOMPOSE, NORMS, MOMENTS, OPERATIONS };

/* A family of r rows, whose a and whose c from row 2 on have inverses modulo m, and the r + 1 entries of v, of which INVERT takes the inverse of a[0]
 * in their place. NORMS and MOMENTS do not look at v. */
struct job {
    uint32_t m;
    size_t r;
    uint32_t a[MOST_ROWS], b[MOST_ROWS], c[MOST_ROWS], v[MOST_ROWS + 1];
};

typedef void convert(const struct job *job, uint32_t *result);

struct contestant {
    const char *name;
    convert *convert[OPERATIONS];
};

extern const struct contestant straightforward, best, flint, ntl;

#ifdef __cplusplus
}
#endif

#endif
