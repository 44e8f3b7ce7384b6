/* The run in plain C on a parallel stage once more: 64-bit arithmetic, and a look at the range after it. */
#include "plain.h"

#define RUN plain_run_wide
#include "run.inc"

static int leaves(int64_t v) { return v < INT32_MIN || v > INT32_MAX; }

static int step(struct triple *t, enum system system, int d, uint32_t shift, int32_t entry) {
    int64_t x = t->x, y = t->y, z = t->z;
    int64_t dx = t->y >> shift, dy = t->x >> shift;
    if (system == CIRCULAR)
        x -= d * dx;
    if (system == HYPERBOLIC)
        x += d * dx;
    y += d * dy;
    z -= d * (int64_t)entry;
    if (leaves(x))
        return 0;
    if (leaves(y))
        return 1;
    if (leaves(z))
        return 2;
    *t = (struct triple){(int32_t)x, (int32_t)y, (int32_t)z};
    return -1;
}
