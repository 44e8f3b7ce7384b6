/* The run in plain C on a parallel stage: checked word arithmetic. */
#include "plain.h"

#define RUN plain_run
#include "run.inc"

static int step(struct triple *t, enum system system, int d, uint32_t shift, int32_t entry) {
    int32_t x = t->x, y, z;
    int32_t dx = t->y >> shift, dy = t->x >> shift;
    if (system != LINEAR && ((system == CIRCULAR) == (d > 0) ? __builtin_sub_overflow(t->x, dx, &x) : __builtin_add_overflow(t->x, dx, &x)))
        return 0;
    if (d > 0 ? __builtin_add_overflow(t->y, dy, &y) : __builtin_sub_overflow(t->y, dy, &y))
        return 1;
    if (d > 0 ? __builtin_sub_overflow(t->z, entry, &z) : __builtin_add_overflow(t->z, entry, &z))
        return 2;
    *t = (struct triple){x, y, z};
    return -1;
}
