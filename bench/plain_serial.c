/* The run in plain C on a bit-serial stage: 32 one-bit additions with a saved carry for each register. */
#include "plain.h"

#define RUN plain_run_serial
#include "run.inc"

/* a + b or a - b, bit by bit, b shifted by `shift` with its sign: 1 where the sum is no word. */
static int add_serially(uint32_t a, uint32_t b, uint32_t shift, int subtract, int32_t *sum) {
    uint32_t flip = (uint32_t)subtract, sign = b >> 31;
    uint32_t word = 0, into = 0, carry = flip;
    for (uint32_t place = 0; place < 32; place++) {
        uint32_t p = a >> place & 1;
        uint32_t q = (place + shift <= 31 ? b >> (place + shift) & 1 : sign) ^ flip;
        into = carry;
        word |= (p ^ q ^ carry) << place;
        carry = (p & q) | (p & carry) | (q & carry);
    }
    *sum = (int32_t)word;
    return into != carry;
}

static int step(struct triple *t, enum system system, int d, uint32_t shift, int32_t entry) {
    uint32_t x = (uint32_t)t->x, y = (uint32_t)t->y, z = (uint32_t)t->z;
    struct triple n = *t;
    if (system != LINEAR && add_serially(x, y, shift, (system == CIRCULAR) == (d > 0), &n.x))
        return 0;
    if (add_serially(y, x, shift, d < 0, &n.y))
        return 1;
    if (add_serially(z, (uint32_t)entry, 0, d > 0, &n.z))
        return 2;
    *t = n;
    return -1;
}
