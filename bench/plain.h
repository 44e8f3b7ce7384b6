/* Plain versions of the network run, for comparison: the same recurrence and the same checks, in C and in Rust. */
#ifndef PLAIN_H
#define PLAIN_H

#include <stddef.h>
#include <stdint.h>

struct plain_sample {
    uint8_t status; /* 0 for a sample that yields its value */
    int32_t value;
};

struct plain_report {
    uint32_t number;                      /* 0 for an accepted run, else the refusal */
    int32_t layer, neuron, input, record; /* -1 for none */
    int32_t system, mode;                 /* of 5 and 7, else -1 */
    int32_t step, reg;                    /* of 7, else -1: the step from 1; the register, 0 to 2 for x, y and z */
    int32_t kept_x, kept_y, kept_z;       /* of 7, else 0 */
    uint32_t unit_steps, neuron_steps;    /* of 5 and 7, else 0 */
    uint32_t steps;
    uint32_t outputs;
};

typedef void plain_runner(const uint8_t *plan, size_t len, const struct plain_sample *samples, size_t count, int32_t *out, size_t places,
                          struct plain_report *report);

plain_runner plain_run;        /* plain.c: checked word arithmetic */
plain_runner plain_run_wide;   /* plain_wide.c: 64-bit arithmetic, and a look at the range after it */
plain_runner plain_run_serial; /* plain_serial.c: bit by bit */
plain_runner plain_rust_run;   /* plain.rs: the same three */
plain_runner plain_rust_run_wide;
plain_runner plain_rust_run_serial;

#endif
