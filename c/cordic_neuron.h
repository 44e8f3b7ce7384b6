/* The C interface of the CORDIC neuron unit: runs of a network, a check of a plan, and one rotation.
 *
 * Words are 32 bits, signed, with 28 fraction bits: 268435456 is 1.0. The calls allocate nothing, keep nothing between calls, and may
 * be made from several threads at once, each with a report and places of its own.
 *
 * Every call returns a number of `enum cordic_neuron_number`, 0 for accepted, and writes the same number and all that it carries into
 * the report. A refused run leaves every place as it was. docs/C.md says more. */
#ifndef CORDIC_NEURON_H
#define CORDIC_NEURON_H

#include <stddef.h>
#include <stdint.h>

#ifdef __cplusplus
extern "C" {
#endif

enum cordic_neuron_number {
    CORDIC_NEURON_ACCEPTED = 0,
    /* 1 to 8: refused by the proved code */
    CORDIC_NEURON_NO_SAMPLE = 1,    /* a sample yields nothing; `input` is its position */
    CORDIC_NEURON_SAMPLE_COUNT = 2, /* not as many samples as the first layer has inputs */
    CORDIC_NEURON_PLAN_LENGTH = 3,  /* the plan is empty, not in whole records, or above 65528 bytes */
    CORDIC_NEURON_PLAN_RECORD = 4,  /* a record of the plan is out of line or missing; `record` is its position */
    CORDIC_NEURON_UNREACHABLE = 5,  /* an angle is out of reach: a weight, the net of a tanh, or the z of a rotation */
    CORDIC_NEURON_BAD_START = 6,    /* a vectoring cannot start there; none of the calls below returns it */
    CORDIC_NEURON_OVERFLOW = 7,     /* a step would carry a register out of the word */
    CORDIC_NEURON_PLACES = 8,       /* fewer places than the last layer has neurons */
    /* 100: refused by the proved code, of a rotation only */
    CORDIC_NEURON_NO_SYSTEM = 100, /* a system other than 0, 1 and 2 */
    /* 101 and above: refused before the proved code is called */
    CORDIC_NEURON_NULL = 101,       /* a null pointer with a length above 0, or a null report */
    CORDIC_NEURON_MISALIGNED = 102, /* a pointer that is not aligned for its type */
    CORDIC_NEURON_TOO_LONG = 103,   /* a length that no memory has: above PTRDIFF_MAX bytes, or past the last address */
    CORDIC_NEURON_OVERLAP = 104     /* places or report overlap another buffer of the same call */
};

enum cordic_neuron_system { CORDIC_NEURON_LINEAR = 0, CORDIC_NEURON_CIRCULAR = 1, CORDIC_NEURON_HYPERBOLIC = 2 };
enum cordic_neuron_mode { CORDIC_NEURON_ROTATION = 0, CORDIC_NEURON_VECTORING = 1 };
enum cordic_neuron_register { CORDIC_NEURON_X = 0, CORDIC_NEURON_Y = 1, CORDIC_NEURON_Z = 2 };

/* A sample with its status: 0 is good, any other yields nothing. */
struct cordic_neuron_sample {
    uint8_t status;
    int32_t value;
};

/* What the unit says of a refusal with 5 or 7. For any other number, and for none, steps is 0, the four fields after it are -1, and the
 * kept triple is 0, 0, 0. */
struct cordic_neuron_unit_report {
    uint32_t steps; /* accepted in this pass before the refusal */
    int32_t system; /* enum cordic_neuron_system */
    int32_t mode;   /* enum cordic_neuron_mode */
    int32_t reg;    /* of 7: the first register that would leave the word, enum cordic_neuron_register; else -1 */
    int64_t step;   /* of 7: the refused step, from 1; else -1 */
    int32_t kept_x; /* of 7: the triple before that step; else 0 */
    int32_t kept_y;
    int32_t kept_z;
};

/* A run. Layer, neuron, input and record are counted from 0, and -1 where the number does not carry them. */
struct cordic_neuron_run_report {
    uint32_t number;       /* enum cordic_neuron_number */
    uint32_t outputs;      /* the places written, from the first on; 0 if refused */
    uint32_t steps;        /* accepted in the whole run */
    uint32_t neuron_steps; /* of 5 and 7: accepted in the neuron before the refusal; else 0 */
    uint64_t ticks;        /* steps times 1 on the parallel stage, times 32 on the bit-serial one */
    int64_t layer;         /* of 5 and 7 */
    int64_t neuron;        /* of 5 and 7 */
    int64_t input;         /* of 1, of 5 in a product, and of 7 */
    int64_t record;        /* of 4 */
    struct cordic_neuron_unit_report unit;
};

/* A rotation. */
struct cordic_neuron_pass_report {
    uint32_t number; /* enum cordic_neuron_number */
    uint32_t steps;  /* accepted */
    int32_t x;       /* the triple at the end; 0, 0, 0 if refused */
    int32_t y;
    int32_t z;
    struct cordic_neuron_unit_report unit;
};

/* A plan. */
struct cordic_neuron_plan_report {
    uint32_t number;  /* enum cordic_neuron_number: 0, 3, 4, or 101 and above */
    uint32_t inputs;  /* the samples that a run takes, 1 to 64; 0 if refused */
    uint32_t outputs; /* the places that a run fills, 1 to 64; 0 if refused */
    int64_t record;   /* of 4: the position of the record, from 0; else -1 */
};

/* Runs the plan on the samples, on a stage that holds three zeros, and writes output i of the last layer into places[i].
 *
 * A pointer whose length is 0 is not looked at and may be null. Plan and samples may overlap. All lengths but that of the plan, which is
 * in bytes, are numbers of elements. */
uint32_t cordic_neuron_run_parallel(const uint8_t *plan, size_t plan_bytes, const struct cordic_neuron_sample *samples, size_t sample_count,
                                    int32_t *places, size_t place_count, struct cordic_neuron_run_report *report);
uint32_t cordic_neuron_run_bit_serial(const uint8_t *plan, size_t plan_bytes, const struct cordic_neuron_sample *samples,
                                      size_t sample_count, int32_t *places, size_t place_count, struct cordic_neuron_run_report *report);

/* The same on words of a 16-bit converter: v means v / 32768, and -32768 and 32767 yield nothing. */
uint32_t cordic_neuron_run_converter_parallel(const uint8_t *plan, size_t plan_bytes, const int16_t *samples, size_t sample_count,
                                              int32_t *places, size_t place_count, struct cordic_neuron_run_report *report);
uint32_t cordic_neuron_run_converter_bit_serial(const uint8_t *plan, size_t plan_bytes, const int16_t *samples, size_t sample_count,
                                                int32_t *places, size_t place_count, struct cordic_neuron_run_report *report);

/* Says whether the bytes are a plan, and how many samples and places a run of it takes. */
uint32_t cordic_neuron_check_plan(const uint8_t *plan, size_t plan_bytes, struct cordic_neuron_plan_report *report);

/* Loads x, y and z into a parallel stage and makes one rotation: z is driven to within one unit of 0. */
uint32_t cordic_neuron_rotate(int32_t x, int32_t y, int32_t z, uint32_t system, struct cordic_neuron_pass_report *report);

#ifdef __cplusplus
}
#endif

#endif
