/* The shim between C callers and the proved code: tests pointers and lengths, which no proof can, and refuses those that the proved code
 * may not be given. */
#include "cordic_neuron.h"

#include <assert.h>
#include <stdbool.h>

/* The proved code, of crates/capi. A slice is a pointer and a length; the samples are those of the header's function of the same ending. */
typedef void proved_run(const uint8_t *, size_t, const void *, size_t, int32_t *, size_t, struct cordic_neuron_run_report *);
proved_run cordic_run_parallel, cordic_run_bit_serial, cordic_run_converter_parallel, cordic_run_converter_bit_serial;
void cordic_check_plan(const uint8_t *, size_t, struct cordic_neuron_plan_report *);
void cordic_rotate(int32_t, int32_t, int32_t, uint32_t, struct cordic_neuron_pass_report *);

#define LIES(type, field, at, bytes) \
    static_assert(offsetof(struct type, field) == (at) && sizeof(((struct type *)0)->field) == (bytes), #type "." #field)

/* The layout that the proved code writes: fields in order, each at the next multiple of its size. */
LIES(cordic_neuron_sample, status, 0, 1);
LIES(cordic_neuron_sample, value, 4, 4);
LIES(cordic_neuron_unit_report, steps, 0, 4);
LIES(cordic_neuron_unit_report, system, 4, 4);
LIES(cordic_neuron_unit_report, mode, 8, 4);
LIES(cordic_neuron_unit_report, reg, 12, 4);
LIES(cordic_neuron_unit_report, step, 16, 8);
LIES(cordic_neuron_unit_report, kept_x, 24, 4);
LIES(cordic_neuron_unit_report, kept_y, 28, 4);
LIES(cordic_neuron_unit_report, kept_z, 32, 4);
LIES(cordic_neuron_run_report, number, 0, 4);
LIES(cordic_neuron_run_report, outputs, 4, 4);
LIES(cordic_neuron_run_report, steps, 8, 4);
LIES(cordic_neuron_run_report, neuron_steps, 12, 4);
LIES(cordic_neuron_run_report, ticks, 16, 8);
LIES(cordic_neuron_run_report, layer, 24, 8);
LIES(cordic_neuron_run_report, neuron, 32, 8);
LIES(cordic_neuron_run_report, input, 40, 8);
LIES(cordic_neuron_run_report, record, 48, 8);
LIES(cordic_neuron_run_report, unit, 56, 40);
LIES(cordic_neuron_pass_report, number, 0, 4);
LIES(cordic_neuron_pass_report, steps, 4, 4);
LIES(cordic_neuron_pass_report, x, 8, 4);
LIES(cordic_neuron_pass_report, y, 12, 4);
LIES(cordic_neuron_pass_report, z, 16, 4);
LIES(cordic_neuron_pass_report, unit, 24, 40);
LIES(cordic_neuron_plan_report, number, 0, 4);
LIES(cordic_neuron_plan_report, inputs, 4, 4);
LIES(cordic_neuron_plan_report, outputs, 8, 4);
LIES(cordic_neuron_plan_report, record, 16, 8);
static_assert(sizeof(struct cordic_neuron_sample) == 8, "sample");
static_assert(sizeof(struct cordic_neuron_run_report) == 96, "run report");
static_assert(sizeof(struct cordic_neuron_pass_report) == 64, "pass report");
static_assert(sizeof(struct cordic_neuron_plan_report) == 24, "plan report");
static_assert(sizeof(size_t) == 8 && sizeof(void *) == 8, "64-bit pointers and lengths");

static const struct cordic_neuron_unit_report no_unit = {.system = -1, .mode = -1, .reg = -1, .step = -1};

/* Elements of one size in memory. */
struct buffer {
    const void *at;
    size_t count, size, align;
};

#define BUFFER(at, count) ((struct buffer){(at), (count), sizeof *(at), _Alignof(__typeof__(*(at)))})

/* 0, or why this is no memory that can be read. */
static uint32_t fault(struct buffer b) {
    if (b.count == 0)
        return 0;
    if (b.at == NULL)
        return CORDIC_NEURON_NULL;
    if ((uintptr_t)b.at % b.align != 0)
        return CORDIC_NEURON_MISALIGNED;
    if (b.count > PTRDIFF_MAX / b.size || b.count * b.size > UINTPTR_MAX - (uintptr_t)b.at)
        return CORDIC_NEURON_TOO_LONG;
    return 0;
}

/* Whether two buffers without a fault share a byte. One with a fault shares none. */
static bool share(struct buffer a, struct buffer b) {
    if (a.count == 0 || b.count == 0 || fault(a) != 0 || fault(b) != 0)
        return false;
    uintptr_t a_from = (uintptr_t)a.at, b_from = (uintptr_t)b.at;
    return a_from < b_from + b.count * b.size && b_from < a_from + a.count * a.size;
}

/* What an empty buffer points to: aligned for every type, and never read or written. */
static uint64_t nowhere;

static void *place_of(struct buffer b) {
    return b.count == 0 ? &nowhere : (void *)b.at;
}

/* Judges the buffers of a run, and calls the proved code if they are sound. The report is written unless it is unsound itself or shares a
 * byte with another buffer. */
static uint32_t run(proved_run *proved, struct buffer plan, struct buffer samples, struct buffer places,
                    struct cordic_neuron_run_report *report) {
    struct buffer told = BUFFER(report, 1), all[] = {told, plan, samples, places};
    uint32_t number = 0;
    for (int i = 0; i < 4 && number == 0; i++)
        number = fault(all[i]);
    bool apart = !share(told, plan) && !share(told, samples) && !share(told, places);
    if (number == 0 && (!apart || share(places, plan) || share(places, samples)))
        number = CORDIC_NEURON_OVERLAP;
    if (number != 0) {
        if (apart && fault(told) == 0)
            *report = (struct cordic_neuron_run_report){
                .number = number, .layer = -1, .neuron = -1, .input = -1, .record = -1, .unit = no_unit};
        return number;
    }
    proved(place_of(plan), plan.count, place_of(samples), samples.count, place_of(places), places.count, report);
    return report->number;
}

uint32_t cordic_neuron_run_parallel(const uint8_t *plan, size_t plan_bytes, const struct cordic_neuron_sample *samples, size_t sample_count,
                                    int32_t *places, size_t place_count, struct cordic_neuron_run_report *report) {
    return run(cordic_run_parallel, BUFFER(plan, plan_bytes), BUFFER(samples, sample_count), BUFFER(places, place_count), report);
}

uint32_t cordic_neuron_run_bit_serial(const uint8_t *plan, size_t plan_bytes, const struct cordic_neuron_sample *samples,
                                      size_t sample_count, int32_t *places, size_t place_count, struct cordic_neuron_run_report *report) {
    return run(cordic_run_bit_serial, BUFFER(plan, plan_bytes), BUFFER(samples, sample_count), BUFFER(places, place_count), report);
}

uint32_t cordic_neuron_run_converter_parallel(const uint8_t *plan, size_t plan_bytes, const int16_t *samples, size_t sample_count,
                                              int32_t *places, size_t place_count, struct cordic_neuron_run_report *report) {
    return run(cordic_run_converter_parallel, BUFFER(plan, plan_bytes), BUFFER(samples, sample_count), BUFFER(places, place_count), report);
}

uint32_t cordic_neuron_run_converter_bit_serial(const uint8_t *plan, size_t plan_bytes, const int16_t *samples, size_t sample_count,
                                                int32_t *places, size_t place_count, struct cordic_neuron_run_report *report) {
    return run(cordic_run_converter_bit_serial, BUFFER(plan, plan_bytes), BUFFER(samples, sample_count), BUFFER(places, place_count),
               report);
}

uint32_t cordic_neuron_check_plan(const uint8_t *plan, size_t plan_bytes, struct cordic_neuron_plan_report *report) {
    struct buffer bytes = BUFFER(plan, plan_bytes), told = BUFFER(report, 1);
    if (fault(told) != 0)
        return fault(told);
    if (share(bytes, told))
        return CORDIC_NEURON_OVERLAP;
    if (fault(bytes) != 0)
        *report = (struct cordic_neuron_plan_report){.number = fault(bytes), .record = -1};
    else
        cordic_check_plan(place_of(bytes), plan_bytes, report);
    return report->number;
}

uint32_t cordic_neuron_rotate(int32_t x, int32_t y, int32_t z, uint32_t system, struct cordic_neuron_pass_report *report) {
    struct buffer told = BUFFER(report, 1);
    if (fault(told) != 0)
        return fault(told);
    cordic_rotate(x, y, z, system, report);
    return report->number;
}
