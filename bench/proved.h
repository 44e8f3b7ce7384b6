/* The proved run, as the archive of the crate `capi` holds it, called without the tests of pointers that c/cordic_neuron.c makes. */
#ifndef PROVED_H
#define PROVED_H

#include "../c/cordic_neuron.h"
#include "plain.h"

void cordic_run_parallel(const uint8_t *plan, size_t len, const struct cordic_neuron_sample *samples, size_t count, int32_t *out,
                         size_t places, struct cordic_neuron_run_report *report);
void cordic_run_bit_serial(const uint8_t *plan, size_t len, const struct cordic_neuron_sample *samples, size_t count, int32_t *out,
                           size_t places, struct cordic_neuron_run_report *report);

/* The proved runs in the form of the plain ones. Of the report they fill in number, outputs and steps only. */
static inline void proved_run(const uint8_t *plan, size_t len, const struct plain_sample *samples, size_t count, int32_t *out,
                              size_t places, struct plain_report *report) {
    struct cordic_neuron_run_report r;
    cordic_run_parallel(plan, len, (const struct cordic_neuron_sample *)samples, count, out, places, &r);
    report->number = r.number;
    report->outputs = r.outputs;
    report->steps = r.steps;
}

static inline void proved_run_serial(const uint8_t *plan, size_t len, const struct plain_sample *samples, size_t count, int32_t *out,
                                     size_t places, struct plain_report *report) {
    struct cordic_neuron_run_report r;
    cordic_run_bit_serial(plan, len, (const struct cordic_neuron_sample *)samples, count, out, places, &r);
    report->number = r.number;
    report->outputs = r.outputs;
    report->steps = r.steps;
}

#endif
