/* An example: checks a plan, runs it, meets two refusals, and makes a rotation. */
#include "cordic_neuron.h"

#include <inttypes.h>
#include <stdio.h>

/* One neuron with one input, identity, bias 0, weight 0.5. */
static const uint8_t plan[] = {
    1, 0, 0, 1, 0x00, 0, 0, 1, /* layer: identity, 1 neuron, 1 input */
    2, 0, 0, 0, 0x00, 0, 0, 0, /* bias of neuron 0 */
    3, 0, 0, 0, 0x08, 0, 0, 0, /* weight of input 0: 134217728 */
};

static void run(const char *name, const struct cordic_neuron_sample *samples, size_t count) {
    int32_t places[1] = {-1};
    struct cordic_neuron_run_report report;
    if (cordic_neuron_run_parallel(plan, sizeof plan, samples, count, places, 1, &report) == CORDIC_NEURON_ACCEPTED)
        printf("%s: output %" PRId32 ", steps %" PRIu32 ", ticks %" PRIu64 "\n", name, places[0], report.steps, report.ticks);
    else
        printf("%s: refused %" PRIu32 ", input %" PRId64 ", place still %" PRId32 "\n", name, report.number, report.input, places[0]);
}

static void rotate(const char *name, int32_t x, int32_t y, int32_t z) {
    struct cordic_neuron_pass_report report;
    if (cordic_neuron_rotate(x, y, z, CORDIC_NEURON_LINEAR, &report) == CORDIC_NEURON_ACCEPTED)
        printf("%s: x %" PRId32 ", y %" PRId32 ", z %" PRId32 ", steps %" PRIu32 "\n", name, report.x, report.y, report.z, report.steps);
    else
        printf("%s: refused %" PRIu32 ", register %c, step %" PRId64 "\n", name, report.number, "-xyz"[report.unit.reg + 1],
               report.unit.step);
}

int main(void) {
    struct cordic_neuron_plan_report checked;
    cordic_neuron_check_plan(plan, sizeof plan, &checked);
    printf("plan: number %" PRIu32 ", inputs %" PRIu32 ", outputs %" PRIu32 "\n", checked.number, checked.inputs, checked.outputs);
    cordic_neuron_check_plan(plan, sizeof plan - 8, &checked);
    printf("plan cut short: number %" PRIu32 ", record %" PRId64 "\n", checked.number, checked.record);

    const struct cordic_neuron_sample one = {.status = 0, .value = 268435456}, pinned = {.status = 2, .value = 268435456};
    run("sample 1.0", &one, 1);
    run("sample pinned", &pinned, 1);
    run("no sample", NULL, 0);

    rotate("1.0 x 0.5", 268435456, 0, 134217728);
    rotate("y too large", 268435456, INT32_MAX, 268435456);
    return 0;
}
