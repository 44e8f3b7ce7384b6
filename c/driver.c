/* Reads requests in the form of docs/CASES.md, makes the calls, and prints each report field by field.
 *
 * A `run` is made on both stages, after a check of its plan; a rotation of a `pass` on the parallel stage. Anything else is skipped.
 * `rotate SYSTEM X Y Z` takes the number of a system. Buffers are of the exact length, so that a checker of memory sees past their ends. */
#define _POSIX_C_SOURCE 200809L
#include "cordic_neuron.h"

#include <inttypes.h>
#include <stdio.h>
#include <stdlib.h>
#include <string.h>

/* Not what any call would write. */
static const int blank = 0xa5;

static void *memory(size_t bytes) {
    void *made = malloc(bytes);
    if (bytes != 0 && made == NULL)
        abort();
    return made;
}

static void print_unit(const struct cordic_neuron_unit_report *u) {
    printf(" unit %" PRIu32 " %" PRId32 " %" PRId32 " %" PRId32 " %" PRId64 " kept %" PRId32 " %" PRId32 " %" PRId32, u->steps, u->system,
           u->mode, u->reg, u->step, u->kept_x, u->kept_y, u->kept_z);
}

static void print_run(const char *stage, uint32_t number, const struct cordic_neuron_run_report *r, const int32_t *places, size_t count) {
    printf("%s %" PRIu32 " %" PRIu32 " outputs %" PRIu32 " steps %" PRIu32 " %" PRIu32 " ticks %" PRIu64, stage, number, r->number,
           r->outputs, r->steps, r->neuron_steps, r->ticks);
    printf(" at %" PRId64 " %" PRId64 " %" PRId64 " %" PRId64, r->layer, r->neuron, r->input, r->record);
    print_unit(&r->unit);
    printf(" places");
    for (size_t i = 0; i < count; i++)
        printf(" %" PRId32, places[i]);
    printf("\n");
}

static void rotate(uint32_t system, int32_t x, int32_t y, int32_t z) {
    struct cordic_neuron_pass_report *r = memory(sizeof *r);
    memset(r, blank, sizeof *r);
    uint32_t number = cordic_neuron_rotate(x, y, z, system, r);
    printf("rotate %" PRIu32 " %" PRIu32 " steps %" PRIu32, number, r->number, r->steps);
    printf(" triple %" PRId32 " %" PRId32 " %" PRId32, r->x, r->y, r->z);
    print_unit(&r->unit);
    printf("\n");
    free(r);
}

static void check(const uint8_t *plan, size_t bytes) {
    struct cordic_neuron_plan_report *r = memory(sizeof *r);
    memset(r, blank, sizeof *r);
    uint32_t number = cordic_neuron_check_plan(plan, bytes, r);
    printf("plan %" PRIu32 " %" PRIu32 " inputs %" PRIu32 " outputs %" PRIu32, number, r->number, r->inputs, r->outputs);
    printf(" record %" PRId64 "\n", r->record);
    free(r);
}

static void run(const char *stage, int serial, int converter, const uint8_t *plan, size_t bytes, const void *samples, size_t count,
                size_t place_count) {
    struct cordic_neuron_run_report *r = memory(sizeof *r);
    int32_t *places = memory(place_count * sizeof *places);
    memset(r, blank, sizeof *r);
    for (size_t i = 0; i < place_count; i++)
        places[i] = -1 - (int32_t)i;
    uint32_t number;
    if (converter && serial)
        number = cordic_neuron_run_converter_bit_serial(plan, bytes, samples, count, places, place_count, r);
    else if (converter)
        number = cordic_neuron_run_converter_parallel(plan, bytes, samples, count, places, place_count, r);
    else if (serial)
        number = cordic_neuron_run_bit_serial(plan, bytes, samples, count, places, place_count, r);
    else
        number = cordic_neuron_run_parallel(plan, bytes, samples, count, places, place_count, r);
    print_run(stage, number, r, places, place_count);
    free(places);
    free(r);
}

static void run_request(void) {
    int converter = strcmp(strtok(NULL, " "), "converter") == 0;
    size_t place_count = strtoul(strtok(NULL, " "), NULL, 10);
    const char *hex = strtok(NULL, " ");
    size_t bytes = strcmp(hex, "-") == 0 ? 0 : strlen(hex) / 2;
    uint8_t *plan = memory(bytes);
    for (size_t i = 0; i < bytes; i++) {
        char digits[3] = {hex[2 * i], hex[2 * i + 1], 0};
        plan[i] = (uint8_t)strtoul(digits, NULL, 16);
    }
    static long numbers[65536];
    size_t given = 0;
    for (const char *word; (word = strtok(NULL, " ")) != NULL;)
        numbers[given++] = strtol(word, NULL, 10);

    size_t count = converter ? given : given / 2;
    int16_t *words = memory(converter ? count * sizeof *words : 0);
    struct cordic_neuron_sample *records = memory(converter ? 0 : count * sizeof *records);
    for (size_t i = 0; i < count; i++) {
        if (converter)
            words[i] = (int16_t)numbers[i];
        else
            records[i] = (struct cordic_neuron_sample){(uint8_t)numbers[2 * i], (int32_t)numbers[2 * i + 1]};
    }
    const void *samples = converter ? (const void *)words : (const void *)records;
    check(plan, bytes);
    run("parallel", 0, converter, plan, bytes, samples, count, place_count);
    run("bit-serial", 1, converter, plan, bytes, samples, count, place_count);
    free(words);
    free(records);
    free(plan);
}

static int32_t word(void) {
    return (int32_t)strtol(strtok(NULL, " "), NULL, 10);
}

static void rotation(uint32_t system) {
    int32_t x = word(), y = word(), z = word();
    rotate(system, x, y, z);
}

static uint32_t system_number(const char *name) {
    if (strcmp(name, "linear") == 0)
        return CORDIC_NEURON_LINEAR;
    return strcmp(name, "circular") == 0 ? CORDIC_NEURON_CIRCULAR : CORDIC_NEURON_HYPERBOLIC;
}

int main(void) {
    char *line = NULL;
    size_t room = 0;
    for (ssize_t length; (length = getline(&line, &room, stdin)) > 0;) {
        line[length - 1] = 0;
        const char *command = strtok(line, " ");
        if (strcmp(command, "run") == 0) {
            run_request();
        } else if (strcmp(command, "rotate") == 0) {
            rotation((uint32_t)strtoul(strtok(NULL, " "), NULL, 10));
        } else if (strcmp(command, "pass") == 0) {
            const char *system = strtok(NULL, " "), *mode = strtok(NULL, " ");
            if (strcmp(mode, "rotation") == 0)
                rotation(system_number(system));
        }
    }
    free(line);
    return 0;
}
