/* Calls with pointers and lengths that the proved code may not be given: each with the number that the shim has to return, and a look at
 * every byte that it may not have written. */
#include "cordic_neuron.h"

#include <stdbool.h>
#include <stdio.h>
#include <string.h>

/* A run over samples of any kind. */
typedef uint32_t run_on(const uint8_t *, size_t, const void *, size_t, int32_t *, size_t, void *);

/* What a call is given, in one block, so that a stray write anywhere in it is seen. */
struct desk {
    _Alignas(16) uint8_t before[64];
    uint8_t plan[24], pad[8];
    _Alignas(16) uint8_t samples[64];
    _Alignas(16) int32_t places[32];
    _Alignas(16) uint8_t report[128];
    uint8_t after[64];
};

static const uint8_t plan[24] = {1, 0, 0, 1, 0, 0, 0, 1, 2, 0, 0, 0, 0, 0, 0, 0, 3, 0, 0, 0, 8, 0, 0, 0};

static unsigned calls, wrong;

static void laid(struct desk *d) {
    memset(d, 0x5a, sizeof *d);
    memcpy(d->plan, plan, sizeof plan);
    memset(d->samples, 0, sizeof d->samples);
}

/* A report of a refusal that carries nothing but its number. */
static bool blank_unit(const struct cordic_neuron_unit_report *u) {
    return u->steps == 0 && u->system == -1 && u->mode == -1 && u->reg == -1 && u->step == -1 && u->kept_x == 0 && u->kept_y == 0 &&
           u->kept_z == 0;
}

static bool blank_run(const struct cordic_neuron_run_report *r, uint32_t number) {
    return r->number == number && r->outputs == 0 && r->steps == 0 && r->neuron_steps == 0 && r->ticks == 0 && r->layer == -1 &&
           r->neuron == -1 && r->input == -1 && r->record == -1 && blank_unit(&r->unit);
}

static bool blank_plan(const struct cordic_neuron_plan_report *r, uint32_t number) {
    return r->number == number && r->inputs == 0 && r->outputs == 0 && r->record == -1;
}

static void judge(bool good, const char *what, uint32_t number, uint32_t expected) {
    calls++;
    if (!good || number != expected) {
        wrong++;
        printf("%s: number %u, expected %u%s\n", what, number, expected, good ? "" : "; and something was written, or the report is wrong");
    }
}

/* All but the report is as it was, and the report is blank or, where it may not be written, as it was too. */
static bool untouched(const struct desk *now, const struct desk *old, bool may_report, uint32_t number) {
    struct desk same = *now;
    struct cordic_neuron_run_report r;
    memcpy(&r, now->report, sizeof r);
    if (may_report && !blank_run(&r, number))
        return false;
    if (may_report)
        memcpy(same.report, old->report, sizeof r);
    return memcmp(&same, old, sizeof same) == 0;
}

/* A run on the desk, as it is laid, with some arguments other than the desk's own. */
struct given {
    const char *what;
    uint32_t expected;
    bool may_report;
    const void *plan;
    size_t plan_bytes;
    const void *samples;
    size_t sample_count;
    void *places;
    size_t place_count;
    void *report;
};

static void refused(run_on *run, struct desk *d, struct given g) {
    struct desk old;
    laid(d);
    old = *d;
    uint32_t number = run(g.plan, g.plan_bytes, g.samples, g.sample_count, g.places, g.place_count, g.report);
    judge(untouched(d, &old, g.may_report, g.expected), g.what, number, g.expected);
}

/* A sample of two bytes is aligned to two, any other to four. */
static void hostile_runs(run_on *run, size_t size) {
    static struct desk d;
    static const size_t huge[] = {SIZE_MAX, SIZE_MAX / 2 + 1, (size_t)PTRDIFF_MAX + 1};
    uint8_t *p = d.plan, *s = d.samples, *o = (uint8_t *)d.places, *r = d.report;
#define GIVEN(what, expected, may, ...) refused(run, &d, (struct given){what, expected, may, __VA_ARGS__})
    GIVEN("null report", 101, false, p, 24, s, 1, o, 1, NULL);
    GIVEN("null plan", 101, true, NULL, 24, s, 1, o, 1, r);
    GIVEN("null samples", 101, true, p, 24, NULL, 1, o, 1, r);
    GIVEN("null places", 101, true, p, 24, s, 1, NULL, 1, r);
    GIVEN("null everything", 101, false, NULL, 1, NULL, 1, NULL, 1, NULL);
    GIVEN("null plan, SIZE_MAX", 101, true, NULL, SIZE_MAX, s, 1, o, 1, r);
    for (size_t i = 1; i < 8; i++)
        GIVEN("misaligned report", 102, false, p, 24, s, 1, o, 1, r + i);
    for (size_t i = 1; i < (size == 2 ? 2 : 4); i++)
        GIVEN("misaligned samples", 102, true, p, 24, s + i, 1, o, 1, r);
    for (size_t i = 1; i < 4; i++)
        GIVEN("misaligned places", 102, true, p, 24, s, 1, o + i, 1, r);
    for (size_t i = 0; i < 3; i++) {
        GIVEN("plan too long", 103, true, p, huge[i], s, 1, o, 1, r);
        GIVEN("samples too many", 103, true, p, 24, s, huge[i], o, 1, r);
        GIVEN("places too many", 103, true, p, 24, s, 1, o, huge[i], r);
    }
    GIVEN("samples whose bytes wrap", 103, true, p, 24, s, SIZE_MAX / size + 2, o, 1, r);
    GIVEN("places whose bytes wrap", 103, true, p, 24, s, 1, o, SIZE_MAX / 4 + 2, r);
    GIVEN("one sample above the most", 103, true, p, 24, s, PTRDIFF_MAX / size + 1, o, 1, r);
    GIVEN("one place above the most", 103, true, p, 24, s, 1, o, PTRDIFF_MAX / 4 + 1, r);
    GIVEN("plan past the last address", 103, true, (void *)(UINTPTR_MAX - 7), 24, s, 1, o, 1, r);
    GIVEN("places past the last address", 103, true, p, 24, s, 1, (void *)(UINTPTR_MAX - 7), 24, r);
    GIVEN("places over the plan", 104, true, p, 24, s, 1, p, 1, r);
    GIVEN("places over the plan's last byte", 104, true, p, 24, s, 1, p + 20, 1, r);
    GIVEN("places over the samples", 104, true, p, 24, s, 1, s, 1, r);
    GIVEN("places that reach the samples", 104, true, p, 24, o + 4, 4, o, 2, r);
    GIVEN("report over the places", 104, false, p, 24, s, 1, r, 1, r);
    GIVEN("report over the last place", 104, false, p, 24, s, 1, o, 32, o + 96);
    GIVEN("report over the samples", 104, false, p, 24, r + 8, 1, o, 1, r);
    GIVEN("report over the plan", 104, false, r + 48, 24, s, 1, o, 1, r);
    GIVEN("report over the plan, and no samples", 101, false, r, 24, NULL, 1, o, 1, r);
#undef GIVEN
}

/* What is legal, though it looks odd. */
static void odd_runs(run_on *run) {
    static struct desk d;
    struct cordic_neuron_run_report *r = (void *)d.report;
    laid(&d);
    uint32_t number = run(NULL, 0, NULL, 0, NULL, 0, r);
    judge(blank_run(r, 3), "null plan of length 0", number, 3);
    laid(&d);
    number = run(d.plan, 24, NULL, 0, d.places, 1, r);
    judge(blank_run(r, 2), "null samples, none", number, 2);
    laid(&d);
    number = run(d.plan, 24, d.samples, 1, NULL, 0, r);
    judge(blank_run(r, 8), "null places, none", number, 8);
    laid(&d);
    number = run(d.plan, 24, d.samples + 1, 0, (int32_t *)(void *)(d.before + 1), 0, r);
    judge(blank_run(r, 8), "misaligned and empty", number, 8);
    laid(&d);
    number = run(d.plan, 24, d.samples, 1, (int32_t *)(void *)(d.plan + 24), 1, r);
    judge(r->number == 0 && r->outputs == 1 && r->steps == 28, "places right after the plan", number, 0);
    laid(&d);
    number = run(d.samples, 24, d.samples, 1, d.places, 32, r);
    judge(r->number == 4 && r->record == 0, "plan and samples are one", number, 4);
}

static void hostile_plans(void) {
    static struct desk d, old;
    struct cordic_neuron_plan_report *r = (void *)d.report;
    laid(&d);
    old = d;
    judge(true, "plan: null report", cordic_neuron_check_plan(d.plan, 24, NULL), 101);
    for (size_t i = 1; i < 8; i++)
        judge(true, "plan: misaligned report", cordic_neuron_check_plan(d.plan, 24, (void *)(d.report + i)), 102);
    judge(true, "plan: report over the plan", cordic_neuron_check_plan(d.report + 16, 24, r), 104);
    judge(memcmp(&d, &old, sizeof d) == 0, "plan: nothing written", 0, 0);
    judge(true, "plan: null plan", cordic_neuron_check_plan(NULL, 24, r), 101);
    judge(blank_plan(r, 101), "plan: report of 101", r->number, 101);
    judge(true, "plan: too long", cordic_neuron_check_plan(d.plan, SIZE_MAX, r), 103);
    judge(blank_plan(r, 103), "plan: report of 103", r->number, 103);
    judge(true, "plan: null and empty", cordic_neuron_check_plan(NULL, 0, r), 3);
    judge(blank_plan(r, 3), "plan: report of 3", r->number, 3);
    memcpy(d.report, old.report, sizeof d.report);
    judge(memcmp(&d, &old, sizeof d) == 0, "plan: only the report written", 0, 0);
}

static void hostile_rotations(void) {
    static struct desk d, old;
    laid(&d);
    old = d;
    judge(true, "rotation: null report", cordic_neuron_rotate(0, 0, 0, 0, NULL), 101);
    for (size_t i = 1; i < 8; i++)
        judge(true, "rotation: misaligned report", cordic_neuron_rotate(0, 0, 0, 0, (void *)(d.report + i)), 102);
    judge(memcmp(&d, &old, sizeof d) == 0, "rotation: nothing written", 0, 0);
}

static uint32_t records_parallel(const uint8_t *p, size_t n, const void *s, size_t k, int32_t *o, size_t m, void *r) {
    return cordic_neuron_run_parallel(p, n, s, k, o, m, r);
}

static uint32_t records_serial(const uint8_t *p, size_t n, const void *s, size_t k, int32_t *o, size_t m, void *r) {
    return cordic_neuron_run_bit_serial(p, n, s, k, o, m, r);
}

static uint32_t converter_parallel(const uint8_t *p, size_t n, const void *s, size_t k, int32_t *o, size_t m, void *r) {
    return cordic_neuron_run_converter_parallel(p, n, s, k, o, m, r);
}

static uint32_t converter_serial(const uint8_t *p, size_t n, const void *s, size_t k, int32_t *o, size_t m, void *r) {
    return cordic_neuron_run_converter_bit_serial(p, n, s, k, o, m, r);
}

int main(void) {
    run_on *runs[] = {records_parallel, records_serial, converter_parallel, converter_serial};
    for (int i = 0; i < 4; i++) {
        hostile_runs(runs[i], i < 2 ? 8 : 2);
        odd_runs(runs[i]);
    }
    hostile_plans();
    hostile_rotations();
    printf("%u hostile calls, %u differ\n", calls, wrong);
    return wrong != 0;
}
