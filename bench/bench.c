/* The driver: checks that all versions of the run agree on the same inputs, then times them in turns and prints the tables. */
#define _POSIX_C_SOURCE 199309L
#include "plain.h"
#include "proved.h"

#include <stdio.h>
#include <stdlib.h>
#include <string.h>
#include <time.h>

enum { WIDEST = 64, LONGEST = 65528, ONE = 1 << 28, MOST_VERSIONS = 5, MOST_ROUNDS = 400, RANDOM_CASES = 20000 };

struct version {
    const char *name;
    plain_runner *run;
};

/* The last of each list is the proved one. */
static const struct version parallel[] = {
    {"C", plain_run}, {"C64", plain_run_wide}, {"Rust", plain_rust_run}, {"Rust64", plain_rust_run_wide}, {"Rattle", proved_run}};
static const struct version serial[] = {{"C", plain_run_serial}, {"Rust", plain_rust_run_serial}, {"Rattle", proved_run_serial}};

enum { PARALLEL = sizeof parallel / sizeof parallel[0], SERIAL = sizeof serial / sizeof serial[0] };

/* One input of a run: a plan, samples, and the number of places lent. */
struct job {
    const uint8_t *plan;
    const struct plain_sample *samples;
    size_t len, count, places;
};

static void fail(const char *what) {
    fprintf(stderr, "bench: %s\n", what);
    exit(1);
}

static void *room(size_t bytes) {
    void *p = malloc(bytes);
    if (p == NULL)
        fail("no memory");
    return p;
}

/* ---- Inputs ---- */

static uint32_t random_state = 2463534242;

static uint32_t random_word(void) {
    random_state ^= random_state << 13;
    random_state ^= random_state >> 17;
    random_state ^= random_state << 5;
    return random_state;
}

static uint32_t below(uint32_t n) { return (uint32_t)((uint64_t)random_word() * n >> 32); }

static int32_t within(int32_t limit) { return (int32_t)((int64_t)((uint64_t)random_word() * (2 * (uint64_t)limit + 1) >> 32) - limit); }

struct plan {
    uint8_t bytes[LONGEST + 8];
    size_t len;
};

static void put(struct plan *plan, uint8_t kind, uint8_t flag, uint32_t index, int32_t value) {
    uint32_t v = (uint32_t)value;
    const uint8_t record[8] = {
        kind, flag, (uint8_t)(index >> 8), (uint8_t)index, (uint8_t)(v >> 24), (uint8_t)(v >> 16), (uint8_t)(v >> 8), (uint8_t)v};
    if (plan->len + sizeof record > LONGEST)
        fail("a plan is too long");
    memcpy(plan->bytes + plan->len, record, sizeof record);
    plan->len += sizeof record;
}

/* What is measured. The weights of a neuron are small, within 1 / inputs, or wide, within 1; then the samples are small. So no net comes
   out of reach: its size is at most 1 and 1/32 for the bias. */
struct workload {
    const char *name;
    uint32_t layers, neurons, inputs;
    uint8_t tanh;
    int wide;
    uint32_t pool; /* plans in the fresh regime */
};

static struct job make_job(const struct workload *w) {
    static struct plan plan;
    int32_t small = ONE / (int32_t)w->inputs;
    plan.len = 0;
    for (uint32_t layer = 0; layer < w->layers; layer++) {
        uint32_t inputs = layer == 0 ? w->inputs : w->neurons;
        put(&plan, 1, w->tanh, w->neurons, (int32_t)inputs);
        for (uint32_t j = 0; j < w->neurons; j++) {
            put(&plan, 2, 0, j, within(ONE / 32));
            for (uint32_t i = 0; i < inputs; i++)
                put(&plan, 3, 0, i, within(w->wide ? ONE : small));
        }
    }
    uint8_t *bytes = room(plan.len + w->inputs * sizeof(struct plain_sample));
    struct plain_sample *samples = (struct plain_sample *)(void *)(bytes + plan.len);
    memcpy(bytes, plan.bytes, plan.len);
    for (uint32_t i = 0; i < w->inputs; i++)
        samples[i] = (struct plain_sample){0, within(w->wide ? small : ONE)};
    return (struct job){bytes, samples, plan.len, w->inputs, WIDEST};
}

static uint32_t steps_of(const struct workload *w) {
    uint32_t inputs = w->inputs + (w->layers - 1) * w->neurons;
    return w->neurons * (28 * inputs + (w->tanh ? 58 * w->layers : 0));
}

/* ---- Agreement ---- */

static uint32_t seen[9], checked;

static void run_job(const struct version *v, const struct job *job, int32_t *out, struct plain_report *report) {
    v->run(job->plan, job->len, job->samples, job->count, out, job->places, report);
}

/* Stops unless all versions give the same number, outputs and steps and leave the same places; the plain ones, the same report. */
static struct plain_report agree(const struct version *versions, int count, const struct job *job) {
    struct plain_report first, other;
    int32_t expected[WIDEST], out[WIDEST];
    memset(expected, 0x5a, sizeof expected);
    run_job(&versions[0], job, expected, &first);
    for (int v = 1; v < count; v++) {
        memset(out, 0x5a, sizeof out);
        other = first;
        other.number = other.outputs = other.steps = UINT32_MAX;
        run_job(&versions[v], job, out, &other);
        if (memcmp(&first, &other, sizeof first) != 0 || memcmp(expected, out, sizeof out) != 0) {
            fprintf(stderr, "bench: %s gives %u with %u outputs and %u steps, %s gives %u with %u and %u\n", versions[0].name, first.number,
                    first.outputs, first.steps, versions[v].name, other.number, other.outputs, other.steps);
            exit(1);
        }
    }
    seen[first.number]++;
    checked++;
    return first;
}

static void agree_all(const struct job *job) {
    agree(parallel, PARALLEL, job);
    agree(serial, SERIAL, job);
}

static int32_t any_weight(void) {
    switch (below(40)) {
    case 0: return ONE + (int32_t)below(2);
    case 1: return -ONE - (int32_t)below(2);
    case 2: return (int32_t)random_word();
    default: return within(ONE >> below(4));
    }
}

static int32_t any_word(void) { return below(8) == 0 ? (int32_t)random_word() : within(ONE >> below(4)); }

/* Any plan of small layers, well-formed but for one byte now and then. */
static uint32_t any_plan(struct plan *plan) {
    plan->len = 0;
    uint32_t first = 1 + below(6), inputs = first, layers = 1 + below(4) + (below(30) == 0);
    for (uint32_t layer = 0; layer < layers; layer++) {
        uint32_t neurons = 1 + below(6);
        put(plan, 1, (uint8_t)below(2), neurons, (int32_t)inputs);
        for (uint32_t j = 0; j < neurons; j++) {
            put(plan, 2, 0, j, any_word());
            for (uint32_t i = 0; i < inputs; i++)
                put(plan, 3, 0, i, any_weight());
        }
        inputs = neurons;
    }
    if (below(6) == 0)
        plan->bytes[below((uint32_t)plan->len)] ^= (uint8_t)(1 << below(8));
    if (below(20) == 0)
        plan->len -= below((uint32_t)plan->len + 1);
    return first;
}

/* Plans, samples and places of every kind, refused ones among them. */
static void check_random(void) {
    static struct plan plan;
    for (int n = 0; n < RANDOM_CASES; n++) {
        struct plain_sample samples[8];
        uint32_t count = any_plan(&plan);
        for (uint32_t i = 0; i < 8; i++)
            samples[i] = (struct plain_sample){below(60) == 0 ? (uint8_t)(1 + below(255)) : 0, any_word()};
        if (below(20) == 0)
            count = below(8);
        agree_all(&(struct job){plan.bytes, samples, plan.len, count, below(20) == 0 ? below(7) : WIDEST});
    }
}

/* One case by hand: a plan of one neuron with one input, a sample and the number that is expected. */
static void check_one(uint32_t expected, size_t len, int32_t bias, int32_t weight, struct plain_sample sample, size_t count,
                      size_t places) {
    static struct plan plan;
    plan.len = 0;
    put(&plan, 1, 0, 1, 1);
    put(&plan, 2, 0, 0, bias);
    put(&plan, 3, 0, 0, weight);
    struct job job = {plan.bytes, &sample, len, count, places};
    if (agree(parallel, PARALLEL, &job).number != expected || agree(serial, SERIAL, &job).number != expected)
        fail("a refusal is not the one that is expected");
}

static void check_refusals(void) {
    static struct plan longest = {.len = LONGEST + 8};
    const struct plain_sample good = {0, ONE}, bad = {2, ONE};
    check_one(0, 24, 0, ONE, good, 1, 1);
    check_one(0, 24, 0, -ONE, good, 1, 1);
    check_one(1, 24, 0, ONE, bad, 1, 1);
    check_one(2, 24, 0, ONE, good, 0, 1);
    check_one(3, 0, 0, ONE, good, 1, 1);
    check_one(3, 23, 0, ONE, good, 1, 1);
    check_one(4, 16, 0, ONE, good, 1, 1);
    check_one(5, 24, 0, ONE + 1, good, 1, 1);
    check_one(5, 24, 0, INT32_MIN, good, 1, 1);
    check_one(7, 24, INT32_MAX, ONE, good, 1, 1);
    check_one(7, 24, INT32_MIN, -ONE, good, 1, 1);
    check_one(8, 24, 0, ONE, good, 1, 0);
    agree_all(&(struct job){longest.bytes, &good, longest.len, 1, WIDEST});
}

static void check_coverage(void) {
    printf("All versions agree on %u runs: %u accepted", checked, seen[0]);
    for (int number = 1; number <= 8; number++) {
        if (number == 6) /* never arises in a run */
            continue;
        if (seen[number] == 0)
            fail("a refusal was never seen");
        printf(", %u refused with %d", seen[number], number);
    }
    printf(".\n");
}

/* ---- Time ---- */

/* ns of one run, over the rounds. */
struct timing {
    double best[MOST_VERSIONS], median[MOST_VERSIONS];
};

static double now(void) {
    struct timespec t;
    clock_gettime(CLOCK_MONOTONIC, &t);
    return (double)t.tv_sec * 1e9 + (double)t.tv_nsec;
}

static int in_order(const void *a, const void *b) {
    double p = *(const double *)a, q = *(const double *)b;
    return (p > q) - (p < q);
}

/* Runs in a row, from some place in the pool on and round it: their time, each. */
static double stretch(const struct version *v, const struct job *pool, uint32_t size, uint32_t from, uint32_t runs) {
    int32_t out[WIDEST];
    struct plain_report report;
    double start = now();
    for (uint32_t i = 0; i < runs; i++) {
        run_job(v, &pool[from], out, &report);
        from = from + 1 == size ? 0 : from + 1;
    }
    return (now() - start) / runs;
}

/* How many runs of the first version take about a millisecond. */
static uint32_t millisecond(const struct version *v, const struct job *pool, uint32_t size) {
    uint32_t runs = size < 16 ? size : 16;
    double best = stretch(v, pool, size, 0, runs);
    for (int i = 0; i < 5; i++) {
        double time = stretch(v, pool, size, 0, runs);
        best = time < best ? time : best;
    }
    return (uint32_t)(1e6 / best) + 1;
}

/* Times the versions in turns. In a round each makes the same runs, about a millisecond of them, after as many that are not timed. */
static struct timing measure(const struct version *versions, int count, const struct job *pool, uint32_t size, int rounds) {
    static double times[MOST_VERSIONS][MOST_ROUNDS];
    struct timing timing;
    uint32_t runs = millisecond(&versions[0], pool, size);
    for (int round = 0; round < rounds; round++) {
        uint32_t from = (uint32_t)((uint64_t)round * runs % size);
        for (int turn = 0; turn < count; turn++) {
            int v = (round + turn) % count;
            stretch(&versions[v], pool, size, from, runs);
            times[v][round] = stretch(&versions[v], pool, size, (from + runs) % size, runs);
        }
    }
    for (int v = 0; v < count; v++) {
        qsort(times[v], (size_t)rounds, sizeof times[v][0], in_order);
        timing.best[v] = times[v][0];
        timing.median[v] = times[v][rounds / 2];
    }
    return timing;
}

/* ---- Tables ---- */

static const struct workload workloads[] = {
    {"one product", 1, 1, 1, 0, 1, 8192},      {"layer 64 x 64", 1, 64, 64, 0, 1, 16},     {"layer 64 x 64, small", 1, 64, 64, 0, 0, 16},
    {"4 layers tanh, 8", 4, 8, 8, 1, 0, 64},   {"4 layers tanh, 16", 4, 16, 16, 1, 0, 32}, {"4 layers tanh, 32", 4, 32, 32, 1, 0, 16},
    {"4 layers tanh, 44", 4, 44, 44, 1, 0, 8}, /* the widest that fits: 63,392 bytes */
};

static const struct workload serial_workloads[] = {
    {"one product", 1, 1, 1, 0, 1, 8192},
    {"layer 64 x 64", 1, 64, 64, 0, 1, 16},
    {"4 layers tanh, 16", 4, 16, 16, 1, 0, 32},
};

/* The heads: of the line, and of the three groups of figures: for a run, for a part of it, and the proved version over each other one. */
static void heads(const char *title, const char *line, const char *part, const struct version *versions, int count) {
    printf("\n%s\n\n%*s | %-*s | ns for a %-*s | Rattle over %*s |\n", title, (int)strlen(line), "", 8 * count - 1, "ns for a run",
           7 * count - 10, part, 7 * count - 20, "");
    printf("%s |", line);
    for (int v = 0; v < count; v++)
        printf(" %7s", versions[v].name);
    printf(" |");
    for (int v = 0; v < count; v++)
        printf(" %6s", versions[v].name);
    printf(" |");
    for (int v = 0; v + 1 < count; v++)
        printf(" %6s", versions[v].name);
    printf(" | noise\n");
}

static void figures(const struct timing *t, int count, uint32_t parts) {
    double noise = 1;
    printf(" |");
    for (int v = 0; v < count; v++)
        printf(" %7.0f", t->best[v]);
    printf(" |");
    for (int v = 0; v < count; v++)
        printf(" %6.2f", t->best[v] / parts);
    printf(" |");
    for (int v = 0; v + 1 < count; v++)
        printf(" %6.2f", t->best[count - 1] / t->best[v]);
    for (int v = 0; v < count; v++)
        noise = t->median[v] / t->best[v] > noise ? t->median[v] / t->best[v] : noise;
    printf(" | %5.2f\n", noise);
    fflush(stdout);
}

/* A pool of plans for the versions to agree on and to accept. */
static struct job *make_pool(const struct workload *w, const struct version *versions, int count) {
    struct job *pool = room(w->pool * sizeof *pool);
    for (uint32_t i = 0; i < w->pool; i++) {
        pool[i] = make_job(w);
        struct plain_report report = agree(versions, count, &pool[i]);
        if (report.number != 0 || report.steps != steps_of(w))
            fail("a run to be timed is refused, or has other steps");
    }
    return pool;
}

static void free_pool(struct job *pool, uint32_t count) {
    for (uint32_t i = 0; i < count; i++)
        free((void *)pool[i].plan);
    free(pool);
}

/* A table of workloads, each with the same plan again and again, and with a pool of plans in turn. */
static void table(const char *title, const struct version *versions, int count, const struct workload *work, size_t lines, int rounds) {
    heads(title, "workload             plans   steps", "step", versions, count);
    for (const struct workload *w = work; w < work + lines; w++) {
        struct job *pool = make_pool(w, versions, count);
        for (int fresh = 0; fresh < 2; fresh++) {
            struct timing t = measure(versions, count, pool, fresh ? w->pool : 1, rounds);
            printf("%-20s %-5s %7u", w->name, fresh ? "fresh" : "same", steps_of(w));
            figures(&t, count, steps_of(w));
        }
        free_pool(pool, w->pool);
    }
}

/* How time grows with the products: one layer of 64 neurons, fresh plans. */
static void growth(int rounds) {
    heads("A layer of 64 neurons, parallel stage, fresh plans", "inputs products", "product", parallel, PARALLEL);
    for (uint32_t inputs = 1; inputs <= WIDEST; inputs *= 2) {
        struct workload w = {"", 1, WIDEST, inputs, 0, 1, 1024 / inputs};
        struct job *pool = make_pool(&w, parallel, PARALLEL);
        struct timing t = measure(parallel, PARALLEL, pool, w.pool, rounds);
        printf("%6u %8u", inputs, WIDEST * inputs);
        figures(&t, PARALLEL, WIDEST * inputs);
        free_pool(pool, w.pool);
    }
}

int main(void) {
    check_refusals();
    check_random();
    check_coverage();
    table("Parallel stage", parallel, PARALLEL, workloads, sizeof workloads / sizeof workloads[0], 200);
    table("Bit-serial stage", serial, SERIAL, serial_workloads, sizeof serial_workloads / sizeof serial_workloads[0], 40);
    growth(200);
    printf("\nAll versions agreed on %u runs.\n", checked);
    return 0;
}
