/* Times three keys on the same jobs: plain and tuned, which are C, and the Rattle key of libkey.a.
 *
 * A round is one call, from a job's bytes to a result's. A key's time is the best of several repetitions of
 * so many rounds, the keys taking turns. All C is built by plain `gcc -O3`, with no option for the machine.
 *
 * All keys have to write the same bytes, and every job has to take its steps, moving water to the last. */
#include "bytes.h"
#include "job.h"
#include "key.h"
#include "layers.h"
#include "stack.h"

#include <inttypes.h>
#include <stdarg.h>
#include <stdio.h>
#include <stdlib.h>
#include <string.h>
#include <time.h>

/* The Rattle key. */
key_function consolidation_key;

enum { PLAIN, TUNED, RATTLE, KEYS };

static const struct key {
    const char *name;
    key_function *work;
} keys[KEYS] = {
    [PLAIN] = {"plain", plain_key},
    [TUNED] = {"tuned", tuned_key},
    [RATTLE] = {"Rattle", consolidation_key},
};

/* Offsets in a result. */
enum { STEPS = 16, ELEMENTS = 56 };

enum { REPETITIONS = 5 };
static const uint64_t latest_end = 3000000000;
static const double repetition_seconds = 0.1;

/* A row of mud. The strength is such that it still settles after so many steps. */
struct row {
    uint64_t count, points, strength, steps;
    int repetitions;
};

static const struct row rows[] = {
    {128, 64, 10000000, 1000000, 2},
    {128, 2, 100000000, 20000, REPETITIONS},
    {16, 64, 4000000, 20000, REPETITIONS},
    {16, 2, 4000000, 20000, REPETITIONS},
    {1, 64, 20000, 40000, REPETITIONS},
    {1, 2, 20000, 40000, REPETITIONS},
};

static const struct row growing_rows[] = {
    {16, 64, 4000000, 10000, REPETITIONS},
    {16, 64, 4000000, 20000, REPETITIONS},
    {32, 64, 10000000, 10000, REPETITIONS},
    {32, 64, 10000000, 20000, REPETITIONS},
    {64, 64, 30000000, 10000, REPETITIONS},
    {64, 64, 30000000, 20000, REPETITIONS},
    {128, 64, 100000000, 10000, REPETITIONS},
    {128, 64, 100000000, 20000, REPETITIONS},
};

/* A job with its name, its bytes and the bytes of its result, which are those of the plain key. */
struct problem {
    char name[80];
    struct job job;
    uint8_t bytes[MOST_JOB_BYTES];
    size_t length;
    uint8_t expected[MOST_RESULT_BYTES];
    size_t result_length;
};

static void fail(const struct problem *problem, const char *format, ...)
{
    va_list arguments;
    va_start(arguments, format);
    fflush(stdout);
    fprintf(stderr, "%s: ", problem->name);
    vfprintf(stderr, format, arguments);
    fprintf(stderr, "\n");
    va_end(arguments);
    exit(1);
}

static void work(const struct key *key, const struct problem *problem, uint8_t *result)
{
    uint32_t refusal = key->work(problem->bytes, problem->length, result, problem->result_length);
    if (refusal != 0)
        fail(problem, "refused %" PRIu32 " by %s", refusal, key->name);
}

static double seconds_for(const struct key *key, const struct problem *problem, uint64_t rounds,
                          uint8_t *result)
{
    clock_t begin = clock();
    for (uint64_t round = 0; round < rounds; round++)
        work(key, problem, result);
    return (double)(clock() - begin) / CLOCKS_PER_SEC;
}

static void require_equal(const struct problem *problem, const struct key *key, const uint8_t *result)
{
    for (size_t i = 0; i < problem->result_length; i++)
        if (result[i] != problem->expected[i])
            fail(problem, "byte %zu is %d by %s, %d by plain", i, result[i], key->name, problem->expected[i]);
}

/* Every step of the budget has to be taken, and the last has to move water. */
static void require_steps(const struct problem *problem)
{
    uint64_t taken = get64(problem->expected + STEPS), budget = problem->job.budget;
    if (taken != budget)
        fail(problem, "stopped after %" PRIu64 " of %" PRIu64 " steps", taken, budget);
    if (budget == 0)
        return;
    struct problem before = *problem;
    uint8_t result[MOST_RESULT_BYTES];
    before.job.budget--;
    write_job(&before.job, before.bytes);
    work(&keys[TUNED], &before, result);
    if (memcmp(result + ELEMENTS, problem->expected + ELEMENTS, problem->result_length - ELEMENTS) == 0)
        fail(problem, "at rest before %" PRIu64 " steps", budget);
}

/* The seconds that each key takes for one round. */
static void time_keys(struct problem *problem, int repetitions, double *best)
{
    uint8_t result[MOST_RESULT_BYTES];
    problem->length = write_job(&problem->job, problem->bytes);
    problem->result_length = result_bytes(problem->job.layer.count);
    double seconds = seconds_for(&keys[PLAIN], problem, 1, problem->expected);
    uint64_t rounds = 1 + (uint64_t)(repetition_seconds / (seconds + 1e-6));
    require_steps(problem);
    for (int repetition = 0; repetition < repetitions; repetition++)
        for (int i = 0; i < KEYS; i++) {
            memset(result, 0, sizeof result);
            seconds = seconds_for(&keys[i], problem, rounds, result) / (double)rounds;
            require_equal(problem, &keys[i], result);
            if (repetition == 0 || seconds < best[i])
                best[i] = seconds;
        }
}

/* One line of a table: each key's time in units of `unit` seconds, and the ratios. */
static void print_times(const double *best, double unit)
{
    for (int i = 0; i < KEYS; i++)
        printf(" %8.2f", best[i] / unit);
    printf(" %13.2f %13.2f\n", best[RATTLE] / best[TUNED], best[RATTLE] / best[PLAIN]);
    fflush(stdout);
}

static void print_heads(void)
{
    for (int i = 0; i < KEYS; i++)
        printf(" %8s", keys[i].name);
    printf(" %13s %13s\n", "Rattle/tuned", "Rattle/plain");
}

static void measure_rows(const struct row *row, size_t count, const char *title)
{
    printf("%s\n%8s %6s %8s", title, "elements", "points", "steps");
    print_heads();
    for (const struct row *end = row + count; row < end; row++) {
        struct problem problem = {.job = {.end = latest_end, .budget = row->steps}};
        double best[KEYS];
        snprintf(problem.name, sizeof problem.name,
                 "%" PRIu64 " elements, %" PRIu64 " points, %" PRIu64 " steps", row->count, row->points,
                 row->steps);
        make_layer(&problem.job.layer, row->count, row->points, row->strength);
        time_keys(&problem, row->repetitions, best);
        printf("%8" PRIu64 " %6" PRIu64 " %8" PRIu64, row->count, row->points, row->steps);
        print_times(best, 1e-9 * (double)(row->count * row->steps));
    }
}

static void measure_call(struct problem *problem)
{
    double best[KEYS];
    time_keys(problem, REPETITIONS, best);
    printf("%-24s", problem->name);
    print_times(best, 1e-6);
}

static void measure_calls(void)
{
    struct problem specimen = {"the specimen, one step", .job = {.end = 100, .budget = 1}};
    struct problem mud = {"16 elements, no step", .job = {.end = latest_end, .budget = 0}};
    make_specimen(&specimen.job.layer);
    make_layer(&mud.job.layer, 16, 64, 4000000);
    printf("\nmicroseconds for a small job, from call to bytes\n%-24s", "job");
    print_heads();
    measure_call(&specimen);
    measure_call(&mud);
}

/* Of the Rattle key, on a job of the largest layer. */
static void measure_stack(void)
{
    struct job job = {.end = latest_end, .budget = 100};
    uint8_t bytes[MOST_JOB_BYTES], result[MOST_RESULT_BYTES];
    make_layer(&job.layer, MOST_ELEMENTS, MOST_POINTS, 100000000);
    printf("\nstack used by one key: %zu bytes\n",
           stack_used(consolidation_key, bytes, write_job(&job, bytes), result, sizeof result));
}

int main(void)
{
    measure_rows(rows, sizeof rows / sizeof rows[0], "ns for each element and step, and ratios of times");
    measure_calls();
    measure_rows(growing_rows, sizeof growing_rows / sizeof growing_rows[0],
                 "\nns for each element and step as elements and steps grow");
    measure_stack();
    return 0;
}
