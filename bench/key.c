#include "key.h"

#include "bytes.h"
#include "job.h"
#include "soil.h"

#include <string.h>

enum { VERSION = 1 };

static uint64_t all_water(const struct layer *layer)
{
    uint64_t sum = 0;
    for (uint64_t j = 0; j < layer->count; j++)
        sum += layer->water[j];
    return sum;
}

/* Water, void ratio, effective stress, total stress and pore pressure of every element. */
static void put_elements(uint8_t *at, const struct layer *layer)
{
    int64_t burden[MOST_ELEMENTS];
    uint64_t below = 0;
    burdens(layer, burden);
    for (uint64_t j = 0; j < layer->count; j++) {
        uint64_t height = layer->solids[j] + layer->water[j];
        uint64_t e = void_ratio(layer->solids[j], layer->water[j]);
        int64_t stress = (int64_t)effective_stress(layer, e);
        int64_t node = (int64_t)(below + height / 2);
        int64_t pore = layer->load + burden[j] - stress + head_pressure((int64_t)layer->top_level - node);
        at = put64(at, layer->water[j]);
        at = put64(at, e);
        at = put64(at, (uint64_t)stress);
        at = put64(at, (uint64_t)(pore + stress));
        at = put64(at, (uint64_t)pore);
        below += height;
    }
}

static void write_result(uint8_t *result, const struct layer *layer, struct outcome outcome,
                         uint64_t settlement)
{
    memcpy(result, "LSR", 3);
    uint8_t *at = put16(result + 3, VERSION);
    at = put8(at, outcome.stop);
    at = put8(at, layer->count);
    at = put8(at, 0);
    at = put64(at, layer->clock);
    at = put64(at, outcome.steps);
    at = put64(at, (uint64_t)layer->load);
    at = put64(at, (uint64_t)layer->top_outflow);
    at = put64(at, (uint64_t)layer->bottom_outflow);
    at = put64(at, settlement);
    put_elements(at, layer);
}

static inline uint32_t key(run_function *run, const uint8_t *bytes, size_t length, uint8_t *result,
                           size_t result_length)
{
    struct job job;
    enum refusal refusal = open_job(bytes, length, &job);
    if (refusal != ACCEPTED)
        return refusal;
    if (result_length < result_bytes(job.layer.count))
        return RESULT_TOO_SHORT;
    uint64_t starting_water = all_water(&job.layer);
    struct outcome outcome = run(&job.layer, job.end, job.budget);
    write_result(result, &job.layer, outcome, starting_water - all_water(&job.layer));
    return ACCEPTED;
}

uint32_t plain_key(const uint8_t *job, size_t job_length, uint8_t *result, size_t result_length)
{
    return key(run_plain, job, job_length, result, result_length);
}

uint32_t tuned_key(const uint8_t *job, size_t job_length, uint8_t *result, size_t result_length)
{
    return key(run_tuned, job, job_length, result, result_length);
}
