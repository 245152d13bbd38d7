#include "job.h"

#include "bytes.h"
#include "soil.h"

#include <stdbool.h>
#include <string.h>

enum { HEADER_BYTES = 48, VERSION = 1 };
enum { WATER_GIVEN = 0, AT_REST = 1, STEADY = 2 };   /* starts */
enum { STEADY_SECONDS = 1000, STEADY_SPREAD = 1 };

#define MOST_STRESS UINT64_C(2000000000)
#define MOST_VOID UINT64_C(1000000000)
#define MOST_CONDUCTIVITY UINT64_C(1000000000)
#define MOST_LEVEL UINT64_C(200000000000)
#define MOST_CLOCK UINT64_C(3000000000)
#define LEAST_SOLIDS UINT64_C(100000)
#define MOST_SOLIDS UINT64_C(100000000)
#define MOST_WATER UINT64_C(1000000000)
#define MOST_BUDGET UINT64_C(1000000)

static bool within(uint64_t number, uint64_t least, uint64_t most)
{
    return least <= number && number <= most;
}

static bool all_within(uint64_t count, const uint64_t *numbers, uint64_t least, uint64_t most)
{
    for (uint64_t i = 0; i < count; i++)
        if (!within(numbers[i], least, most))
            return false;
    return true;
}

static bool all_rise(uint64_t count, const uint64_t *numbers)
{
    for (uint64_t i = 1; i < count; i++)
        if (numbers[i - 1] >= numbers[i])
            return false;
    return true;
}

static bool all_fall(uint64_t count, const uint64_t *numbers)
{
    for (uint64_t i = 1; i < count; i++)
        if (numbers[i - 1] <= numbers[i])
            return false;
    return true;
}

static bool none_falls(uint64_t count, const uint64_t *numbers)
{
    for (uint64_t i = 1; i < count; i++)
        if (numbers[i - 1] > numbers[i])
            return false;
    return true;
}

static bool header_sound(const uint8_t *bytes)
{
    return bytes[5] <= DRAINED && bytes[6] <= DRAINED && within(bytes[7], 1, MOST_ELEMENTS) &&
           within(bytes[8], 2, MOST_POINTS) && within(bytes[9], 2, MOST_POINTS) &&
           within(bytes[10], 1, MOST_POINTS) && bytes[11] <= STEADY &&
           within(get16(bytes + 12), 1000, 5000) && get16(bytes + 14) == 0;
}

static const uint8_t *get_pairs(const uint8_t *at, uint64_t count, uint64_t *first, uint64_t *second)
{
    for (uint64_t i = 0; i < count; i++, at += 16) {
        first[i] = get64(at);
        second[i] = get64(at + 8);
    }
    return at;
}

/* Reads a job whose header and length are right; what is not in it is set by `start`. */
static void read_fields(const uint8_t *bytes, struct job *job)
{
    struct layer *layer = &job->layer;
    layer->top = bytes[5];
    layer->bottom = bytes[6];
    layer->count = bytes[7];
    layer->m = bytes[8];
    layer->n = bytes[9];
    layer->table_points = bytes[10];
    layer->gravity = get16(bytes + 12);
    layer->top_level = get64(bytes + 16);
    layer->bottom_level = get64(bytes + 24);
    job->end = get64(bytes + 32);
    job->budget = get64(bytes + 40);
    const uint8_t *at = bytes + HEADER_BYTES;
    at = get_pairs(at, layer->count, layer->solids, layer->water);
    at = get_pairs(at, layer->m, layer->stress, layer->void_ratio);
    at = get_pairs(at, layer->n, layer->conductivity_void, layer->conductivity);
    get_pairs(at, layer->table_points, layer->time, layer->table_load);
}

static bool fields_sound(const struct job *job, bool at_rest)
{
    const struct layer *layer = &job->layer;
    return layer->top_level <= MOST_LEVEL &&
           layer->bottom_level <= (layer->bottom == DRAINED ? MOST_LEVEL : 0) && job->end <= MOST_CLOCK &&
           job->budget <= MOST_BUDGET && all_within(layer->count, layer->solids, LEAST_SOLIDS, MOST_SOLIDS) &&
           all_within(layer->count, layer->water, 0, at_rest ? 0 : MOST_WATER);
}

static bool compressibility_sound(const struct layer *layer)
{
    return all_within(layer->m, layer->stress, 0, MOST_STRESS) &&
           all_within(layer->m, layer->void_ratio, 1, MOST_VOID) && all_rise(layer->m, layer->stress) &&
           all_fall(layer->m, layer->void_ratio);
}

/* The conductivity curve, which has to cover the compressibility curve. */
static bool conductivity_sound(const struct layer *layer)
{
    const uint64_t *v = layer->conductivity_void, *k = layer->conductivity, n = layer->n;
    return all_within(n, v, 1, MOST_VOID) && all_within(n, k, 1, MOST_CONDUCTIVITY) && all_rise(n, v) &&
           none_falls(n, k) && v[0] <= layer->void_ratio[layer->m - 1] && layer->void_ratio[0] <= v[n - 1];
}

static bool table_sound(const struct layer *layer)
{
    return all_within(layer->table_points, layer->time, 0, MOST_CLOCK) &&
           all_within(layer->table_points, layer->table_load, 0, MOST_STRESS) && layer->time[0] == 0 &&
           all_rise(layer->table_points, layer->time);
}

/* The least void ratio whose effective stress is at most `stress`, which lies between the curve's ends. */
static uint64_t void_ratio_at(const struct layer *layer, uint64_t stress)
{
    const uint64_t *v = layer->void_ratio, *s = layer->stress;
    uint64_t i = layer->m - 1;
    if (stress == s[i])
        return v[i];
    while (stress < s[i])
        i--;
    return v[i] - ((stress - s[i] + 1) * (v[i] - v[i + 1]) - 1) / (s[i + 1] - s[i]);
}

/* Gives every element the least water that its load and burden leave it; false if one cannot have it. */
static bool rest(struct layer *layer)
{
    int64_t burden[MOST_ELEMENTS];
    burdens(layer, burden);
    for (uint64_t j = 0; j < layer->count; j++) {
        uint64_t stress = (uint64_t)(layer->load + burden[j]);
        if (!within(stress, layer->stress[0], layer->stress[layer->m - 1]))
            return false;
        layer->water[j] = least_water(layer->solids[j], void_ratio_at(layer, stress));
    }
    return true;
}

/* Sets what opening sets; false if an element starts off the curve. */
static bool start(struct layer *layer, bool at_rest)
{
    const uint64_t wettest = layer->void_ratio[0], driest = layer->void_ratio[layer->m - 1];
    layer->bottom_pressure = head_pressure((int64_t)layer->bottom_level - (int64_t)layer->top_level);
    layer->load = (int64_t)layer->table_load[0];
    layer->top_outflow = layer->bottom_outflow = 0;
    layer->clock = 0;
    if (at_rest && !rest(layer))
        return false;
    for (uint64_t j = 0; j < layer->count; j++)
        if (!within(void_ratio(layer->solids[j], layer->water[j]), driest, wettest))
            return false;
    return true;
}

/* Start 1 is for a closed bottom, or one at the top's level. */
static bool may_rest(const struct layer *layer)
{
    return layer->bottom == CLOSED || layer->bottom_level == layer->top_level;
}

/* Whether the upward flows through any two faces differ by at most STEADY_SPREAD; a closed face has none. */
static bool steady(const struct layer *layer)
{
    int64_t burden[MOST_ELEMENTS], below = layer->bottom_pressure, below_half = 0, least = 0, most = 0;
    burdens(layer, burden);
    for (uint64_t j = 0; j <= layer->count; j++) {
        int64_t excess = 0, half = 0, flow = 0;
        if (j < layer->count) {
            uint64_t e = void_ratio(layer->solids[j], layer->water[j]);
            uint64_t height = layer->solids[j] + layer->water[j];
            excess = layer->load + burden[j] - (int64_t)effective_stress(layer, e);
            half = (int64_t)ceil_div(4905 * height, hydraulic_conductivity(layer, e));
        }
        if ((j > 0 || layer->bottom == DRAINED) && (j < layer->count || layer->top == DRAINED))
            flow = (below - excess) * STEADY_SECONDS / (below_half + half);
        if (j == 0 || flow < least)
            least = flow;
        if (j == 0 || flow > most)
            most = flow;
        below = excess;
        below_half = half;
    }
    return most - least <= STEADY_SPREAD;
}

enum refusal open_job(const uint8_t *bytes, size_t length, struct job *job)
{
    if (length < HEADER_BYTES || memcmp(bytes, "LSC", 3) != 0)
        return WRONG_MARK;
    if (get16(bytes + 3) != VERSION)
        return WRONG_VERSION;
    if (!header_sound(bytes))
        return HEADER_OUTSIDE;
    if (length != HEADER_BYTES + (size_t)16 * (bytes[7] + bytes[8] + bytes[9] + bytes[10]))
        return WRONG_LENGTH;
    const bool at_rest = bytes[11] == AT_REST;
    read_fields(bytes, job);
    if (!fields_sound(job, at_rest))
        return FIELD_OUTSIDE;
    if (!compressibility_sound(&job->layer))
        return UNSOUND_COMPRESSIBILITY;
    if (!conductivity_sound(&job->layer))
        return UNSOUND_CONDUCTIVITY;
    if (!table_sound(&job->layer))
        return UNSOUND_TABLE;
    if ((at_rest && !may_rest(&job->layer)) || !start(&job->layer, at_rest))
        return START_OFF_CURVE;
    if (bytes[11] == STEADY && !steady(&job->layer))
        return NOT_STEADY;
    return ACCEPTED;
}

static uint8_t *put_pairs(uint8_t *at, uint64_t count, const uint64_t *first, const uint64_t *second)
{
    for (uint64_t i = 0; i < count; i++)
        at = put64(put64(at, first[i]), second[i]);
    return at;
}

size_t write_job(const struct job *job, uint8_t *bytes)
{
    const struct layer *layer = &job->layer;
    memcpy(bytes, "LSC", 3);
    uint8_t *at = put16(bytes + 3, VERSION);
    at = put8(at, layer->top);
    at = put8(at, layer->bottom);
    at = put8(at, layer->count);
    at = put8(at, layer->m);
    at = put8(at, layer->n);
    at = put8(at, layer->table_points);
    at = put8(at, WATER_GIVEN);
    at = put16(at, layer->gravity);
    at = put16(at, 0);
    at = put64(at, layer->top_level);
    at = put64(at, layer->bottom_level);
    at = put64(at, job->end);
    at = put64(at, job->budget);
    at = put_pairs(at, layer->count, layer->solids, layer->water);
    at = put_pairs(at, layer->m, layer->stress, layer->void_ratio);
    at = put_pairs(at, layer->n, layer->conductivity_void, layer->conductivity);
    at = put_pairs(at, layer->table_points, layer->time, layer->table_load);
    return (size_t)(at - bytes);
}
