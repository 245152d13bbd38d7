/* The rules of a layer that more than one file works. */
#ifndef SOIL_H
#define SOIL_H

#include "layer.h"

static inline uint64_t ceil_div(uint64_t a, uint64_t b)
{
    return (a + b - 1) / b;
}

static inline uint64_t void_ratio(uint64_t solids, uint64_t water)
{
    return water * VOID_UNIT / solids;
}

/* The least and the most water whose void ratio is at least, and at most, e. */
static inline uint64_t least_water(uint64_t solids, uint64_t e)
{
    return ceil_div(e * solids, VOID_UNIT);
}

static inline uint64_t most_water(uint64_t solids, uint64_t e)
{
    return ((e + 1) * solids - 1) / VOID_UNIT;
}

/* Pressure of a head of water, rounded toward 0. */
static inline int64_t head_pressure(int64_t head)
{
    return head * 981 / 100000;
}

/* Effective stress at a void ratio on the curve. */
static inline uint64_t effective_stress(const struct layer *layer, uint64_t e)
{
    const uint64_t *v = layer->void_ratio, *s = layer->stress;
    uint64_t i = 0;
    while (e < v[i + 1])
        i++;
    return s[i] + (s[i + 1] - s[i]) * (v[i] - e) / (v[i] - v[i + 1]);
}

/* Conductivity at a void ratio on the curve. */
static inline uint64_t hydraulic_conductivity(const struct layer *layer, uint64_t e)
{
    const uint64_t *v = layer->conductivity_void, *k = layer->conductivity;
    uint64_t i = 0;
    while (e > v[i + 1])
        i++;
    return k[i] + (k[i + 1] - k[i]) * (e - v[i]) / (v[i + 1] - v[i]);
}

/* Stress of the buoyant solids above the middle of each element. */
static inline void burdens(const struct layer *layer, int64_t *burden)
{
    uint64_t above = 0;
    for (uint64_t j = layer->count; j-- > 0;) {
        uint64_t own = layer->solids[j] * (layer->gravity - 1000) * 9810 / 1000000000;
        burden[j] = (int64_t)(above + own / 2);
        above += own;
    }
}

/* Greatest rise of stress for one unit of void ratio. */
static inline uint64_t stiffness(const struct layer *layer)
{
    const uint64_t *v = layer->void_ratio, *s = layer->stress;
    uint64_t greatest = 0;
    for (uint64_t i = 0; i + 1 < layer->m; i++) {
        uint64_t rise = ceil_div(s[i + 1] - s[i], v[i] - v[i + 1]);
        if (rise > greatest)
            greatest = rise;
    }
    return greatest;
}

/* The last point of the load table that the clock has reached; point i is one that it has. */
static inline uint64_t table_point(const struct layer *layer, uint64_t i)
{
    while (i + 1 < layer->table_points && layer->time[i + 1] <= layer->clock)
        i++;
    return i;
}

/* The table's load at the clock, whose table point is i. */
static inline int64_t load_at(const struct layer *layer, uint64_t i)
{
    const uint64_t *time = layer->time, *load = layer->table_load;
    if (i + 1 == layer->table_points)
        return (int64_t)load[i];
    int64_t change = (int64_t)load[i + 1] - (int64_t)load[i];
    return (int64_t)load[i] + change * (int64_t)(layer->clock - time[i]) / (int64_t)(time[i + 1] - time[i]);
}

/* The longest that a step may be at the clock, whose table point is i: to the end or the next table time. */
static inline uint64_t most_seconds(const struct layer *layer, uint64_t i, uint64_t end)
{
    uint64_t until = end;
    if (i + 1 < layer->table_points && layer->time[i + 1] < until)
        until = layer->time[i + 1];
    uint64_t seconds = until - layer->clock;
    return seconds < LONGEST_STEP ? seconds : LONGEST_STEP;
}

#endif
