/* The method as the paper writes it. */
#include "soil.h"

#include <stdbool.h>

static bool on_curve(const struct layer *layer, uint64_t j, int64_t water)
{
    if (water < 0)
        return false;
    uint64_t e = void_ratio(layer->solids[j], (uint64_t)water);
    return e <= layer->void_ratio[0] && e >= layer->void_ratio[layer->m - 1];
}

/* Faces 0 to count: face j is below element j. */
struct outcome run_plain(struct layer *layer, uint64_t end, uint64_t budget)
{
    const uint64_t count = layer->count;
    const uint64_t g = stiffness(layer);
    int64_t burden[MOST_ELEMENTS];
    uint64_t sensitivity[MOST_ELEMENTS];
    int64_t excess[MOST_ELEMENTS], water[MOST_ELEMENTS];
    uint64_t half[MOST_ELEMENTS];
    int64_t resistance[MOST_ELEMENTS + 1], flow[MOST_ELEMENTS + 1];

    burdens(layer, burden);
    for (uint64_t j = 0; j < count; j++)
        sensitivity[j] = ceil_div(VOID_UNIT, layer->solids[j]);

    for (uint64_t steps = 0;; steps++) {
        if (layer->clock == end)
            return (struct outcome){AT_END, steps};
        if (steps == budget)
            return (struct outcome){BUDGET_USED, steps};

        uint64_t point = table_point(layer, 0);
        layer->load = load_at(layer, point);
        for (uint64_t j = 0; j < count; j++) {
            uint64_t e = void_ratio(layer->solids[j], layer->water[j]);
            uint64_t height = layer->solids[j] + layer->water[j];
            excess[j] = layer->load + burden[j] - (int64_t)effective_stress(layer, e);
            half[j] = ceil_div(4905 * height, hydraulic_conductivity(layer, e));
        }

        uint64_t t = most_seconds(layer, point, end);
        for (uint64_t j = 0; j <= count; j++) {
            uint64_t c;
            if (j == 0) {
                if (layer->bottom == CLOSED)
                    continue;
                resistance[j] = half[0];
                c = sensitivity[0];
            } else if (j == count) {
                if (layer->top == CLOSED)
                    continue;
                resistance[j] = half[count - 1];
                c = sensitivity[count - 1];
            } else {
                resistance[j] = half[j - 1] + half[j];
                c = sensitivity[j - 1] > sensitivity[j] ? sensitivity[j - 1] : sensitivity[j];
            }
            uint64_t longest = resistance[j] / (2 * c * g);
            if (longest < t)
                t = longest;
        }
        if (t == 0)
            return (struct outcome){NO_STEP, steps};

        flow[0] = flow[count] = 0;
        if (layer->bottom == DRAINED)
            flow[0] = (layer->bottom_pressure - excess[0]) * (int64_t)t / resistance[0];
        for (uint64_t j = 1; j < count; j++)
            flow[j] = (excess[j - 1] - excess[j]) * (int64_t)t / resistance[j];
        if (layer->top == DRAINED)
            flow[count] = excess[count - 1] * (int64_t)t / resistance[count];

        for (uint64_t j = 0; j < count; j++) {
            water[j] = (int64_t)layer->water[j] + flow[j] - flow[j + 1];
            if (!on_curve(layer, j, water[j]))
                return (struct outcome){OFF_CURVE, steps};
        }
        for (uint64_t j = 0; j < count; j++)
            layer->water[j] = water[j];
        layer->bottom_outflow -= flow[0];
        layer->top_outflow += flow[count];
        layer->clock += t;
    }
}
