#include "layers.h"

/* `whole` × (i / last)^2, rounded down. */
static uint64_t square(uint64_t whole, uint64_t i, uint64_t last)
{
    return whole * (i * i) / (last * last);
}

/* Void ratio 5 to 1 for no stress to `strength`; conductivity 1e-10 m/s at 1 to 1e-9 m/s at 5. */
static void make_curves(struct layer *layer, uint64_t points, uint64_t strength)
{
    const uint64_t last = points - 1, driest = VOID_UNIT, wettest = 5 * VOID_UNIT;
    layer->m = layer->n = points;
    for (uint64_t i = 0; i < points; i++) {
        uint64_t way = (wettest - driest) * i / last;
        layer->void_ratio[i] = wettest - way;
        layer->stress[i] = square(strength, i, last);
        layer->conductivity_void[i] = driest + way;
        layer->conductivity[i] = 100000 + square(900000, i, last);
    }
}

void make_layer(struct layer *layer, uint64_t count, uint64_t points, uint64_t strength)
{
    *layer = (struct layer){
        .count = count, .table_points = 1, .table_load = {strength / 4}, .top = DRAINED, .bottom = DRAINED,
        .top_level = 10000000000, .bottom_level = 10000000000 + 10 * strength, .gravity = 2650,
    };
    make_curves(layer, points, strength);
    for (uint64_t j = 0; j < count; j++) {
        layer->solids[j] = 1000000 + 3700 * (j * 7 % 16);
        layer->water[j] = layer->solids[j] / 100 * (440 + 3 * (j * 5 % 8));
    }
}

void make_specimen(struct layer *layer)
{
    *layer = (struct layer){
        .count = 2, .solids = {1000000, 1000000}, .water = {2000000, 2000000},
        .m = 2, .stress = {5000000, 105000000}, .void_ratio = {200000000, 100000000},
        .n = 2, .conductivity_void = {100000000, 200000000}, .conductivity = {100000, 200000},
        .table_points = 1, .table_load = {15000000}, .top = DRAINED, .top_level = 10000000, .gravity = 1000,
    };
}
