/* The method as the Rattle program works it: the same passes over the elements, in whole numbers.
 *
 * Burdens, sensitivities, bounds of water and stiffness are worked out once, and each element remembers
 * the segments of both curves where it was found last. Only here the point of the load table is remembered
 * too; the Rattle program searches for it at every step. */
#include "soil.h"

#include <stdbool.h>

/* What no step changes. */
struct prepared {
    int64_t burden[MOST_ELEMENTS];
    uint64_t sensitivity[MOST_ELEMENTS];
    uint64_t low[MOST_ELEMENTS], high[MOST_ELEMENTS];   /* water on the curve, both included */
    uint64_t stiffness;
};

/* What a step reads of the elements, and where. */
struct readings {
    uint64_t stress_segment[MOST_ELEMENTS];
    uint64_t conductivity_segment[MOST_ELEMENTS];
    int64_t excess[MOST_ELEMENTS];
    uint64_t resistance[MOST_ELEMENTS];
};

static uint64_t greater(uint64_t a, uint64_t b)
{
    return a < b ? b : a;
}

static uint64_t distance(uint64_t a, uint64_t b)
{
    return a < b ? b - a : a - b;
}

static void prepare(const struct layer *layer, struct prepared *prepared)
{
    const uint64_t wettest = layer->void_ratio[0], driest = layer->void_ratio[layer->m - 1];
    burdens(layer, prepared->burden);
    for (uint64_t j = 0; j < layer->count; j++) {
        uint64_t solids = layer->solids[j];
        prepared->sensitivity[j] = ceil_div(VOID_UNIT, solids);
        prepared->low[j] = least_water(solids, driest);
        prepared->high[j] = most_water(solids, wettest);
    }
    prepared->stiffness = stiffness(layer);
}

/* Whether x lies between two abscissas of a falling or rising curve. */
static bool spans(uint64_t x0, uint64_t x1, uint64_t x)
{
    return x0 < x1 ? x0 <= x && x <= x1 : x1 <= x && x <= x0;
}

/* The ordinate at x, which is on the curve: by the remembered segment, else by the first that spans it. */
static uint64_t read_curve(const uint64_t *xs, const uint64_t *ys, uint64_t x, uint64_t *segment)
{
    uint64_t i = *segment;
    if (!spans(xs[i], xs[i + 1], x)) {
        i = 0;
        while (!spans(xs[i], xs[i + 1], x))
            i++;
        *segment = i;
    }
    return ys[i] + (ys[i + 1] - ys[i]) * distance(xs[i], x) / distance(xs[i], xs[i + 1]);
}

static void read_elements(const struct layer *layer, const struct prepared *prepared,
                          struct readings *readings)
{
    for (uint64_t j = 0; j < layer->count; j++) {
        uint64_t solids = layer->solids[j], water = layer->water[j];
        uint64_t e = void_ratio(solids, water);
        uint64_t stress = read_curve(layer->void_ratio, layer->stress, e, &readings->stress_segment[j]);
        uint64_t k = read_curve(layer->conductivity_void, layer->conductivity, e,
                                &readings->conductivity_segment[j]);
        readings->excess[j] = layer->load + prepared->burden[j] - (int64_t)stress;
        readings->resistance[j] = ceil_div(4905 * (solids + water), k);
    }
}

/* A step shortened to a quotient, divided only where the step is longer. */
static uint64_t shorten(uint64_t t, uint64_t divisor, uint64_t resistance)
{
    return resistance < t * divisor ? resistance / divisor : t;
}

/* The longest step of at most `most` seconds that is too long for no element and face of it. */
static uint64_t longest_step(const struct layer *layer, const struct prepared *prepared,
                             const uint64_t *resistance, uint64_t most)
{
    const uint64_t *c = prepared->sensitivity, g = prepared->stiffness, last = layer->count - 1;
    uint64_t t = most;
    if (layer->bottom == DRAINED)
        t = shorten(t, 2 * c[0] * g, resistance[0]);
    for (uint64_t j = 0; j < last; j++)
        t = shorten(t, 2 * greater(c[j], c[j + 1]) * g, resistance[j] + resistance[j + 1]);
    if (layer->top == DRAINED)
        t = shorten(t, 2 * c[last] * g, resistance[last]);
    return t;
}

static int64_t flow(int64_t difference, uint64_t t, uint64_t resistance)
{
    return difference * (int64_t)t / (int64_t)resistance;
}

/* The upward flows of t seconds: those above the elements, and that through the bottom. */
static int64_t all_flows(const struct layer *layer, const struct readings *readings, uint64_t t,
                         int64_t *above)
{
    const int64_t *p = readings->excess;
    const uint64_t *r = readings->resistance, last = layer->count - 1;
    for (uint64_t j = 0; j < last; j++)
        above[j] = flow(p[j] - p[j + 1], t, r[j] + r[j + 1]);
    above[last] = layer->top == DRAINED ? flow(p[last], t, r[last]) : 0;
    return layer->bottom == DRAINED ? -flow(p[0] - layer->bottom_pressure, t, r[0]) : 0;
}

/* Whether the new water of every element would be on the curve. */
static bool stays_on_curve(const struct layer *layer, const struct prepared *prepared, int64_t enters,
                           const int64_t *above)
{
    for (uint64_t j = 0; j < layer->count; j++) {
        int64_t water = (int64_t)layer->water[j] - above[j] + enters;
        if (water < (int64_t)prepared->low[j] || water > (int64_t)prepared->high[j])
            return false;
        enters = above[j];
    }
    return true;
}

static void move_water(struct layer *layer, int64_t enters, const int64_t *above)
{
    for (uint64_t j = 0; j < layer->count; j++) {
        layer->water[j] = (uint64_t)((int64_t)layer->water[j] - above[j] + enters);
        enters = above[j];
    }
}

struct outcome run_tuned(struct layer *layer, uint64_t end, uint64_t budget)
{
    struct prepared prepared;
    struct readings readings = {0};
    int64_t above[MOST_ELEMENTS];
    uint64_t point = 0;
    prepare(layer, &prepared);
    for (uint64_t steps = 0;; steps++) {
        if (layer->clock == end)
            return (struct outcome){AT_END, steps};
        if (steps == budget)
            return (struct outcome){BUDGET_USED, steps};
        point = table_point(layer, point);
        layer->load = load_at(layer, point);
        read_elements(layer, &prepared, &readings);
        uint64_t t = longest_step(layer, &prepared, readings.resistance, most_seconds(layer, point, end));
        if (t == 0)
            return (struct outcome){NO_STEP, steps};
        int64_t enters = all_flows(layer, &readings, t, above);
        if (!stays_on_curve(layer, &prepared, enters, above))
            return (struct outcome){OFF_CURVE, steps};
        move_water(layer, enters, above);
        layer->bottom_outflow -= enters;
        layer->top_outflow += above[layer->count - 1];
        layer->clock += t;
    }
}
