/* A soil layer and the kernels that run it.
 *
 * Heights in nm, stresses and pressures in mPa, times in s, conductivities in fm/s,
 * void ratios in hundred-millionths, specific gravity in thousandths. */
#ifndef LAYER_H
#define LAYER_H

#include <stdint.h>

enum { MOST_ELEMENTS = 128, MOST_POINTS = 64, LONGEST_STEP = 1000000 };
enum { CLOSED = 0, DRAINED = 1 };

#define VOID_UNIT UINT64_C(100000000)

struct layer {
    uint64_t count;                              /* elements, lowest first */
    uint64_t solids[MOST_ELEMENTS];
    uint64_t water[MOST_ELEMENTS];
    uint64_t m;                                  /* compressibility: void ratio falls, stress rises */
    uint64_t void_ratio[MOST_POINTS];
    uint64_t stress[MOST_POINTS];
    uint64_t n;                                  /* conductivity: void ratio rises */
    uint64_t conductivity_void[MOST_POINTS];
    uint64_t conductivity[MOST_POINTS];
    uint64_t table_points;                       /* load table: time rises from 0 */
    uint64_t time[MOST_POINTS];
    uint64_t table_load[MOST_POINTS];
    uint64_t top, bottom;                        /* CLOSED or DRAINED; a drained top holds 0 */
    uint64_t top_level, bottom_level;            /* of the water; the bottom's is 0 if it is closed */
    int64_t bottom_pressure;                     /* held by a drained bottom: that of the head between both */
    uint64_t gravity;
    int64_t load;                                /* surcharge */
    int64_t top_outflow, bottom_outflow;
    uint64_t clock;
};

/* Why a run ended, and after how many steps. */
enum stop { AT_END, BUDGET_USED, NO_STEP, OFF_CURVE };

struct outcome {
    enum stop stop;
    uint64_t steps;
};

/* Runs the layer to the clock `end` in at most `budget` steps: each sets the table's load and is the longest
 * that is too long for no element and face, up to LONGEST_STEP, the end and the next table time. Stops
 * early, with nothing of that step done but its load, when the longest is 0 or the step would leave the
 * compressibility curve. */
typedef struct outcome run_function(struct layer *layer, uint64_t end, uint64_t budget);

run_function run_plain;
run_function run_tuned;

#endif
