/* The layers of the benchmark's rows. */
#ifndef LAYERS_H
#define LAYERS_H

#include "layer.h"

/* Mud of `count` elements under a surcharge, its curves of `points` points each, drained at the top and at
 * the bottom, which holds an artesian pressure. Surcharge and pressure are shares of `strength`, the
 * greatest stress of its compressibility curve: the less it is, the more steps the mud needs to settle. */
void make_layer(struct layer *layer, uint64_t count, uint64_t points, uint64_t strength);

/* The paper's specimen. */
void make_specimen(struct layer *layer);

#endif
