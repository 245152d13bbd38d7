/* A job's bytes: opening them, and writing them. */
#ifndef JOB_H
#define JOB_H

#include "layer.h"

#include <stddef.h>

enum { MOST_JOB_BYTES = 48 + 16 * (MOST_ELEMENTS + 3 * MOST_POINTS) };

/* The causes for which a key is withheld, numbered as the paper numbers them. */
enum refusal {
    ACCEPTED,
    WRONG_MARK,
    WRONG_VERSION,
    HEADER_OUTSIDE,
    WRONG_LENGTH,
    FIELD_OUTSIDE,
    UNSOUND_COMPRESSIBILITY,
    UNSOUND_CONDUCTIVITY,
    UNSOUND_TABLE,
    START_OFF_CURVE,
    RESULT_TOO_SHORT,
    NOT_STEADY = 20
};

/* A job opened: the layer as it starts, and the run asked for. */
struct job {
    struct layer layer;
    uint64_t end, budget;
};

/* Tests everything about a job but the room for its result, in the paper's order. */
enum refusal open_job(const uint8_t *bytes, size_t length, struct job *job);

/* Writes the job, with the water of its layer given. Returns the number of bytes, at most MOST_JOB_BYTES. */
size_t write_job(const struct job *job, uint8_t *bytes);

#endif
