/* The whole key: from a job's bytes to a result's bytes. */
#ifndef KEY_H
#define KEY_H

#include "layer.h"

#include <stddef.h>

enum { MOST_RESULT_BYTES = 56 + 40 * MOST_ELEMENTS };

/* Works a job and writes its result at the start of a buffer. Returns 0, or the number of the cause for which
 * the key is withheld; then the buffer is left as it was, as are the bytes past a result. */
typedef uint32_t key_function(const uint8_t *job, size_t job_length, uint8_t *result, size_t result_length);

key_function plain_key;
key_function tuned_key;

/* Bytes of the result of so many elements. */
static inline size_t result_bytes(uint64_t count)
{
    return 56 + 40 * (size_t)count;
}

#endif
