/* How much stack a key uses. */
#ifndef STACK_H
#define STACK_H

#include "key.h"

/* Makes one call of a key, and gives the bytes of stack below its caller that it wrote to. */
size_t stack_used(key_function *key, const uint8_t *job, size_t job_length, uint8_t *result,
                  size_t result_length);

#endif
