/* Little-endian numbers among bytes. */
#ifndef BYTES_H
#define BYTES_H

#include <stdint.h>

static inline uint64_t get16(const uint8_t *at)
{
    return (uint64_t)at[0] | (uint64_t)at[1] << 8;
}

static inline uint64_t get64(const uint8_t *at)
{
    return get16(at) | get16(at + 2) << 16 | get16(at + 4) << 32 | get16(at + 6) << 48;
}

/* These return the place after what they write. */
static inline uint8_t *put8(uint8_t *at, uint64_t number)
{
    *at = (uint8_t)number;
    return at + 1;
}

static inline uint8_t *put16(uint8_t *at, uint64_t number)
{
    return put8(put8(at, number), number >> 8);
}

static inline uint8_t *put64(uint8_t *at, uint64_t number)
{
    return put16(put16(put16(put16(at, number), number >> 16), number >> 32), number >> 48);
}

#endif
