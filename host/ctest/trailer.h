/* A plain writer of a reel's trailer, by ask 2. */
#ifndef TRAILER_H
#define TRAILER_H

#include <stdint.h>
#include <string.h>

#include "hsd.h"

enum { ENTRY = 8, END = 9 /* bytes of a trailer after its entries */ };

typedef HsdAnswer Writer(const uint8_t *files, size_t files_length, const uint32_t *lengths, size_t lengths_length, uint8_t *out,
                         size_t out_length);

/* The low 32 bits, little-endian. */
static inline void put(uint8_t *to, uint64_t number)
{
    for (int i = 0; i < 4; i++)
        to[i] = (uint8_t)(number >> 8 * i);
}

static inline void put_entry(uint8_t *trailer, size_t number, uint64_t offset, uint64_t length)
{
    put(trailer + (number - 1) * ENTRY, offset);
    put(trailer + (number - 1) * ENTRY + 4, length);
}

static inline void put_end(uint8_t *to, size_t files, uint64_t trailer)
{
    to[0] = (uint8_t)files;
    put(to + 1, trailer);
    memcpy(to + 5, "REEL", 4);
}

/* The trailer of files of these lengths, and how long it is. */
static inline size_t put_trailer(uint8_t *to, const uint32_t *lengths, size_t count)
{
    uint64_t offset = 0;
    for (size_t i = 0; i < count; i++) {
        put_entry(to, i + 1, offset, lengths[i]);
        offset += lengths[i];
    }
    put_end(to + count * ENTRY, count, offset);
    return count * ENTRY + END;
}

#endif
