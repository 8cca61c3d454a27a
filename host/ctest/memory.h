/* Memory to lend from: what stands behind its end cannot be read. */
#ifndef MEMORY_H
#define MEMORY_H

#include <stdbool.h>
#include <stdint.h>
#include <string.h>
#include <sys/mman.h>

enum { MEMORY = 1 << 20, GUARD = 1 << 16 };

static uint8_t *end_of_memory;

static inline bool make_memory(void)
{
    uint8_t *memory = mmap(NULL, MEMORY + GUARD, PROT_READ | PROT_WRITE, MAP_PRIVATE | MAP_ANONYMOUS, -1, 0);
    if (memory == MAP_FAILED)
        return false;
    end_of_memory = memory + MEMORY;
    return mprotect(end_of_memory, GUARD, PROT_NONE) == 0;
}

/* Bytes are lent at the end of memory, so that reading beyond them is seen, and must stay as they are. */
static inline const uint8_t *lend(const uint8_t *bytes, size_t length)
{
    return memcpy(end_of_memory - length, bytes, length);
}

#endif
