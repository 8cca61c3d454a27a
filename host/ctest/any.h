/* Numbers at random, the same ones in every run: splitmix64. */
#ifndef ANY_H
#define ANY_H

#include <stdint.h>

static uint64_t any_state = 20150707;

static inline uint64_t any(void)
{
    uint64_t z = any_state += 0x9e3779b97f4a7c15;
    z = (z ^ z >> 30) * 0xbf58476d1ce4e5b9;
    z = (z ^ z >> 27) * 0x94d049bb133111eb;
    return z ^ z >> 31;
}

static inline uint32_t any_below(uint32_t limit)
{
    return (uint32_t)(any() % limit);
}

#endif
