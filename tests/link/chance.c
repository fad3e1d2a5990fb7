/* Random numbers by splitmix64. */
#include "chance.h"

uint64_t chance;

static uint64_t next(void)
{
    uint64_t x = chance += UINT64_C(0x9E3779B97F4A7C15);

    x = (x ^ (x >> 30)) * UINT64_C(0xBF58476D1CE4E5B9);
    x = (x ^ (x >> 27)) * UINT64_C(0x94D049BB133111EB);
    return x ^ (x >> 31);
}

uint32_t below(uint32_t limit)
{
    return (uint32_t)(next() % limit);
}

int one_in(uint32_t times)
{
    return below(times) == 0;
}

int percent(uint32_t share)
{
    return below(100) < share;
}

void make_noise(void *bytes, size_t size)
{
    unsigned char *to = bytes;

    for (size_t i = 0; i < size; i++)
        to[i] = (unsigned char)next();
}
