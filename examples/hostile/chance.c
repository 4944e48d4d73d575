/* Numbers that a seed determines: each trial has its own row of them, so that one trial can be made again without those before it. */
#include "hostile.h"

enum { POOL = 1 << 22 };

static uint64_t state;
static uint64_t pool[POOL / sizeof(uint64_t)];

void chance_begin(uint64_t seed, uint64_t function, uint64_t trial)
{
    state = seed;
    state = chance() + function;
    state = chance() + trial;
}

uint64_t chance(void) /* splitmix64 */
{
    uint64_t z = state += 0x9e3779b97f4a7c15u;
    z = (z ^ z >> 30) * 0xbf58476d1ce4e5b9u;
    z = (z ^ z >> 27) * 0x94d049bb133111ebu;
    return z ^ z >> 31;
}

size_t below(size_t bound)
{
    return bound == 0 ? 0 : chance() % bound;
}

bool one_in(size_t n)
{
    return below(n) == 0;
}

size_t wild(void)
{
    static const size_t limits[] = {
        0, 1, 2, 3, 4, 5, 6, 7, 8, 11, 12, 13, 31, 32, 127, 217, 219, 220, 255, 256, 257, 1023, 1024, 1025, 2047, 2048, 2049,
        4095, 4096, 4097, 8448, 14335, 14336, 16383, 16384, 16385, 32767, 32768, 65535, 65536, 65537, 458751, 458752,
        1048575, 1048576, 1048577, INT32_MAX, (size_t)INT32_MAX + 1, UINT32_MAX, (size_t)UINT32_MAX + 1,
        SIZE_MAX / 7, SIZE_MAX / 7 + 1, SIZE_MAX / 4, SIZE_MAX / 4 + 1, SIZE_MAX / 2, SIZE_MAX / 2 + 1, SIZE_MAX - 1, SIZE_MAX
    };
    return one_in(4) ? chance() >> below(64) : limits[below(sizeof limits / sizeof *limits)];
}

size_t short_of(size_t least)
{
    switch (below(4)) {
    case 0: return 0;
    case 1: return least - 1;
    default: return below(least);
    }
}

size_t enough(size_t least, size_t most)
{
    return one_in(3) ? least + below(most - least + 1) : least;
}

const void *former(size_t bytes)
{
    if (pool[0] == 0) { /* once, and the same for every seed: what matters is that no two places are alike */
        uint64_t kept = state;
        for (size_t i = 0; i < sizeof pool / sizeof *pool; i++)
            pool[i] = chance() | 1;
        state = kept;
    }
    return pool + below((sizeof pool - bytes) / sizeof *pool);
}
