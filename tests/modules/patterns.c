// patterns.wat in C, for its answers alone.
#include "module.h"

uint64_t moved(uint32_t x, uint64_t y)
{
    return y + (uint64_t)(int64_t)(int32_t)x;
}

uint64_t turned(uint32_t x, uint64_t y)
{
    return (y >> 13 | y << 51) ^ (uint64_t)(x << 5 | x >> 27);
}

uint64_t divided(uint32_t x, uint64_t y)
{
    return y / 4096 - x % 8;
}

uint32_t doubled(uint32_t x)
{
    return x * 2 - (x + x);
}

uint64_t decided(uint32_t x, uint64_t y)
{
    return (y | ~0ull) + (x & 0) + x * 0;
}

uint32_t compared(uint32_t x, uint32_t y)
{
    return (uint32_t)(x != 0) << 2 | (uint32_t)((int32_t)x >= (int32_t)y) << 1 | (uint32_t)(x < y);
}

uint32_t masked(uint32_t x, uint32_t y)
{
    return (x | y) & 0xff00;
}

uint32_t complemented(uint32_t x, uint32_t y)
{
    return ~(x & y) - ~(x | y);
}

uint64_t paired(uint32_t x, uint64_t y)
{
    return y * 2 - x;
}

uint64_t selected(uint32_t x, uint64_t y)
{
    return y ^ (uint64_t)(int64_t)(int32_t)x;
}

uint32_t opposed(uint32_t x, uint32_t y)
{
    return ~(x & y) - ~(x | y);
}

uint64_t joined(uint32_t x, uint64_t y)
{
    return y - 4 + (x | 6);
}

uint32_t tested(uint32_t x, uint32_t y)
{
    return (uint32_t)(x == y) - (uint32_t)(x == 0) * 2;
}

uint64_t negated(uint32_t x, uint64_t y)
{
    return (uint64_t)(int64_t)(int8_t)x - y;
}

uint32_t gathered(uint32_t x, uint32_t y)
{
    return ((x + y) * 10) ^ ((x | y) & 0xf0f);
}
