// forms.wat in C, for its answers alone.
#include "module.h"

uint64_t fronts(uint32_t x, uint64_t y)
{
    return y + x;
}

uint64_t decided(uint32_t x, uint64_t y)
{
    return (~0ull | y) - ((0 & x) + 0 * x);
}

uint64_t complements(uint32_t x, uint64_t y)
{
    return y + (uint32_t)(x + x);
}

// What is left by 1 and by -1 is 0.
uint64_t by_one(uint32_t x, uint64_t y)
{
    (void)x;
    return y;
}

uint64_t whole_turns(uint32_t x, uint64_t y)
{
    return y + (uint32_t)(x + x);
}

uint32_t again(uint32_t x, uint32_t y)
{
    return 4 * (x & y) + (x | y) * (2 * (x | y));
}

uint32_t signs(uint32_t x, uint64_t y)
{
    return (uint32_t)((int32_t)x < (int32_t)(uint32_t)y) + ((uint32_t)(y >= (uint64_t)(int64_t)(int32_t)x) << 1);
}

uint32_t equal(uint32_t x, uint32_t y)
{
    return x == y ? 1 : 6;
}

uint64_t halves(uint32_t x, uint64_t y)
{
    uint32_t low = (uint32_t)y;
    uint64_t extended = (uint64_t)(int64_t)(int32_t)low;
    return low + extended + extended * (uint32_t)(low + (low + x));
}

uint64_t counts(uint32_t x, uint64_t y)
{
    return (uint64_t)__builtin_popcountll(y) + (x == 0 ? 768 : 0);
}

uint64_t shifts(uint32_t x, uint64_t y)
{
    return (y << 13 | y >> 51) + (uint32_t)(x >> 5 | x << 27);
}

uint32_t absorbed(uint32_t x, uint32_t y)
{
    return 3 * x + y + 2 * x * (x + y);
}

uint64_t differences(uint32_t x, uint64_t y)
{
    (void)x;
    return y + (uint32_t)y;
}

uint64_t extended(uint32_t x, uint64_t y)
{
    uint64_t signed_x = (uint64_t)(int64_t)(int32_t)x;
    return (uint32_t)y - (uint64_t)(int64_t)(int32_t)(uint32_t)y + signed_x * (signed_x - y);
}

uint32_t tests(uint32_t x, uint64_t y)
{
    return (x == 0 ? 1 : 4) + (y == 0 ? 2 : 8);
}

uint32_t bits(uint32_t x, uint64_t y)
{
    return (y == 0) + ((int32_t)x < 5 ? 2 : 0) + (y >= x ? 4 : 0) + (x != (uint32_t)y ? 8 : 0);
}

// With the sign turned, a signed number is as far above the least one as the unsigned number is above 0.
uint32_t one_side(uint32_t x, uint64_t y)
{
    int64_t distance = (int64_t)(int32_t)(uint32_t)y + 2147483648;
    __int128 other = (__int128)(int64_t)y + ((__int128)1 << 63);
    uint64_t signed_x = (uint64_t)(int64_t)(int32_t)x;
    return ((int64_t)x < distance ? 1 : 0) + (other >= (__int128)signed_x ? 2 : 0);
}
