// tails.wat in C, for its answers alone.
#include "../module.h"

static uint64_t seen_so_far;

static uint64_t rotated(uint64_t x, unsigned by) { return x << by | x >> (64 - by); }

static uint64_t mixed(uint32_t n, uint64_t x) { return x * 8 + ((n << 3) ^ (n - 7)); }

uint32_t divisor(uint32_t a, uint32_t b)
{
    seen_so_far = seen_so_far * 3 ^ (a + b * 2);
    return b == 0 ? a : divisor(b, a % b);
}

uint64_t summed(uint32_t n, uint64_t sum)
{
    for (; (int32_t)n > 0; n--) {
        sum = rotated(sum, 1) + (uint64_t)(int64_t)(int32_t)n * n;
    }
    return sum + 1;
}

uint64_t even(uint32_t n, uint64_t x)
{
    for (;;) {
        if (n == 0) { return x | x << 32; }
        n--;
        x += 5;
        if (n == 0) { return -x; }
        n--;
        x *= 3;
    }
}

static uint64_t reached(uint32_t n, uint64_t x)
{
    double ratio = n | 1;
    for (uint32_t left = (n & 7) + 2; left > 0; left--) { ratio = ratio * 0.5 + 3; }
    return mixed((int32_t)__builtin_floor(ratio * 16), x ^ (uint64_t)(int64_t)(int32_t)n);
}

uint64_t dispatched(uint32_t which, uint32_t n, uint64_t x)
{
    uint32_t at = 0;
    do {
        x = x * 2 + at;
        at++;
    } while (at < (n & 3));
    n = (n + at) % 64;
    x &= 0xffffffffff;
    switch (which) {
    case 0: return mixed(n, x);
    case 1: return summed(n, x);
    case 2: return even(n, x);
    case 3: return reached(n, x);
    default: __builtin_trap();
    }
}

uint64_t seen(void) { return seen_so_far * 2 + 7; }
