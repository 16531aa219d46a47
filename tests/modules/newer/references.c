// The module of references.bytes in C, for its answers alone.
#include "../module.h"

typedef uint64_t (*step)(uint32_t n, uint64_t x);

static uint64_t mixed(uint32_t n, uint64_t x) { return x * 8 + ((n << 3) ^ (n - 7)); }

static uint64_t turned(uint32_t n, uint64_t x)
{
    uint32_t at = 0;
    do {
        x = (x << 5 | x >> 59) ^ at;
        at++;
    } while (at < (n & 7));
    return ~x;
}

static step chosen(uint32_t n)
{
    switch (n % 3) {
    case 0: return mixed;
    case 1: return turned;
    default: return 0;
    }
}

static uint64_t called(step f, uint32_t n, uint64_t x)
{
    if (f == 0) { __builtin_trap(); }
    return f(n, x);
}

uint64_t applied(uint32_t which, uint32_t n, uint64_t x)
{
    step f = chosen(which);
    n += 4;
    x -= 7;
    return f != 0 ? f(n + 1, x) * 3 : (x << 2) - (uint64_t)(int64_t)(int32_t)n;
}

uint64_t applied_too(uint32_t which, uint32_t n, uint64_t x)
{
    step f = chosen(which);
    n = ~n;
    x += x;
    return f != 0 ? f(n * 2, x - 1) ^ n : x + (uint64_t)(int64_t)(int32_t)(n ^ 5);
}

uint64_t forced(uint32_t which, uint32_t n, uint64_t x) { return called(chosen(which), n << 1, x + 1); }

uint64_t selected(uint32_t which, uint32_t n, uint64_t x)
{
    step f = which & 1 ? chosen(which) : chosen(n);
    uint64_t sum = 0;
    for (uint32_t at = 0; at < 4; at++) { sum = called(f, n + at, (sum << 1) + x); }
    return sum;
}
