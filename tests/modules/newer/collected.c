// The module of collected.bytes in C, for its answers alone.
#include "../module.h"

#include <stdlib.h>

enum kind { BASE, NODE, SMALL };

// A value of an equality type: a structure, or a small integer, of 31 bits.
struct value {
    enum kind kind;
    uint32_t first;
    uint64_t second;
    struct value *next;
};

static struct value *new_value(enum kind kind, uint32_t first, uint64_t second, struct value *next)
{
    struct value *value = malloc(sizeof *value);
    *value = (struct value){kind, first, second, next};
    return value;
}

static uint32_t low(uint32_t x) { return x & 0x7fffffff; }
static uint32_t low_signed(uint32_t x) { return (uint32_t)((int32_t)(x << 1) >> 1); }
static uint64_t wide(uint32_t x) { return (uint64_t)(int64_t)(int32_t)x; }

static struct value *list(uint32_t n, uint64_t x)
{
    struct value *head = 0;
    uint32_t at = 0;
    do {
        head = new_value(NODE, at * 3 ^ n, x + at, head);
        at++;
    } while (at < n);
    return head;
}

static uint64_t sum_of(struct value *p)
{
    uint64_t sum = 0;
    uint32_t count = 0;
    for (; p != 0; p = p->next) {
        sum = (sum << 7 | sum >> 57) ^ (p->second + p->first);
        count++;
    }
    return sum + count * 2;
}

uint64_t listed(uint32_t n, uint64_t x) { return sum_of(list(n & 15, x)); }

uint64_t changed(uint32_t n, uint64_t x)
{
    struct value *p = new_value(NODE, n << 1, x * 3, list(n & 31, ~x));
    if ((n & 64) != 0) { __builtin_trap(); }
    return sum_of(p) - (p->second & 255);
}

uint64_t filled(uint32_t n, uint64_t x)
{
    uint32_t array[64];
    uint64_t sum = 0;
    n &= 63;
    if (n == 0) { __builtin_trap(); }
    for (uint32_t at = 0; at < n; at++) {
        array[at] = (uint32_t)x + at * at;
        sum = sum * 3 + array[at];
    }
    for (uint32_t at = 0; at + 1 < n; at++) { array[at] = array[at + 1]; }
    return sum ^ wide(array[0] * 4);
}

uint64_t octets_of(uint32_t n, uint64_t x)
{
    uint8_t octets[4] = {(uint8_t)x, (uint8_t)(x >> 8), (uint8_t)(n ^ 3), (uint8_t)-n};
    octets[n & 3] = (uint8_t)(n * 5);
    if ((n & 7) > 3) { __builtin_trap(); }
    return (wide((uint32_t)(int32_t)(int8_t)octets[n & 7]) ^ (uint64_t)octets[3] << 16) + x;
}

static struct value *make(uint32_t which, uint32_t n, uint64_t x)
{
    switch (which) {
    case 0: return new_value(BASE, n * 2, 0, 0);
    case 1: return new_value(NODE, n ^ 9, x << 4, 0);
    case 3: return 0;
    default: return new_value(SMALL, n * 3, 0, 0);
    }
}

uint64_t cast(uint32_t which, uint32_t n, uint64_t x)
{
    struct value *e = make(which, n, x);
    if (e == 0) { __builtin_trap(); }
    switch (e->kind) {
    case BASE: return e->first + x * 2;
    case NODE: return e->second + (uint32_t)(n - 9);
    default: return wide(low_signed(e->first)) ^ x;
    }
}

uint64_t test(uint32_t which, uint32_t n, uint64_t x)
{
    struct value *e = make(which, n, x);
    uint32_t is = 0;
    if (e != 0 && e->kind == NODE) { is |= 1; }
    if (e == 0 || e->kind == SMALL) { is |= 2; }
    if (e != 0 && e->kind != SMALL) { is |= 4; }
    if (e == 0) { is += 8; }
    if (e != 0 && e->kind != SMALL) { return ((uint64_t)e->first << 32) - x; }
    return is ^ x;
}

uint64_t small(uint32_t n, uint64_t x)
{
    for (uint32_t at = 0; at != 6; at++) {
        uint32_t r = (n + at) * 5;
        x = (x * 2 + wide(low_signed(r))) ^ low(r);
    }
    return x;
}

uint64_t outside(uint32_t which, uint32_t n, uint64_t x)
{
    struct value *e = make(which, n, x - 1);
    struct value *other = make(which, n, x);
    int same = e == other || (e != 0 && other != 0 && e->kind == SMALL && other->kind == SMALL && low(e->first) == low(other->first));
    return 1 + ((uint64_t)same << 1) + x;
}

uint64_t paired(uint32_t n, uint64_t x)
{
    uint16_t first = (uint16_t)(n + 4);
    double second = (double)(int32_t)n * 0.5 + (double)(x & 4095);
    return (wide((uint32_t)(int32_t)(int16_t)first) - first * 2u) ^ (uint64_t)(int64_t)__builtin_floor(second * 8);
}
