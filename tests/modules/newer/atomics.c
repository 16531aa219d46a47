// atomics.wat in C, for its answers alone: a place that isn't aligned, or beyond the memory, ends in a trap.
#include "../module.h"

#include <string.h>

static uint8_t memory[65536];

static uint64_t got(uint32_t at, uint32_t offset, unsigned size)
{
    uint64_t place = (uint64_t)at + offset;
    uint64_t value = 0;
    if (place % size != 0 || place + size > sizeof memory) { __builtin_trap(); }
    memcpy(&value, memory + place, size);
    return value;
}

static void put(uint32_t at, uint32_t offset, unsigned size, uint64_t value)
{
    (void)got(at, offset, size);
    memcpy(memory + at + offset, &value, size);
}

enum change { ADD, SUB, AND, OR, XOR, SWAP };

// Changes what is there, and gives what it was.
static uint64_t change(enum change by, uint32_t at, uint32_t offset, unsigned size, uint64_t value)
{
    uint64_t before = got(at, offset, size);
    switch (by) {
    case ADD: value = before + value; break;
    case SUB: value = before - value; break;
    case AND: value = before & value; break;
    case OR: value = before | value; break;
    case XOR: value = before ^ value; break;
    case SWAP: break;
    }
    put(at, offset, size, value);
    return before;
}

static uint64_t exchange(uint32_t at, unsigned size, uint64_t wanted, uint64_t value)
{
    uint64_t before = got(at, 0, size);
    if (before == wanted) { put(at, 0, size, value); }
    return before;
}

static uint64_t rotated(uint64_t x, unsigned by) { return x << by | x >> (64 - by); }

uint32_t added(uint32_t at, uint32_t by)
{
    uint64_t sum = 0;
    for (uint32_t left = (by & 3) + 1; left > 0; left--) { sum = sum * 2 + change(ADD, at * 2, 64, 4, by - 1); }
    return (uint32_t)(sum ^ sum >> 32) ^ (uint32_t)got(at << 1, 64, 4);
}

uint64_t changed(uint32_t at, uint64_t x)
{
    uint64_t was[6];
    uint64_t before = x + 77;
    memcpy(memory + 128, &before, 8);
    was[0] = change(ADD, at, 128, 8, x * 8);
    was[1] = change(SUB, at, 128, 8, ~x);
    was[2] = change(AND, at, 128, 8, x | 255);
    was[3] = change(OR, at, 128, 8, x << 9);
    was[4] = change(XOR, at, 128, 8, rotated(x, 3));
    was[5] = change(SWAP, at, 128, 8, x & -256);
    return was[0] + was[1] + ((was[2] ^ was[3]) - was[4] * was[5]);
}

uint64_t narrow(uint32_t at, uint32_t x, uint64_t y)
{
    uint64_t was[6];
    uint64_t before = y * 0x0101010101010101;
    memcpy(memory + 256, &before, 8);
    was[0] = change(ADD, at, 256, 1, x + 5);
    was[1] = change(SUB, at, 256, 2, -x);
    was[2] = change(SWAP, at, 257, 1, y);
    was[3] = change(OR, at, 258, 2, y >> 3);
    was[4] = change(XOR, at * 2, 260, 4, y + y);
    was[5] = change(AND, at, 263, 1, ~x);
    return (uint32_t)(was[0] * 3 + (was[1] << 8)) ^ (was[2] * 16 + (rotated(was[3], 40) - (was[4] + was[5])));
}

uint64_t exchanged(uint32_t wanted, uint64_t new)
{
    uint64_t was[4];
    put(0, 8, 4, wanted & 0x0f0f0f0f);
    uint32_t at = exchange(8, 4, wanted, (uint32_t)(new * 5));
    was[0] = exchange(9, 1, new & 255, new + 1);
    was[1] = exchange(8, 4, at, new ^ 7);
    was[2] = exchange(8, 8, 0, new << 4);
    was[3] = exchange(10, 2, 0, at + at);
    return was[0] - was[1] + (was[2] * 3 + was[3]);
}

uint64_t stored(uint32_t at, uint64_t x, uint32_t ratio_bits)
{
    float ratio;
    memcpy(&ratio, &ratio_bits, 4);
    ratio *= 2.5f;
    put(at, 512, 8, x);
    if (!(ratio >= -0x1p31f && ratio < 0x1p31f)) { __builtin_trap(); }
    put(at, 513, 1, (uint32_t)(int32_t)ratio);
    put(at, 514, 2, x >> 7);
    put(at, 516, 4, x + 1);
    uint64_t first = got(at, 512, 8) * 4 ^ got(at, 512, 4);
    return first + (uint32_t)(got(at, 513, 1) * 2 - (got(at, 514, 2) ^ got(at, 516, 4)));
}

uint64_t notified(uint32_t n, uint64_t x)
{
    uint32_t at = 0;
    do {
        x *= 3;
        at++;
    } while ((int32_t)at < (int32_t)n);
    return x - (uint64_t)(int64_t)(int32_t)(at * 2);
}
