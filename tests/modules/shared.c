// shared.wat in C, for its answers alone.
#include "module.h"

#include <string.h>

static uint8_t memory[65536];

static uint32_t word_at(uint32_t at)
{
    uint32_t word;
    memcpy(&word, memory + at, 4);
    return word;
}

static void put_word(uint32_t at, uint32_t word)
{
    memcpy(memory + at, &word, 4);
}

uint32_t added(uint32_t by)
{
    uint32_t before = word_at(8);
    put_word(8, before + by * 2);
    return before + 1;
}

uint64_t swapped(uint64_t wide)
{
    uint64_t before;
    uint64_t word = ~wide;
    memcpy(&before, memory + 16, 8);
    memcpy(memory + 16, &word, 8);
    return before;
}

uint32_t stored(uint32_t at, uint32_t value)
{
    at = (at + 64) & 1020;
    put_word(at, value - 3);
    return word_at(8) | word_at(at);
}

uint32_t mixed(uint32_t a, uint32_t b)
{
    return ((a + 5) * b) ^ ((b - a) << 3);
}

uint64_t mixed_wide(uint64_t a, uint64_t b)
{
    uint64_t sum = a + b;
    return (a | (b & 255)) - (sum << 7 | sum >> 57);
}
