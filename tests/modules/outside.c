// outside.wat in C, for its answers alone. What is called outside prints a line `! print_i32 i32:NUMBER`.
#include "module.h"

#include <setjmp.h>
#include <stdio.h>
#include <string.h>

static const uint32_t given = 666;
static const uint64_t given_wide = 666;
static uint8_t memory[65536] = {[64] = 1, 2, 0x83, 4, 5, 0x86, 7, 0x88, 0xff, 0xff};
static uint32_t count = 7;
static uint64_t sum = -1;
static float ratio = 1.5f;

static void __attribute__((constructor)) begin(void)
{
    count += given;
    sum -= given_wide;
}

static void print(uint32_t number)
{
    printf("! print_i32 i32:%u\n", number);
}

static uint32_t plus(uint32_t a, uint32_t b)
{
    return a + b;
}

static uint32_t minus(uint32_t a, uint32_t b)
{
    return a - b;
}

static uint32_t noted(uint32_t a, uint32_t b)
{
    print(b);
    return a ^ 0x55;
}

uint32_t counted(uint32_t by)
{
    count += by;
    sum += (uint64_t)(int64_t)(int32_t)count;
    return count;
}

uint64_t summed(uint64_t by)
{
    uint64_t before = sum;
    sum = (by | 1) * (sum ^ given_wide);
    return sum - before;
}

uint32_t in_order(uint32_t a, uint32_t b)
{
    a += 1;
    print(a);
    b <<= 1;
    print(b * a);
    uint32_t first = noted(a, 0);
    uint32_t second = noted(b, a);
    return first + second;
}

uint32_t through_table(uint32_t at, uint32_t a, uint32_t b)
{
    switch (at) {
    case 0:
        return plus(a, b);
    case 1:
        return minus(a, b);
    case 2:
        return noted(a, b);
    default:
        __builtin_trap();
    }
}

uint64_t stored(uint32_t at, uint64_t value)
{
    uint16_t half = (uint16_t)(value >> 40);
    uint16_t lower;
    int16_t upper;
    at &= 4095;
    memcpy(memory + at, &value, 8);
    memcpy(memory + at + 2, &half, 2);
    memcpy(&lower, memory + at + 1, 2);
    memcpy(&upper, memory + at + 5, 2);
    return (uint64_t)(int64_t)(int8_t)memory[at + 7] * lower + (uint32_t)(memory[at + 3] - upper);
}

uint32_t given_bytes(uint32_t at)
{
    return (uint32_t)(int8_t)memory[64 + (at & 7)];
}

uint32_t loaded(uint32_t at)
{
    uint32_t word;
    if (at != 0) {
        __builtin_trap();
    }
    memcpy(&word, memory + 65532, 4);
    return word * 3;
}

uint32_t pages(void)
{
    return 2;
}

uint32_t ratio_bits(uint32_t by)
{
    uint32_t bits;
    ratio = ratio * (float)(int32_t)by;
    ratio = ratio + 0.25f;
    memcpy(&bits, &ratio, 4);
    return bits;
}

uint32_t divided(uint32_t a, uint32_t b)
{
    return (a / b) ^ (a % b * 5);
}

uint32_t in_block(uint32_t a, uint32_t b)
{
    uint32_t quotient = 3 * a / (b | 1);
    uint32_t rest = 3 * a % (b | 1);
    return quotient - ((int32_t)a < 100 ? rest : ~rest);
}

uint32_t never_reached(uint32_t a)
{
    return a != 0 ? a << 2 : 9;
}

uint32_t picked(uint32_t at, uint32_t a)
{
    if (at == 0) {
        return a * 8;
    }
    if (at != 2) {
        a--;
    }
    uint32_t lesser = a <= at ? a : at;
    return lesser == 0 ? 77 : (uint32_t)__builtin_popcount(a);
}

uint64_t rotated(uint64_t a, uint64_t by)
{
    uint64_t turned = by & 63 ? ~a << (by & 63) | ~a >> (64 - (by & 63)) : ~a;
    uint64_t trailing = by == 0 ? 64 : (uint64_t)__builtin_ctzll(by);
    uint64_t leading = a == 0 ? 64 : (uint64_t)__builtin_clzll(a);
    return turned - trailing + leading;
}

uint32_t short_forms_i32(uint32_t a, uint32_t b)
{
    b += 42;
    a += b - 5 + 9;
    a += b + 3;
    a = (a << 3) ^ (b * 16);
    b = (int32_t)a < 1000 ? a : b;
    b = (a & 1) == 0 ? b : 12;
    a = (b & 2) == 0 ? a : 7;
    return a >= (b << 5 | b >> 27) ? a - b : b + 1;
}

uint64_t short_forms_i64(uint64_t a, uint64_t b)
{
    b += 42;
    a += b - 5 + 9;
    a += b + 3;
    a = (a << 3) ^ (b * 16);
    b = (int64_t)a < 1000 ? a : b;
    b = (a & 1) == 0 ? b : 12;
    a = (b & 2) == 0 ? a : 7;
    return a >= (b << 5 | b >> 59) ? a - b : b + 1;
}
