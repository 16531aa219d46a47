// undone.wat in C, for its answers alone.
#include "module.h"

static uint32_t low_signed(uint32_t x) { return (uint32_t)(int32_t)(int8_t)x; }

static uint32_t half(uint32_t x) { return (uint32_t)((int32_t)(x + (x >> 31)) >> 1); }

uint64_t integers(uint32_t x, uint64_t y)
{
    uint64_t digest = 0;
    digest = taken(digest, low_signed(x));
    digest = taken(digest, low_signed(x));
    digest = taken(digest, x & 255);
    digest = taken(digest, low_signed((uint32_t)y));
    digest = taken(digest, low_signed((uint32_t)y));
    digest = taken(digest, (uint64_t)(int64_t)(int8_t)x);
    digest = taken(digest, (uint64_t)(int64_t)(int8_t)x);
    digest = taken(digest, x >> 31);
    digest = taken(digest, y >> 63);
    digest = taken(digest, x >> 31 ? 0xffffffff : 0);
    digest = taken(digest, x != 0);
    digest = taken(digest, x == 0);
    digest = taken(digest, half(x));
    digest = taken(digest, x < 32);
    digest = taken(digest, x >> 31 ? 0xffffffff : 0);
    digest = taken(digest, half(x));
    return taken(digest, x & 255);
}

uint64_t accesses(uint32_t x, uint64_t y)
{
    uint64_t digest = 0;
    digest = taken(digest, x & 0x7fffffff);
    digest = taken(digest, x);
    digest = taken(digest, x ^ 0x80000000);
    digest = taken(digest, x & 255);
    digest = taken(digest, (x >> 8 & 255) * 0x0101010101010101);
    digest = taken(digest, low_signed(x));
    digest = taken(digest, x >> 16 & 255);
    digest = taken(digest, x & 0xffffff);
    digest = taken(digest, y);
    digest = taken(digest, 0);
    digest = taken(digest, 1078530011 | 0x80000000);
    return taken(digest, ~81985529216486895ull ^ ((uint64_t)x << 32 | x));
}

// The low half of a vector, by its bytes, its lanes of 16 bits and those of 32 bits; of the swizzle's vector both halves are the same.
union half_vector {
    uint64_t all;
    uint8_t bytes[8];
    int16_t halves[4];
    uint32_t words[2];
};

static uint32_t truncated(float value)
{
    if (value != value) return 0;
    if (value >= 2147483648.0f) return 0x7fffffff;
    if (value < -2147483648.0f) return 0x80000000;
    return (uint32_t)(int32_t)value;
}

static uint8_t least(uint8_t x, uint8_t y) { return x < y ? x : y; }

static int16_t rounded_product(int32_t x, int32_t y)
{
    int32_t product = (x * y + 0x4000) >> 15;
    return product > 32767 ? 32767 : (int16_t)product;
}

static uint8_t narrowed(int16_t value) { return (uint8_t)(value > 127 ? 127 : value < -128 ? -128 : value); }

uint64_t lanes(uint32_t x, uint64_t y)
{
    union half_vector a = {(uint64_t)x << 32 | x}, b = {y};
    union half_vector equal, smaller, difference, sum, product, shifted, narrow, picked;
    for (int i = 0; i < 2; i++) {
        float p = float_of_bits(a.words[i]), q = float_of_bits(b.words[i]);
        equal.words[i] = p == q ? 0xffffffff : 0;
        smaller.words[i] = q < p ? b.words[i] : a.words[i];
    }
    for (int i = 0; i < 4; i++) product.halves[i] = rounded_product(a.halves[i], b.halves[i]);
    for (int i = 0; i < 8; i++) {
        difference.bytes[i] = a.bytes[i] > b.bytes[i] ? a.bytes[i] - b.bytes[i] : 0;
        sum.bytes[i] = least(a.bytes[i], 255 - b.bytes[i]) + b.bytes[i];
        shifted.bytes[i] = (uint8_t)(a.bytes[i] << (x & 7));
        narrow.bytes[i] = narrowed(a.halves[i % 2]);
        picked.bytes[i] = a.bytes[i] < 16 ? b.bytes[a.bytes[i] % 8] : 0;
    }
    uint64_t digest = 0;
    digest = taken(digest, equal.all);
    digest = taken(digest, equal.all);
    digest = taken(digest, smaller.all);
    digest = taken(digest, smaller.all);
    digest = taken(digest, smaller.all);
    digest = taken(digest, difference.all);
    digest = taken(digest, sum.all);
    digest = taken(digest, product.all);
    digest = taken(digest, shifted.all);
    digest = taken(digest, narrow.all);
    digest = taken(digest, truncated(float_of_bits(x)));
    digest = taken(digest, truncated(float_of_bits(x)));
    digest = taken(digest, bits_of_float((float)(int32_t)x));
    digest = taken(digest, bits_of_float((float)(int32_t)x));
    digest = taken(digest, bits_of_float((float)x));
    digest = taken(digest, (y & ~0xffffffffull) | x);
    digest = taken(digest, (y & ~0xffffffffull) | x);
    digest = taken(digest, (y & ~255ull) | (x & 255));
    return taken(digest, picked.all);
}

// What stands in control flow of its own is `x` four times, and `y` six times; and what conditions choose.
uint64_t flow(uint32_t x, uint64_t y) {
    uint64_t digest = 0;
    for (int i = 0; i < 4; i++) digest = taken(digest, x);
    for (int i = 0; i < 6; i++) digest = taken(digest, y);
    digest = taken(digest, x & 1 ? x : 7);
    digest = taken(digest, x ? 5 : 6);
    digest = taken(digest, x ? 8 : 9);
    digest = taken(digest, x);
    return taken(digest, x & 1 ? x : 3);
}

uint64_t branches(uint32_t x, uint64_t y)
{
    uint64_t digest = 0;
    uint32_t i = 0;
    double pair = -512.0;
    uint64_t single = bits_of_float(0.125f), wide;
    (void)y;
    digest = taken(digest, x == 0 ? 10 : x == 1 ? 11 : 4);
    digest = taken(digest, x ? 13 : 12);
    do {
        i++;
    } while (i < (x & 7));
    digest = taken(digest, i);
    digest = taken(digest, bits_of_float(-3.0f));
    digest = taken(digest, 1);
    digest = taken(digest, single << 32 | single);
    __builtin_memcpy(&wide, &pair, sizeof wide);
    return taken(digest, wide);
}
