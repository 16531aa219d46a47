// Noise: generators of xorshift in the lanes of vectors, floats made of drawn bits, noise on a line and in a plane by the hashes of
// whole places, and steps of a life of cells as bits.
#include "simd128.h"

enum { SIZE = 256 };

static uint32_t drawn[SIZE];
static float curve[SIZE];
static uint64_t cells[16];

// Four generators side by side, none of which stands at zero.
static v128_t begun(uint32_t seed)
{
    v128_t state = wasm_i32x4_mul(wasm_i32x4_splat((int32_t)seed), wasm_i32x4_make(1, 0x9e3779b9, 0x85ebca6b, 0x27d4eb2f));
    v128_t zeros = wasm_i32x4_eq(state, wasm_i32x4_splat(0));
    return wasm_v128_xor(state, wasm_v128_and(zeros, wasm_i32x4_splat(0x7feb352d)));
}

static v128_t stepped(v128_t state)
{
    state = wasm_v128_xor(state, wasm_i32x4_shl(state, 13));
    state = wasm_v128_xor(state, wasm_u32x4_shr(state, 17));
    return wasm_v128_xor(state, wasm_i32x4_shl(state, 5));
}

static void draw(uint32_t seed)
{
    v128_t state = begun(seed);
    for (int i = 0; i < SIZE; i += 4) {
        state = stepped(state);
        wasm_v128_store(drawn + i, state);
    }
}

uint32_t EXPORTED(drawn_word)(uint32_t seed, uint32_t at)
{
    draw(seed);
    return drawn[at % SIZE];
}

// How many steps there are to one where all lanes are odd, or where none is above the bound.
uint32_t EXPORTED(steps_to_odd)(uint32_t seed, uint32_t bound)
{
    v128_t state = begun(seed);
    v128_t ones = wasm_i32x4_splat(1);
    v128_t most = wasm_i32x4_splat((int32_t)bound);
    uint32_t steps = 0;
    while (steps < 100) {
        state = stepped(state);
        steps++;
        if (wasm_i32x4_all_true(wasm_v128_and(state, ones)) || !wasm_v128_any_true(wasm_u32x4_gt(state, most))) {
            break;
        }
    }
    return steps;
}

// Floats from 1 to 2 of the upper bits, less one; their sum.
uint32_t EXPORTED(sum_of_floats)(uint32_t seed)
{
    draw(seed);
    v128_t one = wasm_f32x4_splat(1);
    v128_t sums = wasm_f32x4_splat(0);
    for (int i = 0; i < SIZE; i += 4) {
        v128_t bits = wasm_v128_or(wasm_u32x4_shr(wasm_v128_load(drawn + i), 9), one);
        sums = wasm_f32x4_add(sums, wasm_f32x4_sub(bits, one));
    }
    float lanes[4];
    wasm_v128_store(lanes, sums);
    return bits_of_float(lanes[0] - lanes[1] + lanes[2] - lanes[3]);
}

// A number from -1 to 1 that belongs to a whole place.
static float value_at(int32_t x, int32_t y)
{
    uint32_t hash = (uint32_t)x * 0x9e3779b1u ^ (uint32_t)y * 0x85ebca77u;
    hash = (hash ^ hash >> 15) * 0x2c1b3c6du;
    hash ^= hash >> 12;
    return float_of_bits(hash >> 9 | 0x40000000) - 3;
}

static float smoothed(float share)
{
    return share * share * (3 - 2 * share);
}

static float between(float a, float b, float share)
{
    return a + (b - a) * share;
}

// The noise at a point of the plane, whose coordinates are in 256ths, from a few layers.
uint32_t EXPORTED(noise_at)(int32_t across, int32_t down, uint32_t layers)
{
    float x = (float)across / 256;
    float y = (float)down / 256;
    float sum = 0;
    float weight = 0.5f;
    for (uint32_t i = 0; i < (layers & 7); i++) {
        float left = __builtin_floorf(x);
        float top = __builtin_floorf(y);
        int32_t column = (int32_t)left & 0xffff;
        int32_t row = (int32_t)top & 0xffff;
        float share = smoothed(x - left);
        float upper = between(value_at(column, row), value_at(column + 1, row), share);
        float lower = between(value_at(column, row + 1), value_at(column + 1, row + 1), share);
        sum += weight * between(upper, lower, smoothed(y - top));
        weight *= 0.5f;
        x *= 2;
        y *= 2;
    }
    return bits_of_float(__builtin_fabsf(sum));
}

// A curve through drawn heights, and how rough it is: plain loops.
uint32_t EXPORTED(roughness)(uint32_t seed, uint32_t times)
{
    draw(seed);
    for (int i = 0; i < SIZE; i++) {
        curve[i] = (float)(drawn[i] & 0xffff) / 65536 - 0.5f;
    }
    for (uint32_t n = 0; n < (times & 3); n++) {
        for (int i = 0; i < SIZE - 1; i++) {
            curve[i] = (curve[i] + curve[i + 1]) * 0.5f;
        }
    }
    float most = 0;
    for (int i = 0; i < SIZE - 1; i++) {
        float rise = __builtin_fabsf(curve[i + 1] - curve[i]);
        most = rise > most ? rise : most;
    }
    return bits_of_float(most);
}

// Takes each bit from one of two drawn vectors, as a third one says, and counts them by bytes.
uint32_t EXPORTED(mixed_bits)(uint32_t seed, uint32_t mask)
{
    draw(seed);
    v128_t chosen = wasm_i32x4_splat((int32_t)mask);
    v128_t counts = wasm_i8x16_splat(0);
    for (int i = 0; i < SIZE; i += 8) {
        v128_t mixed = wasm_v128_bitselect(wasm_v128_load(drawn + i), wasm_v128_load(drawn + i + 4), chosen);
        counts = wasm_i8x16_add(counts, wasm_i8x16_popcnt(mixed));
        chosen = wasm_v128_not(wasm_i32x4_shuffle(chosen, mixed, 1, 2, 3, 4));
    }
    v128_t sums = wasm_u32x4_extadd_pairwise_u16x8(wasm_u16x8_extadd_pairwise_u8x16(counts));
    return (uint32_t)(wasm_i32x4_extract_lane(sums, 0) << 16 ^ wasm_i32x4_extract_lane(sums, 3));
}

// Cells that are born of one neighbour only, a row of 64 a word, so many times.
uint64_t EXPORTED(cells_after)(uint64_t row, uint32_t times)
{
    for (int i = 0; i < 16; i++) {
        cells[i] = row * (uint64_t)(2 * i + 1);
    }
    for (uint32_t n = 0; n < (times & 15); n++) {
        for (int i = 0; i < 16; i++) {
            cells[i] = (cells[i] << 1 | cells[i] >> 63) ^ (cells[i] >> 1 | cells[i] << 63) ^ (cells[i] & n);
        }
    }
    return cells[times & 15] + cells[0];
}

uint64_t EXPORTED(all)(void)
{
    uint64_t digest = 0;
    for (uint32_t i = 0; i < 16; i++) {
        digest = taken(digest, drawn_word(i, 4 * i));
        digest = taken(digest, steps_to_odd(i, i << 27));
        digest = taken(digest, sum_of_floats(i * i));
        digest = taken(digest, noise_at((int32_t)(i * 1000), -(int32_t)(i * 77), i));
        digest = taken(digest, roughness(~i, i));
        digest = taken(digest, mixed_bits(i, 0x0f0f3355u * i));
        digest = taken(digest, cells_after(digest, i));
    }
    return digest;
}
