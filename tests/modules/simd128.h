// The operators that the modules name, as C has no others for them, on vectors most of them: for WebAssembly they are clang's own,
// and for a native build loops over lanes here. Nothing is a NaN where the lesser, the greater or a whole number is asked for.
#ifndef SIMD128_H
#define SIMD128_H

#include "module.h"

#ifdef __wasm__
#include <wasm_simd128.h>

static inline float greater_float(float x, float y) { return __builtin_wasm_max_f32(x, y); }
static inline float lesser_float(float x, float y) { return __builtin_wasm_min_f32(x, y); }
static inline double greater_double(double x, double y) { return __builtin_wasm_max_f64(x, y); }
static inline double lesser_double(double x, double y) { return __builtin_wasm_min_f64(x, y); }

#else

typedef union {
    int8_t i8x16[16];
    uint8_t u8x16[16];
    int16_t i16x8[8];
    uint16_t u16x8[8];
    int32_t i32x4[4];
    uint32_t u32x4[4];
    int64_t i64x2[2];
    float f32x4[4];
    double f64x2[2];
} v128_t;

#define LANES(shape) (int)(sizeof ((v128_t *)0)->shape / sizeof ((v128_t *)0)->shape[0])

// An operator, the lanes that it gives, and what lane i is.
#define OPERATOR(name, parameters, shape, lane) \
    static inline v128_t wasm_##name parameters \
    { \
        v128_t v; \
        for (int i = 0; i < LANES(shape); i++) { v.shape[i] = (lane); } \
        return v; \
    }

// An operator on the lanes x and y of two vectors, which gives lanes of this shape or another one.
#define OF_TWO(shape, name, to, lane) \
    static inline v128_t wasm_##shape##_##name(v128_t a, v128_t b) \
    { \
        v128_t v; \
        for (int i = 0; i < LANES(shape); i++) { __typeof__(a.shape[0]) x = a.shape[i], y = b.shape[i]; v.to[i] = (lane); } \
        return v; \
    }

// Bits.
OPERATOR(v128_not, (v128_t a), i64x2, ~a.i64x2[i])
OPERATOR(v128_and, (v128_t a, v128_t b), i64x2, a.i64x2[i] & b.i64x2[i])
OPERATOR(v128_or, (v128_t a, v128_t b), i64x2, a.i64x2[i] | b.i64x2[i])
OPERATOR(v128_xor, (v128_t a, v128_t b), i64x2, a.i64x2[i] ^ b.i64x2[i])
OPERATOR(v128_andnot, (v128_t a, v128_t b), i64x2, a.i64x2[i] & ~b.i64x2[i])
OPERATOR(v128_bitselect, (v128_t a, v128_t b, v128_t mask), i64x2, (a.i64x2[i] & mask.i64x2[i]) | (b.i64x2[i] & ~mask.i64x2[i]))

// Whole numbers.
static inline int within(int number, int low, int high) { return number < low ? low : number > high ? high : number; }

OF_TWO(i8x16, add, u8x16, (uint8_t)x + (uint8_t)y)
OF_TWO(u8x16, add_sat, u8x16, within(x + y, 0, 255))
OF_TWO(u8x16, sub_sat, u8x16, within(x - y, 0, 255))
OF_TWO(u8x16, avgr, u8x16, (x + y + 1) / 2)
OF_TWO(u8x16, max, u8x16, x > y ? x : y)
OF_TWO(u8x16, ge, i8x16, -(x >= y))
OF_TWO(u8x16, gt, i8x16, -(x > y))
OPERATOR(i8x16_popcnt, (v128_t a), u8x16, __builtin_popcount(a.u8x16[i]))
OF_TWO(i16x8, add, u16x8, (uint16_t)x + (uint16_t)y)
OF_TWO(i16x8, add_sat, i16x8, within(x + y, INT16_MIN, INT16_MAX))
OF_TWO(i16x8, sub_sat, i16x8, within(x - y, INT16_MIN, INT16_MAX))
OF_TWO(i16x8, q15mulr_sat, i16x8, within((x * y + 16384) >> 15, INT16_MIN, INT16_MAX))
OF_TWO(i16x8, gt, i16x8, -(x > y))
OF_TWO(u16x8, max, u16x8, x > y ? x : y)
OPERATOR(i16x8_abs, (v128_t a), u16x8, __builtin_abs(a.i16x8[i]))
OPERATOR(i16x8_shr, (v128_t a, uint32_t by), i16x8, a.i16x8[i] >> by % 16)
OPERATOR(u16x8_shr, (v128_t a, uint32_t by), u16x8, a.u16x8[i] >> by % 16)
OF_TWO(i32x4, add, u32x4, (uint32_t)x + (uint32_t)y)
OF_TWO(i32x4, sub, u32x4, (uint32_t)x - (uint32_t)y)
OF_TWO(i32x4, mul, u32x4, (uint32_t)x * (uint32_t)y)
OF_TWO(i32x4, eq, i32x4, -(x == y))
OF_TWO(i32x4, lt, i32x4, -(x < y))
OF_TWO(u32x4, gt, i32x4, -(x > y))
OPERATOR(i32x4_shl, (v128_t a, uint32_t by), u32x4, a.u32x4[i] << by % 32)
OPERATOR(u32x4_shr, (v128_t a, uint32_t by), u32x4, a.u32x4[i] >> by % 32)

// Floats. The lesser of two zeros is the one with a sign.
#define LESSER(x, y) (x == y ? (__builtin_signbit(x) ? x : y) : x < y ? x : y)
#define GREATER(x, y) (x == y ? (__builtin_signbit(x) ? y : x) : x < y ? y : x)

static inline float greater_float(float x, float y) { return GREATER(x, y); }
static inline float lesser_float(float x, float y) { return LESSER(x, y); }
static inline double greater_double(double x, double y) { return GREATER(x, y); }
static inline double lesser_double(double x, double y) { return LESSER(x, y); }

OF_TWO(f32x4, add, f32x4, x + y)
OF_TWO(f32x4, sub, f32x4, x - y)
OF_TWO(f32x4, mul, f32x4, x * y)
OF_TWO(f32x4, div, f32x4, x / y)
OF_TWO(f32x4, min, f32x4, LESSER(x, y))
OF_TWO(f32x4, max, f32x4, GREATER(x, y))
OF_TWO(f32x4, pmin, f32x4, y < x ? y : x)
OF_TWO(f32x4, pmax, f32x4, x < y ? y : x)
OF_TWO(f32x4, le, i32x4, -(x <= y))
OPERATOR(f32x4_neg, (v128_t a), f32x4, -a.f32x4[i])
OPERATOR(f32x4_ceil, (v128_t a), f32x4, __builtin_ceilf(a.f32x4[i]))
OPERATOR(f32x4_floor, (v128_t a), f32x4, __builtin_floorf(a.f32x4[i]))
OPERATOR(f32x4_nearest, (v128_t a), f32x4, __builtin_rintf(a.f32x4[i]))
OPERATOR(f32x4_trunc, (v128_t a), f32x4, __builtin_truncf(a.f32x4[i]))
OF_TWO(f64x2, add, f64x2, x + y)
OF_TWO(f64x2, sub, f64x2, x - y)
OF_TWO(f64x2, mul, f64x2, x * y)
OF_TWO(f64x2, lt, i64x2, -(x < y))
OF_TWO(f64x2, gt, i64x2, -(x > y))

static inline int32_t whole_number(float x)
{
    return x < -2147483648.0f ? INT32_MIN : x >= 2147483648.0f ? INT32_MAX : (int32_t)x;
}

OPERATOR(i32x4_trunc_sat_f32x4, (v128_t a), i32x4, whole_number(a.f32x4[i]))

// Lanes of one number, of several, from memory, and one of them.
OPERATOR(i8x16_splat, (int8_t x), i8x16, x)
OPERATOR(i16x8_splat, (int16_t x), i16x8, x)
OPERATOR(i32x4_splat, (int32_t x), i32x4, x)
OPERATOR(f32x4_splat, (float x), f32x4, x)
OPERATOR(f64x2_splat, (double x), f64x2, x)
OPERATOR(v128_load, (const void *place), u8x16, ((const uint8_t *)place)[i])
OPERATOR(v128_load32_splat, (const void *place), u8x16, ((const uint8_t *)place)[i % 4])
OPERATOR(u16x8_load8x8, (const void *place), u16x8, ((const uint8_t *)place)[i])

static inline void wasm_v128_store(void *place, v128_t a)
{
    __builtin_memcpy(place, &a, sizeof a);
}

#define wasm_i8x16_make(...) ((v128_t) { .i8x16 = { __VA_ARGS__ } })
#define wasm_i32x4_make(...) ((v128_t) { .i32x4 = { __VA_ARGS__ } })
#define wasm_f32x4_make(...) ((v128_t) { .f32x4 = { __VA_ARGS__ } })
#define wasm_i32x4_extract_lane(a, lane) ((a).i32x4[lane])
#define wasm_f32x4_extract_lane(a, lane) ((a).f32x4[lane])
#define wasm_f64x2_extract_lane(a, lane) ((a).f64x2[lane])

// Lanes in other places, of which those of the second vector are numbered behind those of the first.
static inline v128_t wasm_i32x4_shuffle(v128_t a, v128_t b, int first, int second, int third, int fourth)
{
    v128_t both[2] = { a, b };
    int places[4] = { first, second, third, fourth };
    v128_t v;
    for (int i = 0; i < 4; i++) { v.i32x4[i] = both[places[i] / 4].i32x4[places[i] % 4]; }
    return v;
}

static inline v128_t wasm_i64x2_shuffle(v128_t a, v128_t b, int first, int second)
{
    return wasm_i32x4_shuffle(a, b, 2 * first, 2 * first + 1, 2 * second, 2 * second + 1);
}

OPERATOR(i8x16_swizzle, (v128_t a, v128_t places), u8x16, places.u8x16[i] < 16 ? a.u8x16[places.u8x16[i]] : 0)

// Lanes of twice the width, and of half of it.
OPERATOR(u16x8_extmul_low_u8x16, (v128_t a, v128_t b), u16x8, a.u8x16[i] * b.u8x16[i])
OPERATOR(u16x8_extmul_high_u8x16, (v128_t a, v128_t b), u16x8, a.u8x16[i + 8] * b.u8x16[i + 8])
OPERATOR(u16x8_extadd_pairwise_u8x16, (v128_t a), u16x8, a.u8x16[2 * i] + a.u8x16[2 * i + 1])
OPERATOR(u32x4_extadd_pairwise_u16x8, (v128_t a), u32x4, a.u16x8[2 * i] + a.u16x8[2 * i + 1])
OPERATOR(i32x4_dot_i16x8, (v128_t a, v128_t b), i32x4,
    (int64_t)a.i16x8[2 * i] * b.i16x8[2 * i] + (int64_t)a.i16x8[2 * i + 1] * b.i16x8[2 * i + 1])
OPERATOR(u8x16_narrow_i16x8, (v128_t a, v128_t b), u8x16, within(i < 8 ? a.i16x8[i] : b.i16x8[i - 8], 0, 255))

// What holds of any lane or of all, and the signs of all.
static inline int wasm_v128_any_true(v128_t a)
{
    return (a.i64x2[0] | a.i64x2[1]) != 0;
}

static inline int wasm_i32x4_all_true(v128_t a)
{
    return a.i32x4[0] != 0 && a.i32x4[1] != 0 && a.i32x4[2] != 0 && a.i32x4[3] != 0;
}

#define SIGNS(shape) \
    static inline uint32_t wasm_##shape##_bitmask(v128_t a) \
    { \
        uint32_t signs = 0; \
        for (int i = 0; i < LANES(shape); i++) { signs |= (uint32_t)(a.shape[i] < 0) << i; } \
        return signs; \
    }
SIGNS(i8x16)
SIGNS(i32x4)

#endif

#endif
