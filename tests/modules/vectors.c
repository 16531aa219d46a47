// vectors.wat in C, for its answers alone: a vector is its lanes, and floats in lanes are the integers that have their bits.
#include "module.h"

typedef union {
    uint8_t i8x16[16];
    uint16_t i16x8[8];
    uint32_t i32x4[4];
    uint64_t i64x2[2];
} vector;

static vector vector_of(uint64_t low, uint64_t high)
{
    vector v;
    v.i64x2[0] = low;
    v.i64x2[1] = high;
    return v;
}

static uint64_t taken_vector(uint64_t digest, vector v) { return taken(taken(digest, v.i64x2[0]), v.i64x2[1]); }

// An operator on the lanes x and y of two vectors, on the lanes of one, or on those of one by a number n.
#define ON_TWO(shape, lanes, name, result) \
    static vector shape##_##name(vector a, vector b) \
    { \
        vector v; \
        for (int i = 0; i < lanes; i++) { uint64_t x = a.shape[i], y = b.shape[i]; v.shape[i] = (result); } \
        return v; \
    }
#define ON_ONE(shape, lanes, name, result) \
    static vector shape##_##name(vector a) \
    { \
        vector v; \
        for (int i = 0; i < lanes; i++) { uint64_t x = a.shape[i]; v.shape[i] = (result); } \
        return v; \
    }
#define BY_NUMBER(shape, lanes, name, result) \
    static vector shape##_##name(vector a, uint32_t n) \
    { \
        vector v; \
        for (int i = 0; i < lanes; i++) { uint64_t x = a.shape[i]; v.shape[i] = (result); } \
        return v; \
    }

// The vectors of a shape, whose lanes have so many bits.
#define LANES(shape, lanes, bits) \
    ON_TWO(shape, lanes, add, x + y) \
    ON_TWO(shape, lanes, sub, x - y) \
    ON_TWO(shape, lanes, mul, x * y) \
    ON_ONE(shape, lanes, neg, 0 - x) \
    ON_ONE(shape, lanes, abs, (int##bits##_t)x < 0 ? 0 - x : x) \
    ON_TWO(shape, lanes, eq, x == y ? ~0ull : 0) \
    ON_TWO(shape, lanes, ne, x != y ? ~0ull : 0) \
    ON_TWO(shape, lanes, lt_s, (int##bits##_t)x < (int##bits##_t)y ? ~0ull : 0) \
    ON_TWO(shape, lanes, gt_s, (int##bits##_t)x > (int##bits##_t)y ? ~0ull : 0) \
    ON_TWO(shape, lanes, le_s, (int##bits##_t)x <= (int##bits##_t)y ? ~0ull : 0) \
    ON_TWO(shape, lanes, ge_s, (int##bits##_t)x >= (int##bits##_t)y ? ~0ull : 0) \
    ON_TWO(shape, lanes, lt_u, x < y ? ~0ull : 0) \
    ON_TWO(shape, lanes, gt_u, x > y ? ~0ull : 0) \
    ON_TWO(shape, lanes, le_u, x <= y ? ~0ull : 0) \
    ON_TWO(shape, lanes, ge_u, x >= y ? ~0ull : 0) \
    ON_TWO(shape, lanes, min_s, (int##bits##_t)x < (int##bits##_t)y ? x : y) \
    ON_TWO(shape, lanes, max_s, (int##bits##_t)x > (int##bits##_t)y ? x : y) \
    ON_TWO(shape, lanes, min_u, x < y ? x : y) \
    ON_TWO(shape, lanes, max_u, x > y ? x : y) \
    BY_NUMBER(shape, lanes, shl, x << n % bits) \
    BY_NUMBER(shape, lanes, shr_u, x >> n % bits) \
    BY_NUMBER(shape, lanes, shr_s, (uint64_t)((int64_t)(int##bits##_t)x >> n % bits)) \
    static vector shape##_splat(uint##bits##_t x) \
    { \
        vector v; \
        for (int i = 0; i < lanes; i++) { v.shape[i] = x; } \
        return v; \
    } \
    static uint##bits##_t shape##_extract_lane(vector a, int lane) { return a.shape[lane]; } \
    static uint32_t shape##_extract_lane_u(vector a, int lane) { return a.shape[lane]; } \
    static uint32_t shape##_extract_lane_s(vector a, int lane) { return (uint32_t)(int##bits##_t)a.shape[lane]; } \
    static vector shape##_replace_lane(vector a, uint##bits##_t x, int lane) \
    { \
        a.shape[lane] = x; \
        return a; \
    }

LANES(i8x16, 16, 8)
LANES(i16x8, 8, 16)
LANES(i32x4, 4, 32)
LANES(i64x2, 2, 64)

#define ON_BITS(name, result) \
    static vector v128_##name(vector a, vector b) \
    { \
        vector v; \
        for (int i = 0; i < 2; i++) { uint64_t x = a.i64x2[i], y = b.i64x2[i]; v.i64x2[i] = (result); } \
        return v; \
    }

ON_BITS(and, x & y)
ON_BITS(or, x | y)
ON_BITS(xor, x ^ y)
ON_BITS(andnot, x & ~y)

static vector v128_not(vector a) { return vector_of(~a.i64x2[0], ~a.i64x2[1]); }

static vector v128_bitselect(vector a, vector b, vector c)
{
    return v128_or(v128_and(a, c), v128_and(b, v128_not(c)));
}

static vector f32x4_neg(vector a) { return v128_xor(a, i32x4_splat(0x80000000u)); }
static vector f64x2_neg(vector a) { return v128_xor(a, i64x2_splat(0x8000000000000000ull)); }
static vector f32x4_abs(vector a) { return v128_and(a, i32x4_splat(0x7fffffffu)); }
static vector f64x2_abs(vector a) { return v128_and(a, i64x2_splat(0x7fffffffffffffffull)); }
static vector f32x4_splat(uint32_t x) { return i32x4_splat(x); }
static vector f64x2_splat(uint64_t x) { return i64x2_splat(x); }
static uint32_t f32x4_extract_lane(vector a, int lane) { return a.i32x4[lane]; }
static uint64_t f64x2_extract_lane(vector a, int lane) { return a.i64x2[lane]; }

static uint64_t bits;

static vector next(void)
{
    bits = bits * 6364136223846793005ull + 1442695040888963407ull;
    return vector_of(bits, bits << 29 | bits >> 35);
}

uint64_t drop_double_vector_complement(uint64_t m, uint64_t n, uint64_t o, uint64_t r)
{
    vector a = vector_of(m, n);
    uint64_t digest = 0;
    digest = taken_vector(digest, v128_not(v128_not(a)));
    return digest;
}

uint64_t commute_vector_bits(uint64_t m, uint64_t n, uint64_t o, uint64_t r)
{
    vector a = vector_of(m, n);
    vector b = vector_of(o, r);
    uint64_t digest = 0;
    digest = taken_vector(digest, v128_and(a, b));
    digest = taken_vector(digest, v128_or(a, b));
    digest = taken_vector(digest, v128_xor(a, b));
    return digest;
}

uint64_t associate_vector_bits_left(uint64_t m, uint64_t n, uint64_t o, uint64_t r)
{
    vector a = vector_of(m, n);
    vector b = vector_of(o, r);
    vector c = vector_of(r, m);
    uint64_t digest = 0;
    digest = taken_vector(digest, v128_and(a, v128_and(b, c)));
    digest = taken_vector(digest, v128_or(a, v128_or(b, c)));
    digest = taken_vector(digest, v128_xor(a, v128_xor(b, c)));
    return digest;
}

uint64_t associate_vector_bits_right(uint64_t m, uint64_t n, uint64_t o, uint64_t r)
{
    vector a = vector_of(m, n);
    vector b = vector_of(o, r);
    vector c = vector_of(r, m);
    uint64_t digest = 0;
    digest = taken_vector(digest, v128_and(v128_and(a, b), c));
    digest = taken_vector(digest, v128_or(v128_or(a, b), c));
    digest = taken_vector(digest, v128_xor(v128_xor(a, b), c));
    return digest;
}

uint64_t vector_complement_to_xor(uint64_t m, uint64_t n, uint64_t o, uint64_t r)
{
    vector a = vector_of(m, n);
    uint64_t digest = 0;
    digest = taken_vector(digest, v128_not(a));
    return digest;
}

uint64_t xor_to_vector_complement(uint64_t m, uint64_t n, uint64_t o, uint64_t r)
{
    vector a = vector_of(m, n);
    uint64_t digest = 0;
    digest = taken_vector(digest, v128_xor(a, i32x4_splat(~0u)));
    return digest;
}

uint64_t drop_neutral_vector(uint64_t m, uint64_t n, uint64_t o, uint64_t r)
{
    vector a = vector_of(m, n);
    uint64_t digest = 0;
    digest = taken_vector(digest, v128_or(a, i32x4_splat(0)));
    digest = taken_vector(digest, v128_xor(a, i32x4_splat(0)));
    digest = taken_vector(digest, v128_and(a, i32x4_splat(~0u)));
    return digest;
}

uint64_t and_not_to_and(uint64_t m, uint64_t n, uint64_t o, uint64_t r)
{
    vector a = vector_of(m, n);
    vector b = vector_of(o, r);
    uint64_t digest = 0;
    digest = taken_vector(digest, v128_andnot(a, b));
    return digest;
}

uint64_t and_to_and_not(uint64_t m, uint64_t n, uint64_t o, uint64_t r)
{
    vector a = vector_of(m, n);
    vector b = vector_of(o, r);
    uint64_t digest = 0;
    digest = taken_vector(digest, v128_and(a, v128_not(b)));
    return digest;
}

uint64_t vector_complement_of_both(uint64_t m, uint64_t n, uint64_t o, uint64_t r)
{
    vector a = vector_of(m, n);
    vector b = vector_of(o, r);
    uint64_t digest = 0;
    digest = taken_vector(digest, v128_not(v128_and(a, b)));
    digest = taken_vector(digest, v128_not(v128_or(a, b)));
    return digest;
}

uint64_t both_vector_complements(uint64_t m, uint64_t n, uint64_t o, uint64_t r)
{
    vector a = vector_of(m, n);
    vector b = vector_of(o, r);
    uint64_t digest = 0;
    digest = taken_vector(digest, v128_or(v128_not(a), v128_not(b)));
    digest = taken_vector(digest, v128_and(v128_not(a), v128_not(b)));
    return digest;
}

uint64_t drop_repeated_vector(uint64_t m, uint64_t n, uint64_t o, uint64_t r)
{
    vector a = vector_of(m, n);
    uint64_t digest = 0;
    digest = taken_vector(digest, v128_and(a, a));
    digest = taken_vector(digest, v128_or(a, a));
    return digest;
}

uint64_t cancel_vector(uint64_t m, uint64_t n, uint64_t o, uint64_t r)
{
    vector a = vector_of(m, n);
    uint64_t digest = 0;
    digest = taken_vector(digest, v128_xor(a, a));
    return digest;
}

uint64_t drop_bitselect(uint64_t m, uint64_t n, uint64_t o, uint64_t r)
{
    vector a = vector_of(m, n);
    vector c = vector_of(r, m);
    uint64_t digest = 0;
    digest = taken_vector(digest, v128_bitselect(a, a, c));
    return digest;
}

uint64_t bitselect_to_bits(uint64_t m, uint64_t n, uint64_t o, uint64_t r)
{
    vector a = vector_of(m, n);
    vector b = vector_of(o, r);
    vector c = vector_of(r, m);
    uint64_t digest = 0;
    digest = taken_vector(digest, v128_bitselect(a, b, c));
    return digest;
}

uint64_t bits_to_bitselect(uint64_t m, uint64_t n, uint64_t o, uint64_t r)
{
    vector a = vector_of(m, n);
    vector b = vector_of(o, r);
    vector c = vector_of(r, m);
    uint64_t digest = 0;
    digest = taken_vector(digest, v128_or(v128_and(a, c), v128_andnot(b, c)));
    return digest;
}

uint64_t turn_bitselect_back(uint64_t m, uint64_t n, uint64_t o, uint64_t r)
{
    vector a = vector_of(m, n);
    vector b = vector_of(o, r);
    vector c = vector_of(r, m);
    uint64_t digest = 0;
    digest = taken_vector(digest, v128_bitselect(b, a, v128_not(c)));
    return digest;
}

uint64_t absorb_vector(uint64_t m, uint64_t n, uint64_t o, uint64_t r)
{
    vector a = vector_of(m, n);
    vector b = vector_of(o, r);
    uint64_t digest = 0;
    digest = taken_vector(digest, v128_and(a, v128_or(a, b)));
    digest = taken_vector(digest, v128_or(a, v128_and(a, b)));
    return digest;
}

uint64_t commute_lanes(uint64_t m, uint64_t n, uint64_t o, uint64_t r)
{
    vector a = vector_of(m, n);
    vector b = vector_of(o, r);
    uint64_t digest = 0;
    digest = taken_vector(digest, i8x16_add(a, b));
    digest = taken_vector(digest, i16x8_add(a, b));
    digest = taken_vector(digest, i32x4_add(a, b));
    digest = taken_vector(digest, i64x2_add(a, b));
    digest = taken_vector(digest, i16x8_mul(a, b));
    digest = taken_vector(digest, i32x4_mul(a, b));
    digest = taken_vector(digest, i64x2_mul(a, b));
    return digest;
}

uint64_t associate_lanes_left(uint64_t m, uint64_t n, uint64_t o, uint64_t r)
{
    vector a = vector_of(m, n);
    vector b = vector_of(o, r);
    vector c = vector_of(r, m);
    uint64_t digest = 0;
    digest = taken_vector(digest, i8x16_add(a, i8x16_add(b, c)));
    digest = taken_vector(digest, i16x8_add(a, i16x8_add(b, c)));
    digest = taken_vector(digest, i32x4_add(a, i32x4_add(b, c)));
    digest = taken_vector(digest, i64x2_add(a, i64x2_add(b, c)));
    digest = taken_vector(digest, i16x8_mul(a, i16x8_mul(b, c)));
    digest = taken_vector(digest, i32x4_mul(a, i32x4_mul(b, c)));
    digest = taken_vector(digest, i64x2_mul(a, i64x2_mul(b, c)));
    return digest;
}

uint64_t associate_lanes_right(uint64_t m, uint64_t n, uint64_t o, uint64_t r)
{
    vector a = vector_of(m, n);
    vector b = vector_of(o, r);
    vector c = vector_of(r, m);
    uint64_t digest = 0;
    digest = taken_vector(digest, i8x16_add(i8x16_add(a, b), c));
    digest = taken_vector(digest, i16x8_add(i16x8_add(a, b), c));
    digest = taken_vector(digest, i32x4_add(i32x4_add(a, b), c));
    digest = taken_vector(digest, i64x2_add(i64x2_add(a, b), c));
    digest = taken_vector(digest, i16x8_mul(i16x8_mul(a, b), c));
    digest = taken_vector(digest, i32x4_mul(i32x4_mul(a, b), c));
    digest = taken_vector(digest, i64x2_mul(i64x2_mul(a, b), c));
    return digest;
}

uint64_t lane_difference_to_sum(uint64_t m, uint64_t n, uint64_t o, uint64_t r)
{
    vector a = vector_of(m, n);
    vector b = vector_of(o, r);
    uint64_t digest = 0;
    digest = taken_vector(digest, i8x16_sub(a, b));
    digest = taken_vector(digest, i16x8_sub(a, b));
    digest = taken_vector(digest, i32x4_sub(a, b));
    digest = taken_vector(digest, i64x2_sub(a, b));
    return digest;
}

uint64_t lane_sum_to_difference(uint64_t m, uint64_t n, uint64_t o, uint64_t r)
{
    vector a = vector_of(m, n);
    vector b = vector_of(o, r);
    uint64_t digest = 0;
    digest = taken_vector(digest, i8x16_add(a, i8x16_neg(b)));
    digest = taken_vector(digest, i16x8_add(a, i16x8_neg(b)));
    digest = taken_vector(digest, i32x4_add(a, i32x4_neg(b)));
    digest = taken_vector(digest, i64x2_add(a, i64x2_neg(b)));
    return digest;
}

uint64_t lane_negative_to_difference(uint64_t m, uint64_t n, uint64_t o, uint64_t r)
{
    vector a = vector_of(m, n);
    uint64_t digest = 0;
    digest = taken_vector(digest, i8x16_neg(a));
    digest = taken_vector(digest, i16x8_neg(a));
    digest = taken_vector(digest, i32x4_neg(a));
    digest = taken_vector(digest, i64x2_neg(a));
    return digest;
}

uint64_t lane_difference_to_negative(uint64_t m, uint64_t n, uint64_t o, uint64_t r)
{
    vector a = vector_of(m, n);
    uint64_t digest = 0;
    digest = taken_vector(digest, i8x16_sub(i32x4_splat(0), a));
    digest = taken_vector(digest, i16x8_sub(i32x4_splat(0), a));
    digest = taken_vector(digest, i32x4_sub(i32x4_splat(0), a));
    digest = taken_vector(digest, i64x2_sub(i32x4_splat(0), a));
    return digest;
}

uint64_t drop_double_lane_negative(uint64_t m, uint64_t n, uint64_t o, uint64_t r)
{
    vector a = vector_of(m, n);
    uint64_t digest = 0;
    digest = taken_vector(digest, i8x16_neg(i8x16_neg(a)));
    digest = taken_vector(digest, i16x8_neg(i16x8_neg(a)));
    digest = taken_vector(digest, i32x4_neg(i32x4_neg(a)));
    digest = taken_vector(digest, i64x2_neg(i64x2_neg(a)));
    return digest;
}

uint64_t drop_lane_zero(uint64_t m, uint64_t n, uint64_t o, uint64_t r)
{
    vector a = vector_of(m, n);
    uint64_t digest = 0;
    digest = taken_vector(digest, i8x16_add(a, i32x4_splat(0)));
    digest = taken_vector(digest, i16x8_add(a, i32x4_splat(0)));
    digest = taken_vector(digest, i32x4_add(a, i32x4_splat(0)));
    digest = taken_vector(digest, i64x2_add(a, i32x4_splat(0)));
    return digest;
}

uint64_t cancel_lanes(uint64_t m, uint64_t n, uint64_t o, uint64_t r)
{
    vector a = vector_of(m, n);
    uint64_t digest = 0;
    digest = taken_vector(digest, i8x16_sub(a, a));
    digest = taken_vector(digest, i16x8_sub(a, a));
    digest = taken_vector(digest, i32x4_sub(a, a));
    digest = taken_vector(digest, i64x2_sub(a, a));
    return digest;
}

uint64_t lane_magnitude_of_negative(uint64_t m, uint64_t n, uint64_t o, uint64_t r)
{
    vector a = vector_of(m, n);
    uint64_t digest = 0;
    digest = taken_vector(digest, i8x16_abs(a));
    digest = taken_vector(digest, i16x8_abs(a));
    digest = taken_vector(digest, i32x4_abs(a));
    digest = taken_vector(digest, i64x2_abs(a));
    return digest;
}

uint64_t drop_negative_in_magnitude(uint64_t m, uint64_t n, uint64_t o, uint64_t r)
{
    vector a = vector_of(m, n);
    uint64_t digest = 0;
    digest = taken_vector(digest, i8x16_abs(i8x16_neg(a)));
    digest = taken_vector(digest, i16x8_abs(i16x8_neg(a)));
    digest = taken_vector(digest, i32x4_abs(i32x4_neg(a)));
    digest = taken_vector(digest, i64x2_abs(i64x2_neg(a)));
    return digest;
}

uint64_t drop_repeated_magnitude(uint64_t m, uint64_t n, uint64_t o, uint64_t r)
{
    vector a = vector_of(m, n);
    uint64_t digest = 0;
    digest = taken_vector(digest, i8x16_abs(i8x16_abs(a)));
    digest = taken_vector(digest, i16x8_abs(i16x8_abs(a)));
    digest = taken_vector(digest, i32x4_abs(i32x4_abs(a)));
    digest = taken_vector(digest, i64x2_abs(i64x2_abs(a)));
    return digest;
}

uint64_t lane_shift_to_double(uint64_t m, uint64_t n, uint64_t o, uint64_t r)
{
    vector a = vector_of(m, n);
    uint64_t digest = 0;
    digest = taken_vector(digest, i8x16_shl(a, 1));
    digest = taken_vector(digest, i16x8_shl(a, 1));
    digest = taken_vector(digest, i32x4_shl(a, 1));
    digest = taken_vector(digest, i64x2_shl(a, 1));
    return digest;
}

uint64_t lane_double_to_shift(uint64_t m, uint64_t n, uint64_t o, uint64_t r)
{
    vector a = vector_of(m, n);
    uint64_t digest = 0;
    digest = taken_vector(digest, i8x16_add(a, a));
    digest = taken_vector(digest, i16x8_add(a, a));
    digest = taken_vector(digest, i32x4_add(a, a));
    digest = taken_vector(digest, i64x2_add(a, a));
    return digest;
}

uint64_t turn_lane_test(uint64_t m, uint64_t n, uint64_t o, uint64_t r)
{
    vector a = vector_of(m, n);
    vector b = vector_of(o, r);
    uint64_t digest = 0;
    digest = taken_vector(digest, i8x16_eq(a, b));
    digest = taken_vector(digest, i16x8_eq(a, b));
    digest = taken_vector(digest, i8x16_ne(a, b));
    digest = taken_vector(digest, i16x8_ne(a, b));
    digest = taken_vector(digest, i8x16_lt_s(a, b));
    digest = taken_vector(digest, i16x8_lt_s(a, b));
    digest = taken_vector(digest, i8x16_le_s(a, b));
    digest = taken_vector(digest, i16x8_le_s(a, b));
    digest = taken_vector(digest, i8x16_gt_s(a, b));
    digest = taken_vector(digest, i16x8_gt_s(a, b));
    digest = taken_vector(digest, i8x16_ge_s(a, b));
    digest = taken_vector(digest, i16x8_ge_s(a, b));
    digest = taken_vector(digest, i8x16_lt_u(a, b));
    digest = taken_vector(digest, i16x8_lt_u(a, b));
    digest = taken_vector(digest, i8x16_le_u(a, b));
    digest = taken_vector(digest, i16x8_le_u(a, b));
    digest = taken_vector(digest, i8x16_gt_u(a, b));
    digest = taken_vector(digest, i16x8_gt_u(a, b));
    digest = taken_vector(digest, i8x16_ge_u(a, b));
    digest = taken_vector(digest, i16x8_ge_u(a, b));
    digest = taken_vector(digest, i32x4_eq(a, b));
    digest = taken_vector(digest, i64x2_eq(a, b));
    digest = taken_vector(digest, i32x4_ne(a, b));
    digest = taken_vector(digest, i64x2_ne(a, b));
    digest = taken_vector(digest, i32x4_lt_s(a, b));
    digest = taken_vector(digest, i64x2_lt_s(a, b));
    digest = taken_vector(digest, i32x4_le_s(a, b));
    digest = taken_vector(digest, i64x2_le_s(a, b));
    digest = taken_vector(digest, i32x4_gt_s(a, b));
    digest = taken_vector(digest, i64x2_gt_s(a, b));
    digest = taken_vector(digest, i32x4_ge_s(a, b));
    digest = taken_vector(digest, i64x2_ge_s(a, b));
    digest = taken_vector(digest, i32x4_lt_u(a, b));
    digest = taken_vector(digest, i32x4_le_u(a, b));
    digest = taken_vector(digest, i32x4_gt_u(a, b));
    digest = taken_vector(digest, i32x4_ge_u(a, b));
    return digest;
}

uint64_t drop_complement_of_lane_test(uint64_t m, uint64_t n, uint64_t o, uint64_t r)
{
    vector a = vector_of(m, n);
    vector b = vector_of(o, r);
    uint64_t digest = 0;
    digest = taken_vector(digest, v128_not(i8x16_ne(a, b)));
    digest = taken_vector(digest, v128_not(i16x8_ne(a, b)));
    digest = taken_vector(digest, v128_not(i8x16_eq(a, b)));
    digest = taken_vector(digest, v128_not(i16x8_eq(a, b)));
    digest = taken_vector(digest, v128_not(i8x16_ge_s(a, b)));
    digest = taken_vector(digest, v128_not(i16x8_ge_s(a, b)));
    digest = taken_vector(digest, v128_not(i8x16_gt_s(a, b)));
    digest = taken_vector(digest, v128_not(i16x8_gt_s(a, b)));
    digest = taken_vector(digest, v128_not(i8x16_le_s(a, b)));
    digest = taken_vector(digest, v128_not(i16x8_le_s(a, b)));
    digest = taken_vector(digest, v128_not(i8x16_lt_s(a, b)));
    digest = taken_vector(digest, v128_not(i16x8_lt_s(a, b)));
    digest = taken_vector(digest, v128_not(i8x16_ge_u(a, b)));
    digest = taken_vector(digest, v128_not(i16x8_ge_u(a, b)));
    digest = taken_vector(digest, v128_not(i8x16_gt_u(a, b)));
    digest = taken_vector(digest, v128_not(i16x8_gt_u(a, b)));
    digest = taken_vector(digest, v128_not(i8x16_le_u(a, b)));
    digest = taken_vector(digest, v128_not(i16x8_le_u(a, b)));
    digest = taken_vector(digest, v128_not(i8x16_lt_u(a, b)));
    digest = taken_vector(digest, v128_not(i16x8_lt_u(a, b)));
    digest = taken_vector(digest, v128_not(i32x4_ne(a, b)));
    digest = taken_vector(digest, v128_not(i64x2_ne(a, b)));
    digest = taken_vector(digest, v128_not(i32x4_eq(a, b)));
    digest = taken_vector(digest, v128_not(i64x2_eq(a, b)));
    digest = taken_vector(digest, v128_not(i32x4_ge_s(a, b)));
    digest = taken_vector(digest, v128_not(i64x2_ge_s(a, b)));
    digest = taken_vector(digest, v128_not(i32x4_gt_s(a, b)));
    digest = taken_vector(digest, v128_not(i64x2_gt_s(a, b)));
    digest = taken_vector(digest, v128_not(i32x4_le_s(a, b)));
    digest = taken_vector(digest, v128_not(i64x2_le_s(a, b)));
    digest = taken_vector(digest, v128_not(i32x4_lt_s(a, b)));
    digest = taken_vector(digest, v128_not(i64x2_lt_s(a, b)));
    digest = taken_vector(digest, v128_not(i32x4_ge_u(a, b)));
    digest = taken_vector(digest, v128_not(i32x4_gt_u(a, b)));
    digest = taken_vector(digest, v128_not(i32x4_le_u(a, b)));
    digest = taken_vector(digest, v128_not(i32x4_lt_u(a, b)));
    return digest;
}

uint64_t turn_lane_bound(uint64_t m, uint64_t n, uint64_t o, uint64_t r)
{
    vector a = vector_of(m, n);
    vector b = vector_of(o, r);
    uint64_t digest = 0;
    digest = taken_vector(digest, i8x16_min_s(a, b));
    digest = taken_vector(digest, i16x8_min_s(a, b));
    digest = taken_vector(digest, i32x4_min_s(a, b));
    digest = taken_vector(digest, i8x16_min_u(a, b));
    digest = taken_vector(digest, i16x8_min_u(a, b));
    digest = taken_vector(digest, i32x4_min_u(a, b));
    digest = taken_vector(digest, i8x16_max_s(a, b));
    digest = taken_vector(digest, i16x8_max_s(a, b));
    digest = taken_vector(digest, i32x4_max_s(a, b));
    digest = taken_vector(digest, i8x16_max_u(a, b));
    digest = taken_vector(digest, i16x8_max_u(a, b));
    digest = taken_vector(digest, i32x4_max_u(a, b));
    return digest;
}

uint64_t drop_lane_bound(uint64_t m, uint64_t n, uint64_t o, uint64_t r)
{
    vector a = vector_of(m, n);
    uint64_t digest = 0;
    digest = taken_vector(digest, i8x16_min_s(a, a));
    digest = taken_vector(digest, i16x8_min_s(a, a));
    digest = taken_vector(digest, i32x4_min_s(a, a));
    digest = taken_vector(digest, i8x16_min_u(a, a));
    digest = taken_vector(digest, i16x8_min_u(a, a));
    digest = taken_vector(digest, i32x4_min_u(a, a));
    digest = taken_vector(digest, i8x16_max_s(a, a));
    digest = taken_vector(digest, i16x8_max_s(a, a));
    digest = taken_vector(digest, i32x4_max_s(a, a));
    digest = taken_vector(digest, i8x16_max_u(a, a));
    digest = taken_vector(digest, i16x8_max_u(a, a));
    digest = taken_vector(digest, i32x4_max_u(a, a));
    return digest;
}

uint64_t lane_choice_to_bound(uint64_t m, uint64_t n, uint64_t o, uint64_t r)
{
    vector a = vector_of(m, n);
    vector b = vector_of(o, r);
    uint64_t digest = 0;
    digest = taken_vector(digest, v128_bitselect(a, b, i8x16_lt_s(a, b)));
    digest = taken_vector(digest, v128_bitselect(a, b, i16x8_lt_s(a, b)));
    digest = taken_vector(digest, v128_bitselect(a, b, i32x4_lt_s(a, b)));
    digest = taken_vector(digest, v128_bitselect(a, b, i8x16_lt_u(a, b)));
    digest = taken_vector(digest, v128_bitselect(a, b, i16x8_lt_u(a, b)));
    digest = taken_vector(digest, v128_bitselect(a, b, i32x4_lt_u(a, b)));
    digest = taken_vector(digest, v128_bitselect(a, b, i8x16_gt_s(a, b)));
    digest = taken_vector(digest, v128_bitselect(a, b, i16x8_gt_s(a, b)));
    digest = taken_vector(digest, v128_bitselect(a, b, i32x4_gt_s(a, b)));
    digest = taken_vector(digest, v128_bitselect(a, b, i8x16_gt_u(a, b)));
    digest = taken_vector(digest, v128_bitselect(a, b, i16x8_gt_u(a, b)));
    digest = taken_vector(digest, v128_bitselect(a, b, i32x4_gt_u(a, b)));
    return digest;
}

uint64_t drop_shift_of_lanes_by_zero(uint64_t m, uint64_t n, uint64_t o, uint64_t r)
{
    vector a = vector_of(m, n);
    uint64_t digest = 0;
    digest = taken_vector(digest, i8x16_shl(a, 0));
    digest = taken_vector(digest, i16x8_shl(a, 0));
    digest = taken_vector(digest, i32x4_shl(a, 0));
    digest = taken_vector(digest, i64x2_shl(a, 0));
    digest = taken_vector(digest, i8x16_shr_s(a, 0));
    digest = taken_vector(digest, i16x8_shr_s(a, 0));
    digest = taken_vector(digest, i32x4_shr_s(a, 0));
    digest = taken_vector(digest, i64x2_shr_s(a, 0));
    digest = taken_vector(digest, i8x16_shr_u(a, 0));
    digest = taken_vector(digest, i16x8_shr_u(a, 0));
    digest = taken_vector(digest, i32x4_shr_u(a, 0));
    digest = taken_vector(digest, i64x2_shr_u(a, 0));
    return digest;
}

uint64_t drop_shift_of_lanes_by_width(uint64_t m, uint64_t n, uint64_t o, uint64_t r)
{
    vector a = vector_of(m, n);
    uint64_t digest = 0;
    digest = taken_vector(digest, i8x16_shl(a, 8));
    digest = taken_vector(digest, i16x8_shl(a, 16));
    digest = taken_vector(digest, i32x4_shl(a, 32));
    digest = taken_vector(digest, i64x2_shl(a, 64));
    digest = taken_vector(digest, i8x16_shr_s(a, 8));
    digest = taken_vector(digest, i16x8_shr_s(a, 16));
    digest = taken_vector(digest, i32x4_shr_s(a, 32));
    digest = taken_vector(digest, i64x2_shr_s(a, 64));
    digest = taken_vector(digest, i8x16_shr_u(a, 8));
    digest = taken_vector(digest, i16x8_shr_u(a, 16));
    digest = taken_vector(digest, i32x4_shr_u(a, 32));
    digest = taken_vector(digest, i64x2_shr_u(a, 64));
    return digest;
}

uint64_t drop_double_float_lane_negative(uint64_t m, uint64_t n, uint64_t o, uint64_t r)
{
    vector a = vector_of(m, n);
    uint64_t digest = 0;
    digest = taken_vector(digest, f32x4_neg(f32x4_neg(a)));
    digest = taken_vector(digest, f64x2_neg(f64x2_neg(a)));
    return digest;
}

uint64_t float_lane_negative_to_bits(uint64_t m, uint64_t n, uint64_t o, uint64_t r)
{
    vector a = vector_of(m, n);
    uint64_t digest = 0;
    digest = taken_vector(digest, f32x4_neg(a));
    digest = taken_vector(digest, f64x2_neg(a));
    return digest;
}

uint64_t bits_to_float_lane_negative(uint64_t m, uint64_t n, uint64_t o, uint64_t r)
{
    vector a = vector_of(m, n);
    uint64_t digest = 0;
    digest = taken_vector(digest, v128_xor(a, i32x4_splat(0x80000000u)));
    digest = taken_vector(digest, v128_xor(a, i64x2_shl(i32x4_splat(~0u), 63)));
    return digest;
}

uint64_t float_lane_magnitude_to_bits(uint64_t m, uint64_t n, uint64_t o, uint64_t r)
{
    vector a = vector_of(m, n);
    uint64_t digest = 0;
    digest = taken_vector(digest, f32x4_abs(a));
    digest = taken_vector(digest, f64x2_abs(a));
    return digest;
}

uint64_t bits_to_float_lane_magnitude(uint64_t m, uint64_t n, uint64_t o, uint64_t r)
{
    vector a = vector_of(m, n);
    uint64_t digest = 0;
    digest = taken_vector(digest, v128_andnot(a, i32x4_splat(0x80000000u)));
    digest = taken_vector(digest, v128_andnot(a, i64x2_shl(i32x4_splat(~0u), 63)));
    return digest;
}

uint64_t drop_negative_in_float_magnitude(uint64_t m, uint64_t n, uint64_t o, uint64_t r)
{
    vector a = vector_of(m, n);
    uint64_t digest = 0;
    digest = taken_vector(digest, f32x4_abs(f32x4_neg(a)));
    digest = taken_vector(digest, f64x2_abs(f64x2_neg(a)));
    return digest;
}

uint64_t drop_repeated_float_magnitude(uint64_t m, uint64_t n, uint64_t o, uint64_t r)
{
    vector a = vector_of(m, n);
    uint64_t digest = 0;
    digest = taken_vector(digest, f32x4_abs(f32x4_abs(a)));
    digest = taken_vector(digest, f64x2_abs(f64x2_abs(a)));
    return digest;
}

uint64_t drop_splat_and_extract(uint64_t m, uint64_t n, uint64_t o, uint64_t r)
{
    uint32_t s = (uint32_t)m;
    uint32_t x = s;
    uint64_t u = m;
    uint64_t digest = 0;
    digest = taken(digest, i32x4_extract_lane(i32x4_splat(s), 0));
    digest = taken(digest, i32x4_extract_lane(i32x4_splat(s), 1));
    digest = taken(digest, i32x4_extract_lane(i32x4_splat(s), 2));
    digest = taken(digest, i32x4_extract_lane(i32x4_splat(s), 3));
    digest = taken(digest, i64x2_extract_lane(i64x2_splat(m), 0));
    digest = taken(digest, i64x2_extract_lane(i64x2_splat(m), 1));
    digest = taken(digest, f32x4_extract_lane(f32x4_splat(x), 0));
    digest = taken(digest, f32x4_extract_lane(f32x4_splat(x), 1));
    digest = taken(digest, f32x4_extract_lane(f32x4_splat(x), 2));
    digest = taken(digest, f32x4_extract_lane(f32x4_splat(x), 3));
    digest = taken(digest, f64x2_extract_lane(f64x2_splat(u), 0));
    digest = taken(digest, f64x2_extract_lane(f64x2_splat(u), 1));
    return digest;
}

uint64_t extract_by_bits(uint64_t m, uint64_t n, uint64_t o, uint64_t r)
{
    vector a = vector_of(m, n);
    uint64_t digest = 0;
    digest = taken(digest, f32x4_extract_lane(a, 0));
    digest = taken(digest, f32x4_extract_lane(a, 1));
    digest = taken(digest, f32x4_extract_lane(a, 2));
    digest = taken(digest, f32x4_extract_lane(a, 3));
    digest = taken(digest, f64x2_extract_lane(a, 0));
    digest = taken(digest, f64x2_extract_lane(a, 1));
    digest = taken(digest, i32x4_extract_lane(a, 0));
    digest = taken(digest, i32x4_extract_lane(a, 1));
    digest = taken(digest, i32x4_extract_lane(a, 2));
    digest = taken(digest, i32x4_extract_lane(a, 3));
    digest = taken(digest, i64x2_extract_lane(a, 0));
    digest = taken(digest, i64x2_extract_lane(a, 1));
    return digest;
}

uint64_t extract_bits(uint64_t m, uint64_t n, uint64_t o, uint64_t r)
{
    vector a = vector_of(m, n);
    uint64_t digest = 0;
    digest = taken(digest, i32x4_extract_lane(a, 0));
    digest = taken(digest, i32x4_extract_lane(a, 1));
    digest = taken(digest, i32x4_extract_lane(a, 2));
    digest = taken(digest, i32x4_extract_lane(a, 3));
    digest = taken(digest, i64x2_extract_lane(a, 0));
    digest = taken(digest, i64x2_extract_lane(a, 1));
    digest = taken(digest, f32x4_extract_lane(a, 0));
    digest = taken(digest, f32x4_extract_lane(a, 1));
    digest = taken(digest, f32x4_extract_lane(a, 2));
    digest = taken(digest, f32x4_extract_lane(a, 3));
    digest = taken(digest, f64x2_extract_lane(a, 0));
    digest = taken(digest, f64x2_extract_lane(a, 1));
    return digest;
}

uint64_t splat_by_bits(uint64_t m, uint64_t n, uint64_t o, uint64_t r)
{
    uint32_t s = (uint32_t)m;
    uint32_t x = s;
    uint64_t u = m;
    uint64_t digest = 0;
    digest = taken_vector(digest, f32x4_splat(x));
    digest = taken_vector(digest, f64x2_splat(u));
    digest = taken_vector(digest, i32x4_splat(s));
    digest = taken_vector(digest, i64x2_splat(m));
    return digest;
}

uint64_t splat_of_bits(uint64_t m, uint64_t n, uint64_t o, uint64_t r)
{
    uint32_t s = (uint32_t)m;
    uint32_t x = s;
    uint64_t u = m;
    uint64_t digest = 0;
    digest = taken_vector(digest, i32x4_splat(x));
    digest = taken_vector(digest, i64x2_splat(u));
    digest = taken_vector(digest, f32x4_splat(s));
    digest = taken_vector(digest, f64x2_splat(m));
    return digest;
}

uint64_t drop_replaced_lane(uint64_t m, uint64_t n, uint64_t o, uint64_t r)
{
    vector a = vector_of(m, n);
    uint64_t digest = 0;
    digest = taken_vector(digest, i32x4_replace_lane(a, i32x4_extract_lane(a, 0), 0));
    digest = taken_vector(digest, i32x4_replace_lane(a, i32x4_extract_lane(a, 1), 1));
    digest = taken_vector(digest, i32x4_replace_lane(a, i32x4_extract_lane(a, 2), 2));
    digest = taken_vector(digest, i32x4_replace_lane(a, i32x4_extract_lane(a, 3), 3));
    digest = taken_vector(digest, i64x2_replace_lane(a, i64x2_extract_lane(a, 0), 0));
    digest = taken_vector(digest, i64x2_replace_lane(a, i64x2_extract_lane(a, 1), 1));
    return digest;
}

uint64_t extend_extracted_lane(uint64_t m, uint64_t n, uint64_t o, uint64_t r)
{
    vector a = vector_of(m, n);
    uint64_t digest = 0;
    digest = taken(digest, i8x16_extract_lane_s(a, 0));
    digest = taken(digest, i8x16_extract_lane_s(a, 1));
    digest = taken(digest, i8x16_extract_lane_s(a, 2));
    digest = taken(digest, i8x16_extract_lane_s(a, 3));
    digest = taken(digest, i8x16_extract_lane_s(a, 4));
    digest = taken(digest, i8x16_extract_lane_s(a, 5));
    digest = taken(digest, i8x16_extract_lane_s(a, 6));
    digest = taken(digest, i8x16_extract_lane_s(a, 7));
    digest = taken(digest, i8x16_extract_lane_s(a, 8));
    digest = taken(digest, i8x16_extract_lane_s(a, 9));
    digest = taken(digest, i8x16_extract_lane_s(a, 10));
    digest = taken(digest, i8x16_extract_lane_s(a, 11));
    digest = taken(digest, i8x16_extract_lane_s(a, 12));
    digest = taken(digest, i8x16_extract_lane_s(a, 13));
    digest = taken(digest, i8x16_extract_lane_s(a, 14));
    digest = taken(digest, i8x16_extract_lane_s(a, 15));
    digest = taken(digest, i16x8_extract_lane_s(a, 0));
    digest = taken(digest, i16x8_extract_lane_s(a, 1));
    digest = taken(digest, i16x8_extract_lane_s(a, 2));
    digest = taken(digest, i16x8_extract_lane_s(a, 3));
    digest = taken(digest, i16x8_extract_lane_s(a, 4));
    digest = taken(digest, i16x8_extract_lane_s(a, 5));
    digest = taken(digest, i16x8_extract_lane_s(a, 6));
    digest = taken(digest, i16x8_extract_lane_s(a, 7));
    return digest;
}

uint64_t extract_signed_lane(uint64_t m, uint64_t n, uint64_t o, uint64_t r)
{
    vector a = vector_of(m, n);
    uint64_t digest = 0;
    digest = taken(digest, (uint32_t)(int8_t)i8x16_extract_lane_u(a, 0));
    digest = taken(digest, (uint32_t)(int8_t)i8x16_extract_lane_u(a, 1));
    digest = taken(digest, (uint32_t)(int8_t)i8x16_extract_lane_u(a, 2));
    digest = taken(digest, (uint32_t)(int8_t)i8x16_extract_lane_u(a, 3));
    digest = taken(digest, (uint32_t)(int8_t)i8x16_extract_lane_u(a, 4));
    digest = taken(digest, (uint32_t)(int8_t)i8x16_extract_lane_u(a, 5));
    digest = taken(digest, (uint32_t)(int8_t)i8x16_extract_lane_u(a, 6));
    digest = taken(digest, (uint32_t)(int8_t)i8x16_extract_lane_u(a, 7));
    digest = taken(digest, (uint32_t)(int8_t)i8x16_extract_lane_u(a, 8));
    digest = taken(digest, (uint32_t)(int8_t)i8x16_extract_lane_u(a, 9));
    digest = taken(digest, (uint32_t)(int8_t)i8x16_extract_lane_u(a, 10));
    digest = taken(digest, (uint32_t)(int8_t)i8x16_extract_lane_u(a, 11));
    digest = taken(digest, (uint32_t)(int8_t)i8x16_extract_lane_u(a, 12));
    digest = taken(digest, (uint32_t)(int8_t)i8x16_extract_lane_u(a, 13));
    digest = taken(digest, (uint32_t)(int8_t)i8x16_extract_lane_u(a, 14));
    digest = taken(digest, (uint32_t)(int8_t)i8x16_extract_lane_u(a, 15));
    digest = taken(digest, (uint32_t)(int16_t)i16x8_extract_lane_u(a, 0));
    digest = taken(digest, (uint32_t)(int16_t)i16x8_extract_lane_u(a, 1));
    digest = taken(digest, (uint32_t)(int16_t)i16x8_extract_lane_u(a, 2));
    digest = taken(digest, (uint32_t)(int16_t)i16x8_extract_lane_u(a, 3));
    digest = taken(digest, (uint32_t)(int16_t)i16x8_extract_lane_u(a, 4));
    digest = taken(digest, (uint32_t)(int16_t)i16x8_extract_lane_u(a, 5));
    digest = taken(digest, (uint32_t)(int16_t)i16x8_extract_lane_u(a, 6));
    digest = taken(digest, (uint32_t)(int16_t)i16x8_extract_lane_u(a, 7));
    return digest;
}

uint64_t drop_decided_vector(uint64_t m, uint64_t n, uint64_t o, uint64_t r)
{
    vector a = vector_of(m, n);
    uint64_t digest = 0;
    digest = taken_vector(digest, v128_and(a, i32x4_splat(0)));
    digest = taken_vector(digest, v128_or(a, i32x4_splat(~0u)));
    return digest;
}

uint64_t cancel_vector_complement(uint64_t m, uint64_t n, uint64_t o, uint64_t r)
{
    vector a = vector_of(m, n);
    uint64_t digest = 0;
    digest = taken_vector(digest, v128_andnot(a, a));
    digest = taken_vector(digest, v128_and(a, v128_not(a)));
    digest = taken_vector(digest, v128_or(a, v128_not(a)));
    return digest;
}

uint64_t distribute_vector_mask(uint64_t m, uint64_t n, uint64_t o, uint64_t r)
{
    vector a = vector_of(m, n);
    vector b = vector_of(o, r);
    vector c = vector_of(r, m);
    uint64_t digest = 0;
    digest = taken_vector(digest, v128_and(v128_or(a, b), c));
    return digest;
}

uint64_t gather_vector_mask(uint64_t m, uint64_t n, uint64_t o, uint64_t r)
{
    vector a = vector_of(m, n);
    vector b = vector_of(o, r);
    vector c = vector_of(r, m);
    uint64_t digest = 0;
    digest = taken_vector(digest, v128_or(v128_and(a, c), v128_and(b, c)));
    return digest;
}

uint64_t bits_to_vector_xor(uint64_t m, uint64_t n, uint64_t o, uint64_t r)
{
    vector a = vector_of(m, n);
    vector b = vector_of(o, r);
    uint64_t digest = 0;
    digest = taken_vector(digest, v128_or(v128_andnot(a, b), v128_andnot(b, a)));
    return digest;
}

// Operands in the order in which they run: C leaves that of a call's arguments open.
uint64_t calls(uint64_t m, uint64_t n, uint64_t o, uint64_t r)
{
    uint64_t digest = o ^ r;
    vector a, b, c, d;
    bits = m + n;
    a = next(), b = next(), digest = taken_vector(digest, v128_and(a, b));
    a = next(), b = next(), digest = taken_vector(digest, v128_or(a, b));
    a = next(), b = next(), digest = taken_vector(digest, v128_xor(a, b));
    a = next(), b = next(), digest = taken_vector(digest, v128_andnot(a, b));
    a = next(), b = next(), digest = taken_vector(digest, v128_andnot(a, b));
    a = next(), b = next(), c = next(), digest = taken_vector(digest, v128_bitselect(a, b, c));
    a = next(), b = next(), c = next(), digest = taken_vector(digest, v128_and(a, v128_or(b, c)));
    a = next(), b = next(), c = next(), d = next(), digest = taken_vector(digest, v128_or(v128_and(a, b), v128_and(c, d)));
    a = next(), b = next(), c = next(), d = next();
    digest = taken_vector(digest, v128_or(v128_andnot(a, b), v128_andnot(c, d)));
    a = next(), b = next(), digest = taken_vector(digest, i8x16_sub(a, b));
    a = next(), b = next(), c = next(), digest = taken_vector(digest, i16x8_mul(a, i16x8_mul(b, c)));
    a = next(), b = next(), c = next(), digest = taken_vector(digest, i32x4_add(i32x4_add(a, b), c));
    a = next(), b = next(), digest = taken_vector(digest, i64x2_sub(a, b));
    digest = taken_vector(digest, i64x2_neg(next()));
    a = next(), b = next(), digest = taken_vector(digest, i8x16_lt_s(a, b));
    a = next(), b = next(), digest = taken_vector(digest, i16x8_ge_u(a, b));
    a = next(), b = next(), digest = taken_vector(digest, i32x4_gt_u(a, b));
    a = next(), b = next(), digest = taken_vector(digest, i8x16_min_s(a, b));
    a = next(), b = next(), digest = taken_vector(digest, i16x8_max_u(a, b));
    a = next(), b = next(), c = next(), d = next(), digest = taken_vector(digest, v128_bitselect(a, b, i32x4_gt_s(c, d)));
    a = next(), b = next(), digest = taken_vector(digest, i32x4_replace_lane(a, b.i32x4[2], 2));
    digest = taken_vector(digest, f32x4_abs(next()));
    return taken(digest, bits);
}

uint64_t locals(uint64_t m, uint64_t n, uint64_t o, uint64_t r)
{
    uint64_t digest = 0;
    vector a = vector_of(m, n), b = vector_of(o, r);
    digest = taken_vector(digest, v128_andnot(a, b));
    a = i8x16_neg(b);
    digest = taken_vector(digest, vector_of(0, 0));
    b = v128_not(a);
    digest = taken_vector(digest, i16x8_sub(a, b));
    a = i32x4_abs(b);
    digest = taken_vector(digest, v128_xor(b, a));
    b = i32x4_neg(a);
    digest = taken_vector(digest, i32x4_gt_s(a, b));
    a = i64x2_add(b, b);
    digest = taken_vector(digest, a);
    digest = taken_vector(digest, a);
    a = vector_of(r, m);
    b = v128_not(a);
    digest = taken_vector(digest, i32x4_replace_lane(a, b.i32x4[3], 3));
    return taken_vector(digest, b);
}

uint64_t loads(uint64_t m, uint64_t n, uint64_t o, uint64_t r)
{
    uint64_t digest = 0;
    vector a = vector_of(m, n), b = vector_of(o, r);
    digest = taken_vector(digest, a);
    digest = taken_vector(digest, i8x16_add(a, b));
    digest = taken_vector(digest, i16x8_gt_s(a, b));
    digest = taken_vector(digest, vector_of(0, 0));
    a = v128_not(b);
    b = i8x16_neg(a);
    digest = taken_vector(digest, v128_xor(a, b));
    return taken_vector(digest, b);
}

uint64_t traps(uint64_t m, uint64_t n, uint64_t o, uint64_t r)
{
    uint64_t quotient = m / o;
    uint64_t other = n / r;
    vector a = vector_of(m, n);
    uint64_t digest = 0;
    (void)quotient;
    (void)other;
    digest = taken_vector(digest, vector_of(0, 0));
    digest = taken_vector(digest, a);
    digest = taken_vector(digest, a);
    return taken_vector(digest, vector_of(0, 0));
}
