// Sums over numbers in memory: of products, from the front, of what is selected; and the least and the greatest, with where they
// are. Some go through vectors, of i16, i32, f32 and f64, and others are loops as they are usually written.
#include "simd128.h"

enum { COUNT = 64 };

static int16_t shorts[COUNT];
static int32_t words[COUNT];
static float floats[COUNT];
static double doubles[COUNT];

// Numbers of each width, by one generator; those with a part behind the point have some bits of it.
static void draw(uint32_t seed)
{
    for (int i = 0; i < COUNT; i++) {
        seed = next_of(seed);
        shorts[i] = (int16_t)(seed >> 16);
        words[i] = (int32_t)seed;
        floats[i] = (int32_t)seed / 65536.0f;
        doubles[i] = (int32_t)seed / 4096.0;
    }
}

// The products of neighbours, and of what is as far from either end.
int32_t EXPORTED(products)(uint32_t seed)
{
    draw(seed);
    v128_t sums = wasm_i32x4_splat(0);
    for (int i = 0; i < COUNT - 8; i += 8) {
        sums = wasm_i32x4_add(sums, wasm_i32x4_dot_i16x8(wasm_v128_load(shorts + i), wasm_v128_load(shorts + i + 1)));
    }
    int32_t lanes[4];
    wasm_v128_store(lanes, sums);
    uint32_t sum = (uint32_t)lanes[0] + (uint32_t)lanes[1] + (uint32_t)lanes[2] + (uint32_t)lanes[3];
    for (int i = 0; i < COUNT; i++) {
        sum += (uint32_t)(shorts[i] * shorts[COUNT - 1 - i]);
    }
    return (int32_t)sum;
}

// The sum of all up to this one, for each of them, of which one is given.
int32_t EXPORTED(sum_to)(uint32_t seed, uint32_t at)
{
    draw(seed);
    v128_t zeros = wasm_i32x4_splat(0);
    v128_t before = zeros;
    for (int i = 0; i < COUNT; i += 4) {
        v128_t sums = wasm_v128_load(words + i);
        sums = wasm_i32x4_add(sums, wasm_i32x4_shuffle(zeros, sums, 0, 4, 5, 6));
        sums = wasm_i32x4_add(sums, wasm_i32x4_shuffle(zeros, sums, 0, 0, 4, 5));
        sums = wasm_i32x4_add(sums, before);
        wasm_v128_store(words + i, sums);
        before = wasm_i32x4_splat(wasm_i32x4_extract_lane(sums, 3));
    }
    return words[at % COUNT];
}

// The dot product of the numbers with themselves, each with the sign of its neighbour.
uint32_t EXPORTED(dot)(uint32_t seed)
{
    draw(seed);
    v128_t sums = wasm_f32x4_splat(0);
    v128_t signs = wasm_i32x4_splat(INT32_MIN);
    for (int i = 0; i < COUNT - 4; i += 4) {
        v128_t a = wasm_v128_load(floats + i);
        v128_t b = wasm_v128_bitselect(wasm_v128_load(floats + i + 1), a, signs);
        sums = wasm_f32x4_add(sums, wasm_f32x4_mul(a, b));
    }
    v128_t pairs = wasm_f32x4_add(sums, wasm_i64x2_shuffle(sums, sums, 1, 0));
    return bits_of_float(wasm_f32x4_extract_lane(pairs, 0) + wasm_f32x4_extract_lane(pairs, 1));
}

// The least and the greatest, and how far apart they are.
uint32_t EXPORTED(range)(uint32_t seed)
{
    draw(seed);
    v128_t least = wasm_v128_load(floats);
    v128_t greatest = least;
    for (int i = 4; i < COUNT; i += 4) {
        v128_t numbers = wasm_v128_load(floats + i);
        least = wasm_f32x4_min(least, numbers);
        greatest = wasm_f32x4_max(greatest, numbers);
    }
    least = wasm_f32x4_pmin(least, wasm_i64x2_shuffle(least, least, 1, 0));
    greatest = wasm_f32x4_pmax(greatest, wasm_i64x2_shuffle(greatest, greatest, 1, 0));
    v128_t apart = wasm_f32x4_sub(greatest, wasm_i32x4_shuffle(least, least, 1, 0, 1, 0));
    return bits_of_float(wasm_f32x4_extract_lane(apart, 0) + wasm_f32x4_extract_lane(apart, 1));
}

// Where the least is.
uint32_t EXPORTED(place_of_least)(uint32_t seed, uint32_t count)
{
    draw(seed);
    uint32_t place = 0;
    for (uint32_t i = 1; i < count && i < COUNT; i++) {
        if (doubles[i] < doubles[place]) {
            place = i;
        }
    }
    return place;
}

// The sum of those between two bounds, where those below count as the lower one, and those above not at all.
uint64_t EXPORTED(sum_between)(uint32_t seed, int32_t low, int32_t high)
{
    draw(seed);
    v128_t lower = wasm_f64x2_splat(low);
    v128_t upper = wasm_f64x2_splat(high);
    v128_t sums = wasm_f64x2_splat(0);
    for (int i = 0; i < COUNT; i += 2) {
        v128_t numbers = wasm_v128_load(doubles + i);
        numbers = wasm_v128_bitselect(lower, numbers, wasm_f64x2_lt(numbers, lower));
        sums = wasm_f64x2_add(sums, wasm_v128_andnot(numbers, wasm_f64x2_gt(numbers, upper)));
    }
    return bits_of_double(wasm_f64x2_extract_lane(sums, 0) + wasm_f64x2_extract_lane(sums, 1));
}

// How many are below the ones behind them, of whole numbers, in vectors; and of floats, one by one, how many aren't above them.
uint32_t EXPORTED(rises)(uint32_t seed)
{
    draw(seed);
    v128_t counts = wasm_i32x4_splat(0);
    for (int i = 0; i < COUNT - 4; i += 4) {
        counts = wasm_i32x4_sub(counts, wasm_i32x4_lt(wasm_v128_load(words + i), wasm_v128_load(words + i + 1)));
    }
    uint32_t count = 0;
    for (int i = 0; i + 1 < COUNT; i++) {
        count += floats[i] <= floats[i + 1];
    }
    counts = wasm_i32x4_add(counts, wasm_i64x2_shuffle(counts, counts, 1, 0));
    return count << 16 | (uint32_t)(wasm_i32x4_extract_lane(counts, 0) + wasm_i32x4_extract_lane(counts, 1));
}

// The sum of the greater of each two neighbours, without those that are odd.
uint64_t EXPORTED(even_sum)(uint32_t seed, uint32_t count)
{
    draw(seed);
    uint64_t sum = 0;
    for (uint32_t i = 0; i < count && i < COUNT - 1; i++) {
        int32_t greater = words[i] > words[i + 1] ? words[i] : words[i + 1];
        sum += (greater & 1) == 0 ? (uint64_t)greater : 0;
    }
    return sum;
}

uint64_t EXPORTED(all)(void)
{
    uint64_t digest = 0;
    for (uint32_t i = 0; i < 16; i++) {
        digest = taken(digest, (uint32_t)products(i));
        digest = taken(digest, (uint32_t)sum_to(i, 4 * i + 1));
        digest = taken(digest, dot(i * i));
        digest = taken(digest, range(i << 9));
        digest = taken(digest, place_of_least(i, 4 * i));
        digest = taken(digest, sum_between(i, -(int32_t)(i << 12), (int32_t)(i << 13)));
        digest = taken(digest, rises(~i));
        digest = taken(digest, even_sum(i, 5 * i));
    }
    return digest;
}
