// Pictures of pixels in four bytes, red, green, blue and opacity: blended, brightened, averaged and compared sixteen bytes at a
// time, and packed into 16 bits, made gray, scaled down and drawn on in plain loops.
#include "simd128.h"

enum { WIDTH = 16, HEIGHT = 6, BYTES = 4 * WIDTH * HEIGHT };

static uint8_t picture[BYTES];
static uint8_t overlay[BYTES];
static uint16_t packed[WIDTH * HEIGHT];

static void draw(uint32_t seed)
{
    for (int i = 0; i < BYTES; i++) {
        seed = next_of(seed);
        picture[i] = (uint8_t)(seed >> 24);
        overlay[i] = (uint8_t)(seed >> 11);
    }
}

static uint32_t digest_of(const uint8_t *bytes)
{
    uint32_t hash = 2166136261u;
    for (int i = 0; i < BYTES; i++) {
        hash = (hash ^ bytes[i]) * 16777619u;
    }
    return hash;
}

// Eight sums of 16 bits by 255, rounded.
static v128_t by_255(v128_t sums)
{
    v128_t rounded = wasm_i16x8_add(sums, wasm_i16x8_splat(128));
    return wasm_u16x8_shr(wasm_i16x8_add(rounded, wasm_u16x8_shr(rounded, 8)), 8);
}

// Lays the overlay over the picture, with one opacity for all of it.
uint32_t EXPORTED(blend)(uint32_t seed, uint32_t opacity)
{
    draw(seed);
    v128_t over = wasm_i8x16_splat((int8_t)opacity);
    v128_t under = wasm_v128_not(over);
    for (int i = 0; i < BYTES; i += 16) {
        v128_t a = wasm_v128_load(overlay + i);
        v128_t b = wasm_v128_load(picture + i);
        v128_t low = wasm_i16x8_add(wasm_u16x8_extmul_low_u8x16(a, over), wasm_u16x8_extmul_low_u8x16(b, under));
        v128_t high = wasm_i16x8_add(wasm_u16x8_extmul_high_u8x16(a, over), wasm_u16x8_extmul_high_u8x16(b, under));
        wasm_v128_store(picture + i, wasm_u8x16_narrow_i16x8(by_255(low), by_255(high)));
    }
    return digest_of(picture);
}

// Brighter, or darker where the number is negative, and black or white at the ends.
uint32_t EXPORTED(brighten)(uint32_t seed, int32_t by)
{
    draw(seed);
    v128_t more = wasm_i8x16_splat((int8_t)(by < 0 ? 0 : by));
    v128_t less = wasm_i8x16_splat((int8_t)(by < 0 ? 0 - (uint32_t)by : 0));
    for (int i = 0; i < BYTES; i += 16) {
        wasm_v128_store(picture + i, wasm_u8x16_sub_sat(wasm_u8x16_add_sat(wasm_v128_load(picture + i), more), less));
    }
    return digest_of(picture);
}

// The mean of both, with red and blue exchanged, where that is the brighter one.
uint32_t EXPORTED(average)(uint32_t seed)
{
    draw(seed);
    v128_t places = wasm_i8x16_make(2, 1, 0, 3, 6, 5, 4, 7, 10, 9, 8, 11, 14, 13, 12, 15);
    for (int i = 0; i < BYTES; i += 16) {
        v128_t under = wasm_v128_load(picture + i);
        v128_t mean = wasm_u8x16_avgr(under, wasm_v128_load(overlay + i));
        wasm_v128_store(picture + i, wasm_u8x16_max(under, wasm_i8x16_swizzle(mean, places)));
    }
    return digest_of(picture);
}

// How many bytes of the picture are at least this bright, and brighter than those of the overlay.
uint32_t EXPORTED(brighter)(uint32_t seed, uint32_t least)
{
    draw(seed);
    v128_t bound = wasm_i8x16_splat((int8_t)least);
    uint32_t count = 0;
    for (int i = 0; i < BYTES; i += 16) {
        v128_t bytes = wasm_v128_load(picture + i);
        v128_t bright = wasm_v128_and(wasm_u8x16_ge(bytes, bound), wasm_u8x16_gt(bytes, wasm_v128_load(overlay + i)));
        count += (uint32_t)__builtin_popcount(wasm_i8x16_bitmask(bright));
    }
    return count;
}

// Five bits of red, six of green and five of blue in one number.
uint32_t EXPORTED(pack)(uint32_t seed, uint32_t at)
{
    draw(seed);
    uint32_t sum = 0;
    for (int i = 0; i < WIDTH * HEIGHT; i++) {
        const uint8_t *pixel = picture + 4 * i;
        packed[i] = (uint16_t)((pixel[0] >> 3 << 11) | (pixel[1] >> 2 << 5) | pixel[2] >> 3);
        sum += packed[i];
    }
    return sum << 8 ^ packed[at % (WIDTH * HEIGHT)];
}

// Gray by the weights of the colours, in the place of each of them.
uint32_t EXPORTED(gray)(uint32_t seed)
{
    draw(seed);
    for (uint8_t *pixel = picture; pixel < picture + BYTES; pixel += 4) {
        uint8_t gray = (uint8_t)((77 * pixel[0] + 150 * pixel[1] + 29 * pixel[2]) >> 8);
        pixel[0] = gray;
        pixel[1] = gray;
        pixel[2] = gray;
    }
    return digest_of(picture);
}

// The pixel at this place in a picture of half the size, the mean of four, as one number.
uint32_t EXPORTED(half_size)(uint32_t seed, uint32_t across, uint32_t down)
{
    draw(seed);
    const uint8_t *upper = picture + 8 * (across % (WIDTH / 2)) + 8 * WIDTH * (down % (HEIGHT / 2));
    v128_t sums = wasm_i16x8_add(wasm_u16x8_load8x8(upper), wasm_u16x8_load8x8(upper + 4 * WIDTH));
    sums = wasm_i16x8_add(sums, wasm_i64x2_shuffle(sums, sums, 1, 0));
    sums = wasm_u16x8_shr(wasm_i16x8_add(sums, wasm_i16x8_splat(2)), 2);
    return (uint32_t)wasm_i32x4_extract_lane(wasm_u8x16_narrow_i16x8(sums, sums), 0);
}

// Draws a line by whole steps in a drawn colour.
uint32_t EXPORTED(line)(uint32_t seed, int32_t rise)
{
    draw(seed);
    int32_t height = 0;
    for (int x = 0; x < WIDTH; x++) {
        uint8_t *place = picture + 4 * (height / 256 % HEIGHT * WIDTH + x);
        uint32_t pixel;
        __builtin_memcpy(&pixel, place, sizeof pixel);
        pixel ^= seed | 0xff000000u;
        __builtin_memcpy(place, &pixel, sizeof pixel);
        height += rise & 255;
    }
    return digest_of(picture);
}

uint64_t EXPORTED(all)(void)
{
    uint64_t digest = 0;
    for (uint32_t i = 0; i < 8; i++) {
        digest = taken(digest, blend(i, 30 * i));
        digest = taken(digest, brighten(i, 40 * (int32_t)i - 120));
        digest = taken(digest, average(i * 77));
        digest = taken(digest, brighter(i, 36 * i));
        digest = taken(digest, pack(~i, i));
        digest = taken(digest, gray(i + 3));
        digest = taken(digest, half_size(i, i, i >> 1));
        digest = taken(digest, line(i, 31 * (int32_t)i));
    }
    return digest;
}
