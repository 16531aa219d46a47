// Sound: two tracks of 16 bits are mixed, gated and compared eight samples at a time, with saturation, and smoothed in plain loops;
// a wave of f32 goes through a filter of the second order, an echo and a limiter.
#include "simd128.h"

enum { COUNT = 96 };

static int16_t left[COUNT];
static int16_t right[COUNT];
static int16_t mixed[COUNT];
static float wave[COUNT];

static void record(uint32_t seed)
{
    for (int i = 0; i < COUNT; i++) {
        seed = next_of(seed);
        left[i] = (int16_t)(seed >> 16);
        right[i] = (int16_t)(seed >> 5);
    }
}

static uint32_t digest_of(const int16_t *samples)
{
    uint32_t hash = 2166136261u;
    for (int i = 0; i < COUNT; i++) {
        hash = (hash ^ (uint16_t)samples[i]) * 16777619u;
    }
    return hash;
}

// Mixes the tracks, each at its volume in 32768ths.
uint32_t EXPORTED(mix_tracks)(uint32_t seed, int32_t left_volume, int32_t right_volume)
{
    record(seed);
    v128_t left_part = wasm_i16x8_splat((int16_t)left_volume);
    v128_t right_part = wasm_i16x8_splat((int16_t)right_volume);
    for (int i = 0; i < COUNT; i += 8) {
        v128_t a = wasm_i16x8_q15mulr_sat(wasm_v128_load(left + i), left_part);
        v128_t b = wasm_i16x8_q15mulr_sat(wasm_v128_load(right + i), right_part);
        wasm_v128_store(mixed + i, wasm_i16x8_add_sat(a, b));
    }
    return digest_of(mixed);
}

// The middle of the tracks where they are far apart, and else silence.
uint32_t EXPORTED(gate)(uint32_t seed, int32_t apart)
{
    record(seed);
    v128_t bound = wasm_i16x8_splat((int16_t)apart);
    for (int i = 0; i < COUNT; i += 8) {
        v128_t a = wasm_v128_load(left + i);
        v128_t b = wasm_v128_load(right + i);
        v128_t open = wasm_i16x8_gt(wasm_i16x8_abs(wasm_i16x8_sub_sat(a, b)), bound);
        v128_t middle = wasm_i16x8_add(wasm_i16x8_shr(a, 1), wasm_i16x8_shr(b, 1));
        wasm_v128_store(mixed + i, wasm_v128_and(middle, open));
    }
    return digest_of(mixed);
}

// The loudest sample of both tracks, without its sign.
int32_t EXPORTED(peak)(uint32_t seed, int32_t count)
{
    record(seed);
    v128_t most = wasm_i16x8_splat(0);
    for (int i = 0; i + 8 <= count && i + 8 <= COUNT; i += 8) {
        v128_t a = wasm_i16x8_abs(wasm_v128_load(left + i));
        v128_t b = wasm_i16x8_abs(wasm_v128_load(right + i));
        most = wasm_u16x8_max(most, wasm_u16x8_max(a, b));
    }
    uint16_t lanes[8];
    wasm_v128_store(lanes, most);
    int32_t peak = 0;
    for (int i = 0; i < 8; i++) {
        peak = lanes[i] > peak ? lanes[i] : peak;
    }
    return peak;
}

uint32_t EXPORTED(smooth)(uint32_t seed)
{
    record(seed);
    mixed[0] = left[0];
    mixed[COUNT - 1] = left[COUNT - 1];
    for (int i = 1; i < COUNT - 1; i++) {
        mixed[i] = (int16_t)((left[i - 1] + 2 * left[i] + left[i + 1] + 2) >> 2);
    }
    return digest_of(mixed);
}

// How often the sign changes from one sample to the next.
uint32_t EXPORTED(crossings)(uint32_t seed)
{
    record(seed);
    uint32_t count = 0;
    for (int i = 1; i < COUNT; i++) {
        count += (left[i - 1] < 0) != (left[i] < 0);
    }
    return count;
}

// The left track as a wave from -1 to 1, behind a filter of the second order with these coefficients in 32768ths.
static void filter(uint32_t seed, int32_t feed, int32_t back)
{
    record(seed);
    float share = feed / 32768.0f;
    float return_share = back / 65536.0f;
    float before = 0;
    float further = 0;
    for (int i = 0; i < COUNT; i++) {
        float now = share * (left[i] / 32768.0f) + return_share * before - 0.25f * further;
        further = before;
        before = now;
        wave[i] = now;
    }
}

uint32_t EXPORTED(filtered)(uint32_t seed, int32_t feed, int32_t back, uint32_t at)
{
    filter(seed, feed, back);
    return bits_of_float(wave[at % COUNT]);
}

// The wave with an echo, limited and in 16 bits again.
uint32_t EXPORTED(echoes)(uint32_t seed, uint32_t delay)
{
    filter(seed, 24000, 9000);
    for (int i = (int)(delay % 32) + 1; i < COUNT; i++) {
        wave[i] -= 0.625f * wave[i - (int)(delay % 32) - 1];
    }
    for (int i = 0; i < COUNT; i++) {
        float sample = wave[i] * 40000.0f;
        sample = sample > 32767.0f ? 32767.0f : sample;
        mixed[i] = (int16_t)(sample < -32768.0f ? -32768.0f : sample);
    }
    return digest_of(mixed);
}

// The square root of the mean square.
uint64_t EXPORTED(loudness)(uint32_t seed, int32_t feed)
{
    filter(seed, feed, -20000);
    double sum = 0;
    for (int i = 0; i < COUNT; i++) {
        sum += (double)wave[i] * wave[i];
    }
    return bits_of_double(__builtin_sqrt(sum / COUNT));
}

uint64_t EXPORTED(all)(void)
{
    uint64_t digest = 0;
    for (uint32_t i = 0; i < 12; i++) {
        digest = taken(digest, mix_tracks(i, (int32_t)(i << 13), 30000));
        digest = taken(digest, gate(i * i, (int32_t)(i << 11)));
        digest = taken(digest, (uint32_t)peak(i, (int32_t)(8 * i)));
        digest = taken(digest, smooth(~i));
        digest = taken(digest, crossings(i + 5));
        digest = taken(digest, filtered(i, (int32_t)(3000 * i), 16384, 7 * i));
        digest = taken(digest, echoes(i, 3 * i));
        digest = taken(digest, loudness(i, 32767 - (int32_t)i));
    }
    return digest;
}
