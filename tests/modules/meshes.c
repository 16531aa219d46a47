// Meshes: corners of f32 and triangles of their indices. Boxes about them, areas and normals, corners in the order of their depth,
// rays against boxes, and corners rounded to a grid each way that there is.
#include "simd128.h"

enum { CORNERS = 24, TRIANGLES = 16 };

typedef struct {
    float x, y, z, depth;
} corner;

typedef struct {
    uint16_t corners[3];
    int8_t material;
    uint8_t hidden;
} triangle;

static corner corners[CORNERS];
static triangle triangles[TRIANGLES];
static uint16_t order[CORNERS];

// A number from -128 to 128, in 1/65536ths.
static float drawn(uint32_t *seed)
{
    *seed = next_of(*seed);
    return (int32_t)(*seed >> 8 ^ 0x800000u) / 65536.0f - 128.0f;
}

static void build(uint32_t seed)
{
    for (int i = 0; i < CORNERS; i++) {
        corners[i].x = drawn(&seed);
        corners[i].y = drawn(&seed);
        corners[i].z = drawn(&seed);
        corners[i].depth = 1;
    }
    for (int i = 0; i < TRIANGLES; i++) {
        for (int j = 0; j < 3; j++) {
            seed = next_of(seed);
            triangles[i].corners[j] = (uint16_t)((seed >> 16) % CORNERS);
        }
        triangles[i].material = (int8_t)(seed >> 24);
        triangles[i].hidden = (uint8_t)(seed >> 15 & 1);
    }
}

static v128_t lowest(void)
{
    v128_t low = wasm_v128_load(corners);
    for (int i = 1; i < CORNERS; i++) {
        low = wasm_f32x4_min(low, wasm_v128_load(corners + i));
    }
    return low;
}

static v128_t highest(void)
{
    v128_t high = wasm_v128_load(corners);
    for (int i = 1; i < CORNERS; i++) {
        high = wasm_f32x4_max(high, wasm_v128_load(corners + i));
    }
    return high;
}

// An edge of the box about all corners.
uint32_t EXPORTED(box_edge)(uint32_t seed, uint32_t axis)
{
    build(seed);
    float edges[4];
    wasm_v128_store(edges, wasm_f32x4_sub(highest(), lowest()));
    return bits_of_float(edges[axis % 3]);
}

// The normal of a triangle, of length 1; of one without an area, nothing.
static corner normal_of(const triangle *t)
{
    const corner *a = corners + t->corners[0];
    const corner *b = corners + t->corners[1];
    const corner *c = corners + t->corners[2];
    float ux = b->x - a->x, uy = b->y - a->y, uz = b->z - a->z;
    float vx = c->x - a->x, vy = c->y - a->y, vz = c->z - a->z;
    corner n = { uy * vz - uz * vy, uz * vx - ux * vz, ux * vy - uy * vx, 0 };
    n.depth = __builtin_sqrtf(n.x * n.x + n.y * n.y + n.z * n.z);
    if (n.depth > 0) {
        n.x /= n.depth;
        n.y /= n.depth;
        n.z /= n.depth;
    }
    return n;
}

uint32_t EXPORTED(normal)(uint32_t seed, uint32_t which, uint32_t axis)
{
    build(seed);
    corner n = normal_of(triangles + which % TRIANGLES);
    float parts[3] = { n.x, n.y, n.z };
    return bits_of_float(parts[axis % 3]);
}

// The area of all that face this way and aren't hidden, those of a negative material twice.
uint64_t EXPORTED(area_facing)(uint32_t seed, int32_t x, int32_t y, int32_t z)
{
    build(seed);
    double area = 0;
    for (const triangle *t = triangles; t < triangles + TRIANGLES; t++) {
        corner n = normal_of(t);
        float facing = n.x * (float)x + n.y * (float)y + n.z * (float)z;
        if (facing > 0 && !t->hidden) {
            area += t->material < 0 ? (double)n.depth : (double)n.depth / 2;
        }
    }
    return bits_of_double(area);
}

// The corner with this place in the order of their depths, from the far ones on.
uint32_t EXPORTED(corner_in_order)(uint32_t seed, uint32_t place)
{
    build(seed);
    for (uint16_t i = 0; i < CORNERS; i++) {
        int j = i;
        while (j > 0 && corners[order[j - 1]].z < corners[i].z) {
            order[j] = order[j - 1];
            j--;
        }
        order[j] = i;
    }
    return order[place % CORNERS];
}

// Rounds all corners to a grid, up, down, to the nearest or towards zero; a sum of the parts, which are whole numbers then.
int32_t EXPORTED(rounded)(uint32_t seed, int32_t cell, uint32_t way)
{
    build(seed);
    v128_t size = wasm_f32x4_splat((float)(cell | 1));
    v128_t sums = wasm_i32x4_splat(0);
    for (int i = 0; i < CORNERS; i++) {
        v128_t cells = wasm_f32x4_div(wasm_v128_load(corners + i), size);
        switch (way & 3) {
        case 0: cells = wasm_f32x4_ceil(cells); break;
        case 1: cells = wasm_f32x4_floor(cells); break;
        case 2: cells = wasm_f32x4_nearest(cells); break;
        default: cells = wasm_f32x4_trunc(cells); break;
        }
        sums = wasm_i32x4_add(wasm_i32x4_shl(sums, 1), wasm_i32x4_trunc_sat_f32x4(wasm_f32x4_mul(cells, size)));
    }
    return wasm_i32x4_extract_lane(sums, 0) ^ wasm_i32x4_extract_lane(sums, 1) ^ wasm_i32x4_extract_lane(sums, 2);
}

// How far a corner is from the grid at most, within bounds.
uint32_t EXPORTED(off_grid)(uint32_t seed, int32_t bound)
{
    build(seed);
    float most = 0;
    for (const corner *c = corners; c < corners + CORNERS; c++) {
        float x = __builtin_fabsf(c->x - __builtin_rintf(c->x));
        float y = c->y - __builtin_floorf(c->y);
        float z = __builtin_ceilf(c->z) - c->z;
        most = greater_float(most, greater_float(x, y) + z - __builtin_truncf(c->z) / 128);
    }
    return bits_of_float(lesser_float(most, (float)bound / 1024));
}

// Whether a ray from the middle meets the box about all corners of a triangle, by its slabs.
uint32_t EXPORTED(is_hit)(uint32_t seed, uint32_t which, int32_t x, int32_t y)
{
    build(seed);
    const triangle *t = triangles + which % TRIANGLES;
    v128_t a = wasm_v128_load(corners + t->corners[0]);
    v128_t b = wasm_v128_load(corners + t->corners[1]);
    v128_t c = wasm_v128_load(corners + t->corners[2]);
    v128_t low = wasm_f32x4_min(a, wasm_f32x4_min(b, c));
    v128_t high = wasm_f32x4_max(a, wasm_f32x4_max(b, c));
    v128_t ray = wasm_f32x4_make((float)(x | 1), (float)(y | 1), 3, 1);
    v128_t first = wasm_f32x4_div(low, ray);
    v128_t second = wasm_f32x4_div(high, ray);
    v128_t entry = wasm_f32x4_min(first, second);
    v128_t leaving = wasm_f32x4_max(first, second);
    entry = wasm_f32x4_max(entry, wasm_i32x4_shuffle(entry, entry, 1, 2, 0, 3));
    leaving = wasm_f32x4_min(leaving, wasm_i32x4_shuffle(leaving, leaving, 1, 2, 0, 3));
    v128_t crossed = wasm_f32x4_le(entry, wasm_i32x4_shuffle(leaving, leaving, 1, 2, 0, 3));
    return (uint32_t)wasm_i32x4_bitmask(crossed) & 7;
}

uint64_t EXPORTED(all)(void)
{
    uint64_t digest = 0;
    for (uint32_t i = 0; i < 12; i++) {
        digest = taken(digest, box_edge(i, i));
        digest = taken(digest, normal(i, i, i + 1));
        digest = taken(digest, area_facing(i, (int32_t)i - 4, 3, -(int32_t)i));
        digest = taken(digest, corner_in_order(i * i, 2 * i));
        digest = taken(digest, (uint32_t)rounded(i, (int32_t)i, i));
        digest = taken(digest, off_grid(~i, (int32_t)(400 * i)));
        digest = taken(digest, is_hit(i, i + 2, (int32_t)i, -(int32_t)i));
    }
    return digest;
}
