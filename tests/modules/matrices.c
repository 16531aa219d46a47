// Matrices: of four by four in f32, by rows in vectors and a transpose by shuffles; of a drawn size in f64, by loops, with
// elimination; and powers of whole numbers modulo 2^32 in vectors of C's own.
#include "simd128.h"

enum { SIDE = 6 };

typedef struct {
    float rows[4][4];
} matrix;

typedef uint32_t u32x4 __attribute__((vector_size(16)));

static double grid[SIDE][SIDE];
static double other[SIDE][SIDE];
static double product[SIDE][SIDE];

// Entries from -1/4 to 1/4.
static matrix drawn_matrix(uint32_t seed)
{
    matrix a;
    for (int i = 0; i < 16; i++) {
        seed = next_of(seed);
        a.rows[i / 4][i % 4] = (int8_t)(seed >> 24) / 512.0f;
    }
    return a;
}

static void multiply(matrix *result, const matrix *a, const matrix *b)
{
    for (int i = 0; i < 4; i++) {
        v128_t row = wasm_f32x4_mul(wasm_v128_load32_splat(&a->rows[i][0]), wasm_v128_load(b->rows[0]));
        row = wasm_f32x4_add(row, wasm_f32x4_mul(wasm_v128_load32_splat(&a->rows[i][1]), wasm_v128_load(b->rows[1])));
        row = wasm_f32x4_add(row, wasm_f32x4_mul(wasm_v128_load32_splat(&a->rows[i][2]), wasm_v128_load(b->rows[2])));
        row = wasm_f32x4_add(row, wasm_f32x4_mul(wasm_v128_load32_splat(&a->rows[i][3]), wasm_v128_load(b->rows[3])));
        wasm_v128_store(result->rows[i], row);
    }
}

static void transpose(matrix *a)
{
    v128_t first = wasm_v128_load(a->rows[0]);
    v128_t second = wasm_v128_load(a->rows[1]);
    v128_t third = wasm_v128_load(a->rows[2]);
    v128_t fourth = wasm_v128_load(a->rows[3]);
    v128_t upper_left = wasm_i32x4_shuffle(first, second, 0, 4, 1, 5);
    v128_t upper_right = wasm_i32x4_shuffle(first, second, 2, 6, 3, 7);
    v128_t lower_left = wasm_i32x4_shuffle(third, fourth, 0, 4, 1, 5);
    v128_t lower_right = wasm_i32x4_shuffle(third, fourth, 2, 6, 3, 7);
    wasm_v128_store(a->rows[0], wasm_i64x2_shuffle(upper_left, lower_left, 0, 2));
    wasm_v128_store(a->rows[1], wasm_i64x2_shuffle(upper_left, lower_left, 1, 3));
    wasm_v128_store(a->rows[2], wasm_i64x2_shuffle(upper_right, lower_right, 0, 2));
    wasm_v128_store(a->rows[3], wasm_i64x2_shuffle(upper_right, lower_right, 1, 3));
}

// An entry of the product of a matrix and the transpose of another.
uint32_t EXPORTED(product_entry)(uint32_t seed, uint32_t row, uint32_t column)
{
    matrix a = drawn_matrix(seed);
    matrix b = drawn_matrix(~seed);
    matrix result;
    transpose(&b);
    multiply(&result, &a, &b);
    return bits_of_float(result.rows[row & 3][column & 3]);
}

// What a matrix, by its columns, and the way through the middle make of a point, again and again.
uint32_t EXPORTED(moved_point)(uint32_t seed, uint32_t times)
{
    matrix a = drawn_matrix(seed);
    v128_t point = wasm_f32x4_make(100, -200, 300, 1);
    for (uint32_t i = 0; i < (times & 15); i++) {
        v128_t x = wasm_f32x4_mul(wasm_v128_load(a.rows[0]), wasm_i32x4_shuffle(point, point, 0, 0, 0, 0));
        v128_t y = wasm_f32x4_mul(wasm_v128_load(a.rows[1]), wasm_i32x4_shuffle(point, point, 1, 1, 1, 1));
        v128_t z = wasm_f32x4_mul(wasm_v128_load(a.rows[2]), wasm_i32x4_shuffle(point, point, 2, 2, 2, 2));
        v128_t moved = wasm_f32x4_add(wasm_f32x4_add(x, y), wasm_f32x4_add(z, wasm_v128_load(a.rows[3])));
        point = wasm_f32x4_neg(wasm_f32x4_sub(moved, point));
    }
    return bits_of_float(wasm_f32x4_extract_lane(point, 0)) ^ bits_of_float(wasm_f32x4_extract_lane(point, 2));
}

static void draw_grids(uint32_t seed)
{
    for (int i = 0; i < SIDE * SIDE; i++) {
        seed = next_of(seed);
        grid[i / SIDE][i % SIDE] = (int32_t)seed / 16777216.0;
        other[i / SIDE][i % SIDE] = (int16_t)(seed >> 12) / 1024.0;
    }
}

// The trace of the product of two of this size.
uint64_t EXPORTED(product_trace)(uint32_t seed, uint32_t size)
{
    draw_grids(seed);
    int side = (int)(size % SIDE) + 1;
    double trace = 0;
    for (int i = 0; i < side; i++) {
        for (int j = 0; j < side; j++) {
            product[i][j] = 0;
        }
        for (int k = 0; k < side; k++) {
            for (int j = 0; j < side; j++) {
                product[i][j] += grid[i][k] * other[k][j];
            }
        }
        trace += product[i][i];
    }
    return bits_of_double(trace);
}

// The determinant, by elimination below the greatest entry of each column.
uint64_t EXPORTED(determinant)(uint32_t seed)
{
    draw_grids(seed);
    double result = 1;
    for (int i = 0; i < SIDE; i++) {
        int greatest = i;
        for (int j = i + 1; j < SIDE; j++) {
            if (__builtin_fabs(grid[j][i]) > __builtin_fabs(grid[greatest][i])) {
                greatest = j;
            }
        }
        double pivot = grid[greatest][i];
        if (pivot == 0) {
            return 0;
        }
        for (int k = 0; k < SIDE; k++) {
            double entry = grid[i][k];
            grid[i][k] = grid[greatest][k];
            grid[greatest][k] = entry;
        }
        for (int j = i + 1; j < SIDE; j++) {
            double share = grid[j][i] / pivot;
            for (int k = i; k < SIDE; k++) {
                grid[j][k] -= share * grid[i][k];
            }
        }
        result *= greatest == i ? pivot : -pivot;
    }
    return bits_of_double(result);
}

// The first number behind so many steps, in which each of four is a sum of the others' multiples.
uint32_t EXPORTED(recurrence)(uint32_t seed, uint32_t steps)
{
    u32x4 row = { seed, seed >> 8, seed ^ 77, 1 };
    u32x4 factors = { 3, 1, 0xffffffffu, 2 };
    for (uint32_t i = 0; i < (steps & 255); i++) {
        u32x4 turned = { row[1], row[2], row[3], row[0] };
        row = row * factors - (turned ^ (row >> 3));
    }
    return row[0] + row[2];
}

uint64_t EXPORTED(all)(void)
{
    uint64_t digest = 0;
    for (uint32_t i = 0; i < 16; i++) {
        digest = taken(digest, product_entry(i, i, i >> 2));
        digest = taken(digest, moved_point(i * 31, i));
        digest = taken(digest, product_trace(~i, i));
        digest = taken(digest, determinant(i + 9));
        digest = taken(digest, recurrence(i << 20, 5 * i));
    }
    return digest;
}
