// Shapes of the plane: a list of them in memory, with coordinates in f32, and sums in f64. Each kind's functions are called by way
// of a table. How many shapes there are, and the sum of their weights, are globals of the module, which have no place in memory.
#include "module.h"

// Volatile, since clang 14 reads parts of another global as if it had bytes; and it writes no constant of f64 to one.
#ifdef __wasm__
#define GLOBAL __attribute__((address_space(1))) static volatile
#else
#define GLOBAL static
#endif

enum { LIMIT = 16 };

struct shape {
    uint32_t kind;
    float left;
    float bottom;
    float width;
    float height;
};

typedef double measure(const struct shape *shape);
typedef int test(const struct shape *shape, float x, float y);

GLOBAL int64_t placed_count;
GLOBAL double weights;

static struct shape shapes[LIMIT];
static uint8_t order[LIMIT];

static double root(double number)
{
    return __builtin_sqrt(number);
}

static double box_area(const struct shape *shape)
{
    return (double)shape->width * shape->height;
}

static double triangle_area(const struct shape *shape)
{
    return box_area(shape) / 2;
}

static double ellipse_area(const struct shape *shape)
{
    return box_area(shape) * 0.78539816339744830962;
}

static double box_edge(const struct shape *shape)
{
    return 2 * ((double)shape->width + shape->height);
}

static double triangle_edge(const struct shape *shape)
{
    double across = shape->width;
    double up = shape->height;
    return across + up + root(across * across + up * up);
}

// The edge of an ellipse (Ramanujan).
static double ellipse_edge(const struct shape *shape)
{
    double a = shape->width / 2.0;
    double b = shape->height / 2.0;
    return 3.14159265358979323846 * (3 * (a + b) - root((3 * a + b) * (a + 3 * b)));
}

static int in_box(const struct shape *shape, float x, float y)
{
    float across = x - shape->left;
    float up = y - shape->bottom;
    return across >= 0 && across <= shape->width && up >= 0 && up <= shape->height;
}

static int in_triangle(const struct shape *shape, float x, float y)
{
    float across = (x - shape->left) * shape->height;
    float up = (y - shape->bottom) * shape->width;
    return in_box(shape, x, y) && across + up <= shape->width * shape->height;
}

static int in_ellipse(const struct shape *shape, float x, float y)
{
    float across = 2 * (x - shape->left) / shape->width - 1;
    float up = 2 * (y - shape->bottom) / shape->height - 1;
    return across * across + up * up <= 1;
}

static measure *const areas[] = {box_area, triangle_area, ellipse_area};
static measure *const edges[] = {box_edge, triangle_edge, ellipse_edge};
static test *const tests[] = {in_box, in_triangle, in_ellipse};

// A number of hundredths, which traps where there is none of 32 bits.
static int32_t hundredths(double number)
{
    number *= 100;
#ifdef __wasm__
    return __builtin_wasm_trunc_s_i32_f64(number);
#else
    if (!(number > -2147483649.0 && number < 2147483648.0)) {
        __builtin_trap();
    }
    return (int32_t)number;
#endif
}

static const struct shape *shape_of(uint32_t number)
{
    if ((int64_t)number >= placed_count) {
        __builtin_trap();
    }
    return &shapes[number];
}

// Forgets the shapes.
uint32_t EXPORTED(cleared)(void)
{
    uint32_t count = (uint32_t)placed_count;
    placed_count = 0;
    weights -= weights;
    for (uint32_t i = 0; i < LIMIT; i++) {
        order[i] = 0;
    }
    return count;
}

// Puts a shape among the others, and gives its number; lengths are in halves.
uint32_t EXPORTED(placed)(uint32_t kind, int32_t left, int32_t bottom, uint32_t width, uint32_t height)
{
    uint32_t number = (uint32_t)placed_count % LIMIT;
    struct shape *shape = &shapes[number];
    shape->kind = kind % 3;
    shape->left = (float)left / 2;
    shape->bottom = (float)bottom / 2;
    shape->width = (float)width * 0.5f;
    shape->height = (float)height * 0.5f;
    order[number] = (uint8_t)number;
    if (placed_count < LIMIT) {
        placed_count++;
    }
    weights += box_area(shape) / (number + 1);
    return number;
}

int32_t EXPORTED(area)(uint32_t number)
{
    const struct shape *shape = shape_of(number);
    return hundredths(areas[shape->kind](shape));
}

int32_t EXPORTED(edge)(uint32_t number)
{
    const struct shape *shape = shape_of(number);
    return hundredths(edges[shape->kind](shape));
}

// How much larger the area would be, were the shape of another kind.
int32_t EXPORTED(area_as)(uint32_t number, uint32_t kind)
{
    const struct shape *shape = shape_of(number);
    return hundredths(areas[kind % 3](shape) - areas[shape->kind](shape));
}

// A bit for each shape that covers a point.
uint32_t EXPORTED(covering)(int32_t x, int32_t y)
{
    uint32_t covering = 0;
    for (uint32_t i = 0; (int64_t)i < placed_count; i++) {
        const struct shape *shape = &shapes[i];
        covering |= (uint32_t)tests[shape->kind](shape, (float)x / 4, (float)y / 4) << i;
    }
    return covering;
}

static double total_of(measure *const *measures)
{
    double total = 0;
    for (uint32_t i = 0; (int64_t)i < placed_count; i++) {
        total += measures[shapes[i].kind](&shapes[i]);
    }
    return total;
}

// The mean length of the edges, or else the mean area, in hundredths; it traps where there is no shape.
int32_t EXPORTED(mean)(uint32_t which)
{
    return hundredths(total_of((which & 1) != 0 ? edges : areas) / (double)placed_count);
}

// Moves a shape, turns it over and stretches it by a percentage, and gives the bits of the sum of its coordinates.
uint32_t EXPORTED(moved)(uint32_t number, int32_t across, int32_t up, uint32_t percentage)
{
    shape_of(number);
    struct shape *shape = &shapes[number];
    shape->left += (float)across;
    shape->bottom = -(shape->bottom + (float)up);
    shape->width *= (float)percentage / 100.0f;
    union {
        float number;
        uint32_t bits;
    } sum = {shape->left + shape->bottom + shape->width};
    return sum.bits;
}

// Puts the numbers of the shapes in order by one of the measures, and gives four of them.
uint32_t EXPORTED(ordered)(uint32_t which)
{
    measure *const *measures = (which & 1) != 0 ? edges : areas;
    for (uint32_t i = 1; (int64_t)i < placed_count; i++) {
        uint8_t number = order[i];
        double size = measures[shapes[number].kind](&shapes[number]);
        uint32_t j = i;
        for (; j > 0; j--) {
            const struct shape *before = &shapes[order[j - 1]];
            if (measures[before->kind](before) <= size) {
                break;
            }
            order[j] = order[j - 1];
        }
        order[j] = number;
    }
    return (uint32_t)order[0] | (uint32_t)order[1] << 8 | (uint32_t)order[2] << 16 | (uint32_t)order[3] << 24;
}

// The bits of the sum of the weights.
uint64_t EXPORTED(weight_bits)(void)
{
    union {
        double number;
        uint64_t bits;
    } sum = {weights};
    return sum.bits;
}

// The square of the distance between two shapes' corners, as 32 bits without a sign; it traps where it is too large.
uint32_t EXPORTED(distance)(uint32_t first, uint32_t second)
{
    const struct shape *from = shape_of(first);
    const struct shape *to = shape_of(second);
    float across = from->left - to->left;
    float up = from->bottom - to->bottom;
    float square = across * across + up * up;
#ifdef __wasm__
    return (uint32_t)__builtin_wasm_trunc_u_i32_f32(square);
#else
    if (!(square < 4294967296.0f)) {
        __builtin_trap();
    }
    return (uint32_t)square;
#endif
}

uint64_t EXPORTED(all)(void)
{
    uint64_t digest = cleared();
    for (uint32_t i = 1; i < 40; i++) {
        uint32_t word = (uint32_t)(digest >> 20);
        uint32_t number = placed(word, (int32_t)(word >> 7 & 63) - 32, (int32_t)(word >> 13 & 63) - 32, i, word >> 25);
        digest = taken(digest, (uint32_t)area(number));
        digest = taken(digest, (uint32_t)edge(number));
        digest = taken(digest, (uint32_t)area_as(number, i));
        digest = taken(digest, covering((int32_t)(digest & 127) - 64, (int32_t)(digest >> 7 & 127) - 64));
        digest = taken(digest, (uint32_t)mean(i));
        digest = taken(digest, moved(number / 2, (int32_t)i - 20, 7 - (int32_t)i, 95 + i % 9));
        digest = taken(digest, ordered(i));
        digest = taken(digest, weight_bits());
        digest = taken(digest, distance(number, number / 2));
    }
    return digest;
}
