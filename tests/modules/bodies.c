// Bodies that draw one another, step by step, in f64: each a structure in memory, with its place, its speed and its mass; in a
// box, off whose walls they bounce; and their energy, which hardly changes.
#include "simd128.h"

enum { COUNT = 5 };

typedef struct {
    double place[3];
    double speed[3];
    double mass;
    uint8_t bounces;
} body;

static body bodies[COUNT];

// A number from -1 to 1.
static double drawn(uint32_t *seed)
{
    *seed = next_of(*seed);
    return (int32_t)*seed / 2147483648.0;
}

// Bodies at rest, or with a speed, on both sides of the middle.
static void begin(uint32_t seed, int32_t speed)
{
    for (int i = 0; i < COUNT; i++) {
        body *this = bodies + i;
        for (int axis = 0; axis < 3; axis++) {
            this->place[axis] = drawn(&seed) * 4;
            this->speed[axis] = drawn(&seed) * speed / 65536.0;
        }
        this->mass = __builtin_fabs(drawn(&seed)) + 0.125;
        this->bounces = 0;
    }
}

// Changes the speeds of two bodies by what they draw.
static void draw(body *a, body *b, double time)
{
    v128_t apart = wasm_f64x2_sub(wasm_v128_load(a->place), wasm_v128_load(b->place));
    double depth = a->place[2] - b->place[2];
    v128_t squares = wasm_f64x2_mul(apart, apart);
    double square = wasm_f64x2_extract_lane(squares, 0) + wasm_f64x2_extract_lane(squares, 1) + depth * depth + 0.01;
    double share = time / (square * __builtin_sqrt(square));
    v128_t on_first = wasm_f64x2_mul(apart, wasm_f64x2_splat(b->mass * share));
    v128_t on_second = wasm_f64x2_mul(apart, wasm_f64x2_splat(a->mass * share));
    wasm_v128_store(a->speed, wasm_f64x2_sub(wasm_v128_load(a->speed), on_first));
    wasm_v128_store(b->speed, wasm_f64x2_add(wasm_v128_load(b->speed), on_second));
    a->speed[2] -= depth * (b->mass * share);
    b->speed[2] += depth * (a->mass * share);
}

// Moves a body; at a wall it turns, and is put back to it.
static void move(body *this, double time, double wall)
{
    for (int axis = 0; axis < 3; axis++) {
        double place = this->place[axis] + time * this->speed[axis];
        if (__builtin_fabs(place) > wall) {
            place = __builtin_copysign(wall, place);
            this->speed[axis] = -this->speed[axis];
            this->bounces++;
        }
        this->place[axis] = place;
    }
}

static void step(uint32_t times, double wall)
{
    for (uint32_t n = 0; n < times; n++) {
        for (int i = 0; i < COUNT; i++) {
            for (int j = i + 1; j < COUNT; j++) {
                draw(bodies + i, bodies + j, 0.0078125);
            }
        }
        for (int i = 0; i < COUNT; i++) {
            move(bodies + i, 0.0078125, wall);
        }
    }
}

static double energy_now(void)
{
    double energy = 0;
    for (int i = 0; i < COUNT; i++) {
        const body *a = bodies + i;
        energy += 0.5 * a->mass * (a->speed[0] * a->speed[0] + a->speed[1] * a->speed[1] + a->speed[2] * a->speed[2]);
        for (const body *b = a + 1; b < bodies + COUNT; b++) {
            double x = a->place[0] - b->place[0];
            double y = a->place[1] - b->place[1];
            double z = a->place[2] - b->place[2];
            energy -= a->mass * b->mass / __builtin_sqrt(greater_double(x * x + y * y + z * z, 0.01));
        }
    }
    return energy;
}

// Where a body is behind so many steps, along one axis.
uint64_t EXPORTED(place_after)(uint32_t seed, uint32_t times, uint32_t which)
{
    begin(seed, 0);
    step(times & 31, 4);
    return bits_of_double(bodies[which % COUNT].place[which % 3]);
}

// How often all have turned at the walls.
uint32_t EXPORTED(bounces_after)(uint32_t seed, int32_t speed, uint32_t times)
{
    begin(seed, speed);
    step(times & 31, 1.5);
    uint32_t sum = 0;
    for (int i = 0; i < COUNT; i++) {
        sum += bodies[i].bounces;
    }
    return sum;
}

uint64_t EXPORTED(energy)(uint32_t seed, int32_t speed)
{
    begin(seed, speed);
    double before = energy_now();
    step(10, 64);
    return bits_of_double(energy_now() - before);
}

// The fastest of the bodies, and on which side it is.
int32_t EXPORTED(fastest)(uint32_t seed, int32_t speed)
{
    begin(seed, speed);
    step(3, 8);
    int32_t which = 0;
    double most = -1;
    for (int i = 0; i < COUNT; i++) {
        const double *v = bodies[i].speed;
        double square = v[0] * v[0] + v[1] * v[1] + v[2] * v[2];
        which = square >= most ? i : which;
        most = square >= most ? square : most;
    }
    return bodies[which].place[0] < 0 ? -which - 1 : which + 1;
}

// The middle of all masses behind some steps, times their mass but 2 at most, and turned where the first body is slower along this
// axis than the last.
uint64_t EXPORTED(middle)(uint32_t seed, uint32_t axis)
{
    begin(seed, 40000);
    step(4, 2);
    double sum = 0;
    double mass = 0;
    for (int i = 0; i < COUNT; i++) {
        sum += bodies[i].mass * bodies[i].place[axis % 3];
        mass += bodies[i].mass;
    }
    double turn = bodies[0].speed[axis % 3] - bodies[COUNT - 1].speed[axis % 3];
    return bits_of_double(__builtin_copysign(lesser_double(mass, 2), turn) * (sum / mass));
}

uint64_t EXPORTED(all)(void)
{
    uint64_t digest = 0;
    for (uint32_t i = 0; i < 6; i++) {
        digest = taken(digest, place_after(i, 4 * i, i));
        digest = taken(digest, bounces_after(i, (int32_t)(i << 18), 6 * i));
        digest = taken(digest, energy(i * i, (int32_t)(i << 14)));
        digest = taken(digest, (uint32_t)fastest(~i, 70000));
        digest = taken(digest, middle(i, i));
    }
    return digest;
}
