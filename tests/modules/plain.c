// Small functions as a compiler writes them that improves nothing: every variable lies on the stack in memory, and the stack
// pointer, a global, moves in every call.
#include "module.h"

struct fraction {
    int32_t above;
    int32_t below;
};

static uint32_t counted;

static uint32_t distance(int32_t a, int32_t b)
{
    return a < b ? (uint32_t)b - (uint32_t)a : (uint32_t)a - (uint32_t)b;
}

static int32_t divisor(int32_t a, int32_t b)
{
    while (b != 0) {
        int32_t rest = a % b;
        a = b;
        b = rest;
    }
    return a < 0 ? -a : a;
}

static void shorten(struct fraction *fraction)
{
    int32_t common = divisor(fraction->above, fraction->below);
    if (common > 1) {
        fraction->above /= common;
        fraction->below /= common;
    }
}

static struct fraction sum(struct fraction a, struct fraction b)
{
    struct fraction sum = {a.above * b.below + b.above * a.below, a.below * b.below};
    shorten(&sum);
    return sum;
}

// The sum of 1/first, 1/(first + 1) and so on, of at most four fractions.
uint64_t EXPORTED(sum_of_fractions)(uint32_t first, uint32_t count)
{
    struct fraction total = {0, 1};
    int32_t below = (int32_t)(first % 40 + 1);
    for (uint32_t i = 0; i < count && i < 4; i++) {
        struct fraction next = {1, below++};
        total = sum(total, next);
    }
    return (uint64_t)(uint32_t)total.above << 32 | (uint32_t)total.below;
}

uint32_t EXPORTED(distance_of)(int32_t a, int32_t b)
{
    return distance(a, b);
}

// Counts the calls to itself of the function of Takeuchi.
static int32_t takeuchi(int32_t x, int32_t y, int32_t z)
{
    counted++;
    if (y >= x) {
        return z;
    }
    return takeuchi(takeuchi(x - 1, y, z), takeuchi(y - 1, z, x), takeuchi(z - 1, x, y));
}

uint32_t EXPORTED(takeuchi_calls)(uint32_t x, uint32_t y, uint32_t z)
{
    counted = 0;
    takeuchi((int32_t)(x % 9), (int32_t)(y % 9), (int32_t)(z % 9));
    return counted;
}

// The determinant of a matrix of three rows that follow from a seed.
int64_t EXPORTED(determinant)(uint32_t seed)
{
    int64_t matrix[3][3];
    for (int row = 0; row < 3; row++) {
        for (int column = 0; column < 3; column++) {
            seed = seed * 1103515245u + 12345;
            matrix[row][column] = (int64_t)(seed >> 16 & 255) - 128;
        }
    }
    int64_t determinant = 0;
    for (int column = 0; column < 3; column++) {
        int next = (column + 1) % 3;
        int last = (column + 2) % 3;
        int64_t minor = matrix[1][next] * matrix[2][last] - matrix[1][last] * matrix[2][next];
        determinant += matrix[0][column] * minor;
    }
    return determinant;
}

// The day of the week of a date (Zeller); 0 is Saturday.
uint32_t EXPORTED(day_of_week)(uint32_t year, uint32_t month, uint32_t day)
{
    if (month < 3) {
        month += 12;
        year -= 1;
    }
    uint32_t century = year / 100;
    uint32_t rest = year % 100;
    return (day + 13 * (month + 1) / 5 + rest + rest / 4 + century / 4 + 5 * century) % 7;
}

uint32_t EXPORTED(bits_turned)(uint32_t word)
{
    uint32_t turned = 0;
    for (int i = 0; i < 32; i++) {
        turned = turned << 1 | (word >> i & 1);
    }
    return turned;
}

// The sign of a number as -1, 0 or 1, by comparisons of two widths.
int32_t EXPORTED(sign_of)(int64_t number)
{
    return (number > 0) - (number < 0);
}

// Divides two numbers of 64 bits, and traps where there is no quotient.
int64_t EXPORTED(long_quotient)(int64_t a, int64_t b)
{
    return a / b;
}

uint64_t EXPORTED(all)(void)
{
    uint64_t digest = 0;
    for (uint32_t i = 1; i < 30; i++) {
        digest = taken(digest, sum_of_fractions(i, i & 7));
        digest = taken(digest, distance_of((int32_t)digest, (int32_t)i));
        digest = taken(digest, takeuchi_calls(i, i / 2, i / 3));
        digest = taken(digest, (uint64_t)determinant(i));
        digest = taken(digest, day_of_week(1990 + i, i % 12 + 1, i % 28 + 1));
        digest = taken(digest, bits_turned((uint32_t)digest));
        digest = taken(digest, (uint32_t)sign_of((int64_t)digest));
        digest = taken(digest, (uint64_t)long_quotient((int64_t)digest, i));
    }
    return digest;
}
