// Arithmetic on integers: divisors, powers, roots, bits, digits; the points of a Mandelbrot set, by way of f64.
#include "module.h"

uint32_t EXPORTED(greatest_divisor)(uint32_t a, uint32_t b)
{
    while (b != 0) {
        uint32_t rest = a % b;
        a = b;
        b = rest;
    }
    return a;
}

uint64_t EXPORTED(power_modulo)(uint64_t base, uint64_t exponent, uint32_t modulus)
{
    if (modulus == 0) {
        return 0;
    }
    uint64_t power = 1 % modulus;
    base %= modulus;
    for (; exponent != 0; exponent >>= 1) {
        if ((exponent & 1) != 0) {
            power = power * base % modulus;
        }
        base = base * base % modulus;
    }
    return power;
}

uint32_t EXPORTED(square_root)(uint64_t number)
{
    uint64_t root = 0;
    uint64_t bit = (uint64_t)1 << 62;
    while (bit > number) {
        bit >>= 2;
    }
    for (; bit != 0; bit >>= 2) {
        if (number >= root + bit) {
            number -= root + bit;
            root = (root >> 1) + bit;
        } else {
            root >>= 1;
        }
    }
    return (uint32_t)root;
}

uint32_t EXPORTED(ones_of)(uint32_t word)
{
    word -= (word >> 1) & 0x55555555u;
    word = (word & 0x33333333u) + ((word >> 2) & 0x33333333u);
    word = (word + (word >> 4)) & 0x0f0f0f0fu;
    return (word * 0x01010101u) >> 24;
}

uint32_t EXPORTED(leading_zeros)(uint64_t word)
{
    return word == 0 ? 64 : (uint32_t)__builtin_clzll(word);
}

// The steps of a number to 1, where the next of an odd one is three times it and one, of an even one its half.
uint32_t EXPORTED(collatz_steps)(uint32_t start)
{
    uint64_t number = start;
    uint32_t steps = 0;
    while (number > 1 && steps < 10000) {
        number = (number & 1) != 0 ? 3 * number + 1 : number >> 1;
        steps++;
    }
    return steps;
}

int64_t EXPORTED(digits_turned)(int64_t number)
{
    int negative = number < 0;
    uint64_t rest = negative ? 0 - (uint64_t)number : (uint64_t)number;
    uint64_t turned = 0;
    for (; rest != 0; rest /= 10) {
        turned = turned * 10 + rest % 10;
    }
    return (int64_t)(negative ? 0 - turned : turned);
}

uint32_t EXPORTED(is_prime)(uint32_t number)
{
    if (number < 4) {
        return number > 1;
    }
    if (number % 2 == 0 || number % 3 == 0) {
        return 0;
    }
    for (uint32_t i = 5; i <= number / i; i += 6) {
        if (number % i == 0 || number % (i + 2) == 0) {
            return 0;
        }
    }
    return 1;
}

uint64_t EXPORTED(fibonacci)(uint32_t count)
{
    uint64_t this = 0;
    uint64_t next = 1;
    while (count-- > 0) {
        uint64_t sum = this + next;
        this = next;
        next = sum;
    }
    return this;
}

// The quotient, with no test of the divisor: the division traps where there is none.
int32_t EXPORTED(quotient)(int32_t a, int32_t b)
{
    return a / b;
}

uint64_t EXPORTED(remainder_of)(uint64_t a, uint64_t b)
{
    return a % b + 1;
}

int32_t EXPORTED(clamped)(int64_t number, int32_t low, int32_t high)
{
    return number < low ? low : number > high ? high : (int32_t)number;
}

// The steps after which the point leaves the circle of radius 2, at most 200; its coordinates are in thousandths.
uint32_t EXPORTED(mandelbrot_steps)(int32_t across, int32_t up)
{
    double real = across / 1000.0;
    double imaginary = up / 1000.0;
    double x = 0;
    double y = 0;
    uint32_t steps = 0;
    while (steps < 200 && x * x + y * y <= 4.0) {
        double next = x * x - y * y + real;
        y = 2 * x * y + imaginary;
        x = next;
        steps++;
    }
    return steps;
}

uint64_t EXPORTED(all)(void)
{
    uint64_t digest = 0;
    for (uint32_t i = 1; i < 60; i++) {
        digest = taken(digest, greatest_divisor(i * 84, 360));
        digest = taken(digest, power_modulo(digest, i, i * 1001));
        digest = taken(digest, square_root(digest >> (i & 31)));
        digest = taken(digest, ones_of((uint32_t)digest));
        digest = taken(digest, leading_zeros(digest >> (i & 63)));
        digest = taken(digest, collatz_steps(i * 3));
        digest = taken(digest, (uint64_t)digits_turned((int64_t)digest >> 8));
        digest = taken(digest, is_prime(i * 7 + 2));
        digest = taken(digest, fibonacci(i));
        digest = taken(digest, (uint32_t)quotient((int32_t)digest, (int32_t)i));
        digest = taken(digest, remainder_of(digest, i));
        digest = taken(digest, (uint32_t)clamped((int64_t)digest, -77, 1 << 20));
        digest = taken(digest, mandelbrot_steps((int32_t)i * 10 - 700, (int32_t)i * 3));
    }
    return digest;
}
