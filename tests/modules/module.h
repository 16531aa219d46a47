// What the modules share: integers of fixed widths, the mark of a function that a module exports, what they draw numbers from, and
// the bits of floats, by which they take and give these. A native build of the same source has no exports, and calls the
// functions by their names.
#ifndef MODULE_H
#define MODULE_H

#include <stdint.h>

#ifdef __wasm__
#define EXPORTED(name) __attribute__((noinline, export_name(#name))) name
#else
#define EXPORTED(name) __attribute__((noinline)) name
#endif

// Takes one more answer into a digest of answers (FNV-1a, 64 bits at a time).
static inline uint64_t taken(uint64_t digest, uint64_t answer)
{
    return (digest ^ answer) * 1099511628211u;
}

// The number drawn behind this one.
static inline uint32_t next_of(uint32_t number)
{
    return number * 1664525u + 1013904223u;
}

static inline uint32_t bits_of_float(float number)
{
    uint32_t bits;
    __builtin_memcpy(&bits, &number, sizeof bits);
    return bits;
}

static inline float float_of_bits(uint32_t bits)
{
    float number;
    __builtin_memcpy(&number, &bits, sizeof number);
    return number;
}

static inline uint64_t bits_of_double(double number)
{
    uint64_t bits;
    __builtin_memcpy(&bits, &number, sizeof bits);
    return bits;
}

#endif
