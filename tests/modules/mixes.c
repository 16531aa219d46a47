// Generators and mixes of 64 bits: splitmix, xorshift, PCG, products of 128 bits. Two numbers of the state are globals of the
// module, which have no place in memory (both of 64 bits, since clang 14 reads a shorter one that it extends from memory).
#include "module.h"

#ifdef __wasm__
#define GLOBAL __attribute__((address_space(1))) static
#else
#define GLOBAL static
#endif

GLOBAL uint64_t state;
GLOBAL uint64_t drawn;

static uint64_t turned(uint64_t word, unsigned by)
{
    return (word << (by & 63)) | (word >> (-by & 63));
}

static uint64_t splitmix(void)
{
    state += 0x9e3779b97f4a7c15u;
    drawn++;
    uint64_t word = state;
    word = (word ^ (word >> 30)) * 0xbf58476d1ce4e5b9u;
    word = (word ^ (word >> 27)) * 0x94d049bb133111ebu;
    return word ^ (word >> 31);
}

uint64_t EXPORTED(splitmix_word)(uint64_t seed, uint32_t count)
{
    state = seed;
    drawn = 0;
    uint64_t word = 0;
    do {
        word = splitmix();
    } while (drawn < count);
    return word + drawn;
}

uint64_t EXPORTED(xorshift_word)(uint64_t seed, uint32_t count)
{
    state = seed | 1;
    for (uint32_t i = 0; i < count; i++) {
        state ^= state << 13;
        state ^= state >> 7;
        state ^= state << 17;
    }
    return state;
}

uint32_t EXPORTED(pcg_word)(uint64_t seed, uint64_t stream)
{
    state = (seed + stream) * 6364136223846793005u + (2 * stream + 1);
    uint32_t shifted = (uint32_t)(((state >> 18) ^ state) >> 27);
    uint32_t by = (uint32_t)(state >> 59);
    return (shifted >> by) | (shifted << (-by & 31));
}

// The upper half of a product of 128 bits.
uint64_t EXPORTED(product_high)(uint64_t a, uint64_t b)
{
    uint64_t low = (a & 0xffffffffu) * (b & 0xffffffffu);
    uint64_t first = (a >> 32) * (b & 0xffffffffu);
    uint64_t second = (a & 0xffffffffu) * (b >> 32);
    uint64_t middle = (low >> 32) + (first & 0xffffffffu) + (second & 0xffffffffu);
    return (a >> 32) * (b >> 32) + (first >> 32) + (second >> 32) + (middle >> 32);
}

uint64_t EXPORTED(mixed)(uint64_t a, uint64_t b)
{
    uint64_t high = product_high(a ^ 0xa0761d6478bd642fu, b ^ 0xe7037ed1a0b428dbu);
    return high ^ (a * b) ^ turned(a, (unsigned)b) ^ turned(b, 17);
}

// Bit by bit, the one of the second word where the mask has a one, and else that of the first.
uint64_t EXPORTED(merged)(uint64_t a, uint64_t b, uint64_t mask)
{
    return (a & ~mask) | (b & mask);
}

uint64_t EXPORTED(bytes_turned)(uint64_t word)
{
    word = ((word >> 8) & 0x00ff00ff00ff00ffu) | ((word & 0x00ff00ff00ff00ffu) << 8);
    word = ((word >> 16) & 0x0000ffff0000ffffu) | ((word & 0x0000ffff0000ffffu) << 16);
    return (word >> 32) | (word << 32);
}

// A number below a limit, of a word (by a product, as Lemire's).
uint32_t EXPORTED(below)(uint64_t seed, uint32_t limit)
{
    state = seed;
    return (uint32_t)(((splitmix() >> 32) * limit) >> 32);
}

int64_t EXPORTED(walk)(uint64_t seed, uint32_t steps)
{
    state = seed;
    int64_t place = 0;
    for (uint32_t i = 0; i < steps; i++) {
        uint64_t word = splitmix();
        int64_t step = (int64_t)(word >> 4 & 1023);
        place = (word & 1) != 0 ? place + step : place - step;
        if (place < 0) {
            place = -place / 2;
        }
    }
    return place;
}

// The state as the call before left it.
uint64_t EXPORTED(state_left)(void)
{
    return state ^ drawn;
}

uint64_t EXPORTED(all)(void)
{
    uint64_t digest = 1;
    for (uint32_t i = 1; i < 50; i++) {
        digest = taken(digest, splitmix_word(digest, i));
        digest = taken(digest, xorshift_word(digest, i));
        digest = taken(digest, pcg_word(digest, i));
        digest = taken(digest, product_high(digest, ~digest));
        digest = taken(digest, mixed(digest, i));
        digest = taken(digest, merged(digest, i, digest >> 3));
        digest = taken(digest, bytes_turned(digest));
        digest = taken(digest, below(digest, i));
        digest = taken(digest, (uint64_t)walk(digest, i));
    }
    return digest;
}
