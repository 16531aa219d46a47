// Hashes of numbers and of a buffer in memory: FNV-1a, CRC-32 by a table, Adler-32, the finalizers of Murmur 3.
#include "module.h"

static uint8_t buffer[256];
static uint32_t table[256];

// Fills the front of the buffer with bytes that follow from a seed; gives how many.
static uint32_t fill(uint32_t seed, uint32_t length)
{
    uint32_t count = length < sizeof buffer ? length : sizeof buffer;
    for (uint32_t i = 0; i < count; i++) {
        seed = seed * 1664525u + 1013904223u;
        buffer[i] = (uint8_t)(seed >> 24);
    }
    return count;
}

uint32_t EXPORTED(fnv_32)(uint32_t seed, uint32_t length)
{
    uint32_t count = fill(seed, length);
    uint32_t hash = 2166136261u;
    for (uint32_t i = 0; i < count; i++) {
        hash = (hash ^ buffer[i]) * 16777619u;
    }
    return hash;
}

uint64_t EXPORTED(fnv_64)(uint32_t seed, uint32_t length)
{
    uint32_t count = fill(seed, length);
    uint64_t hash = 14695981039346656037u;
    for (uint32_t i = 0; i < count; i++) {
        hash = (hash ^ buffer[i]) * 1099511628211u;
    }
    return hash;
}

static void make_table(void)
{
    for (uint32_t byte = 0; byte < 256; byte++) {
        uint32_t rest = byte;
        for (int bit = 0; bit < 8; bit++) {
            rest = (rest & 1) != 0 ? (rest >> 1) ^ 0xedb88320u : rest >> 1;
        }
        table[byte] = rest;
    }
}

uint32_t EXPORTED(crc_32)(uint32_t seed, uint32_t length)
{
    uint32_t count = fill(seed, length);
    if (table[1] == 0) {
        make_table();
    }
    uint32_t rest = 0xffffffffu;
    for (uint32_t i = 0; i < count; i++) {
        rest = table[(rest ^ buffer[i]) & 255] ^ (rest >> 8);
    }
    return ~rest;
}

uint32_t EXPORTED(adler_32)(uint32_t seed, uint32_t length)
{
    uint32_t count = fill(seed, length);
    uint32_t low = 1;
    uint32_t high = 0;
    for (uint32_t i = 0; i < count; i++) {
        low = (low + buffer[i]) % 65521;
        high = (high + low) % 65521;
    }
    return (high << 16) | low;
}

uint32_t EXPORTED(murmur_32)(uint32_t word)
{
    word ^= word >> 16;
    word *= 0x85ebca6bu;
    word ^= word >> 13;
    word *= 0xc2b2ae35u;
    return word ^ (word >> 16);
}

uint64_t EXPORTED(murmur_64)(uint64_t word)
{
    word ^= word >> 33;
    word *= 0xff51afd7ed558ccdu;
    word ^= word >> 33;
    word *= 0xc4ceb9fe1a85ec53u;
    return word ^ (word >> 33);
}

uint64_t EXPORTED(all)(void)
{
    uint64_t digest = 0;
    for (uint32_t i = 0; i < 40; i++) {
        digest = taken(digest, fnv_32(i, i));
        digest = taken(digest, fnv_64(i + 7, 2 * i));
        digest = taken(digest, crc_32(i * i, 3 * i));
        digest = taken(digest, adler_32(~i, 4 * i));
        digest = taken(digest, murmur_32(i << 20));
        digest = taken(digest, murmur_64(digest));
    }
    return digest;
}
