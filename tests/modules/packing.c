// Records in bytes, as files and messages have them: numbers of each width, with a sign and without, at any place and in either
// order of bytes; fields of some bits; numbers that tell their own length; floats by their bits; and a table by columns.
#include "module.h"

enum { SIZE = 160, ROWS = 24 };

static uint8_t bytes[SIZE];

// A record as it lies in memory, with nothing between its members.
typedef struct __attribute__((packed)) {
    uint8_t kind;
    int16_t level;
    uint32_t number;
    int8_t shift;
    float weight;
    uint64_t key;
    int32_t offset;
    double share;
    uint16_t length;
} record;

// Flags and short numbers in one word.
typedef struct {
    uint32_t open : 1;
    int32_t lean : 5;
    uint32_t width : 12;
    int32_t tilt : 9;
    uint32_t mark : 5;
} fields;

static record records[4];
static fields settings[4];
static struct {
    int8_t bytes[ROWS];
    uint16_t halves[ROWS];
    int32_t words[ROWS];
    uint32_t hashes[ROWS];
    int64_t longs[ROWS];
    float floats[ROWS];
    double doubles[ROWS];
} table;

static void fill(uint32_t seed)
{
    for (int i = 0; i < SIZE; i++) {
        seed = next_of(seed);
        bytes[i] = (uint8_t)(seed >> 23);
    }
}

// A number of a type at any place, read and written.
#define READ(type, place) ({ type value; __builtin_memcpy(&value, place, sizeof value); value; })
#define WRITE(type, place, number) ({ type value = (type)(number); __builtin_memcpy(place, &value, sizeof value); })

// The number of this kind at this place, in 64 bits, and in 32.
int64_t EXPORTED(number_at)(uint32_t seed, uint32_t place, uint32_t kind)
{
    fill(seed);
    const uint8_t *p = bytes + place % (SIZE - 8);
    switch (kind % 8) {
    case 0: return READ(int8_t, p);
    case 1: return READ(uint8_t, p);
    case 2: return READ(int16_t, p);
    case 3: return READ(uint16_t, p);
    case 4: return READ(int32_t, p);
    case 5: return READ(uint32_t, p);
    case 6: return (int64_t)__builtin_bswap64(READ(uint64_t, p));
    default: return READ(int64_t, p);
    }
}

int32_t EXPORTED(short_at)(uint32_t seed, uint32_t place, uint32_t kind)
{
    fill(seed);
    const uint8_t *p = bytes + place % (SIZE - 8);
    switch (kind % 6) {
    case 0: return READ(int8_t, p);
    case 1: return READ(uint8_t, p);
    case 2: return READ(int16_t, p);
    case 3: return READ(uint16_t, p);
    case 4: return (int32_t)((uint32_t)p[0] << 24 | (uint32_t)p[1] << 16 | (uint32_t)p[2] << 8 | p[3]);
    default: return READ(int32_t, p);
    }
}

// The bytes at a place after a number was written there in this kind.
uint64_t EXPORTED(written)(uint64_t number, uint32_t place, uint32_t kind)
{
    fill(place);
    uint8_t *p = bytes + place % (SIZE - 16);
    switch (kind % 6) {
    case 0: WRITE(uint8_t, p + 3, number); break;
    case 1: WRITE(uint16_t, p + 3, number); break;
    case 2: WRITE(uint32_t, p + 3, number); break;
    case 3: WRITE(uint64_t, p + 3, number); break;
    case 4: WRITE(float, p + 3, (int64_t)number); break;
    default: WRITE(double, p + 3, (int64_t)number); break;
    }
    return READ(uint64_t, p) + READ(uint64_t, p + 8);
}

// Records written from bytes, and one of them read again.
uint64_t EXPORTED(record_sum)(uint32_t seed, uint32_t which)
{
    fill(seed);
    for (uint32_t i = 0; i < 4; i++) {
        record *r = records + i;
        r->kind = bytes[i];
        r->level = READ(int16_t, bytes + 7 * i + 4);
        r->number = READ(uint32_t, bytes + 5 * i + 1);
        r->shift = (int8_t)(bytes[i + 90] & 31);
        r->weight = (float)r->level / 8;
        r->key = READ(uint64_t, bytes + 11 * i + 3);
        r->offset = READ(int32_t, bytes + 3 * i + 60);
        r->share = r->offset * 0.0625;
        r->length = (uint16_t)(r->kind + r->number);
    }
    const record *r = records + (which & 3);
    uint64_t sum = r->key ^ (uint64_t)r->number << r->shift;
    sum += (uint64_t)((int64_t)r->level * r->offset);
    sum += (uint64_t)(int64_t)(r->share * 16 + (double)r->weight * 8);
    return sum + r->length + r->kind;
}

// Fields set from a word, changed, and put together.
int32_t EXPORTED(field_sum)(uint32_t word, uint32_t which)
{
    for (uint32_t i = 0; i < 4; i++) {
        fields *f = settings + i;
        f->open = word >> i & 1;
        f->lean = (int32_t)(word >> (i + 3)) % 16;
        f->width = (word >> i) & 4095;
        f->tilt = (int32_t)(word << i) >> 23;
        f->mark = (word ^ i) & 31;
        word = next_of(word);
    }
    fields *f = settings + (which & 3);
    f->width ^= f->mark;
    f->open = !f->open;
    return f->lean * 100000 + f->tilt * 1000 + (int32_t)f->width + (f->open ? 7 : -7);
}

// A signed number in groups of seven bits, written to the bytes and read from them.
int64_t EXPORTED(by_groups)(int64_t number, uint32_t place)
{
    uint8_t *p = bytes + place % 128;
    int64_t rest = number;
    int done = 0;
    while (!done) {
        uint8_t group = rest & 127;
        rest >>= 7;
        done = (rest == 0 && (group & 64) == 0) || (rest == -1 && (group & 64) != 0);
        *p++ = done ? group : group | 128;
    }
    const uint8_t *q = bytes + place % 128;
    uint64_t back = 0;
    uint32_t shift = 0;
    do {
        back |= (uint64_t)(*q & 127) << shift;
        shift += 7;
    } while (*q++ >= 128);
    if (shift < 64 && (q[-1] & 64) != 0) {
        back |= ~(uint64_t)0 << shift;
    }
    return (int64_t)(back * (uint64_t)(q - bytes));
}

// The whole part, the exponent and the sign of a float, by its bits alone.
uint32_t EXPORTED(parts_of_float)(uint32_t bits)
{
    float number = float_of_bits((bits & 0x807fffffu) | (120 + (bits >> 23 & 15)) << 23);
    uint32_t exponent = bits_of_float(number * 0.5f) >> 23 & 255;
    return (bits_of_float(number) >> 31) << 30 | exponent << 20 | ((uint32_t)(int32_t)number & 0xfffff);
}

// A table by columns, each from the one before it; the sum of a row, and of a column up to it.
uint64_t EXPORTED(row_sum)(uint32_t seed, uint32_t row)
{
    fill(seed);
    for (uint32_t i = 0; i < ROWS; i++) {
        table.bytes[i] = (int8_t)bytes[i + 3];
        table.halves[i] = (uint16_t)(table.bytes[i] * 259);
        table.words[i] = table.bytes[i] * (int32_t)table.halves[i];
        table.hashes[i] = (uint32_t)table.words[i] * 2654435761u;
        table.longs[i] = (int64_t)table.words[i] * table.halves[i];
        table.floats[i] = (float)table.words[i];
        table.doubles[i] = -(double)table.longs[i] / 4;
    }
    row %= ROWS;
    double sum = 0;
    for (uint32_t i = 0; i <= row; i++) {
        float least = table.floats[i] < 0 ? -table.floats[i] : table.floats[i];
        sum += table.doubles[i] < (double)least ? table.doubles[i] : (double)least;
    }
    uint64_t hash = table.hashes[row] + (uint64_t)table.longs[row] + (uint64_t)table.bytes[row];
    return bits_of_double(sum) ^ (hash << 8) ^ table.halves[row];
}

uint64_t EXPORTED(all)(void)
{
    uint64_t digest = 0;
    for (uint32_t i = 0; i < 24; i++) {
        digest = taken(digest, (uint64_t)number_at(i, 5 * i, i));
        digest = taken(digest, (uint32_t)short_at(i, 3 * i, i));
        digest = taken(digest, written(digest, 7 * i, i));
        digest = taken(digest, record_sum(i * i, i));
        digest = taken(digest, (uint32_t)field_sum(i * 0x01234567u, i));
        digest = taken(digest, (uint64_t)by_groups((int64_t)(digest << i), i));
        digest = taken(digest, parts_of_float(i * 0x0a1b2c3du));
        digest = taken(digest, row_sum(~i, i));
    }
    return digest;
}
