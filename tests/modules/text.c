// Text in static buffers: numbers to digits and back, turning, words, shifting of letters, base 64, distance of two texts.
#include "module.h"

#define ROOM 96

static char text[ROOM];
static char other[ROOM];
static const char sample[] = "The quick brown fox jumps over the lazy dog; 1234 zebras, 56 gnus and a level kayak!";
static const char digits[] = "ABCDEFGHIJKLMNOPQRSTUVWXYZabcdefghijklmnopqrstuvwxyz0123456789+/";

static uint32_t digest_of(const char *from, uint32_t length)
{
    uint32_t digest = length;
    for (uint32_t i = 0; i < length; i++) {
        digest = digest * 31 + (uint32_t)(int32_t)(signed char)from[i];
    }
    return digest;
}

// Copies a part of the sample to the front of a buffer; gives how many characters.
static uint32_t copy(char *to, uint32_t from, uint32_t length)
{
    from %= sizeof sample - 1;
    uint32_t rest = (uint32_t)sizeof sample - 1 - from;
    uint32_t count = length < rest ? length : rest;
    __builtin_memcpy(to, sample + from, count);
    return count;
}

static int is_letter(char c)
{
    return (c >= 'a' && c <= 'z') || (c >= 'A' && c <= 'Z');
}

// Writes a number to the front of the text; gives how many characters.
static __attribute__((noinline)) uint32_t write_number(int32_t number)
{
    uint32_t rest = number < 0 ? 0 - (uint32_t)number : (uint32_t)number;
    uint32_t count = 0;
    do {
        text[count++] = (char)('0' + rest % 10);
        rest /= 10;
    } while (rest != 0);
    if (number < 0) {
        text[count++] = '-';
    }
    for (uint32_t i = 0; i < count / 2; i++) {
        char c = text[i];
        text[i] = text[count - 1 - i];
        text[count - 1 - i] = c;
    }
    return count;
}

uint32_t EXPORTED(digits_digest)(int32_t number)
{
    return digest_of(text, write_number(number));
}

int32_t EXPORTED(read_back)(int32_t number)
{
    uint32_t count = write_number(number);
    uint32_t i = text[0] == '-';
    uint32_t value = 0;
    for (; i < count; i++) {
        value = value * 10 + (uint32_t)(text[i] - '0');
    }
    return (int32_t)(text[0] == '-' ? 0 - value : value);
}

uint32_t EXPORTED(is_palindrome)(uint32_t from, uint32_t length)
{
    uint32_t count = copy(text, from, length);
    for (uint32_t i = 0; i < count / 2; i++) {
        if (text[i] != text[count - 1 - i]) {
            return 0;
        }
    }
    return 1;
}

uint32_t EXPORTED(words)(uint32_t from, uint32_t length)
{
    uint32_t count = copy(text, from, length);
    uint32_t words = 0;
    int inside = 0;
    for (uint32_t i = 0; i < count; i++) {
        int letter = is_letter(text[i]);
        words += (uint32_t)(letter & !inside);
        inside = letter;
    }
    return words;
}

uint32_t EXPORTED(letters_shifted)(uint32_t from, uint32_t length, int32_t by)
{
    uint32_t count = copy(text, from, length);
    int32_t step = (by % 26 + 26) % 26;
    for (uint32_t i = 0; i < count; i++) {
        if (is_letter(text[i])) {
            char first = text[i] >= 'a' ? 'a' : 'A';
            text[i] = (char)(first + (text[i] - first + step) % 26);
        }
    }
    return digest_of(text, count);
}

uint32_t EXPORTED(base_64)(uint32_t from, uint32_t length)
{
    uint32_t count = copy(text, from, length < 60 ? length : 60);
    uint32_t written = 0;
    for (uint32_t i = 0; i < count; i += 3) {
        uint32_t group = (uint32_t)(uint8_t)text[i] << 16;
        group |= i + 1 < count ? (uint32_t)(uint8_t)text[i + 1] << 8 : 0;
        group |= i + 2 < count ? (uint32_t)(uint8_t)text[i + 2] : 0;
        other[written++] = digits[group >> 18];
        other[written++] = digits[group >> 12 & 63];
        other[written++] = i + 1 < count ? digits[group >> 6 & 63] : '=';
        other[written++] = i + 2 < count ? digits[group & 63] : '=';
    }
    return digest_of(other, written);
}

// How many insertions, removals and changes of a character make one part of the sample from another.
uint32_t EXPORTED(distance)(uint32_t from, uint32_t to, uint32_t length)
{
    uint8_t row[ROOM + 1];
    uint32_t count = copy(text, from, length);
    uint32_t width = copy(other, to, length);
    for (uint32_t j = 0; j <= width; j++) {
        row[j] = (uint8_t)j;
    }
    for (uint32_t i = 1; i <= count; i++) {
        uint8_t corner = row[0];
        row[0] = (uint8_t)i;
        for (uint32_t j = 1; j <= width; j++) {
            uint8_t best = (uint8_t)(corner + (text[i - 1] != other[j - 1]));
            corner = row[j];
            best = corner + 1 < best ? (uint8_t)(corner + 1) : best;
            best = row[j - 1] + 1 < best ? (uint8_t)(row[j - 1] + 1) : best;
            row[j] = best;
        }
    }
    return row[width];
}

uint64_t EXPORTED(all)(void)
{
    uint64_t digest = 0;
    for (uint32_t i = 0; i < 40; i++) {
        digest = taken(digest, digits_digest((int32_t)digest));
        digest = taken(digest, (uint32_t)read_back((int32_t)(digest >> 7)));
        digest = taken(digest, is_palindrome(2 * i, i % 6));
        digest = taken(digest, words(i, 2 * i));
        digest = taken(digest, letters_shifted(i, 30, (int32_t)i - 20));
        digest = taken(digest, base_64(3 * i, i));
        digest = taken(digest, distance(i, 80 - i, 12));
    }
    return digest;
}
