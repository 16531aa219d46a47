/*
 * A small program for AFL++ to fuzz, in the place of an engine: it reads the sections of a module, from standard input or the
 * file that is named, and runs some operators of its function bodies on a stack. With AFL++'s compiler:
 *
 *     afl-cc -O1 target.c -o target
 */
#include <stdint.h>
#include <stdio.h>
#include <string.h>

struct reader {
    const uint8_t *at;
    const uint8_t *end;
};

struct stack {
    uint32_t values[64];
    size_t depth;
};

static const uint8_t preamble[8] = {0x00, 0x61, 0x73, 0x6d, 0x01, 0x00, 0x00, 0x00};

static uint32_t read_number(struct reader *reader)
{
    uint32_t number = 0;
    unsigned int shift = 0;

    while (reader->at < reader->end && shift < 32) {
        uint8_t byte = *reader->at++;
        number |= (uint32_t)(byte & 0x7f) << shift;
        if (byte < 0x80) {
            break;
        }
        shift += 7;
    }
    return number;
}

/* The bytes behind their number; those that are there, where that is too large. */
static struct reader read_part(struct reader *reader)
{
    size_t size = read_number(reader), left = (size_t)(reader->end - reader->at);
    struct reader part = {reader->at, reader->at + (size < left ? size : left)};

    reader->at = part.end;
    return part;
}

static void push(struct stack *stack, uint32_t value)
{
    if (stack->depth < 64) {
        stack->values[stack->depth++] = value;
    }
}

static uint32_t pop(struct stack *stack)
{
    return stack->depth > 0 ? stack->values[--stack->depth] : 0;
}

/* Runs an operator of two operands; other bytes leave the first. */
static uint32_t combine(uint8_t opcode, uint32_t x, uint32_t y)
{
    switch (opcode) {
    case 0x46: return x == y;
    case 0x47: return x != y;
    case 0x48: return (int32_t)x < (int32_t)y;
    case 0x4a: return (int32_t)x > (int32_t)y;
    case 0x6a: return x + y;
    case 0x6b: return x - y;
    case 0x6c: return x * y;
    case 0x6e: return y != 0 ? x / y : 0;
    case 0x70: return y != 0 ? x % y : 0;
    case 0x71: return x & y;
    case 0x72: return x | y;
    case 0x73: return x ^ y;
    case 0x74: return x << (y & 31);
    case 0x76: return x >> (y & 31);
    case 0x77: return x << (y & 31) | x >> ((32 - y) & 31);
    default: return x;
    }
}

/* Runs a body from its first byte to its last, with variables that are 0; what it doesn't know it passes over, byte by byte. */
static uint32_t run(struct reader body)
{
    struct stack stack = {{0}, 0};

    while (body.at < body.end) {
        uint8_t opcode = *body.at++;
        if (opcode == 0x41) {
            push(&stack, read_number(&body));
        } else if (opcode == 0x20 || opcode == 0x23) {
            read_number(&body);
            push(&stack, 0);
        } else if (opcode == 0x45) {
            push(&stack, pop(&stack) == 0);
        } else if (opcode >= 0x46 && opcode <= 0x78) {
            uint32_t y = pop(&stack), x = pop(&stack);
            push(&stack, combine(opcode, x, y));
        }
    }
    return pop(&stack);
}

/* Answers a number that depends on all bodies. */
static uint32_t run_bodies(struct reader section)
{
    uint32_t count = read_number(&section), sum = 0;

    while (count-- > 0 && section.at < section.end) {
        sum = sum * 31 + run(read_part(&section));
    }
    return sum;
}

/* Answers how many globals are mutable: each has a type, a byte for that, and an initializer up to an `end`. */
static uint32_t count_mutable(struct reader section)
{
    uint32_t count = read_number(&section), sum = 0;

    while (count-- > 0 && section.end - section.at > 2) {
        sum += section.at[1];
        section.at += 2;
        while (section.at < section.end && *section.at++ != 0x0b) {
        }
    }
    return sum;
}

int main(int count, char **arguments)
{
    static uint8_t data[1 << 20];
    FILE *file = count > 1 ? fopen(arguments[1], "rb") : stdin;
    size_t size = file != NULL ? fread(data, 1, sizeof data, file) : 0;
    struct reader module = {data + sizeof preamble, data + size};
    uint32_t globals = 0, sum = 0;

    if (size < sizeof preamble || memcmp(data, preamble, sizeof preamble) != 0) {
        return 1;
    }
    while (module.at < module.end) {
        uint8_t id = *module.at++;
        struct reader section = read_part(&module);
        if (id == 6) {
            globals = count_mutable(section);
        } else if (id == 10) {
            sum = run_bodies(section);
        }
    }
    printf("%u mutable globals, %u\n", (unsigned int)globals, (unsigned int)sum);
    return 0;
}
