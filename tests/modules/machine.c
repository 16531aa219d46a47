// A machine with a stack that runs small programs, one byte an instruction: a switch over the instructions, and calls through a
// table of functions.
#include "module.h"

enum {
    END, // Gives the top of the stack.
    NUMBER, // Pushes the next byte.
    ARGUMENT, // Pushes the argument of the run.
    COPY,
    SECOND,
    DROP,
    EXCHANGE,
    ADD,
    SUBTRACT,
    MULTIPLY,
    AND,
    XOR,
    SHIFT,
    IS_BELOW,
    CALL, // Calls the function of the next byte on the two upper ones.
    BACK, // Goes back by the next byte where the top, which it takes, is not zero.
    AHEAD, // Goes ahead by the next byte where the top, which it takes, is zero.
};

static const uint8_t sum_of_squares[] = {
    // The sum, which is 0, and a number below 64.
    NUMBER, 0, ARGUMENT, NUMBER, 63, AND,
    // The sum with the number's square, and the number less one; again while that is above 0.
    EXCHANGE, SECOND, COPY, MULTIPLY, ADD, EXCHANGE, NUMBER, 1, SUBTRACT, COPY, NUMBER, 64, IS_BELOW, AHEAD, 3, COPY, BACK, 18,
    DROP, END,
};
static const uint8_t mix[] = {
    ARGUMENT, COPY, NUMBER, 13, SHIFT, XOR, COPY, NUMBER, 239, SHIFT, XOR, NUMBER, 77, MULTIPLY, ARGUMENT, CALL, 3, END,
};
static const uint8_t steps[] = {
    NUMBER, 1, ARGUMENT, NUMBER, 15, AND, NUMBER, 1, ADD,
    EXCHANGE, SECOND, CALL, 2, NUMBER, 7, CALL, 4, EXCHANGE, NUMBER, 1, SUBTRACT, COPY, BACK, 15,
    DROP, ARGUMENT, CALL, 1, END,
};
static const uint8_t branches[] = {
    ARGUMENT, NUMBER, 10, IS_BELOW, AHEAD, 4, NUMBER, 100, CALL, 5,
    ARGUMENT, NUMBER, 1, AND, AHEAD, 5, ARGUMENT, NUMBER, 3, MULTIPLY, END,
    ARGUMENT, NUMBER, 255, SHIFT, END,
};

static const uint8_t *const programs[] = {sum_of_squares, mix, steps, branches};

static uint32_t lesser(uint32_t a, uint32_t b)
{
    return a < b ? a : b;
}

static uint32_t greater(uint32_t a, uint32_t b)
{
    return (int32_t)a > (int32_t)b ? a : b;
}

static uint32_t product(uint32_t a, uint32_t b)
{
    return a * b + 1;
}

static uint32_t turned(uint32_t a, uint32_t b)
{
    return (a << (b & 31)) | (a >> (-b & 31));
}

static uint32_t rest(uint32_t a, uint32_t b)
{
    return b == 0 ? a : a % b ^ a;
}

static uint32_t middle(uint32_t a, uint32_t b)
{
    return (a & b) + ((a ^ b) >> 1);
}

static uint32_t difference(uint32_t a, uint32_t b)
{
    return a > b ? a - b : b - a;
}

static uint32_t stop(uint32_t a, uint32_t b)
{
    if (a == b) {
        __builtin_trap();
    }
    return a ^ ~b;
}

typedef uint32_t function(uint32_t, uint32_t);

static function *const functions[] = {lesser, greater, product, turned, rest, middle, difference, stop};

static uint32_t call(uint32_t number, uint32_t a, uint32_t b)
{
    return functions[number & 7](a, b);
}

// Runs a program on an argument; the stack holds 16 numbers, and a run takes at most a thousand instructions.
uint32_t EXPORTED(run)(uint32_t number, uint32_t argument)
{
    uint32_t stack[16] = {0};
    uint32_t top = 0;
    const uint8_t *at = programs[number & 3];
    for (uint32_t count = 0; count < 1000; count++) {
        uint32_t upper = stack[top & 15];
        uint32_t lower = stack[(top - 1) & 15];
        switch (*at++) {
        case END:
            return upper;
        case NUMBER:
            stack[++top & 15] = *at++;
            break;
        case ARGUMENT:
            stack[++top & 15] = argument;
            break;
        case COPY:
            stack[++top & 15] = upper;
            break;
        case SECOND:
            stack[++top & 15] = lower;
            break;
        case DROP:
            top--;
            break;
        case EXCHANGE:
            stack[top & 15] = lower;
            stack[(top - 1) & 15] = upper;
            break;
        case ADD:
            stack[--top & 15] = lower + upper;
            break;
        case SUBTRACT:
            stack[--top & 15] = lower - upper;
            break;
        case MULTIPLY:
            stack[--top & 15] = lower * upper;
            break;
        case AND:
            stack[--top & 15] = lower & upper;
            break;
        case XOR:
            stack[--top & 15] = lower ^ upper;
            break;
        case SHIFT:
            stack[--top & 15] = upper < 128 ? lower << (upper & 31) : lower >> (-upper & 31);
            break;
        case IS_BELOW:
            stack[--top & 15] = lower < upper;
            break;
        case CALL:
            stack[--top & 15] = call(*at++, lower, upper);
            break;
        case BACK:
            top--;
            at += 1 - (upper != 0 ? (int32_t)*at : 0);
            break;
        case AHEAD:
            top--;
            at += 1 + (upper == 0 ? (int32_t)*at : 0);
            break;
        default:
            __builtin_unreachable();
        }
    }
    return 0xffffffffu;
}

// What the function of this number gives; traps where function 7 is called on two equal numbers.
uint32_t EXPORTED(applied)(uint32_t number, uint32_t a, uint32_t b)
{
    return call(number, a, b);
}

// The words from a start on, each taken into the sum of those before it by the function of this number.
uint32_t EXPORTED(folded)(uint32_t number, uint32_t start, uint32_t count)
{
    function *with = functions[number % 7];
    uint32_t sum = start;
    for (uint32_t i = 1; i <= count; i++) {
        sum = with(sum, start * i + 3);
    }
    return sum;
}

uint32_t EXPORTED(name_of)(uint32_t letter)
{
    switch (letter) {
    case 'a':
        return 11;
    case 'b':
        return 1009;
    case 'c':
        return letter * 5;
    case 'd':
        return call(letter, 3, 4);
    case 'e':
        return 0;
    case 'x':
        return 0xffffff00u;
    case 'y':
        return letter - 200;
    case 'z':
        return 1u << 31;
    default:
        return letter + 1;
    }
}

uint64_t EXPORTED(all)(void)
{
    uint64_t digest = 0;
    for (uint32_t i = 0; i < 40; i++) {
        digest = taken(digest, run(i, i * 37));
        digest = taken(digest, applied(i, i + 1, (uint32_t)digest | 512));
        digest = taken(digest, folded(i, i, 5));
        digest = taken(digest, name_of('a' + i % 27));
    }
    return digest;
}
