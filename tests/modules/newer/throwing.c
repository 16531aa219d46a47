// throwing.wat in C, for its answers alone: what is thrown and not caught ends in a trap.
#include "../module.h"

#include <setjmp.h>

enum tag { SHORT = 1, WIDE, NONE };

struct handler {
    jmp_buf at;
    struct handler *outer;
};

static struct handler *handler;
static uint32_t payload;
static uint64_t wide_payload;
static uint64_t thrown_so_far;

static void raise_tag(enum tag tag)
{
    struct handler *found = handler;
    if (found == 0) { __builtin_trap(); }
    handler = found->outer;
    longjmp(found->at, tag);
}

// Begins a handler: 0 at first, and then the tag of what was thrown.
#define HANDLED(own) (own.outer = handler, handler = &own, setjmp(own.at))
#define DONE(own) (handler = own.outer)

uint32_t quotient(uint32_t a, uint32_t b)
{
    uint64_t kept = (uint64_t)a * 16;
    if (b == 0) {
        thrown_so_far += kept;
        payload = a * 2 + 1;
        raise_tag(SHORT);
    }
    return (a / b) ^ (uint32_t)(kept >> 4);
}

uint64_t limited(uint64_t x, uint32_t n)
{
    double ratio = 0;
    uint32_t at = 0;
    do {
        if (x > 1ull << 40) {
            wide_payload = x - 3;
            raise_tag(WIDE);
        }
        if ((at & 31) == 31) { raise_tag(NONE); }
        ratio = ratio * 0.25 + at;
        x = x * 3 + (at ^ 5);
        at++;
    } while (at < n);
    return x ^ (uint64_t)(int64_t)(ratio * 256);
}

uint32_t caught(uint32_t a, uint32_t b)
{
    struct handler own;
    if (HANDLED(own) != 0) { return payload ^ 77; }
    uint32_t answer = quotient(a, b) + a * 4;
    DONE(own);
    return answer;
}

uint64_t caught_wide(uint64_t x, uint32_t n)
{
    struct handler own;
    switch (HANDLED(own)) {
    case 0: break;
    case WIDE: return wide_payload + 1;
    default: return -x;
    }
    uint64_t answer = limited(x, n);
    DONE(own);
    return answer;
}

uint32_t again(uint32_t a, uint32_t b)
{
    struct handler own;
    if (HANDLED(own) != 0) {
        thrown_so_far *= 2;
        return payload - 1;
    }
    uint32_t answer = quotient(a, b);
    DONE(own);
    return answer;
}

uint32_t handed_on(uint32_t a, uint32_t b)
{
    struct handler own;
    if (HANDLED(own) != 0) { return a << 1; }
    uint32_t answer = quotient(a, b);
    DONE(own);
    return answer;
}

uint64_t together(uint32_t n)
{
    uint64_t sum = 0;
    uint32_t at = 0;
    do {
        uint32_t first = caught(at * 8, at % 4);
        uint32_t second = again(n, at);
        uint32_t third = handed_on(at, at);
        sum = (sum << 5 | sum >> 59) + (first ^ (second - third));
        at++;
    } while (at < n);
    return sum - caught_wide((uint64_t)(int64_t)(int32_t)n, n * 2);
}

uint64_t thrown(void) { return thrown_so_far ^ (uint64_t)(int64_t)-15; }
