// floats.wat in C, for its answers alone: floats are the integers that have their bits, and C's floats are only compared.
#include <string.h>

#include "module.h"

static uint32_t f32_neg(uint32_t x) { return x ^ 0x80000000u; }
static uint64_t f64_neg(uint64_t x) { return x ^ 0x8000000000000000ull; }
static uint32_t f32_abs(uint32_t x) { return x & 0x7fffffffu; }
static uint64_t f64_abs(uint64_t x) { return x & 0x7fffffffffffffffull; }
static uint32_t f32_copysign(uint32_t x, uint32_t y) { return (x & 0x7fffffffu) | (y & 0x80000000u); }
static uint64_t f64_copysign(uint64_t x, uint64_t y) { return (x & 0x7fffffffffffffffull) | (y & 0x8000000000000000ull); }

#define COMPARISON(name, bits, type, operator) \
    static uint32_t name(bits x, bits y) \
    { \
        type first, second; \
        memcpy(&first, &x, sizeof first); \
        memcpy(&second, &y, sizeof second); \
        return first operator second; \
    }

COMPARISON(f32_eq, uint32_t, float, ==)
COMPARISON(f32_ne, uint32_t, float, !=)
COMPARISON(f32_lt, uint32_t, float, <)
COMPARISON(f32_gt, uint32_t, float, >)
COMPARISON(f32_le, uint32_t, float, <=)
COMPARISON(f32_ge, uint32_t, float, >=)
COMPARISON(f64_eq, uint64_t, double, ==)
COMPARISON(f64_ne, uint64_t, double, !=)
COMPARISON(f64_lt, uint64_t, double, <)
COMPARISON(f64_gt, uint64_t, double, >)
COMPARISON(f64_le, uint64_t, double, <=)
COMPARISON(f64_ge, uint64_t, double, >=)

static uint32_t bits;

static uint32_t next_f32(void)
{
    bits += 0x9e3779b9u;
    return bits;
}

static uint64_t next_f64(void)
{
    bits += 0x9e3779b9u;
    return bits * 0x9e3779b97f4a7c15ull;
}

uint64_t drop_double_float_negation(uint32_t s, uint32_t t, uint64_t p, uint64_t q)
{
    uint32_t x = s;
    uint64_t u = p;
    uint64_t digest = 0;
    digest = taken(digest, f32_neg(f32_neg(x)));
    digest = taken(digest, f64_neg(f64_neg(u)));
    return digest;
}

uint64_t drop_neg_in_abs(uint32_t s, uint32_t t, uint64_t p, uint64_t q)
{
    uint32_t x = s;
    uint64_t u = p;
    uint64_t digest = 0;
    digest = taken(digest, f32_abs(f32_neg(x)));
    digest = taken(digest, f64_abs(f64_neg(u)));
    return digest;
}

uint64_t neg_in_abs(uint32_t s, uint32_t t, uint64_t p, uint64_t q)
{
    uint32_t x = s;
    uint64_t u = p;
    uint64_t digest = 0;
    digest = taken(digest, f32_abs(x));
    digest = taken(digest, f64_abs(u));
    return digest;
}

uint64_t drop_abs_again(uint32_t s, uint32_t t, uint64_t p, uint64_t q)
{
    uint32_t x = s;
    uint64_t u = p;
    uint64_t digest = 0;
    digest = taken(digest, f32_abs(f32_abs(x)));
    digest = taken(digest, f64_abs(f64_abs(u)));
    return digest;
}

uint64_t drop_reinterpretations(uint32_t s, uint32_t t, uint64_t p, uint64_t q)
{
    uint32_t x = s;
    uint64_t u = p;
    uint64_t digest = 0;
    digest = taken(digest, x);
    digest = taken(digest, s);
    digest = taken(digest, u);
    digest = taken(digest, p);
    return digest;
}

uint64_t neg_to_bits(uint32_t s, uint32_t t, uint64_t p, uint64_t q)
{
    uint32_t x = s;
    uint64_t u = p;
    uint64_t digest = 0;
    digest = taken(digest, f32_neg(x));
    digest = taken(digest, f64_neg(u));
    return digest;
}

uint64_t bits_to_neg(uint32_t s, uint32_t t, uint64_t p, uint64_t q)
{
    uint32_t x = s;
    uint64_t u = p;
    uint64_t digest = 0;
    digest = taken(digest, x ^ 0x80000000u);
    digest = taken(digest, u ^ 0x8000000000000000ull);
    return digest;
}

uint64_t bits_to_abs(uint32_t s, uint32_t t, uint64_t p, uint64_t q)
{
    uint32_t x = s;
    uint64_t u = p;
    uint64_t digest = 0;
    digest = taken(digest, x & 0x7fffffffu);
    digest = taken(digest, u & 0x7fffffffffffffffull);
    return digest;
}

uint64_t neg_abs_to_bits(uint32_t s, uint32_t t, uint64_t p, uint64_t q)
{
    uint32_t x = s;
    uint64_t u = p;
    uint64_t digest = 0;
    digest = taken(digest, f32_neg(f32_abs(x)));
    digest = taken(digest, f64_neg(f64_abs(u)));
    return digest;
}

uint64_t bits_to_neg_abs(uint32_t s, uint32_t t, uint64_t p, uint64_t q)
{
    uint32_t x = s;
    uint64_t u = p;
    uint64_t digest = 0;
    digest = taken(digest, x | 0x80000000u);
    digest = taken(digest, u | 0x8000000000000000ull);
    return digest;
}

uint64_t neg_behind_bits(uint32_t s, uint32_t t, uint64_t p, uint64_t q)
{
    uint32_t x = s;
    uint64_t u = p;
    uint64_t digest = 0;
    digest = taken(digest, f32_neg(x));
    digest = taken(digest, f64_neg(u));
    return digest;
}

uint64_t neg_before_bits(uint32_t s, uint32_t t, uint64_t p, uint64_t q)
{
    uint32_t x = s;
    uint64_t u = p;
    uint64_t digest = 0;
    digest = taken(digest, x ^ 0x80000000u);
    digest = taken(digest, u ^ 0x8000000000000000ull);
    return digest;
}

uint64_t abs_behind_bits(uint32_t s, uint32_t t, uint64_t p, uint64_t q)
{
    uint32_t x = s;
    uint64_t u = p;
    uint64_t digest = 0;
    digest = taken(digest, f32_abs(x));
    digest = taken(digest, f64_abs(u));
    return digest;
}

uint64_t abs_before_bits(uint32_t s, uint32_t t, uint64_t p, uint64_t q)
{
    uint32_t x = s;
    uint64_t u = p;
    uint64_t digest = 0;
    digest = taken(digest, x & 0x7fffffffu);
    digest = taken(digest, u & 0x7fffffffffffffffull);
    return digest;
}

uint64_t drop_neg_in_copysign(uint32_t s, uint32_t t, uint64_t p, uint64_t q)
{
    uint32_t x = s;
    uint32_t y = t;
    uint64_t u = p;
    uint64_t v = q;
    uint64_t digest = 0;
    digest = taken(digest, f32_copysign(f32_neg(x), y));
    digest = taken(digest, f64_copysign(f64_neg(u), v));
    return digest;
}

uint64_t neg_in_copysign(uint32_t s, uint32_t t, uint64_t p, uint64_t q)
{
    uint32_t x = s;
    uint32_t y = t;
    uint64_t u = p;
    uint64_t v = q;
    uint64_t digest = 0;
    digest = taken(digest, f32_copysign(x, y));
    digest = taken(digest, f64_copysign(u, v));
    return digest;
}

uint64_t drop_abs_in_copysign(uint32_t s, uint32_t t, uint64_t p, uint64_t q)
{
    uint32_t x = s;
    uint32_t y = t;
    uint64_t u = p;
    uint64_t v = q;
    uint64_t digest = 0;
    digest = taken(digest, f32_copysign(f32_abs(x), y));
    digest = taken(digest, f64_copysign(f64_abs(u), v));
    return digest;
}

uint64_t drop_copysign_of_self(uint32_t s, uint32_t t, uint64_t p, uint64_t q)
{
    uint32_t x = s;
    uint64_t u = p;
    uint64_t digest = 0;
    digest = taken(digest, f32_copysign(x, x));
    digest = taken(digest, f64_copysign(u, u));
    return digest;
}

uint64_t abs_of_copysign(uint32_t s, uint32_t t, uint64_t p, uint64_t q)
{
    uint32_t x = s;
    uint32_t y = t;
    uint64_t u = p;
    uint64_t v = q;
    uint64_t digest = 0;
    digest = taken(digest, f32_abs(f32_copysign(x, y)));
    digest = taken(digest, f64_abs(f64_copysign(u, v)));
    return digest;
}

uint64_t drop_first_copysign(uint32_t s, uint32_t t, uint64_t p, uint64_t q)
{
    uint32_t x = s;
    uint32_t y = t;
    uint32_t z = s ^ t;
    uint64_t u = p;
    uint64_t v = q;
    uint64_t w = p ^ q;
    uint64_t digest = 0;
    digest = taken(digest, f32_copysign(f32_copysign(x, y), z));
    digest = taken(digest, f64_copysign(f64_copysign(u, v), w));
    return digest;
}

uint64_t drop_inner_copysign(uint32_t s, uint32_t t, uint64_t p, uint64_t q)
{
    uint32_t x = s;
    uint32_t y = t;
    uint32_t z = s ^ t;
    uint64_t u = p;
    uint64_t v = q;
    uint64_t w = p ^ q;
    uint64_t digest = 0;
    digest = taken(digest, f32_copysign(x, f32_copysign(y, z)));
    digest = taken(digest, f64_copysign(u, f64_copysign(v, w)));
    return digest;
}

uint64_t neg_out_of_copysign(uint32_t s, uint32_t t, uint64_t p, uint64_t q)
{
    uint32_t x = s;
    uint32_t y = t;
    uint64_t u = p;
    uint64_t v = q;
    uint64_t digest = 0;
    digest = taken(digest, f32_copysign(x, f32_neg(y)));
    digest = taken(digest, f64_copysign(u, f64_neg(v)));
    return digest;
}

uint64_t neg_into_copysign(uint32_t s, uint32_t t, uint64_t p, uint64_t q)
{
    uint32_t x = s;
    uint32_t y = t;
    uint64_t u = p;
    uint64_t v = q;
    uint64_t digest = 0;
    digest = taken(digest, f32_neg(f32_copysign(x, y)));
    digest = taken(digest, f64_neg(f64_copysign(u, v)));
    return digest;
}

uint64_t drop_copysign_of_neg(uint32_t s, uint32_t t, uint64_t p, uint64_t q)
{
    uint32_t x = s;
    uint64_t u = p;
    uint64_t digest = 0;
    digest = taken(digest, f32_copysign(x, f32_neg(x)));
    digest = taken(digest, f64_copysign(u, f64_neg(u)));
    return digest;
}

uint64_t drop_copysign_of_abs(uint32_t s, uint32_t t, uint64_t p, uint64_t q)
{
    uint32_t x = s;
    uint64_t u = p;
    uint64_t digest = 0;
    digest = taken(digest, f32_copysign(x, f32_abs(x)));
    digest = taken(digest, f64_copysign(u, f64_abs(u)));
    return digest;
}

uint64_t commute_floats(uint32_t s, uint32_t t, uint64_t p, uint64_t q)
{
    uint32_t x = s;
    uint32_t y = t;
    uint64_t u = p;
    uint64_t v = q;
    uint64_t digest = 0;
    digest = taken(digest, f32_eq(x, y));
    digest = taken(digest, f32_ne(x, y));
    digest = taken(digest, f64_eq(u, v));
    digest = taken(digest, f64_ne(u, v));
    return digest;
}

uint64_t turn_floats(uint32_t s, uint32_t t, uint64_t p, uint64_t q)
{
    uint32_t x = s;
    uint32_t y = t;
    uint64_t u = p;
    uint64_t v = q;
    uint64_t digest = 0;
    digest = taken(digest, f32_lt(x, y));
    digest = taken(digest, f32_gt(x, y));
    digest = taken(digest, f32_le(x, y));
    digest = taken(digest, f32_ge(x, y));
    digest = taken(digest, f64_lt(u, v));
    digest = taken(digest, f64_gt(u, v));
    digest = taken(digest, f64_le(u, v));
    digest = taken(digest, f64_ge(u, v));
    return digest;
}

uint64_t drop_float_negation(uint32_t s, uint32_t t, uint64_t p, uint64_t q)
{
    uint32_t x = s;
    uint32_t y = t;
    uint64_t u = p;
    uint64_t v = q;
    uint64_t digest = 0;
    digest = taken(digest, !f32_eq(x, y));
    digest = taken(digest, !f32_ne(x, y));
    digest = taken(digest, !f64_eq(u, v));
    digest = taken(digest, !f64_ne(u, v));
    return digest;
}

uint64_t cancel_float_comparison(uint32_t s, uint32_t t, uint64_t p, uint64_t q)
{
    uint32_t x = s;
    uint64_t v = q;
    uint64_t digest = 0;
    digest = taken(digest, f32_lt(x, x));
    digest = taken(digest, f32_gt(x, x));
    digest = taken(digest, f64_lt(v, v));
    digest = taken(digest, f64_gt(v, v));
    return digest;
}

uint64_t self_equality_to_le(uint32_t s, uint32_t t, uint64_t p, uint64_t q)
{
    uint32_t x = s;
    uint64_t u = p;
    uint64_t digest = 0;
    digest = taken(digest, f32_eq(x, x));
    digest = taken(digest, f64_eq(u, u));
    return digest;
}

uint64_t self_order_to_equality(uint32_t s, uint32_t t, uint64_t p, uint64_t q)
{
    uint32_t x = s;
    uint64_t u = p;
    uint64_t digest = 0;
    digest = taken(digest, f32_le(x, x));
    digest = taken(digest, f32_ge(x, x));
    digest = taken(digest, f64_le(u, u));
    digest = taken(digest, f64_ge(u, u));
    return digest;
}

uint64_t drop_compared_negations(uint32_t s, uint32_t t, uint64_t p, uint64_t q)
{
    uint32_t x = s;
    uint32_t y = t;
    uint64_t u = p;
    uint64_t v = q;
    uint64_t digest = 0;
    digest = taken(digest, f32_eq(f32_neg(x), f32_neg(y)));
    digest = taken(digest, f32_ne(f32_neg(x), f32_neg(y)));
    digest = taken(digest, f32_lt(f32_neg(x), f32_neg(y)));
    digest = taken(digest, f32_gt(f32_neg(x), f32_neg(y)));
    digest = taken(digest, f32_le(f32_neg(x), f32_neg(y)));
    digest = taken(digest, f32_ge(f32_neg(x), f32_neg(y)));
    digest = taken(digest, f64_eq(f64_neg(u), f64_neg(v)));
    digest = taken(digest, f64_ne(f64_neg(u), f64_neg(v)));
    digest = taken(digest, f64_lt(f64_neg(u), f64_neg(v)));
    digest = taken(digest, f64_gt(f64_neg(u), f64_neg(v)));
    digest = taken(digest, f64_le(f64_neg(u), f64_neg(v)));
    digest = taken(digest, f64_ge(f64_neg(u), f64_neg(v)));
    return digest;
}

uint64_t negate_compared(uint32_t s, uint32_t t, uint64_t p, uint64_t q)
{
    uint32_t x = s;
    uint32_t y = t;
    uint64_t u = p;
    uint64_t v = q;
    uint64_t digest = 0;
    digest = taken(digest, f32_eq(y, x));
    digest = taken(digest, f32_ne(y, x));
    digest = taken(digest, f32_lt(y, x));
    digest = taken(digest, f32_gt(y, x));
    digest = taken(digest, f32_le(y, x));
    digest = taken(digest, f32_ge(y, x));
    digest = taken(digest, f64_eq(v, u));
    digest = taken(digest, f64_ne(v, u));
    digest = taken(digest, f64_lt(v, u));
    digest = taken(digest, f64_gt(v, u));
    digest = taken(digest, f64_le(v, u));
    digest = taken(digest, f64_ge(v, u));
    return digest;
}

uint64_t orders_to_equality(uint32_t s, uint32_t t, uint64_t p, uint64_t q)
{
    uint32_t x = s;
    uint32_t y = t;
    uint64_t u = p;
    uint64_t v = q;
    uint64_t digest = 0;
    digest = taken(digest, f32_le(x, y) & f32_ge(x, y));
    digest = taken(digest, f64_le(u, v) & f64_ge(u, v));
    return digest;
}

uint64_t parts_to_order(uint32_t s, uint32_t t, uint64_t p, uint64_t q)
{
    uint32_t x = s;
    uint32_t y = t;
    uint64_t u = p;
    uint64_t v = q;
    uint64_t digest = 0;
    digest = taken(digest, f32_lt(x, y) | f32_eq(x, y));
    digest = taken(digest, f32_gt(x, y) | f32_eq(x, y));
    digest = taken(digest, f64_lt(u, v) | f64_eq(u, v));
    digest = taken(digest, f64_gt(u, v) | f64_eq(u, v));
    return digest;
}

// Operands in the order in which they run: C leaves that of a call's arguments open.
uint64_t calls(uint32_t s, uint32_t t, uint64_t p, uint64_t q)
{
    uint64_t digest = p ^ q;
    uint32_t x, y, z, w;
    uint64_t k, l, m, n;
    bits = s + t;
    x = next_f32(), y = next_f32(), digest = taken(digest, f32_copysign(x, y));
    k = next_f64(), l = next_f64(), digest = taken(digest, f64_copysign(k, l));
    x = next_f32(), y = next_f32(), digest = taken(digest, f32_abs(x));
    k = next_f64(), l = next_f64(), digest = taken(digest, f64_copysign(k, l));
    x = next_f32(), y = next_f32(), z = next_f32(), digest = taken(digest, f32_copysign(x, z));
    k = next_f64(), l = next_f64(), m = next_f64(), digest = taken(digest, f64_copysign(k, m));
    x = next_f32(), y = next_f32(), digest = taken(digest, f32_copysign(x, f32_neg(y)));
    k = next_f64(), l = next_f64(), digest = taken(digest, f64_abs(k));
    x = next_f32(), y = next_f32(), digest = taken(digest, f32_lt(x, y));
    k = next_f64(), l = next_f64(), digest = taken(digest, f64_gt(k, l));
    x = next_f32(), y = next_f32(), digest = taken(digest, f32_eq(x, y));
    k = next_f64(), l = next_f64(), digest = taken(digest, f64_le(k, l));
    x = next_f32(), y = next_f32(), digest = taken(digest, f32_ge(f32_neg(x), f32_neg(y)));
    k = next_f64(), l = next_f64(), m = next_f64(), n = next_f64(), digest = taken(digest, f64_le(k, l) & f64_ge(m, n));
    x = next_f32(), y = next_f32(), z = next_f32(), w = next_f32(), digest = taken(digest, f32_lt(x, y) | f32_eq(z, w));
    return taken(digest, bits);
}

uint64_t locals(uint32_t s, uint32_t t, uint64_t p, uint64_t q)
{
    uint64_t digest = 0;
    digest = taken(digest, f32_gt(s, t));
    digest = taken(digest, f32_neg(t));
    digest = taken(digest, t);
    digest = taken(digest, t);
    digest = taken(digest, f64_abs(p));
    digest = taken(digest, f64_eq(q, f64_neg(q)));
    digest = taken(digest, f64_le(f64_abs(q), f64_abs(q)));
    digest = taken(digest, f64_ne(f64_neg(f64_abs(q)), f64_neg(p)));
    return taken(digest, p);
}

uint64_t loads(uint32_t s, uint32_t t, uint64_t p, uint64_t q)
{
    uint64_t digest = 0;
    digest = taken(digest, s);
    digest = taken(digest, f64_copysign(p, f64_neg(q)));
    digest = taken(digest, f64_lt(p, f64_neg(q)));
    digest = taken(digest, f32_le(s, t));
    digest = taken(digest, f32_eq(f32_abs(t), f32_abs(t)));
    digest = taken(digest, f32_neg(f32_abs(t)));
    return taken(digest, f32_neg(f32_abs(t)));
}

uint64_t traps(uint32_t s, uint32_t t, uint64_t p, uint64_t q)
{
    uint32_t quotient = s / t;
    uint64_t other = p / q;
    uint64_t digest = 0;
    (void)quotient;
    (void)other;
    digest = taken(digest, f32_abs(s));
    digest = taken(digest, p);
    return taken(digest, 0);
}
