/* The integer functions of tools/soft/soft.c beside the floats of this processor: native N SEED, N random cases of each function.
 * A result is to have the processor's bits, and a NaN those of the positive canonical one. Prints how many differ; ends with 1 where one does.
 * Build: cc -O2 -ffp-contract=off -Wno-attributes native.c -o native -lm (x86-64 or another processor with IEEE 754 binary32 and binary64). */
#include <math.h>
#include <stdio.h>
#include <stdlib.h>
#include <string.h>
#include "../../tools/soft/soft.c"

static unsigned long long state, bad, done;
static u64 any(void) { state ^= state << 13, state ^= state >> 7, state ^= state << 17; return state; }
static double d(u64 x) { double y; memcpy(&y, &x, 8); return y; }
static float f(u32 x) { float y; memcpy(&y, &x, 4); return y; }
static u64 bd(double x) { u64 y; if (x != x) return 0x7ff8000000000000ull; memcpy(&y, &x, 8); return y; }
static u32 bf(float x) { u32 y; if (x != x) return 0x7fc00000; memcpy(&y, &x, 4); return y; }

/* Bits of a float: any, of a small exponent, subnormal, a small whole or half number, at an edge, or near the powers of two that conversions end at. */
static u64 case64(void) {
    static const u64 edges[] = {0, 1, 0xfffffffffffffull, 0x10000000000000ull, 0x3fdfffffffffffffull, 0x3fe0000000000000ull, 0x3fe0000000000001ull, 0x3ff0000000000000ull,
        0x7fefffffffffffffull, 0x7ff0000000000000ull, 0x7ff0000000000001ull, 0x7ff8000000000000ull, 0x7fffffffffffffffull, 0x4330000000000000ull, 0x432fffffffffffffull,
        0x36a0000000000000ull, 0x3690000000000000ull, 0x3690000000000001ull, 0x47efffffe0000000ull, 0x47effffff0000000ull, 0x380fffffffffffffull, 0x3810000000000000ull};
    u64 r = any(), s = r & 0x8000000000000000ull, g = any();
    switch (g % 8) {
    case 0: return r;
    case 1: return s | (r & 0xfffffffffffffull) | (u64)(1013 + (g >> 8) % 20) << 52;
    case 2: return r & 0x800fffffffffffffull;
    case 3: { double v = (double)((s64)(r % 4001) - 2000) / 4; u64 y; memcpy(&y, &v, 8); return y; }
    case 4: return s | edges[(g >> 8) % (sizeof edges / sizeof *edges)];
    case 5: return (s | (u64)(1023 + 29 + (g >> 8) % 37) << 52) + (s64)(r % 9) - 4;
    case 6: return s | (r & 0xfffffffffffffull & ~0ull << (g >> 8) % 53) | (u64)(1 + (g >> 16) % 2046) << 52;
    default: return s | (r & 0xfffffffffffffull) | (u64)(1023 - 160 + (g >> 8) % 300) << 52;
    }
}
static u32 case32(void) {
    u64 r = any(), g = any();
    u32 s = (u32)r & 0x80000000u, m = (u32)(r >> 32);
    static const u32 edges[] = {0, 1, 0x7fffff, 0x800000, 0x3effffff, 0x3f000000, 0x3f000001, 0x3f800000, 0x7f7fffff, 0x7f800000, 0x7f800001, 0x7fc00000, 0x7fffffff, 0x4b000000, 0x4affffff};
    switch (g % 8) {
    case 0: return m;
    case 1: return s | (m & 0x7fffff) | (u32)(117 + (g >> 8) % 20) << 23;
    case 2: return m & 0x807fffff;
    case 3: { float v = (float)((s32)(m % 4001) - 2000) / 4; u32 y; memcpy(&y, &v, 4); return y; }
    case 4: return s | edges[(g >> 8) % (sizeof edges / sizeof *edges)];
    case 5: return (s | (u32)(127 + 29 + (g >> 8) % 37) << 23) + (s32)(m % 9) - 4;
    case 6: return s | (m & 0x7fffff & ~0u << (g >> 8) % 24) | (u32)(1 + (g >> 16) % 254) << 23;
    default: return s | (m & 0x7fffff) | (u32)((g >> 8) % 255) << 23;
    }
}
static u64 whole64(void) { u64 r = any(), g = any(); switch (g % 4) { case 0: return r; case 1: return r >> (g >> 8) % 64; case 2: return 0 - (r >> (g >> 8) % 64); default: return ((u64)1 << (g >> 8) % 64) + (s64)(r % 9) - 4; } }

#define IS(name, got, want) do { u64 g_ = (got), w_ = (want); done++; if (g_ != w_ && bad++ < 20) printf("%s %llx %llx: %llx, and not %llx\n", name, (u64)a, (u64)b, g_, w_); } while (0)
#define TO(name, low, high, x, T, U, sat, min, max) do { if ((x) > (low) && (x) < (high)) { IS(#name, name(a), (U)(T)(x)); IS(#sat, sat(a), (U)(T)(x)); } \
    else IS(#sat, sat(a), (x) != (x) ? 0 : (x) <= (low) ? (U)(min) : (U)(max)); } while (0)
#define SIDE(W, T, R, v, bits, c) do { T a = c(), b = c(); R x = v(a), y = v(b); if (any() % 8 == 0) { b = a + (T)(any() % 3) - 1; y = v(b); } \
    IS("add" #W, f##W##_add(a, b), bits(x + y)); IS("sub" #W, f##W##_sub(a, b), bits(x - y)); IS("mul" #W, f##W##_mul(a, b), bits(x * y)); \
    IS("div" #W, f##W##_div(a, b), bits(x / y)); IS("sqrt" #W, f##W##_sqrt(a), bits(W == 64 ? (R)sqrt(x) : (R)sqrtf((float)x))); \
    IS("trunc" #W, f##W##_trunc(a), bits((R)trunc(x))); IS("floor" #W, f##W##_floor(a), bits((R)floor(x))); IS("ceil" #W, f##W##_ceil(a), bits((R)ceil(x))); \
    IS("nearest" #W, f##W##_nearest(a), bits((R)nearbyint(x))); \
    IS("eq" #W, f##W##_eq(a, b), x == y); IS("ne" #W, f##W##_ne(a, b), x != y); IS("lt" #W, f##W##_lt(a, b), x < y); IS("le" #W, f##W##_le(a, b), x <= y); \
    IS("gt" #W, f##W##_gt(a, b), x > y); IS("ge" #W, f##W##_ge(a, b), x >= y); \
    { R lo = x < y ? x : y, hi = x < y ? y : x; T z = 0; if (x != x || y != y) lo = hi = x + y; else if (x == 0 && y == 0) { z = 1; } \
      IS("min" #W, f##W##_min(a, b), z ? bits(signbit(x) || signbit(y) ? (R)-0.0 : (R)0.0) : bits(lo)); \
      IS("max" #W, f##W##_max(a, b), z ? bits(signbit(x) && signbit(y) ? (R)-0.0 : (R)0.0) : bits(hi)); } \
    if (x == x) IS("copysign" #W, f##W##_copysign(a, b), bits((R)(W == 64 ? copysign(x, signbit(y) ? -1.0 : 1.0) : copysignf((float)x, signbit(y) ? -1.0f : 1.0f)))); \
    TO(i32_trunc_f##W##_s, -2147483649.0, 2147483648.0, (double)x, s32, u32, i32_trunc_sat_f##W##_s, 0x80000000u, 0x7fffffffu); \
    TO(i32_trunc_f##W##_u, -1.0, 4294967296.0, (double)x, u64, u32, i32_trunc_sat_f##W##_u, 0, 0xffffffffu); \
    if (x == (R)-9223372036854775808.0) IS("i64s", i64_trunc_f##W##_s(a), 1ull << 63); \
    else TO(i64_trunc_f##W##_s, (R)-9223372036854775808.0, (R)9223372036854775808.0, x, s64, u64, i64_trunc_sat_f##W##_s, 1ull << 63, ~0ull >> 1); \
    TO(i64_trunc_f##W##_u, (R)-1.0, (R)18446744073709551616.0, x, u64, u64, i64_trunc_sat_f##W##_u, 0, ~0ull); \
    { u64 w = whole64(); u32 h = (u32)w; b = 0; a = (T)w; \
      IS("convert i32 s" #W, f##W##_convert_i32_s(h), bits((R)(s32)h)); IS("convert i32 u" #W, f##W##_convert_i32_u(h), bits((R)h)); \
      IS("convert i64 s" #W, f##W##_convert_i64_s(w), bits((R)(s64)w)); IS("convert i64 u" #W, f##W##_convert_i64_u(w), bits((R)w)); } } while (0)

int main(int argc, char **argv) {
    unsigned long long n = argc > 1 ? strtoull(argv[1], 0, 10) : 1000000;
    state = argc > 2 ? strtoull(argv[2], 0, 10) * 2 + 1 : 88172645463325252ull;
    while (n--) {
        SIDE(32, u32, float, f, bf, case32);
        SIDE(64, u64, double, d, bd, case64);
        { u32 a = case32(), b = 0; IS("promote", f64_promote_f32(a), bd((double)f(a))); }
        { u64 a = case64(), b = 0; IS("demote", f32_demote_f64(a), bf((float)d(a))); }
    }
    printf("native: %llu results, %llu differ from the processor's\n", done, bad);
    return bad != 0;
}
