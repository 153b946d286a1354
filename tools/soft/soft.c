/* The float instructions of WebAssembly Core over integers: an f32 is its 32 bits, an f64 its 64 bits.
 *
 * Each exported function has the name of the instruction whose result it gives, with `_` for the dot: `f64_add` for `f64.add`. It gives
 * what the instruction gives: rounding to nearest, ties to even, subnormal numbers kept, a trap where the instruction traps. Where
 * Core leaves the bits of a NaN open, the answer is the positive canonical NaN (7fc00000, 7ff8000000000000), as the deterministic
 * profile of Core 3.0 has it.
 *
 * No memory, no table, no global and no call to the outside: tools/fit copies the functions that a module needs into it. build.sh
 * makes soft.wasm of this file. The parameter W of the functions below is 32 or 64 and a constant wherever they are used.
 */
typedef unsigned u32;
typedef unsigned long long u64;
typedef int s32;
typedef long long s64;

#define EXPORT(name) __attribute__((export_name(#name), noinline))
#define INLINE static inline __attribute__((always_inline))
#define APART static __attribute__((noinline))

#define FRACTION (W == 64 ? 52 : 23)                     /* bits of the fraction */
#define TOP (W == 64 ? 2047 : 255)                       /* the exponent of infinities and NaNs */
#define BIAS (TOP >> 1)
#define SIGN (1ull << (W - 1))
#define INF ((u64)TOP << FRACTION)
#define QUIET (INF | 1ull << (FRACTION - 1))             /* the positive canonical NaN */
#define ONE ((u64)BIAS << FRACTION)
#define HALF ((u64)(BIAS - 1) << FRACTION)

/* m / 2^n, whose lowest bit is also set where a bit was lost. */
INLINE u64 shifted(u64 m, s32 n) {
    if (n > 62) return m != 0;
    return m >> n | ((m & ((1ull << n) - 1)) != 0);
}

/* The float of sign s nearest to m / 2^62 * 2^(e - BIAS), where bit 62 is the highest of m, and its lowest is set where more was lost. */
INLINE u64 rounded(u64 s, s32 e, u64 m, int W) {
    u64 rest, r, half = 1ull << (61 - FRACTION);
    if (e >= TOP) return s | INF;
    if (e < 1) {
        m = shifted(m, 1 - e);
        e = 1;
    }
    rest = m & (2 * half - 1);
    r = m >> (62 - FRACTION);
    r += rest + (r & 1) > half;
    return s | (((u64)(e - 1) << FRACTION) + r);         /* a carry goes into the exponent, at the last one to infinity */
}

/* The same where the highest bit of m is at any place; m is not 0. */
INLINE u64 normal(u64 s, s32 e, u64 m, int W) {
    if (m >> 63) {
        m = m >> 1 | (m & 1);
        e++;
    } else {
        s32 k = (s32)__builtin_clzll(m) - 1;
        m <<= k;
        e -= k;
    }
    return rounded(s, e, m, W);
}
APART u64 normal64(u64 s, s32 e, u64 m) { return normal(s, e, m, 64); }
APART u32 normal32(u32 s, s32 e, u64 m) { return (u32)normal(s, e, m, 32); }
INLINE u64 made(u64 s, s32 e, u64 m, int W) { return W == 64 ? normal64(s, e, m) : normal32((u32)s, e, m); }

/* The parts of a finite float that is not 0: |a| is m / 2^62 * 2^(e - BIAS), and bit 62 is the highest of m. */
INLINE void parts(u64 a, s32 *e, u64 *m, int W) {
    u64 f = a & ((1ull << FRACTION) - 1);
    *e = (s32)(a >> FRACTION) & TOP;
    if (*e) {
        *m = (f | 1ull << FRACTION) << (62 - FRACTION);
    } else {
        s32 k = (s32)__builtin_clzll(f) - 1;
        *m = f << k;
        *e = 63 - FRACTION - k;
    }
}

INLINE u64 add(u64 a, u64 b, int W) {
    u64 x = a & ~SIGN, y = b & ~SIGN, t, p, q, s;
    s32 e, f;
    if (x > INF || y > INF) return QUIET;
    if (x < y) {
        t = a, a = b, b = t;
        t = x, x = y, y = t;
    }
    if (x == INF) return y == INF && (a ^ b) & SIGN ? QUIET : a;
    if (!y) return x ? a : a & b;
    parts(x, &e, &p, W);
    parts(y, &f, &q, W);
    q = shifted(q, e - f);
    s = a & SIGN;
    if (!((a ^ b) & SIGN)) return made(s, e, p + q, W);
    return p == q ? 0 : made(s, e, p - q, W);
}

INLINE u64 mul(u64 a, u64 b, int W) {
    u64 s = (a ^ b) & SIGN, x = a & ~SIGN, y = b & ~SIGN, p, q, m;
    s32 e, f;
    if (x > INF || y > INF) return QUIET;
    if (x == INF || y == INF) return x && y ? s | INF : QUIET;
    if (!x || !y) return s;
    parts(x, &e, &p, W);
    parts(y, &f, &q, W);
    if (W == 32) {
        m = (p >> 39) * (q >> 39) << 16;                 /* 24 bits by 24 bits */
    } else {
        u64 pl, ph, ql, qh, low, mid1, mid2, mid;
        p <<= 1, q <<= 1;
        pl = (u32)p, ph = p >> 32, ql = (u32)q, qh = q >> 32;
        low = pl * ql, mid1 = pl * qh, mid2 = ph * ql;
        mid = (low >> 32) + (u32)mid1 + (u32)mid2;
        m = ph * qh + (mid1 >> 32) + (mid2 >> 32) + (mid >> 32);
        if ((u32)low || (u32)mid) m |= 1;
    }
    return made(s, e + f - BIAS, m, W);                  /* m / 2^62 is the product, from 1 up to below 4 */
}

INLINE u64 quotient(u64 a, u64 b, int W) {
    u64 s = (a ^ b) & SIGN, x = a & ~SIGN, y = b & ~SIGN, p, q, m;
    s32 e, f, i;
    if (x > INF || y > INF) return QUIET;
    if (x == INF) return y == INF ? QUIET : s | INF;
    if (y == INF) return s;
    if (!y) return x ? s | INF : QUIET;
    if (!x) return s;
    parts(x, &e, &p, W);
    parts(y, &f, &q, W);
    if (W == 32) {
        p >>= 39, q >>= 39;
        m = (p << 39) / q;                               /* 39 or 40 bits of the quotient */
        if (p << 39 != m * q) m |= 1;
        return made(s, e - f + BIAS + 23, m, W);
    }
    p >>= 10, q >>= 10;
    m = p >= q;
    if (m) p -= q;
    for (i = 0; i < 5; i++) {                            /* 11 bits at a time: 55 or 56 bits of the quotient */
        u64 d;
        p <<= 11;
        d = p / q;
        p -= d * q;
        m = m << 11 | d;
    }
    if (p) m |= 1;
    return made(s, e - f + BIAS + 7, m, W);
}

INLINE u64 root(u64 a, int W) {
    u64 x = a & ~SIGN, m, r = 0, rest = 0;
    s32 e, i, n = W == 64 ? 56 : 27;
    if (x > INF) return QUIET;
    if (!x) return a;
    if (a & SIGN) return QUIET;
    if (x == INF) return a;
    parts(x, &e, &m, W);
    e -= BIAS;
    if (e & 1) {
        m <<= 1;
        e--;
    }
    for (i = 0; i < n; i++) {                            /* a bit of the root at a time */
        rest = rest << 2 | m >> 62;
        m <<= 2;
        r <<= 1;
        if (rest > 2 * r) {
            rest -= 2 * r + 1;
            r |= 1;
        }
    }
    if (rest | m) r |= 1;
    return made(0, e / 2 + BIAS + 63 - n, r, W);
}

INLINE u32 equal(u64 a, u64 b, int W) {
    u64 x = a & ~SIGN, y = b & ~SIGN;
    if (x > INF || y > INF) return 0;
    return a == b || !(x | y);
}

/* Whether a is less than b, or (`or`) equal. Floats of one sign are in order as their bits are. */
INLINE u32 less(u64 a, u64 b, u32 or, int W) {
    u64 x = a & ~SIGN, y = b & ~SIGN;
    if (x > INF || y > INF) return 0;
    if (!(x | y)) return or;
    if (a == b) return or;
    if ((a ^ b) & SIGN) return (a & SIGN) != 0;
    return a & SIGN ? x > y : x < y;
}

INLINE u64 least(u64 a, u64 b, int W) {
    u64 x = a & ~SIGN, y = b & ~SIGN;
    if (x > INF || y > INF) return QUIET;
    if (!(x | y)) return a | b;
    return less(a, b, 0, W) ? a : b;
}

INLINE u64 most(u64 a, u64 b, int W) {
    u64 x = a & ~SIGN, y = b & ~SIGN;
    if (x > INF || y > INF) return QUIET;
    if (!(x | y)) return a & b;
    return less(b, a, 0, W) ? a : b;
}

enum { TRUNC, FLOOR, CEIL, NEAREST };

INLINE u64 whole(u64 a, int mode, int W) {
    u64 x = a & ~SIGN, s = a & SIGN, rest, unit;
    s32 e = (s32)(x >> FRACTION) - BIAS;
    if (x > INF) return QUIET;
    if (e >= FRACTION || !x) return a;
    if (e < 0) {                                         /* above 0, below 1 */
        if (mode == FLOOR) return s ? s | ONE : 0;
        if (mode == CEIL) return s ? s : ONE;
        if (mode == NEAREST) return x > HALF ? s | ONE : s;
        return s;
    }
    unit = 1ull << (FRACTION - e);
    rest = unit - 1;
    if (mode == FLOOR && s) a += rest;
    if (mode == CEIL && !s) a += rest;
    if (mode == NEAREST) a += (unit >> 1) - 1 + ((a & unit) != 0);   /* at exponent 0 the unit's bit is the exponent's lowest, which is 1 */
    return a & ~rest;
}

/* The integer of `bits` bits, with or without a sign. What has no such integer traps, or saturates. */
INLINE u64 integer(u64 a, int bits, int is_signed, int saturates, int W) {
    u64 x = a & ~SIGN, m;
    int negative = (a & SIGN) != 0;
    s32 e = (s32)(x >> FRACTION) - BIAS;
    if (x > INF) {
        if (!saturates) __builtin_trap();
        return 0;
    }
    if (e < 0) return 0;
    m = (x & ((1ull << FRACTION) - 1)) | 1ull << FRACTION;
    if (e < 64) {
        m = e > FRACTION ? m << (e - FRACTION) : m >> (FRACTION - e);
        if (is_signed ? m < (1ull << (bits - 1)) + negative : !negative && (bits == 64 || m < 1ull << (bits & 63))) return negative ? 0 - m : m;
    }
    if (!saturates) __builtin_trap();
    if (is_signed) return (1ull << (bits - 1)) - !negative;
    return negative ? 0 : bits == 64 ? ~0ull : (1ull << (bits & 63)) - 1;
}

INLINE u64 of_integer(u64 v, int is_signed, int W) {
    u64 s = is_signed && v >> 63 ? SIGN : 0;
    if (s) v = 0 - v;
    return v ? made(s, BIAS + 62, v, W) : 0;
}

#define EACH(W, T)                                                                                          \
    EXPORT(f##W##_add) T f##W##_add(T a, T b) { return (T)add(a, b, W); }                                    \
    EXPORT(f##W##_sub) T f##W##_sub(T a, T b) { return (T)add(a, b ^ SIGN, W); }                             \
    EXPORT(f##W##_mul) T f##W##_mul(T a, T b) { return (T)mul(a, b, W); }                                    \
    EXPORT(f##W##_div) T f##W##_div(T a, T b) { return (T)quotient(a, b, W); }                               \
    EXPORT(f##W##_sqrt) T f##W##_sqrt(T a) { return (T)root(a, W); }                                         \
    EXPORT(f##W##_min) T f##W##_min(T a, T b) { return (T)least(a, b, W); }                                  \
    EXPORT(f##W##_max) T f##W##_max(T a, T b) { return (T)most(a, b, W); }                                   \
    EXPORT(f##W##_copysign) T f##W##_copysign(T a, T b) { return (T)((a & ~SIGN) | (b & SIGN)); }            \
    EXPORT(f##W##_trunc) T f##W##_trunc(T a) { return (T)whole(a, TRUNC, W); }                               \
    EXPORT(f##W##_floor) T f##W##_floor(T a) { return (T)whole(a, FLOOR, W); }                               \
    EXPORT(f##W##_ceil) T f##W##_ceil(T a) { return (T)whole(a, CEIL, W); }                                  \
    EXPORT(f##W##_nearest) T f##W##_nearest(T a) { return (T)whole(a, NEAREST, W); }                         \
    EXPORT(f##W##_eq) u32 f##W##_eq(T a, T b) { return equal(a, b, W); }                                     \
    EXPORT(f##W##_ne) u32 f##W##_ne(T a, T b) { return !equal(a, b, W); }                                    \
    EXPORT(f##W##_lt) u32 f##W##_lt(T a, T b) { return less(a, b, 0, W); }                                   \
    EXPORT(f##W##_le) u32 f##W##_le(T a, T b) { return less(a, b, 1, W); }                                   \
    EXPORT(f##W##_gt) u32 f##W##_gt(T a, T b) { return less(b, a, 0, W); }                                   \
    EXPORT(f##W##_ge) u32 f##W##_ge(T a, T b) { return less(b, a, 1, W); }                                   \
    EXPORT(f##W##_convert_i32_s) T f##W##_convert_i32_s(u32 a) { return (T)of_integer((u64)(s64)(s32)a, 1, W); } \
    EXPORT(f##W##_convert_i32_u) T f##W##_convert_i32_u(u32 a) { return (T)of_integer(a, 0, W); }            \
    EXPORT(f##W##_convert_i64_s) T f##W##_convert_i64_s(u64 a) { return (T)of_integer(a, 1, W); }            \
    EXPORT(f##W##_convert_i64_u) T f##W##_convert_i64_u(u64 a) { return (T)of_integer(a, 0, W); }            \
    EXPORT(i32_trunc_f##W##_s) u32 i32_trunc_f##W##_s(T a) { return (u32)integer(a, 32, 1, 0, W); }          \
    EXPORT(i32_trunc_f##W##_u) u32 i32_trunc_f##W##_u(T a) { return (u32)integer(a, 32, 0, 0, W); }          \
    EXPORT(i64_trunc_f##W##_s) u64 i64_trunc_f##W##_s(T a) { return integer(a, 64, 1, 0, W); }               \
    EXPORT(i64_trunc_f##W##_u) u64 i64_trunc_f##W##_u(T a) { return integer(a, 64, 0, 0, W); }               \
    EXPORT(i32_trunc_sat_f##W##_s) u32 i32_trunc_sat_f##W##_s(T a) { return (u32)integer(a, 32, 1, 1, W); }  \
    EXPORT(i32_trunc_sat_f##W##_u) u32 i32_trunc_sat_f##W##_u(T a) { return (u32)integer(a, 32, 0, 1, W); }  \
    EXPORT(i64_trunc_sat_f##W##_s) u64 i64_trunc_sat_f##W##_s(T a) { return integer(a, 64, 1, 1, W); }       \
    EXPORT(i64_trunc_sat_f##W##_u) u64 i64_trunc_sat_f##W##_u(T a) { return integer(a, 64, 0, 1, W); }

#define W 32
EACH(32, u32)
#undef W
#define W 64
EACH(64, u64)
#undef W

EXPORT(f64_promote_f32) u64 f64_promote_f32(u32 a) {
    u64 s = (u64)(a >> 31) << 63, e = a >> 23 & 255, f = a & 0x7fffff;
    if (e == 255) return f ? 0x7ff8000000000000ull : s | 0x7ff0000000000000ull;
    if (e) return s | (e + 896) << 52 | f << 29;
    return f ? normal64(s, 1 + 896 + 39, f) : s;         /* a subnormal f32 is a normal f64 */
}

EXPORT(f32_demote_f64) u32 f32_demote_f64(u64 a) {
    u32 s = (u32)(a >> 63) << 31;
    u64 x = a & 0x7fffffffffffffffull, m;
    s32 e;
    if (x > 0x7ff0000000000000ull) return 0x7fc00000;
    if (x == 0x7ff0000000000000ull) return s | 0x7f800000;
    if (!x) return s;
    parts(x, &e, &m, 64);
    return normal32(s, e - 896, m);
}
