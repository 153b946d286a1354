// Numbers whose sign is extended.
#include "export.h"

// The low 8 bits, as a number with a sign.
EXPORT i32 low_byte(i32 x) { return (i8)x; }

// The low 16 bits.
EXPORT i32 low_half(i32 x) { return (i16)x; }

// The same of 64 bits, and the low 32.
EXPORT i64 long_low_byte(i64 x) { return (i8)x; }
EXPORT i64 long_low_half(i64 x) { return (i16)x; }
EXPORT i64 long_low_word(i64 x) { return (i32)x; }

// A sum that wraps at 8 bits in each step.
EXPORT i32 wrapping_sum(i32 n) {
    i8 sum = 0;
    for (i32 i = 0; i < n; i++) sum = (i8)(sum * 3 + i);
    return sum;
}

// The greatest and the least step of a walk of 16-bit places, in one number.
EXPORT i32 walk(u32 seed, i32 steps) {
    i16 place = 0, most = 0, least = 0;
    for (i32 i = 0; i < steps; i++) {
        seed = seed * 1664525 + 1013904223;
        place = (i16)(place + (i8)(seed >> 24));
        if (place > most) most = place;
        if (place < least) least = place;
    }
    return most * 65536 + (least & 65535);
}

// A product of 32-bit numbers, divided with a sign.
EXPORT i64 scaled(i64 a, i64 b, i64 by) { return (i64)(i32)a * (i32)b / (by == 0 ? 1 : (i32)by); }
