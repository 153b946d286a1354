// Ranges of memory that are copied, moved and filled.
#include "export.h"

static u8 bytes[8192];
static u8 other[8192];

static u32 hash(const u8 *from, u32 count) {
    u32 h = 2166136261u;
    for (u32 i = 0; i < count; i++) h = (h ^ from[i]) * 16777619u;
    return h;
}

static void scatter(u8 *to, u32 count, u32 seed) {
    for (u32 i = 0; i < count; i++) {
        seed = seed * 1103515245 + 12345;
        to[i] = (u8)(seed >> 16);
    }
}

// Fills so many bytes with the low byte of a number, and looks at what is behind them too.
EXPORT u32 filled(u32 value, u32 count) {
    scatter(bytes, 4200, 1);
    fill(bytes + 7, (i32)value, count % 4097);
    return hash(bytes, 4200);
}

// Copies so many bytes from one place to another.
EXPORT u32 copied(u32 count) {
    scatter(bytes, 4200, 2);
    scatter(other, 4200, 3);
    copy(other + 5, bytes + 3, count % 4097);
    return hash(other, 4200);
}

// Moves bytes within their own range, upward or downward.
EXPORT u32 moved(u32 to, u32 from, u32 count) {
    scatter(bytes, 4200, 4);
    move(bytes + to % 64, bytes + from % 64, count % 4097);
    return hash(bytes, 4200);
}

// Turns a range around by so many places, by three moves.
EXPORT u32 rotated(u32 count, u32 by) {
    count = count % 4096 + 1;
    by %= count;
    scatter(bytes, count, 5);
    copy(other, bytes, by);
    move(bytes, bytes + by, count - by);
    copy(bytes + (count - by), other, by);
    return hash(bytes, count);
}

// A gap buffer: text is put in and taken out at a place that wanders.
EXPORT u32 edited(u32 seed, u32 edits) {
    u32 length = 0;
    for (u32 i = 0; i < edits; i++) {
        seed = seed * 1664525 + 1013904223;
        u32 size = (seed >> 8) % 97;
        u32 at = length == 0 ? 0 : (seed >> 16) % length;
        if ((seed >> 31) && length >= at + size) {
            move(bytes + at, bytes + at + size, length - at - size);
            length -= size;
        } else if (length + size <= sizeof bytes) {
            move(bytes + at + size, bytes + at, length - at);
            fill(bytes + at, (i32)i, size);
            length += size;
        }
    }
    return hash(bytes, length) + length;
}

// How many numbers below a bound are primes, by the sieve of Eratosthenes.
EXPORT u32 primes(u32 below) {
    if (below > sizeof bytes) below = sizeof bytes;
    fill(bytes, 1, sizeof bytes);
    u32 count = 0;
    for (u32 n = 2; n < below; n++) {
        if (!bytes[n]) continue;
        count++;
        for (u32 m = n * n; m < below; m += n) bytes[m] = 0;
    }
    return count;
}
