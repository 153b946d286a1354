// Records that are copied whole, and sums over them.
#include "export.h"

typedef struct {
    i16 weights[48];
    i8 shifts[32];
    i64 total;
} Layer;

static Layer layers[12];

static Layer first_layer(u32 seed) {
    Layer l;
    fill(&l, 0, sizeof l);
    for (i32 i = 0; i < 48; i++) {
        seed = seed * 1664525 + 1013904223;
        l.weights[i] = (i16)(seed >> 16);
    }
    for (i32 i = 0; i < 32; i++) l.shifts[i] = (i8)(seed >> (i % 25));
    return l;
}

static Layer next_layer(Layer l, i32 by) {
    for (i32 i = 0; i < 48; i++) l.weights[i] = (i16)((u32)l.weights[i] * (u32)by + (u32)l.shifts[i % 32]);
    for (i32 i = 0; i < 32; i++) l.shifts[i] = (i8)((u32)l.shifts[i] - (u32)by);
    for (i32 i = 0; i < 48; i++) l.total += l.weights[i];
    return l;
}

// The total of the last of twelve layers, each made of a copy of the one before.
EXPORT i64 layered(u32 seed, i32 by) {
    layers[0] = first_layer(seed);
    for (i32 i = 1; i < 12; i++) layers[i] = next_layer(layers[i - 1], by + i);
    return layers[11].total;
}

// The same layers, sorted by their totals: which of them comes to stand first.
EXPORT i32 ordered(u32 seed, i32 by) {
    layered(seed, by);
    for (i32 i = 1; i < 12; i++) {
        Layer l = layers[i];
        i32 j = i;
        while (j > 0 && layers[j - 1].total > l.total) {
            layers[j] = layers[j - 1];
            j--;
        }
        layers[j] = l;
    }
    u32 sum = 0;
    for (i32 i = 0; i < 12; i++) sum = sum * 7 + (u32)layers[i].weights[i];
    return (i32)sum;
}

// The checksum of CRC-32 over the layers as bytes.
EXPORT u32 checksum(u32 seed) {
    layered(seed, 3);
    const u8 *bytes = (const u8 *)layers;
    u32 crc = ~0u;
    for (u32 i = 0; i < sizeof layers; i++) {
        crc ^= bytes[i];
        for (i32 k = 0; k < 8; k++) crc = crc >> 1 ^ (0xedb88320u & (0u - (crc & 1)));
    }
    return ~crc;
}

// A number in a base, its digits turned around, and what that is.
EXPORT i64 turned(i64 n, i32 base) {
    u8 digits[64];
    i32 count = 0;
    if (base < 2) base = 2;
    u64 left = n < 0 ? 0 - (u64)n : (u64)n;
    fill(digits, 0, sizeof digits);
    while (left > 0 && count < 64) {
        digits[count++] = (u8)(left % (u32)base);
        left /= (u32)base;
    }
    u64 sum = 0;
    for (i32 i = 0; i < count; i++) sum = sum * (u32)base + digits[i];
    return n < 0 ? (i64)(0 - sum) : (i64)sum;
}
