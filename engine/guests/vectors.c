// Vectors: of a search, a checksum, a check of UTF-8, a product of matrices and a sort.
#include "guest.h"
#include <wasm_simd128.h>

// ---- simd_find
// How often a byte occurs and where last, 16 bytes at a time; and the length of a string.
GUEST(simd_find) {
    u8 *p = room((u32)n);
    fill(p, 65536);
    for (i32 i = 65536; i + 65536 <= n; i += 65536) __builtin_memcpy(p + i, p, 65536);
    u64 count = 0, last = 0;
    for (u32 b = 1; b < 9; b++) {
        v128_t w = wasm_i8x16_splat((signed char)(b * 29));
        for (i32 i = 0; i + 16 <= n; i += 16) {
            u32 m = wasm_i8x16_bitmask(wasm_i8x16_eq(wasm_v128_load(p + i), w));
            if (m) { count += (u32)__builtin_popcount(m); last = (u64)i + 31 - (u64)__builtin_clz(m); }
        }
    }
    return (i64)(count << 32 ^ last);
}

// ---- simd_adler32
GUEST(simd_adler32) {
    u8 *p = room((u32)n);
    fill(p, 65536);
    for (i32 i = 65536; i + 65536 <= n; i += 65536) __builtin_memcpy(p + i, p, 65536);
    u32 a = 1, b = 0;
    const v128_t w0 = wasm_i16x8_make(16, 15, 14, 13, 12, 11, 10, 9), w1 = wasm_i16x8_make(8, 7, 6, 5, 4, 3, 2, 1);
    for (i32 i = 0; i < n;) {
        v128_t sa = wasm_i32x4_splat(0), sb = sa, prefix = sa;
        i32 end = i + 5536 < n ? i + 5536 : n;
        u32 blocks = 0;
        for (; i + 16 <= end; i += 16, blocks++) {
            v128_t v = wasm_v128_load(p + i);
            prefix = wasm_i32x4_add(prefix, sa);
            sa = wasm_i32x4_add(sa, wasm_u32x4_extadd_pairwise_u16x8(wasm_u16x8_extadd_pairwise_u8x16(v)));
            sb = wasm_i32x4_add(sb, wasm_i32x4_dot_i16x8(wasm_u16x8_extend_low_u8x16(v), w0));
            sb = wasm_i32x4_add(sb, wasm_i32x4_dot_i16x8(wasm_u16x8_extend_high_u8x16(v), w1));
        }
        sb = wasm_i32x4_add(sb, wasm_i32x4_shl(prefix, 4));
        b = (b + a * 16 * blocks + (u32)wasm_i32x4_extract_lane(sb, 0) + (u32)wasm_i32x4_extract_lane(sb, 1) + (u32)wasm_i32x4_extract_lane(sb, 2) + (u32)wasm_i32x4_extract_lane(sb, 3)) % 65521;
        a = (a + (u32)wasm_i32x4_extract_lane(sa, 0) + (u32)wasm_i32x4_extract_lane(sa, 1) + (u32)wasm_i32x4_extract_lane(sa, 2) + (u32)wasm_i32x4_extract_lane(sa, 3)) % 65521;
        for (; i < end; i++) { a = (a + p[i]) % 65521; b = (b + a) % 65521; }
    }
    return (i64)(u64)(b << 16 | a);
}

// ---- simd_utf8
// Lemire and Keiser's check of UTF-8 by three lookups.
#define SHORT 1
#define LONG 2
#define OVER3 4
#define LARGE 8
#define SURR 16
#define OVER2 32
#define TWO 128
#define L1000 64
#define OVER4 64
static inline v128_t shr4(v128_t v) { return wasm_u8x16_shr(v, 4); }
static NOINLINE u32 is_bad(const u8 *p, u32 len) {
    const v128_t t1 = wasm_i8x16_make(LONG, LONG, LONG, LONG, LONG, LONG, LONG, LONG, (signed char)TWO, (signed char)TWO, (signed char)TWO, (signed char)TWO, SHORT | OVER2, SHORT, SHORT | OVER3 | SURR, SHORT | LARGE | L1000);
    const signed char c = SHORT | LONG | (signed char)TWO;
    const v128_t t2 = wasm_i8x16_make(c | OVER3 | OVER2 | OVER4, c | OVER2, c, c, c | LARGE, c | LARGE | L1000, c | LARGE | L1000, c | LARGE | L1000, c | LARGE | L1000, c | LARGE | L1000, c | LARGE | L1000, c | LARGE | L1000, c | LARGE | L1000, c | LARGE | L1000 | SURR, c | LARGE | L1000, c | LARGE | L1000);
    const signed char d = LONG | OVER2 | (signed char)TWO;
    const v128_t t3 = wasm_i8x16_make(SHORT, SHORT, SHORT, SHORT, SHORT, SHORT, SHORT, SHORT, d | OVER3 | L1000 | OVER4, d | OVER3 | LARGE, d | SURR | LARGE, d | SURR | LARGE, SHORT, SHORT, SHORT, SHORT);
    v128_t bad = wasm_i8x16_splat(0), before = bad;
    for (u32 i = 0; i + 16 <= len; i += 16) {
        v128_t v = wasm_v128_load(p + i);
        v128_t b1 = wasm_i8x16_shuffle(before, v, 15, 16, 17, 18, 19, 20, 21, 22, 23, 24, 25, 26, 27, 28, 29, 30);
        v128_t b2 = wasm_i8x16_shuffle(before, v, 14, 15, 16, 17, 18, 19, 20, 21, 22, 23, 24, 25, 26, 27, 28, 29);
        v128_t b3 = wasm_i8x16_shuffle(before, v, 13, 14, 15, 16, 17, 18, 19, 20, 21, 22, 23, 24, 25, 26, 27, 28);
        v128_t s = wasm_v128_and(wasm_v128_and(wasm_i8x16_swizzle(t1, shr4(b1)), wasm_i8x16_swizzle(t2, wasm_v128_and(b1, wasm_i8x16_splat(15)))), wasm_i8x16_swizzle(t3, shr4(v)));
        v128_t third = wasm_u8x16_sub_sat(b2, wasm_i8x16_splat(0x5f)), fourth = wasm_u8x16_sub_sat(b3, wasm_i8x16_splat(0x6f));
        v128_t must = wasm_v128_and(wasm_v128_or(third, fourth), wasm_i8x16_splat((signed char)0x80));
        bad = wasm_v128_or(bad, wasm_v128_xor(must, s));
        before = v;
    }
    return wasm_v128_any_true(bad);
}
GUEST(simd_utf8) {
    u8 *p = room((u32)n + 64);
    u32 o = 0;
    while (o + 4 < (u32)n) {
        u32 r = next(), k = r & 3, c = r >> 8;
        if (k == 0) p[o++] = c & 127;
        else if (k == 1) { p[o++] = (u8)(0xc2 + c % 30); p[o++] = 0x80 | (c >> 6 & 63); }
        else if (k == 2) { p[o++] = 0xe1 + (c % 12); p[o++] = 0x80 | (c >> 6 & 63); p[o++] = 0x80 | (c >> 12 & 63); }
        else { p[o++] = 0xf1 + (c % 3); p[o++] = 0x80 | (c >> 6 & 63); p[o++] = 0x80 | (c >> 12 & 63); p[o++] = 0x80 | (c >> 14 & 63); }
    }
    i64 found = 0;
    for (int i = 0; i < 6; i++) {
        found = found * 2 + is_bad(p, (u32)n + 16);
        p[next() % (u32)n] = 0xff;
        if (i & 1) found = found * 5 + (i64)hashed(p + (u32)n / 2, 500) % 1000;
    }
    return found;
}

// ---- simd_matmul
#define SIZE 64
// The compiler makes the vectors. Lanes of 8, 16, 32 and 64 bits.
static i32 a[SIZE][SIZE], b[SIZE][SIZE], c[SIZE][SIZE];
static u8 bytes[4096]; static u16 halves[4096]; static u64 words[4096];
GUEST(simd_matmul) {
    for (int i = 0; i < SIZE * SIZE; i++) { (&a[0][0])[i] = (i32)next() >> 9; (&b[0][0])[i] = (i32)next() >> 7; }
    fill(bytes, 4096);
    for (int i = 0; i < 4096; i++) { halves[i] = (u16)(next() >> 3); words[i] = next() * 77777ull; }
    for (i32 t = 0; t < n; t++) {
        for (int i = 0; i < SIZE; i++)
            for (int k = 0; k < SIZE; k++) for (int j = 0; j < SIZE; j++) c[i][j] += a[i][k] * b[k][j];
        for (int i = 0; i < 4096; i++) bytes[i] = (u8)(bytes[i] > 100 ? bytes[i] - 3 : bytes[i] * 2 + 1);
        for (int i = 0; i < 4096; i++) halves[i] = (u16)(halves[i] * 31 + bytes[i]) >> 1;
        for (int i = 0; i < 4096; i++) words[i] = (words[i] << 3 ^ words[i] >> 5) + halves[i];
    }
    return (i64)(hashed((u8 *)c, sizeof c) ^ hashed(bytes, 4096) ^ hashed((u8 *)halves, 8192) ^ hashed((u8 *)words, 32768));
}

// ---- simd_records
// Sorts records of 16 bytes by their keys of 64 bits: runs of eight by a network of comparisons in two columns of vectors, then merges
// of whole records as vectors.
typedef struct { i64 key; u64 value; } record;
static inline void order(v128_t *a, v128_t *b) {
    v128_t is_greater = wasm_i64x2_gt(*a, *b), low = wasm_v128_bitselect(*b, *a, is_greater);
    *b = wasm_v128_bitselect(*a, *b, is_greater);
    *a = low;
}
static const u8 network[19][2] = {
    {0, 1}, {2, 3}, {4, 5}, {6, 7}, {0, 2}, {1, 3}, {4, 6}, {5, 7}, {1, 2}, {5, 6}, {0, 4}, {1, 5}, {2, 6}, {3, 7}, {2, 4}, {3, 5}, {1, 2}, {3, 4}, {5, 6},
};
// Sorts eight records at `a` and the eight after them. The low four bits of a key say where its record was.
static NOINLINE void sixteen(record *a) {
    v128_t columns[8], kept[16];
    for (u32 i = 0; i < 8; i++) columns[i] = wasm_i64x2_make(a[i].key << 4 | i, a[i + 8].key << 4 | (i + 8));
    for (u32 i = 0; i < 16; i++) kept[i] = wasm_v128_load(a + i);
    for (u32 i = 0; i < 19; i++) order(columns + network[i][0], columns + network[i][1]);
    for (u32 i = 0; i < 8; i++) {
        wasm_v128_store(a + i, kept[wasm_i64x2_extract_lane(columns[i], 0) & 15]);
        wasm_v128_store(a + i + 8, kept[wasm_i64x2_extract_lane(columns[i], 1) & 15]);
    }
}
static NOINLINE void merge(record *to, const record *a, u32 len, const record *b, u32 others) {
    const record *a_end = a + len, *b_end = b + others;
    while (a < a_end && b < b_end) wasm_v128_store(to++, wasm_v128_load(b->key < a->key ? b++ : a++));
    while (a < a_end) wasm_v128_store(to++, wasm_v128_load(a++));
    while (b < b_end) wasm_v128_store(to++, wasm_v128_load(b++));
}
GUEST(simd_records) {
    u32 count = (u32)n & ~15u;
    record *a = room(count * 16), *b = room(count * 16);
    v128_t sum = wasm_i64x2_splat(0);
    for (u32 i = 0; i < count; i++) {
        a[i] = (record){((i64)next() << 27 ^ next()) - (1ll << 58), next() * 7919ull + i};
        sum = wasm_i64x2_add(sum, wasm_v128_load(a + i));
    }
    for (u32 i = 0; i < count; i += 16) sixteen(a + i);
    for (u32 run = 8; run < count; run *= 2) {
        for (u32 i = 0; i < count; i += 2 * run) {
            u32 left = count - i < run ? count - i : run, right = count - i - left < run ? count - i - left : run;
            merge(b + i, a + i, left, a + i + left, right);
        }
        record *was = a; a = b; b = was;
    }
    for (u32 i = 0; i < count; i++) {
        if (i && a[i - 1].key > a[i].key) return -1;
        sum = wasm_i64x2_sub(sum, wasm_v128_load(a + i));
    }
    return wasm_v128_any_true(sum) ? -2 : (i64)hashed((u8 *)a, count * 16);
}
