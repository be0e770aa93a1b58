// Arrays and tables: a sort, a sieve, a product of matrices, queens, a map that grows, bulk instructions, indirect calls.
#include "guest.h"

// ---- quicksort
static NOINLINE void sort(i32 *a, i32 lo, i32 hi) {
    while (lo < hi) {
        i32 p = a[lo + (hi - lo) / 2], i = lo, j = hi;
        while (i <= j) {
            while (a[i] < p) i++;
            while (a[j] > p) j--;
            if (i <= j) { i32 t = a[i]; a[i] = a[j]; a[j] = t; i++; j--; }
        }
        if (j - lo < hi - i) { sort(a, lo, j); lo = i; } else { sort(a, i, hi); hi = j; }
    }
}
GUEST(quicksort) {
    i32 *a = room((u32)n * 4);
    for (i32 i = 0; i < n; i++) a[i] = (i32)next();
    sort(a, 0, n - 1);
    i64 h = 0;
    for (i32 i = 0; i < n; i++) {
        if (i && a[i - 1] > a[i]) return -1;
        h = h * 31 + a[i];
    }
    return h;
}

// ---- sieve
GUEST(sieve) {
    u8 *p = room((u32)n + 1);
    u32 count = 0; i64 sum = 0;
    for (i32 i = 2; i <= n; i++) {
        if (p[i]) continue;
        count++; sum += i;
        for (i64 j = (i64)i * i; j <= n; j += i) p[j] = 1;
    }
    return sum * 1000003 + count;
}

// ---- matmul
GUEST(matmul) {
    i32 *a = room(3 * (u32)(n * n) * 4), *b = a + n * n, *c = b + n * n;
    for (i32 i = 0; i < 2 * n * n; i++) a[i] = (i32)next() >> 8;
    for (i32 i = 0; i < n; i++)
        for (i32 j = 0; j < n; j++) {
            i32 s = 0;
            for (i32 k = 0; k < n; k++) s += a[i * n + k] * b[k * n + j];
            c[i * n + j] = s;
        }
    return (i64)hashed((u8 *)c, (u32)(n * n) * 4);
}

// ---- nqueens
static NOINLINE u32 placed(u32 all, u32 cols, u32 left, u32 right) {
    if (cols == all) return 1;
    u32 count = 0, free = all & ~(cols | left | right);
    while (free) {
        u32 bit = free & -free;
        free ^= bit;
        count += placed(all, cols | bit, (left | bit) << 1, (right | bit) >> 1);
    }
    return count;
}
GUEST(nqueens) { return placed((1u << n) - 1, 0, 0, 0); }

// ---- hashmap
// Open addressing, doubled by memory.grow when three quarters are used.
typedef struct { u64 key; u32 value, used; } slot;
static slot *slots;
static u32 cap, used;
static inline u32 place(u64 key) { return (u32)((key * 0x9e3779b97f4a7c15ull) >> 32); }
static NOINLINE slot *find(u64 key) {
    u32 i = place(key) & (cap - 1);
    while (slots[i].used && slots[i].key != key) i = (i + 1) & (cap - 1);
    return slots + i;
}
static void widen(void) {
    slot *old = slots; u32 count = cap;
    cap = cap ? cap * 2 : 1024;
    slots = room(cap * sizeof(slot));
    for (u32 i = 0; i < count; i++) if (old[i].used) *find(old[i].key) = old[i];
}
GUEST(hashmap) {
    widen();
    i64 sum = 0;
    for (i32 i = 0; i < n; i++) {
        u64 key = (u64)(next() % (u32)n) * 7919;
        if (4 * used >= 3 * cap) widen();
        slot *s = find(key);
        if (!s->used) { s->used = 1; s->key = key; used++; }
        s->value += (u32)i;
    }
    for (i32 i = 0; i < n; i++) { slot *s = find((u64)i * 7919); if (s->used) sum = sum * 3 + s->value; }
    return sum ^ ((i64)used << 32);
}

// ---- bulk
GUEST(bulk) {
    u8 *a = room(1 << 20), *b = room(1 << 20);
    fill(a, 4096);
    for (i32 i = 0; i < n; i++) {
        u32 len = 64 + next() % 60000, from = next() % (1 << 19), to = next() % (1 << 19);
        __builtin_memcpy(b + to, a + from, len);
        __builtin_memset(a + from, (int)(next() & 255), len / 3);
        __builtin_memmove(a + to, a + to + 77, len);
        for (int k = 0; k < 20; k++) {
            u32 f = next() % (1 << 19), t = next() % (1 << 19), l = next() & 63;
            __builtin_memcpy(b + t, a + f, l);
        }
    }
    return (i64)hashed(b, 65536) ^ (i64)hashed(a + 1000, 65536);
}

// ---- indirect
// A machine whose instructions are functions of a table.
static i64 acc; static u32 pc; static u8 code[256];
static void add(void) { acc += pc; }
static void mix(void) { acc ^= acc << 7; }
static void rot(void) { acc = (i64)((u64)acc >> 9 | (u64)acc << 55); }
static void jump(void) { pc = (pc + (u32)(acc & 7)) & 255; }
static void mul(void) { acc *= 6364136223846793005ll; }
static void sub(void) { acc -= 12345; }
static void not(void) { acc = ~acc; }
static void nop(void) { }
static void (*const ops[8])(void) = {add, mix, rot, jump, mul, sub, not, nop};
GUEST(indirect) {
    fill(code, 256);
    acc = 1; pc = 0;
    for (i32 i = 0; i < n; i++) { ops[code[pc] & 7](); pc = (pc + 1) & 255; }
    return acc;
}
