// Hashes: SHA-256, CRC-32, xxHash of 64 bits, and one by products of 128 bits.
#include "guest.h"

// ---- sha256
static const u32 K[64] = {
0x428a2f98,0x71374491,0xb5c0fbcf,0xe9b5dba5,0x3956c25b,0x59f111f1,0x923f82a4,0xab1c5ed5,0xd807aa98,0x12835b01,0x243185be,0x550c7dc3,0x72be5d74,0x80deb1fe,0x9bdc06a7,0xc19bf174,
0xe49b69c1,0xefbe4786,0x0fc19dc6,0x240ca1cc,0x2de92c6f,0x4a7484aa,0x5cb0a9dc,0x76f988da,0x983e5152,0xa831c66d,0xb00327c8,0xbf597fc7,0xc6e00bf3,0xd5a79147,0x06ca6351,0x14292967,
0x27b70a85,0x2e1b2138,0x4d2c6dfc,0x53380d13,0x650a7354,0x766a0abb,0x81c2c92e,0x92722c85,0xa2bfe8a1,0xa81a664b,0xc24b8b70,0xc76c51a3,0xd192e819,0xd6990624,0xf40e3585,0x106aa070,
0x19a4c116,0x1e376c08,0x2748774c,0x34b0bcb5,0x391c0cb3,0x4ed8aa4a,0x5b9cca4f,0x682e6ff3,0x748f82ee,0x78a5636f,0x84c87814,0x8cc70208,0x90befffa,0xa4506ceb,0xbef9a3f7,0xc67178f2};
#define R(x,n) (((x)>>(n))|((x)<<(32-(n))))
static u32 s[8];
static NOINLINE void block(const u8 *p) {
    u32 w[64];
    for (int i = 0; i < 16; i++) w[i] = (u32)p[4*i]<<24 | (u32)p[4*i+1]<<16 | (u32)p[4*i+2]<<8 | p[4*i+3];
    for (int i = 16; i < 64; i++) {
        u32 a = R(w[i-15],7)^R(w[i-15],18)^(w[i-15]>>3), b = R(w[i-2],17)^R(w[i-2],19)^(w[i-2]>>10);
        w[i] = w[i-16]+a+w[i-7]+b;
    }
    u32 a=s[0],b=s[1],c=s[2],d=s[3],e=s[4],f=s[5],g=s[6],h=s[7];
    for (int i = 0; i < 64; i++) {
        u32 t1 = h+(R(e,6)^R(e,11)^R(e,25))+((e&f)^(~e&g))+K[i]+w[i];
        u32 t2 = (R(a,2)^R(a,13)^R(a,22))+((a&b)^(a&c)^(b&c));
        h=g; g=f; f=e; e=d+t1; d=c; c=b; b=a; a=t1+t2;
    }
    s[0]+=a; s[1]+=b; s[2]+=c; s[3]+=d; s[4]+=e; s[5]+=f; s[6]+=g; s[7]+=h;
}
GUEST(sha256) {
    static const u32 H[8] = {0x6a09e667,0xbb67ae85,0x3c6ef372,0xa54ff53a,0x510e527f,0x9b05688c,0x1f83d9ab,0x5be0cd19};
    for (int i = 0; i < 8; i++) s[i] = H[i];
    u32 len = (u32)n & ~63u;
    u8 *p = room(len + 64);
    fill(p, len);
    for (u32 i = 0; i < len; i += 64) block(p + i);
    u8 *last = p + len;
    last[0] = 0x80;
    for (int i = 0; i < 8; i++) last[56 + i] = (u8)(((u64)len * 8) >> (56 - 8 * i));
    block(last);
    return (i64)((u64)s[0] << 32 | s[1]) ^ (i64)((u64)s[6] << 32 | s[7]);
}

// ---- crc32
static u32 table[256];
GUEST(crc32) {
    for (u32 i = 0; i < 256; i++) {
        u32 c = i;
        for (int k = 0; k < 8; k++) c = c & 1 ? 0xedb88320u ^ (c >> 1) : c >> 1;
        table[i] = c;
    }
    u8 *p = room((u32)n);
    fill(p, (u32)n);
    u32 c = ~0u;
    for (i32 i = 0; i < n; i++) c = table[(c ^ p[i]) & 255] ^ (c >> 8);
    return (i64)(u64)~c;
}

// ---- xxhash
#define P1 11400714785074694791ull
#define P2 14029467366897019727ull
#define P3 1609587929392839161ull
#define P4 9650029242287828579ull
#define P5 2870177450012600261ull
#define L(x,r) (((x)<<(r))|((x)>>(64-(r))))
static inline u64 word(const u8 *p) { u64 v; __builtin_memcpy(&v, p, 8); return v; }
static inline u64 turn(u64 a, u64 v) { a += v * P2; return L(a, 31) * P1; }
static inline u64 merge(u64 h, u64 a) { h ^= turn(0, a); return h * P1 + P4; }
static NOINLINE u64 xxh(const u8 *p, u32 len, u64 s) {
    const u8 *end = p + len;
    u64 a = s + P1 + P2, b = s + P2, c = s, d = s - P1;
    for (; p + 32 <= end; p += 32) {
        a = turn(a, word(p)); b = turn(b, word(p + 8)); c = turn(c, word(p + 16)); d = turn(d, word(p + 24));
    }
    u64 h = L(a, 1) + L(b, 7) + L(c, 12) + L(d, 18);
    h = merge(merge(merge(merge(h, a), b), c), d) + len;
    for (; p + 8 <= end; p += 8) { h ^= turn(0, word(p)); h = L(h, 27) * P1 + P4; }
    for (; p < end; p++) { h ^= *p * P5; h = L(h, 11) * P1; }
    h ^= h >> 33; h *= P2; h ^= h >> 29; h *= P3; h ^= h >> 32;
    return h;
}
GUEST(xxhash) {
    u8 *p = room((u32)n);
    fill(p, 65536);
    u64 h = 0;
    for (int i = 0; i < 8; i++) h = xxh(p, (u32)n - (u32)i, h);
    return (i64)h;
}

// ---- wide_by_parts
// The same as wide.wasm, by products of halves.
typedef unsigned __int128 u128;
u128 __multi3(u128 a, u128 b) {
    u64 x = (u64)a, y = (u64)b, x0 = (u32)x, x1 = x >> 32, y0 = (u32)y, y1 = y >> 32;
    u64 p = x0 * y0, q = x1 * y0 + (p >> 32), r = x0 * y1 + (u32)q;
    u64 hi = x1 * y1 + (q >> 32) + (r >> 32) + (u64)(a >> 64) * y + x * (u64)(b >> 64);
    return (u128)hi << 64 | (r << 32 | (u32)p);
}
GUEST(wide_by_parts) {
    u64 lo = 1, hi = 0;
    u32 i = 0;
    do {
        u128 p = (u128)lo * (u64)-7046029254386353131ll + ((u128)(u64)(i64)(i32)i << 64 | hi);
        u128 s = (u128)((__int128)(i64)p * (i64)(p >> 64));
        p -= s;
        lo = (u64)p; hi = (u64)(p >> 64);
    } while (++i < (u32)n);
    return (i64)(lo ^ hi);
}
