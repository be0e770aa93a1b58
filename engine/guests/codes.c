// Codes: base64, a packer, DEFLATE, Reed-Solomon.
#include "guest.h"

// ---- base64
static const char A[] = "ABCDEFGHIJKLMNOPQRSTUVWXYZabcdefghijklmnopqrstuvwxyz0123456789+/";
static u8 back[256];
GUEST(base64) {
    n -= n % 3;
    u8 *a = room((u32)n), *b = room((u32)n / 3 * 4), *c = room((u32)n);
    fill(a, (u32)n);
    u32 o = 0;
    for (i32 i = 0; i < n; i += 3) {
        u32 v = (u32)a[i] << 16 | (u32)a[i + 1] << 8 | a[i + 2];
        b[o++] = (u8)A[v >> 18]; b[o++] = (u8)A[v >> 12 & 63]; b[o++] = (u8)A[v >> 6 & 63]; b[o++] = (u8)A[v & 63];
    }
    for (int i = 0; i < 64; i++) back[(u8)A[i]] = (u8)i;
    u32 q = 0;
    for (u32 i = 0; i < o; i += 4) {
        u32 v = (u32)back[b[i]] << 18 | (u32)back[b[i + 1]] << 12 | (u32)back[b[i + 2]] << 6 | back[b[i + 3]];
        c[q++] = (u8)(v >> 16); c[q++] = (u8)(v >> 8); c[q++] = (u8)v;
    }
    for (i32 i = 0; i < n; i++) if (a[i] != c[i]) return -1;
    return (i64)hashed(b, o);
}

// ---- lz
// A stream of tokens: a byte of literals' count, the literals, a byte of the match's length, two of its distance.
static u32 heads[4096];
static inline u32 read32(const u8 *p) { u32 v; __builtin_memcpy(&v, p, 4); return v; }
static NOINLINE u32 pack(u8 *to, const u8 *from, u32 len) {
    u32 at = 0, out = 0, begun = 0;
    for (u32 i = 0; i < 4096; i++) heads[i] = ~0u;
    while (at + 8 < len) {
        u32 h = (read32(from + at) * 2654435761u) >> 20, was = heads[h];
        heads[h] = at;
        if (was != ~0u && at - was < 65536 && read32(from + was) == read32(from + at)) {
            u32 l = 4;
            while (l < 255 && at + l < len && from[was + l] == from[at + l]) l++;
            u32 literals = at - begun;
            while (literals >= 255) {
                to[out++] = 255;
                for (u32 i = 0; i < 255; i++) to[out++] = from[begun++];
                to[out++] = 0; to[out++] = 0; to[out++] = 0;
                literals -= 255;
            }
            to[out++] = (u8)literals;
            while (begun < at) to[out++] = from[begun++];
            u32 d = at - was;
            to[out++] = (u8)l; to[out++] = (u8)d; to[out++] = (u8)(d >> 8);
            at += l; begun = at;
        } else at++;
    }
    while (begun < len) {
        u32 l = len - begun < 255 ? len - begun : 255;
        to[out++] = (u8)l;
        while (l--) to[out++] = from[begun++];
        to[out++] = 0; to[out++] = 0; to[out++] = 0;
    }
    return out;
}
static NOINLINE u32 unpack(u8 *to, const u8 *from, u32 len) {
    u32 at = 0, out = 0;
    while (at < len) {
        u32 l = from[at++];
        while (l--) to[out++] = from[at++];
        u32 m = from[at], d = from[at + 1] | (u32)from[at + 2] << 8;
        at += 3;
        while (m--) { to[out] = to[out - d]; out++; }
    }
    return out;
}
GUEST(lz) {
    u8 *a = room((u32)n), *b = room((u32)n * 2), *c = room((u32)n);
    for (i32 i = 0; i < n;) {
        if ((next() & 3) && i > 300) {
            u32 l = 4 + (next() >> 5) % 60, d = 1 + (next() >> 4) % 256;
            for (; l-- && i < n; i++) a[i] = a[(u32)i - d];
        } else a[i++] = (u8)(next() >> 9);
    }
    u32 packed = pack(b, a, (u32)n), len = unpack(c, b, packed);
    if (len != (u32)n) return -1;
    for (i32 i = 0; i < n; i++) if (a[i] != c[i]) return -2;
    return (i64)((u64)packed << 32) ^ (i64)hashed(b, packed);
}

// ---- inflate
// Inflates a text of DEFLATED (RFC 1951: stored blocks, fixed and dynamic codes) and compares its CRC-32; then damaged streams, most of
// which are refused.
typedef struct { u16 counts[16], symbols[320]; } code;
static const u8 *from;
static u32 size, at, bits, held, is_bad;
static u8 *to;
static u32 out, most;
static code literals, distances;

static u32 take(u32 count) {
    while (held < count) {
        if (at == size) { is_bad = 1; return 0; }
        bits |= (u32)from[at++] << held; held += 8;
    }
    u32 value = bits & ((1u << count) - 1);
    bits >>= count; held -= count;
    return value;
}
static NOINLINE void build(code *it, const u8 *lengths, u32 count) {
    u16 places[16];
    for (u32 i = 0; i < 16; i++) it->counts[i] = 0;
    for (u32 i = 0; i < count; i++) it->counts[lengths[i]]++;
    it->counts[0] = places[0] = places[1] = 0;
    for (u32 i = 1; i < 15; i++) places[i + 1] = places[i] + it->counts[i];
    for (u32 i = 0; i < count; i++) if (lengths[i]) it->symbols[places[lengths[i]]++] = (u16)i;
}
static NOINLINE u32 symbol(const code *it) {
    u32 value = 0, first = 0, place = 0;
    for (u32 len = 1; len < 16 && !is_bad; len++) {
        value |= take(1);
        u32 count = it->counts[len];
        if (value - first < count) return it->symbols[place + value - first];
        place += count; first = (first + count) << 1; value <<= 1;
    }
    is_bad = 1;
    return 256;
}
static const u16 length_base[31] = {3, 4, 5, 6, 7, 8, 9, 10, 11, 13, 15, 17, 19, 23, 27, 31, 35, 43, 51, 59, 67, 83, 99, 115, 131, 163, 195, 227, 258};
static const u8 length_bits[31] = {0, 0, 0, 0, 0, 0, 0, 0, 1, 1, 1, 1, 2, 2, 2, 2, 3, 3, 3, 3, 4, 4, 4, 4, 5, 5, 5, 5, 0};
static const u16 distance_base[32] = {1, 2, 3, 4, 5, 7, 9, 13, 17, 25, 33, 49, 65, 97, 129, 193, 257, 385, 513, 769, 1025, 1537, 2049, 3073, 4097, 6145, 8193, 12289, 16385, 24577};
static const u8 distance_bits[32] = {0, 0, 0, 0, 1, 1, 2, 2, 3, 3, 4, 4, 5, 5, 6, 6, 7, 7, 8, 8, 9, 9, 10, 10, 11, 11, 12, 12, 13, 13};
static NOINLINE void matches(void) {
    while (!is_bad) {
        u32 s = symbol(&literals);
        if (s == 256) return;
        if (s < 256) {
            if (out == most) { is_bad = 1; return; }
            to[out++] = (u8)s;
            continue;
        }
        u32 len = length_base[s - 257] + take(length_bits[s - 257]), d = symbol(&distances);
        u32 distance = distance_base[d & 31] + take(distance_bits[d & 31]);
        if (s > 285 || d > 29 || distance > out || len > most - out) { is_bad = 1; return; }
        while (len--) { to[out] = to[out - distance]; out++; }
    }
}
static void dynamic(void) {
    static const u8 order[19] = {16, 17, 18, 0, 8, 7, 9, 6, 10, 5, 11, 4, 12, 3, 13, 2, 14, 1, 15};
    u8 lengths[320] = {0};
    u32 count = take(5) + 257, others = take(5) + 1, codes = take(4) + 4;
    for (u32 i = 0; i < codes; i++) lengths[order[i]] = (u8)take(3);
    build(&literals, lengths, 19);
    u8 all[512] = {0};
    for (u32 i = 0; i < count + others && !is_bad;) {
        u32 s = symbol(&literals);
        if (s < 16) { all[i++] = (u8)s; continue; }
        if (s == 16 && !i) is_bad = 1;
        u32 times = s == 16 ? 3 + take(2) : s == 17 ? 3 + take(3) : 11 + take(7);
        u8 value = s == 16 && i ? all[i - 1] : 0;
        if (s > 18 || i + times > count + others) { is_bad = 1; return; }
        while (times--) all[i++] = value;
    }
    build(&literals, all, count);
    build(&distances, all + count, others);
}
static void fixed(void) {
    u8 lengths[320];
    for (u32 i = 0; i < 288; i++) lengths[i] = i < 144 ? 8 : i < 256 ? 9 : i < 280 ? 7 : 8;
    build(&literals, lengths, 288);
    for (u32 i = 0; i < 30; i++) lengths[i] = 5;
    build(&distances, lengths, 30);
}
static void stored(void) {
    held = bits = 0;
    u32 len = take(8) | take(8) << 8, inverse = take(8) | take(8) << 8;
    if (is_bad || (len ^ inverse) != 65535 || len > size - at || len > most - out) { is_bad = 1; return; }
    __builtin_memcpy(to + out, from + at, len);
    out += len; at += len;
}
static NOINLINE u32 inflate(u8 *target, u32 room, const u8 *source, u32 len) {
    to = target; most = room; from = source; size = len;
    at = bits = held = is_bad = out = 0;
    for (u32 is_last = 0; !is_last && !is_bad;) {
        is_last = take(1);
        u32 kind = take(2);
        if (kind == 0) { stored(); continue; }
        if (kind == 3) { is_bad = 1; break; }
        if (kind == 1) fixed(); else dynamic();
        matches();
    }
    return !is_bad;
}
static u32 crc(const u8 *p, u32 len) {
    u32 c = ~0u;
    for (u32 i = 0; i < len; i++) {
        c ^= p[i];
        for (int k = 0; k < 8; k++) c = c & 1 ? 0xedb88320u ^ (c >> 1) : c >> 1;
    }
    return ~c;
}
// A text of names of instructions, deflated by zlib and written in base64, its length and its CRC-32.
#define INFLATED 6932
#define CRC 0x82372079u
static const char DEFLATED[] =
    "fVnNjuM2DL7PUxjooS2wM4gTJ5PprS+wpwI9Bo4teYw6dla2dzTz9KX4J9lJFgggiqTITxQtUcpv2T/vJquG2ozZYLN/zfnvcTSXc/f5+5i1/T"
    "i5uZraoR//ysqs6soR1drLxdRtOZnxWzbBeNu6cUIr2R+2/v79r+z796y0k3HZxtv6z29Z2ddZX15MMIpDBleDFGyh72/Zc2YHl/VDb16erl0J"
    "WptNNvfOlNV7ee4MiK4isJkz0+x67udlVrvhmo2mM9XEzGKftbvti/nxxS02vcGmm06jEDMSjXAa4XRGdIzoCKdBzqEg69hiE6xDE6wzin0hHB"
    "pAboggDrkhgnWEg24sgbcE3iJmbBpqOmI20BAQS0AsumUYhwL7YQh6oh7FouooQtVE7XW4Vv2EZFnX2I7zGdvL3GFbtz85EoGi4DhzYV6giBcW"
    "PbSDYxyvO+x7WGm0+95x63hsoNjeMHVCOAwHAg3tRK0ABRKBQotAoUWg0DJQpmZGccyRxYiZotgjYmgHcum5RaDYOh7CQMNgBEqEw7UozyOvV4"
    "NtZdoOCdsNGoqjRRZ8X33F2qUzIy3q+MMRESZmeQUsr4CluFMfLGFbenI1XD/HtulxgREHZkODLeEAIsXxViOLcaA24wizRBwcYMsBthxgS2Gl"
    "fksuEUdwJTjCCn648nqCCGEHHZ0Aq34j5dtKMKf9Q8GpEfv87fnJ9PWpDZbWDNJIXK36C3nwwFDO+Uowc1T7n8ZN7GvNWekg4DWHdGpzGSYTDH"
    "OQErOC4Hgjmpccsr/ikM7VDeRgt+Uvse1hD77Cbkk8zPWEF4Cs9GCcQLFodCHkRaRQH3llqJcfFutwXPRWwmTCdQ6buX1px1M/d91TWVUGzpjt"
    "kbbeoaTvEQkrHCsc0REkRM9Kk9vYmdWYwNMRTIcRAmK3S9lRRxOKO+RvnAZH+z9RVnlWeap3jGR+iIOOkcwPCiOxCovT9rXx2abKzg5+p9bC0f"
    "mcVWXXQUPn4in0WHG7yboB+rDdT0yNSk3GZE03nFnMZJBP4cxFJlHAY4M7m10gj93ny9h+GaEbN3ywQr3FFbXwDQVOC5PI8hwRnkLfwSG9hKps"
    "zglbb2DOR58fXsaP9uur0x7IYcfPD/4o9G7rC6EPhd8ybRO+jXx1sN2xyXB0I9GLEyoOhJyZbCK3iVw6vYVU3cilUgEBB09I9CbCsMwjp0LKkC"
    "Zym8glp0KqbuQ2XLH4guseX3Dl4wutfYicFcruzNwmKkgx5Asth3yhBZEvtCTysVohp1acWvbERCNEJ6ImRqN45bWiMsZvuZDxVPQg0QjRiQjq"
    "mJ/5FsI6TESEQ1wIZcJJjq0X4txOi4LR1vudDPs8wREQce0Fa9zA/fb0ZdzAEGTj7YaPE2ry6ocTWLKrYUrKFlKA5A+uuAuYLuX4nzo+7GV46e"
    "ADO+Hyam4tmBJ7KTY8H/NMa53h4wnP31SobZhyahvrm4hDAGKhJdRpLONHIX35BrAUE2qhKf2ZgydliecCidWgpNBDwtavrwlbfEC1oVYDLRZp"
    "sozrZ+PiJ+ingPNatu6jHc0JVfSzuS+NUXiVT+hGUZblF1KBgCnB20DD1I98DwWVkyiRHmeGej8WLOEkESucBMG1Dl4wk8mH+ijk6M28g+C9bd"
    "5FEr2+PRo9PxwtEswsppx648qZJhnSSajl9CWdFMlbLgZCZgm1GLTOLE10lOKlgKiQWgktcDiflJ6z5+henK4TCszej2kQpDF9NGR+OER2WcgZ"
    "xVHmuqE3cIqygm4j2JUMeVaFdPXWyRpX754kDolLUZYPRwtkvtr5Il7ufBGvd56uFBEgLJ2aP++ZyfdNX8iKKS1GeMWUFn49TDqdJAYaeBJFj/"
    "VS5344lqPnh0NmrkTwU+dExLUirq4VdtdbfrWnqNA5mKyBfOCpgJzek3Tp5/9giEj4duv5Ih6h1AlbJyXLRpJk2eo9M/n2Tee4BICJblKkTSTl"
    "EcRv9fWDEGvI13OMISdJRGEejZ4fjpazky/u+nFxEcmXcc5ZK/nKFF/JPV6GFQaU8layVSi6owN1jcwr35g5XWySLly28hWcQ28l7EzxRdxv5S"
    "ru8VFAcdi9MNXPlS/rSAK3jQUC7p5WYn2Xr3VGvKF6vvHecOOOYatbc1hEjVRG3RfOaY0lptN0eCSJjvPNhgsBZ7rSGzhV5EaBLoWrbwPJ1O/J"
    "5vuyZC6J6+IXyjK3hcIlJpiw+ktc9qXagoVqieu31ay7sjdU7vJpc0+wcJwKFq4SwQp9knf5xtzMza+noXmY6izhaWm04uMGj4dk+7qsWPJ8t5"
    "rJWhdri6cwjaAuJTZsC66sJpyeVpUL5qwxBV+VQWY8uxeDb5mzTiAOVgzneJboCJ1E6kw2sESLA5ho2Vtb9saW+N7mcuda6N9YldcIuJtv6JqE"
    "LzBKHfGsXHTn2IWpF6kY+4kc4G1TOfYTOdjG63sEcUyNkTQdvuaEV7PIwbeUaGxfLYbih5mOxM8aVzEOKVJwGLMUz5IBNpcMsBkZ9PKzZiyM8N"
    "tPXLgEyDlRYbvyLVRh89OnU97DF8+pwpvXvNWzq/DSh9PE3g3vRu9Q3OoFe/xmBFDfsrqcyhf8J+dZnpVsi89asNtcRMIvU3C/kaep8AxFZFDX"
    "NyeweRQ7bd9O0Wp4nVZLLKJOkDz9Dw";
static u32 decoded(u8 *p) {
    u32 len = 0, word = 0, have = 0;
    for (const char *s = DEFLATED; *s; s++) {
        u32 c = (u8)*s;
        word = word << 6 | (c == '+' ? 62 : c == '/' ? 63 : c >= 'a' ? c - 'a' + 26 : c >= 'A' ? c - 'A' : c - '0' + 52);
        if ((have += 6) >= 8) p[len++] = (u8)(word >> (have -= 8));
    }
    return len;
}
GUEST(inflate) {
    u8 *packed = room(8192), *text = room(65536), *other = room(8192);
    u32 len = decoded(packed), refused = 0;
    u64 sum = 0;
    for (i32 i = 0; i < n; i++) {
        if (!inflate(text, 65536, packed, len)) return -1;
        sum += hashed(text, out / 8);
    }
    if (out != INFLATED || crc(text, out) != CRC) return -2;
    // The same text in stored blocks, and ten letters by the fixed code.
    u32 wrote = 0;
    for (u32 i = 0; i < out; i += 1000) {
        u32 part = out - i < 1000 ? out - i : 1000;
        other[wrote++] = i + part == out; other[wrote++] = (u8)part; other[wrote++] = (u8)(part >> 8);
        other[wrote++] = (u8)~part; other[wrote++] = (u8)(~part >> 8);
        __builtin_memcpy(other + wrote, text + i, part);
        wrote += part;
    }
    if (!inflate(text, 65536, other, wrote) || crc(text, out) != CRC) return -3;
    static const u8 short_one[] = {0x4b, 0x4c, 0x4a, 0x4e, 0x84, 0x20, 0x00}; // "abcabcabca"
    if (!inflate(text, 65536, short_one, sizeof short_one) || out != 10) return -4;
    sum ^= hashed(text, out) << 1;
    for (i32 i = 0; i < 4 * n; i++) {
        u32 where = next() % len; u8 was = packed[where];
        packed[where] ^= (u8)(1 << (next() & 7));
        refused += !inflate(text, 65536, packed, len);
        sum = sum * 31 + out;
        packed[where] = was;
    }
    return (i64)(sum ^ (u64)refused << 32);
}

// ---- reed_solomon
// Codes blocks of 223 bytes with 32 bytes of parity, damages up to 16 bytes of each, and corrects them (Berlekamp, Massey, Chien, Forney).
#define PARITY 32
#define SIZE 255
static u8 power[512], logarithm[256], generator[PARITY + 1];
static inline u8 times(u8 a, u8 b) { return a && b ? power[logarithm[a] + logarithm[b]] : 0; }
static inline u8 inverse(u8 a) { return power[255 - logarithm[a]]; }
static void begin(void) {
    for (u32 i = 0, x = 1; i < 255; i++) {
        power[i] = power[i + 255] = (u8)x; logarithm[x] = (u8)i;
        x = x << 1 ^ (x & 128 ? 0x11d : 0);
    }
    generator[0] = 1;
    for (u32 i = 0; i < PARITY; i++)
        for (u32 k = i + 1; k; k--) generator[k] = generator[k] ^ times(generator[k - 1], power[i]);
}
static NOINLINE void encode(u8 *block) {
    u8 rest[PARITY] = {0};
    for (u32 i = 0; i < SIZE - PARITY; i++) {
        u8 top = block[i] ^ rest[0];
        for (u32 k = 0; k + 1 < PARITY; k++) rest[k] = rest[k + 1] ^ times(top, generator[k + 1]);
        rest[PARITY - 1] = times(top, generator[PARITY]);
    }
    for (u32 k = 0; k < PARITY; k++) block[SIZE - PARITY + k] = rest[k];
}
static u8 value_at(const u8 *coefficients, u32 count, u8 x) {
    u8 sum = 0;
    while (count) sum = times(sum, x) ^ coefficients[--count];
    return sum;
}
// How many bytes were corrected, or -1.
static NOINLINE i32 decode(u8 *block) {
    u8 syndromes[PARITY], locator[PARITY + 1] = {1}, before[PARITY + 1] = {1}, kept[PARITY + 1], evaluator[PARITY] = {0}, any = 0;
    for (u32 i = 0; i < PARITY; i++) {
        u8 sum = 0;
        for (u32 k = 0; k < SIZE; k++) sum = times(sum, power[i]) ^ block[k];
        syndromes[i] = sum; any |= sum;
    }
    if (!any) return 0;
    u32 degree = 0, shift = 1; u8 last = 1;
    for (u32 n = 0; n < PARITY; n++) {
        u8 wrong = syndromes[n];
        for (u32 i = 1; i <= degree; i++) wrong ^= times(locator[i], syndromes[n - i]);
        if (!wrong) { shift++; continue; }
        u8 factor = times(wrong, inverse(last));
        for (u32 i = 0; i <= PARITY; i++) kept[i] = locator[i];
        for (u32 i = shift; i <= PARITY; i++) locator[i] ^= times(factor, before[i - shift]);
        if (2 * degree > n) { shift++; continue; }
        degree = n + 1 - degree; last = wrong; shift = 1;
        for (u32 i = 0; i <= PARITY; i++) before[i] = kept[i];
    }
    for (u32 i = 0; i < PARITY; i++)
        for (u32 k = 0; k <= i; k++) evaluator[i] ^= times(syndromes[i - k], locator[k]);
    u32 found = 0;
    for (u32 k = 0; k < SIZE; k++) {
        u8 x = power[SIZE - 1 - k], x_inverse = power[(255 - (SIZE - 1 - k)) % 255];
        if (value_at(locator, PARITY + 1, x_inverse)) continue;
        u8 slope = 0;
        for (u32 i = 1; i <= PARITY; i += 2) slope ^= times(locator[i], power[logarithm[x_inverse] * (i - 1) % 255]);
        if (!slope) return -1;
        block[k] ^= times(x, times(value_at(evaluator, PARITY, x_inverse), inverse(slope)));
        found++;
    }
    return found == degree ? (i32)found : -1;
}
GUEST(reed_solomon) {
    u8 *sent = room(SIZE), *block = room(SIZE);
    u64 sum = 0;
    begin();
    for (i32 t = 0; t < n; t++) {
        fill(sent, SIZE - PARITY);
        encode(sent);
        for (u32 i = 0; i < SIZE; i++) block[i] = sent[i];
        for (u32 i = next() % 17; i; i--) block[next() % SIZE] ^= (u8)(1 + next() % 255);
        i32 corrected = decode(block);
        if (corrected < 0) return -1;
        for (u32 i = 0; i < SIZE; i++) if (block[i] != sent[i]) return -2;
        sum = sum * 31 + (u32)corrected + hashed(block, SIZE);
    }
    // More errors than can be corrected are seen, or lead to another block.
    for (u32 i = 0; i < 60; i++) block[i * 4] ^= (u8)(i + 1);
    return (i64)(sum * 3 + (u64)(i64)decode(block));
}
