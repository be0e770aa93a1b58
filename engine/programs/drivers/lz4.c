// Compresses n bytes of text, quickly and well, and decompresses both. What is compressed quickly depends on the width of a
// machine's words.
#include "driver.h"
#include "lz4.h"
#include "lz4hc.h"

static void unpack(const char *packed, int packed_size, const char *text, char *back, int n) {
    must(LZ4_decompress_safe(packed, back, packed_size, n) == n);
    must(memcmp(text, back, n) == 0);
}

uint64_t run(uint32_t n) {
    int bound = LZ4_compressBound(n);
    char *text = space(n), *packed = space(bound), *back = space(n);
    fill_text((uint8_t *)text, n, 3);
    int size = LZ4_compress_default(text, packed, n, bound);
    must(size > 0);
    unpack(packed, size, text, back, n);
    size = LZ4_compress_HC(text, packed, n, bound, 9);
    must(size > 0);
    unpack(packed, size, text, back, n);
    return sum_of(packed, size);
}
