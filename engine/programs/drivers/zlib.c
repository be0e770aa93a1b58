// Compresses and decompresses n bytes of text.
#include "driver.h"
#include "zlib.h"

uint64_t run(uint32_t n) {
    uLongf packed_size = compressBound(n), back_size = n;
    uint8_t *text = space(n), *packed = space(packed_size), *back = space(n);
    fill_text(text, n, 1);
    must(compress2(packed, &packed_size, text, n, 6) == Z_OK);
    must(uncompress(back, &back_size, packed, packed_size) == Z_OK);
    must(back_size == n && memcmp(text, back, n) == 0);
    return sum_of(packed, packed_size) ^ crc32(adler32(1, text, n), packed, packed_size);
}
