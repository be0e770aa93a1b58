// Compresses n bytes of text, quickly and well, and decompresses both.
#include "driver.h"
#include "lzo/lzo1x.h"

uint64_t run(uint32_t n) {
    lzo_uint size, back_size = n;
    uint8_t *text = space(n), *packed = space(n + n / 16 + 67), *back = space(n), *work = space(LZO1X_999_MEM_COMPRESS);
    fill_text(text, n, 7);
    must(lzo_init() == LZO_E_OK);
    must(lzo1x_1_compress(text, n, packed, &size, work) == LZO_E_OK);
    must(lzo1x_decompress_safe(packed, size, back, &back_size, NULL) == LZO_E_OK && back_size == n);
    uint64_t sum = sum_of(packed, size);
    must(lzo1x_999_compress(text, n / 4, packed, &size, work) == LZO_E_OK);
    must(lzo1x_decompress(packed, size, back, &back_size, NULL) == LZO_E_OK && back_size == n / 4);
    must(memcmp(text, back, n) == 0);
    return sum_from(sum, packed, size) ^ lzo_crc32(0, text, n);
}
