// Compresses n bytes of text at two levels, and decompresses both.
#include "driver.h"
#include "zstd.h"

uint64_t run(uint32_t n) {
    size_t bound = ZSTD_compressBound(n);
    uint8_t *text = space(n), *packed = space(bound), *back = space(n);
    uint64_t sum = 0;
    fill_text(text, n, 5);
    for (int level = 3; level <= 9; level += 6) {
        size_t size = ZSTD_compress(packed, bound, text, n, level);
        must(!ZSTD_isError(size) && ZSTD_decompress(back, n, packed, size) == n && memcmp(text, back, n) == 0);
        sum = sum_from(sum, packed, size);
    }
    return sum;
}
