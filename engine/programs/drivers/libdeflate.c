// Compresses and decompresses n bytes of text, with the checksums of gzip and zlib.
#include "driver.h"
#include "libdeflate.h"

uint64_t run(uint32_t n) {
    struct libdeflate_compressor *compressor = libdeflate_alloc_compressor(6);
    struct libdeflate_decompressor *decompressor = libdeflate_alloc_decompressor();
    must(compressor != NULL && decompressor != NULL);
    size_t bound = libdeflate_gzip_compress_bound(compressor, n);
    uint8_t *text = space(n), *packed = space(bound), *back = space(n);
    fill_text(text, n, 6);
    size_t size = libdeflate_gzip_compress(compressor, text, n, packed, bound);
    must(size > 0 && libdeflate_gzip_decompress(decompressor, packed, size, back, n, NULL) == LIBDEFLATE_SUCCESS);
    must(memcmp(text, back, n) == 0);
    return sum_of(packed, size) ^ libdeflate_adler32(1, text, n);
}
