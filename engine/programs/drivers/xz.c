// Compresses and decompresses n bytes of text, with a check by CRC-64.
#include "driver.h"
#include "lzma.h"

uint64_t run(uint32_t n) {
    size_t bound = lzma_stream_buffer_bound(n), packed_size = 0, read = 0, back_size = 0;
    uint8_t *text = space(n), *packed = space(bound), *back = space(n);
    uint64_t limit = UINT64_MAX;
    fill_text(text, n, 4);
    must(lzma_easy_buffer_encode(2, LZMA_CHECK_CRC64, NULL, text, n, packed, &packed_size, bound) == LZMA_OK);
    must(lzma_stream_buffer_decode(&limit, 0, NULL, packed, &read, packed_size, back, &back_size, n) == LZMA_OK);
    must(back_size == n && memcmp(text, back, n) == 0);
    return sum_of(packed, packed_size);
}
