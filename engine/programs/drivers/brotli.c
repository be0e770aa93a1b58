// Decompresses n times a megabyte of text that the library's encoder has made on the machine (brotli_packed.c).
#include "driver.h"
#include "brotli/decode.h"

uint64_t run(uint32_t n) {
    static const uint8_t packed[] = {
#include "brotli_packed.h"
    };
    uint64_t sum = 0;
    uint8_t *text = space(1 << 20);
    for (uint32_t i = 0; i < n; i++) {
        size_t size = 1 << 20;
        must(BrotliDecoderDecompress(sizeof packed, packed, &size, text) == BROTLI_DECODER_RESULT_SUCCESS);
        must(size == 1 << 20);
        sum = sum_from(sum, text + i, size - i);
    }
    return sum;
}
