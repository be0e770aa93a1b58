// Writes what brotli.c decompresses, as the elements of an array in C.
#include "driver.h"
#include "brotli/encode.h"
#include <stdio.h>

int main(void) {
    size_t text_size = 1 << 20, size = BrotliEncoderMaxCompressedSize(text_size);
    uint8_t *text = space(text_size), *packed = space(size);
    fill_text(text, text_size, 8);
    must(BrotliEncoderCompress(9, 22, BROTLI_MODE_TEXT, text_size, text, &size, packed));
    for (size_t i = 0; i < size; i++) printf("%d,", packed[i]);
    return 0;
}
