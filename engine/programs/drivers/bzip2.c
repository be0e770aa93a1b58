// Compresses and decompresses n bytes of text.
#include "driver.h"
#include "bzlib.h"

void bz_internal_error(int code) {
    must(code == 0);
}

uint64_t run(uint32_t n) {
    unsigned packed_size = n + n / 100 + 600, back_size = n;
    char *text = space(n), *packed = space(packed_size), *back = space(n);
    fill_text((uint8_t *)text, n, 2);
    must(BZ2_bzBuffToBuffCompress(packed, &packed_size, text, n, 9, 0, 0) == BZ_OK);
    must(BZ2_bzBuffToBuffDecompress(back, &back_size, packed, packed_size, 0, 0) == BZ_OK);
    must(back_size == n && memcmp(text, back, n) == 0);
    return sum_of(packed, packed_size);
}
