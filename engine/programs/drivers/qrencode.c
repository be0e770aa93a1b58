// Makes n symbols of texts that grow.
#include "driver.h"
#include "qrencode.h"

uint64_t run(uint32_t n) {
    uint64_t sum = 0;
    for (uint32_t i = 0; i < n; i++) {
        char text[401];
        uint32_t size = 10 + i * 37 % 390;
        fill_text((uint8_t *)text, size, i + 1);
        text[size] = 0;
        QRcode *code = QRcode_encodeString(text, 0, (QRecLevel)(i % 4), QR_MODE_8, 1);
        must(code != NULL);
        sum = sum_from(sum, code->data, code->width * code->width);
        QRcode_free(code);
    }
    return sum;
}
