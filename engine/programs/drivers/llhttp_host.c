// What llhttp calls of its host: each call, with the places that it tells, goes into a checksum.
#include "driver.h"

static uint64_t sum;

static int called(uint32_t kind, uint32_t a, uint32_t b, uint32_t c) {
    uint32_t words[] = {kind, a, b, c};
    sum = sum_from(sum, words, sizeof words);
    return 0;
}

#define EXPORTED(NAME) __attribute__((export_name("wasm_on_" #NAME))) int NAME
#define TOLD(NAME, KIND) EXPORTED(NAME)(uint32_t parser) { return called(KIND, parser, 0, 0); }
#define TOLD_PART(NAME, KIND) EXPORTED(NAME)(uint32_t parser, uint32_t place, uint32_t size) { return called(KIND, parser, place, size); }

TOLD(message_begin, 1)
TOLD(message_complete, 2)
TOLD_PART(url, 3)
TOLD_PART(status, 4)
TOLD_PART(header_field, 5)
TOLD_PART(header_value, 6)
TOLD_PART(body, 7)

EXPORTED(headers_complete)(uint32_t parser, uint32_t status, uint32_t upgrade, uint32_t keeps) {
    return called(8, parser, status, upgrade << 1 | keeps);
}

uint64_t run(uint32_t unused) {
    (void)unused;
    return sum;
}
