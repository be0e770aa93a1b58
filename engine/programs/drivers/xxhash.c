// Hashes n bytes by each of the library's functions, eight times.
#include "driver.h"
#include "xxhash.h"

uint64_t run(uint32_t n) {
    uint8_t *bytes = space(n);
    uint64_t sum = 0;
    fill_random(bytes, n, 9);
    for (int i = 0; i < 8; i++) {
        XXH128_hash_t wide = XXH3_128bits_withSeed(bytes, n, sum);
        sum = XXH64(bytes, n, sum ^ wide.high64) ^ XXH32(bytes, n, i) ^ XXH3_64bits(bytes, n) ^ wide.low64;
    }
    return sum;
}
