// Hashes and encrypts n bytes, and computes a public key on P-256 for each started 64 KiB.
#include "driver.h"
#include "bearssl.h"

uint64_t run(uint32_t n) {
    n &= ~15u;
    uint8_t *text = space(n), key[32], vector[16] = {0}, hash[32], point[65], tag[16];
    size_t point_size = 0;
    fill_text(text, n, 12);
    fill_random(key, sizeof key, 13);
    br_sha256_context sha;
    br_sha256_init(&sha);
    br_sha256_update(&sha, text, n);
    br_sha256_out(&sha, hash);
    br_aes_ct_cbcenc_keys aes;
    br_aes_ct_cbcenc_init(&aes, key, 16);
    br_aes_ct_cbcenc_run(&aes, vector, text, n);
    br_poly1305_ctmul32_run(key, vector, text, n, hash, sizeof hash, tag, br_chacha20_ct_run, 1);
    for (uint32_t done = 0; done <= n; done += 1 << 16) {
        key[0] = (uint8_t)(done >> 16);
        point_size = br_ec_p256_m31.mulgen(point, key, sizeof key, BR_EC_secp256r1);
        must(point_size == sizeof point);
    }
    return sum_from(sum_from(sum_of(text, n), point, point_size), tag, sizeof tag) ^ sum_of(hash, sizeof hash);
}
