// Hashes and encrypts n bytes, and raises a number of 1024 bits to a power.
#include "driver.h"
#include "mbedtls/aes.h"
#include "mbedtls/bignum.h"
#include "mbedtls/gcm.h"
#include "mbedtls/sha256.h"
#include "mbedtls/sha512.h"

static uint64_t power(uint64_t state) {
    uint8_t bytes[3][128];
    mbedtls_mpi number[3], result;
    mbedtls_mpi_init(&result);
    for (int i = 0; i < 3; i++) {
        mbedtls_mpi_init(&number[i]);
        fill_random(bytes[i], sizeof bytes[i], state + i);
        bytes[i][127] |= 1;
        must(mbedtls_mpi_read_binary(&number[i], bytes[i], i == 1 ? 32 : 128) == 0);
    }
    must(mbedtls_mpi_exp_mod(&result, &number[0], &number[1], &number[2], NULL) == 0);
    must(mbedtls_mpi_write_binary(&result, bytes[0], sizeof bytes[0]) == 0);
    return sum_of(bytes[0], sizeof bytes[0]);
}

uint64_t run(uint32_t n) {
    uint8_t *text = space(n), *sealed = space(n), key[32], hash[64], tag[16];
    fill_text(text, n, 14);
    fill_random(key, sizeof key, 15);
    must(mbedtls_sha512_ret(text, n, hash, 0) == 0);
    uint64_t sum = sum_of(hash, 64);
    must(mbedtls_sha256_ret(text, n, hash, 0) == 0);
    sum = sum_from(sum, hash, 32);
    mbedtls_gcm_context gcm;
    mbedtls_gcm_init(&gcm);
    must(mbedtls_gcm_setkey(&gcm, MBEDTLS_CIPHER_ID_AES, key, 256) == 0);
    must(mbedtls_gcm_crypt_and_tag(&gcm, MBEDTLS_GCM_ENCRYPT, n, hash, 12, NULL, 0, text, sealed, 16, tag) == 0);
    return sum_from(sum_from(sum, sealed, n), tag, sizeof tag) ^ power(sum | 1);
}
