// Encrypts, decrypts and hashes n bytes, and signs and verifies them.
#include "driver.h"
#include "sodium.h"

uint64_t run(uint32_t n) {
    uint8_t *text = space(n), *sealed = space(n + 64), *back = space(n);
    uint8_t seed[64], public[32], secret[64], signature[64], hash[64];
    unsigned long long size, back_size;
    fill_text(text, n, 10);
    fill_random(seed, sizeof seed, 11);
    must(crypto_aead_xchacha20poly1305_ietf_encrypt(sealed, &size, text, n, NULL, 0, NULL, seed, seed + 24) == 0);
    must(crypto_aead_xchacha20poly1305_ietf_decrypt(back, &back_size, NULL, sealed, size, NULL, 0, seed, seed + 24) == 0);
    must(back_size == n && memcmp(text, back, n) == 0);
    must(crypto_generichash_blake2b(hash, sizeof hash, sealed, size, seed, 32) == 0);
    must(crypto_sign_ed25519_seed_keypair(public, secret, seed) == 0);
    must(crypto_sign_ed25519_detached(signature, NULL, text, n, secret) == 0);
    must(crypto_sign_ed25519_verify_detached(signature, text, n, public) == 0);
    return sum_from(sum_of(sealed, size), signature, sizeof signature) ^ sum_of(hash, sizeof hash);
}
