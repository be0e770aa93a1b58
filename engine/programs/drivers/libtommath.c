// Raises, divides and inverts numbers of 32 n bits, and writes the factorial of n in decimal.
#include "driver.h"
#include "tommath.h"

static void number(mp_int *it, uint32_t size, uint64_t state) {
    uint8_t *bytes = space(size);
    fill_random(bytes, size, state);
    bytes[0] |= 0x80;
    bytes[size - 1] |= 1;
    must(mp_init(it) == MP_OKAY && mp_from_ubin(it, bytes, size) == MP_OKAY);
}

static uint64_t sum_of_number(const mp_int *it) {
    int size = 0;
    must(mp_radix_size(it, 10, &size) == MP_OKAY);
    char *text = space(size);
    must(mp_to_decimal(it, text, size) == MP_OKAY);
    return sum_of(text, strlen(text));
}

uint64_t run(uint32_t n) {
    mp_int base, exponent, modulus, result, rest;
    number(&base, 4 * n, 16);
    number(&exponent, 16, 17);
    number(&modulus, 4 * n, 18);
    must(mp_init_multi(&result, &rest, NULL) == MP_OKAY);
    must(mp_exptmod(&base, &exponent, &modulus, &result) == MP_OKAY);
    uint64_t sum = sum_of_number(&result);
    must(mp_sqr(&base, &base) == MP_OKAY && mp_div(&base, &modulus, &result, &rest) == MP_OKAY);
    sum = sum * 31 + sum_of_number(&result);
    if (mp_invmod(&rest, &modulus, &result) == MP_OKAY) sum = sum * 31 + sum_of_number(&result);
    mp_set(&result, 1);
    for (uint32_t i = 2; i <= n; i++) must(mp_mul_d(&result, i, &result) == MP_OKAY);
    return sum * 31 + sum_of_number(&result);
}
