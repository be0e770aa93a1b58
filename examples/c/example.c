/* Runs the first script of README, and instructions on values and on an array. It is C and C++. */
#include "wasmi_oracle.h"
#include <inttypes.h>
#include <stdio.h>
#include <string.h>

static int run_script(const char *script) {
    uint8_t text[256];
    size_t needed = 0;
    uint8_t status = wasmi_script_run((const uint8_t *)script, strlen(script), text, sizeof text, &needed);
    if (status == WASMI_TEXT_TOO_SHORT) {
        fprintf(stderr, "%zu bytes are needed\n", needed);
        return 1;
    }
    fwrite(text, 1, needed, stdout);
    return status;
}

int main(void) {
    int failed = run_script("meter on 64\nfuel 2000\nmemory 1 2 16 32\ngrow 0 1\ngrow 0 1\nleft\n");

    const wasmi_words zero = {0, 0}, one = {1, 0}, four = {4, 0}, ends = {0x80000001, 0};
    wasmi_words value = zero;
    uint8_t status = wasmi_binary(WASMI_BINARY_I32_ROTL, ends, four, &value);
    printf("i32_rotl: status %d, %" PRIu64 "\n", status, value.lo);
    status = wasmi_binary(WASMI_BINARY_I32_DIV_S, one, zero, &value);
    printf("i32_div_s: status %d\n", status);

    const wasmi_words a[2] = {{0x7f7f7f7f7f7f7f7f, 0}, {1, 2}};
    const wasmi_words b[2] = {{0x0101010101010101, 1}, {3, 4}};
    wasmi_result sums[2];
    status = wasmi_binary_each(WASMI_BINARY_I8X16_ADD, a, 2, b, 2, sums, 2);
    printf("i8x16_add: status %d\n", status);
    for (size_t i = 0; i < 2; i++) {
        printf("  %" PRIx64 " %" PRIx64 "\n", sums[i].value.lo, sums[i].value.hi);
    }
    return failed;
}

/* It prints:
done
memory 0
value 1
error out of bounds memory growth
value 976
i32_rotl: status 0, 24
i32_div_s: status 5
i8x16_add: status 0
  8080808080808080 1
  4 6
*/
