/* Loops over the calls for C, in which clang 22 inlines them. Each has a loop of the same name in main.rs. */
#include "wasmi_core.h"
#include <string.h>

static uint64_t place(uint64_t i) { return i * 40503 & 0xfff8; }

uint64_t load64(uint8_t *memory, size_t len, uint64_t n) {
    uint64_t sum = 0, traps = 0;
    for (uint64_t i = 0; i < n; i++) {
        wasmi_words value;
        if (wasmi_load(WASMI_LOAD_LOAD_U64, memory, len, place(i), 0, &value) == WASMI_DONE) sum += value.lo;
        else traps++;
    }
    return sum ^ traps;
}

uint64_t i64_load8_s(uint8_t *memory, size_t len, uint64_t n) {
    uint64_t sum = 0, traps = 0;
    for (uint64_t i = 0; i < n; i++) {
        wasmi_words value;
        if (wasmi_load(WASMI_LOAD_I64_LOAD8_S, memory, len, place(i), 3, &value) == WASMI_DONE) sum += value.lo;
        else traps++;
    }
    return sum ^ traps;
}

uint64_t store64(uint8_t *memory, size_t len, uint64_t n) {
    uint64_t traps = 0;
    for (uint64_t i = 0; i < n; i++) {
        wasmi_words value = {i, 0};
        traps += wasmi_store(WASMI_STORE_STORE64, memory, len, place(i), 0, value) != WASMI_DONE;
    }
    return traps ^ memory[8];
}

uint64_t i64_add_rotl(uint8_t *memory, size_t len, uint64_t n) {
    wasmi_words sum = {0, 0}, five = {5, 0};
    (void)memory; (void)len;
    for (uint64_t i = 0; i < n; i++) {
        wasmi_words it = {i, 0};
        wasmi_binary(WASMI_BINARY_I64_ADD, sum, it, &sum);
        wasmi_binary(WASMI_BINARY_I64_ROTL, sum, five, &sum);
    }
    return sum.lo;
}

/* 1,024 pairs of vectors at a time. */
#define VECTORS(row, number) \
    uint64_t row(uint8_t *memory, size_t len, uint64_t n) { \
        static wasmi_words a[1024], b[1024], out[1024]; \
        uint64_t sum = 0; \
        (void)len; \
        memcpy(a, memory, 16384); memcpy(b, memory + 16384, 16384); \
        for (uint64_t turn = 0; turn < n / 1024; turn++) { \
            for (int i = 0; i < 1024; i++) { \
                wasmi_words value; \
                wasmi_binary(number, a[i], b[i], &value); \
                out[i] = value; \
            } \
            __asm__ volatile("" : : "r"(out) : "memory"); \
        } \
        for (int i = 0; i < 1024; i++) sum ^= out[i].lo; \
        return sum; \
    }
VECTORS(i8x16_add, WASMI_BINARY_I8X16_ADD)
VECTORS(i8x16_min_s, WASMI_BINARY_I8X16_MIN_S)
VECTORS(i8x16_add_sat_u, WASMI_BINARY_I8X16_ADD_SAT_U)
VECTORS(i8x16_eq, WASMI_BINARY_I8X16_EQ)
VECTORS(i8x16_swizzle, WASMI_BINARY_I8X16_SWIZZLE)
VECTORS(i32x4_mul, WASMI_BINARY_I32X4_MUL)
