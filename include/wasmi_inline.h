/* Scalar instructions, loads and stores that a compiler inlines: those of wasmi_instructions.h, with bodies in C for
   GCC and clang. Include it in place of wasmi_instructions.h, with the same library linked. A function that has no body
   here, whose address is taken, or that another compiler or a big-endian target compiles, is the library's.

   The bodies are tested, not proved: conformance/run compares each with the library, on edge operands and random ones.
   The library's own functions are proved where it is the archive for x86-64. */
#ifndef WASMI_INLINE_H
#define WASMI_INLINE_H

#include <string.h>

#include "wasmi_instructions.h"

#if defined(__GNUC__) && __BYTE_ORDER__ == __ORDER_LITTLE_ENDIAN__

/* What stands before each body: it serves for calls in the file that includes it, and the library has the function. */
#ifndef WASMI_INLINE
#define WASMI_INLINE extern __inline__ __attribute__((gnu_inline, always_inline, artificial))
#endif

#ifdef __cplusplus
#pragma GCC diagnostic push
#pragma GCC diagnostic ignored "-Wold-style-cast"
extern "C" {
#endif

/* A function without traps of one operand or of two. */
#define WASMI_INLINE_UNARY(name, R, T, result) \
    WASMI_INLINE R wasmi_##name(T value) { return (R)(result); }
#define WASMI_INLINE_BINARY(name, R, T, result) \
    WASMI_INLINE R wasmi_##name(T lhs, T rhs) { return (R)(result); }
/* A division or a remainder: where the quotient of signed operands overflows, a division traps, a remainder is 0. */
#define WASMI_INLINE_DIVISION(name, T, overflows, status_then, result) \
    WASMI_INLINE uint8_t wasmi_##name(T lhs, T rhs, T *value) { \
        if (rhs == 0) \
            return WASMI_INTEGER_DIVISION_BY_ZERO; \
        if ((status_then) != WASMI_DONE && (overflows)) \
            return status_then; \
        *value = (overflows) ? 0 : (T)(result); \
        return WASMI_DONE; \
    }

/* The instructions on integers of so many bits: S and U are the types with and without sign, B a suffix of builtins. */
#define WASMI_INLINE_INTEGERS(type, S, U, BITS, LEAST, B) \
    WASMI_INLINE_UNARY(type##_clz, S, S, value == 0 ? BITS : __builtin_clz##B((U)value)) \
    WASMI_INLINE_UNARY(type##_ctz, S, S, value == 0 ? BITS : __builtin_ctz##B((U)value)) \
    WASMI_INLINE_UNARY(type##_popcnt, S, S, __builtin_popcount##B((U)value)) \
    WASMI_INLINE_UNARY(type##_eqz, bool, S, value == 0) \
    WASMI_INLINE_UNARY(type##_extend8_s, S, S, (int8_t)value) \
    WASMI_INLINE_UNARY(type##_extend16_s, S, S, (int16_t)value) \
    WASMI_INLINE_BINARY(type##_add, S, S, (U)lhs + (U)rhs) \
    WASMI_INLINE_BINARY(type##_sub, S, S, (U)lhs - (U)rhs) \
    WASMI_INLINE_BINARY(type##_mul, S, S, (U)lhs * (U)rhs) \
    WASMI_INLINE_BINARY(type##_bitand, S, S, lhs & rhs) \
    WASMI_INLINE_BINARY(type##_bitor, S, S, lhs | rhs) \
    WASMI_INLINE_BINARY(type##_bitxor, S, S, lhs ^ rhs) \
    WASMI_INLINE_BINARY(type##_shl, S, S, (U)lhs << (rhs & (BITS - 1))) \
    WASMI_INLINE_BINARY(type##_shr_s, S, S, lhs >> (rhs & (BITS - 1))) \
    WASMI_INLINE_BINARY(type##_shr_u, U, U, lhs >> (rhs & (BITS - 1))) \
    WASMI_INLINE_BINARY(type##_rotl, S, S, (U)lhs << ((U)rhs & (BITS - 1)) | (U)lhs >> (-(U)rhs & (BITS - 1))) \
    WASMI_INLINE_BINARY(type##_rotr, S, S, (U)lhs >> ((U)rhs & (BITS - 1)) | (U)lhs << (-(U)rhs & (BITS - 1))) \
    WASMI_INLINE_BINARY(type##_eq, bool, S, lhs == rhs) \
    WASMI_INLINE_BINARY(type##_ne, bool, S, lhs != rhs) \
    WASMI_INLINE_BINARY(type##_lt_s, bool, S, lhs < rhs) \
    WASMI_INLINE_BINARY(type##_lt_u, bool, U, lhs < rhs) \
    WASMI_INLINE_BINARY(type##_le_s, bool, S, lhs <= rhs) \
    WASMI_INLINE_BINARY(type##_le_u, bool, U, lhs <= rhs) \
    WASMI_INLINE_BINARY(type##_gt_s, bool, S, lhs > rhs) \
    WASMI_INLINE_BINARY(type##_gt_u, bool, U, lhs > rhs) \
    WASMI_INLINE_BINARY(type##_ge_s, bool, S, lhs >= rhs) \
    WASMI_INLINE_BINARY(type##_ge_u, bool, U, lhs >= rhs) \
    WASMI_INLINE_DIVISION(type##_div_s, S, lhs == LEAST && rhs == -1, WASMI_INTEGER_OVERFLOW, lhs / rhs) \
    WASMI_INLINE_DIVISION(type##_div_u, U, false, WASMI_DONE, lhs / rhs) \
    WASMI_INLINE_DIVISION(type##_rem_s, S, rhs == -1, WASMI_DONE, lhs % rhs) \
    WASMI_INLINE_DIVISION(type##_rem_u, U, false, WASMI_DONE, lhs % rhs)
WASMI_INLINE_INTEGERS(i32, int32_t, uint32_t, 32, INT32_MIN, )
WASMI_INLINE_INTEGERS(i64, int64_t, uint64_t, 64, INT64_MIN, ll)

WASMI_INLINE_UNARY(i32_wrap_i64, int32_t, int64_t, (uint32_t)value)
WASMI_INLINE_UNARY(i64_extend_i32_s, int64_t, int32_t, value)
WASMI_INLINE_UNARY(i64_extend_i32_u, uint64_t, uint32_t, value)
WASMI_INLINE_UNARY(i64_extend32_s, int64_t, int64_t, (int32_t)value)

WASMI_INLINE void wasmi_i64_add128(int64_t lhs_lo, int64_t lhs_hi, int64_t rhs_lo, int64_t rhs_hi, int64_t *lo,
                                   int64_t *hi) {
    uint64_t sum = (uint64_t)lhs_lo + (uint64_t)rhs_lo;
    *lo = (int64_t)sum;
    *hi = (int64_t)((uint64_t)lhs_hi + (uint64_t)rhs_hi + (sum < (uint64_t)lhs_lo));
}

WASMI_INLINE void wasmi_i64_sub128(int64_t lhs_lo, int64_t lhs_hi, int64_t rhs_lo, int64_t rhs_hi, int64_t *lo,
                                   int64_t *hi) {
    *lo = (int64_t)((uint64_t)lhs_lo - (uint64_t)rhs_lo);
    *hi = (int64_t)((uint64_t)lhs_hi - (uint64_t)rhs_hi - ((uint64_t)lhs_lo < (uint64_t)rhs_lo));
}

/* Whether size bytes at ptr + offset lie within a memory, and where they begin. */
WASMI_INLINE bool wasmi_inline_lies_within(size_t memory_len, uint64_t ptr, uint64_t offset, size_t size,
                                           uint64_t *at) {
    return memory_len >= size && !__builtin_add_overflow(ptr, offset, at) && *at <= memory_len - size;
}

/* A load of an item of type M, of which `loaded` is the value, and a store of what is made of the value, an M. */
#define WASMI_INLINE_LOAD(name, M, T, loaded) \
    WASMI_INLINE uint8_t wasmi_##name(const uint8_t *memory, size_t memory_len, uint64_t ptr, uint64_t offset, \
                                      T *value) { \
        uint64_t at; \
        M item; \
        if (!wasmi_inline_lies_within(memory_len, ptr, offset, sizeof item, &at)) \
            return WASMI_MEMORY_OUT_OF_BOUNDS; \
        memcpy(&item, memory + at, sizeof item); \
        *value = loaded; \
        return WASMI_DONE; \
    }
#define WASMI_INLINE_STORE(name, M, T, stored) \
    WASMI_INLINE uint8_t wasmi_##name(uint8_t *memory, size_t memory_len, uint64_t ptr, uint64_t offset, T value) { \
        uint64_t at; \
        M item = stored; \
        if (!wasmi_inline_lies_within(memory_len, ptr, offset, sizeof item, &at)) \
            return WASMI_MEMORY_OUT_OF_BOUNDS; \
        memcpy(memory + at, &item, sizeof item); \
        return WASMI_DONE; \
    }
WASMI_INLINE_LOAD(i32_load8_s, int8_t, int32_t, (int32_t)item)
WASMI_INLINE_LOAD(i32_load8_u, uint8_t, int32_t, (int32_t)item)
WASMI_INLINE_LOAD(i32_load16_s, int16_t, int32_t, (int32_t)item)
WASMI_INLINE_LOAD(i32_load16_u, uint16_t, int32_t, (int32_t)item)
WASMI_INLINE_LOAD(i64_load8_s, int8_t, int64_t, (int64_t)item)
WASMI_INLINE_LOAD(i64_load8_u, uint8_t, int64_t, (int64_t)item)
WASMI_INLINE_LOAD(i64_load16_s, int16_t, int64_t, (int64_t)item)
WASMI_INLINE_LOAD(i64_load16_u, uint16_t, int64_t, (int64_t)item)
WASMI_INLINE_LOAD(i64_load32_s, int32_t, int64_t, (int64_t)item)
WASMI_INLINE_LOAD(i64_load32_u, uint32_t, int64_t, (int64_t)item)
WASMI_INLINE_LOAD(load_u32, uint32_t, uint32_t, item)
WASMI_INLINE_LOAD(load_u64, uint64_t, uint64_t, item)
WASMI_INLINE_LOAD(v128_load, wasmi_words, wasmi_words, item)
WASMI_INLINE_STORE(i32_store8, uint8_t, int32_t, (uint8_t)value)
WASMI_INLINE_STORE(i32_store16, uint16_t, int32_t, (uint16_t)value)
WASMI_INLINE_STORE(i64_store8, uint8_t, int64_t, (uint8_t)value)
WASMI_INLINE_STORE(i64_store16, uint16_t, int64_t, (uint16_t)value)
WASMI_INLINE_STORE(i64_store32, uint32_t, int64_t, (uint32_t)value)
WASMI_INLINE_STORE(store32, uint32_t, uint32_t, value)
WASMI_INLINE_STORE(store64, uint64_t, uint64_t, value)
WASMI_INLINE_STORE(v128_store, wasmi_words, wasmi_words, value)

#ifdef __cplusplus
}
#pragma GCC diagnostic pop
#endif

#undef WASMI_INLINE_UNARY
#undef WASMI_INLINE_BINARY
#undef WASMI_INLINE_DIVISION
#undef WASMI_INLINE_INTEGERS
#undef WASMI_INLINE_LOAD
#undef WASMI_INLINE_STORE

#endif
#endif
