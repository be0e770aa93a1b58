/* Each scalar instruction, and each load and store of a number, by name, for C and C++, in libwasmi_core.a.

   Names: wasmi_i32_add is i32.add, and so on. bitand, bitor and bitxor are and, or and xor; the loads and stores of
   whole integers (i32.load, i64.load, i32.store, i64.store) are load_u32, load_u64, store32 and store64. The other
   instructions on vectors are called by number (wasmi_core.h).
   Each function also has a short name, as wasm_i32_add, which is a macro. Nine of these names stand in clang's
   wasm_simd128.h too. Where WASMI_CORE_NO_SHORT_NAMES is defined before this header there are no short names.

   Results: a function that returns a value, or nothing, doesn't trap. One that returns uint8_t returns WASMI_DONE, or the
   number of its trap, as in wasmi_core.h; after a trap nothing is written. A result of 128 bits is written as two words.

   Pointers and threads: as in wasmi_core.h; lanes, lo and hi must not be NULL either. A load or a store is at ptr +
   offset, where 2^64 or more is past the end. */
#ifndef WASMI_INSTRUCTIONS_H
#define WASMI_INSTRUCTIONS_H

#include <stdbool.h>

#include "wasmi_core.h"

#ifdef __cplusplus
extern "C" {
#endif

/* The bytes of a and b that lanes has the indices of: those of a are 0 to 15, those of b 16 to 31. WASMI_NO_LANE if an
   index is greater. There are 16 lanes. */
uint8_t wasmi_i8x16_shuffle(wasmi_words a, wasmi_words b, const uint8_t *lanes, wasmi_words *value)
    WASMI_CHECKED WASMI_NOT_NULL(3, 4);

/* Stores a vector. */
uint8_t wasmi_v128_store(uint8_t *memory, size_t memory_len, uint64_t ptr, uint64_t offset, wasmi_words value)
    WASMI_CHECKED;

/* The table of tools/header begins. */
/* The scalar instructions by name. */
int32_t wasmi_i32_clz(int32_t value);
int32_t wasmi_i32_ctz(int32_t value);
int32_t wasmi_i32_popcnt(int32_t value);
bool wasmi_i32_eqz(int32_t value);
int64_t wasmi_i64_clz(int64_t value);
int64_t wasmi_i64_ctz(int64_t value);
int64_t wasmi_i64_popcnt(int64_t value);
bool wasmi_i64_eqz(int64_t value);
int32_t wasmi_i32_wrap_i64(int64_t value);
int64_t wasmi_i64_extend_i32_s(int32_t value);
uint64_t wasmi_i64_extend_i32_u(uint32_t value);
int32_t wasmi_i32_extend8_s(int32_t value);
int32_t wasmi_i32_extend16_s(int32_t value);
int64_t wasmi_i64_extend8_s(int64_t value);
int64_t wasmi_i64_extend16_s(int64_t value);
int64_t wasmi_i64_extend32_s(int64_t value);
int32_t wasmi_i32_add(int32_t lhs, int32_t rhs);
int32_t wasmi_i32_sub(int32_t lhs, int32_t rhs);
int32_t wasmi_i32_mul(int32_t lhs, int32_t rhs);
int32_t wasmi_i32_bitand(int32_t lhs, int32_t rhs);
int32_t wasmi_i32_bitor(int32_t lhs, int32_t rhs);
int32_t wasmi_i32_bitxor(int32_t lhs, int32_t rhs);
int32_t wasmi_i32_shl(int32_t lhs, int32_t rhs);
int32_t wasmi_i32_shr_s(int32_t lhs, int32_t rhs);
uint32_t wasmi_i32_shr_u(uint32_t lhs, uint32_t rhs);
int32_t wasmi_i32_rotl(int32_t lhs, int32_t rhs);
int32_t wasmi_i32_rotr(int32_t lhs, int32_t rhs);
uint8_t wasmi_i32_div_s(int32_t lhs, int32_t rhs, int32_t *value) WASMI_CHECKED WASMI_NOT_NULL(3);
uint8_t wasmi_i32_div_u(uint32_t lhs, uint32_t rhs, uint32_t *value) WASMI_CHECKED WASMI_NOT_NULL(3);
uint8_t wasmi_i32_rem_s(int32_t lhs, int32_t rhs, int32_t *value) WASMI_CHECKED WASMI_NOT_NULL(3);
uint8_t wasmi_i32_rem_u(uint32_t lhs, uint32_t rhs, uint32_t *value) WASMI_CHECKED WASMI_NOT_NULL(3);
bool wasmi_i32_eq(int32_t lhs, int32_t rhs);
bool wasmi_i32_ne(int32_t lhs, int32_t rhs);
bool wasmi_i32_lt_s(int32_t lhs, int32_t rhs);
bool wasmi_i32_lt_u(uint32_t lhs, uint32_t rhs);
bool wasmi_i32_le_s(int32_t lhs, int32_t rhs);
bool wasmi_i32_le_u(uint32_t lhs, uint32_t rhs);
bool wasmi_i32_gt_s(int32_t lhs, int32_t rhs);
bool wasmi_i32_gt_u(uint32_t lhs, uint32_t rhs);
bool wasmi_i32_ge_s(int32_t lhs, int32_t rhs);
bool wasmi_i32_ge_u(uint32_t lhs, uint32_t rhs);
int64_t wasmi_i64_add(int64_t lhs, int64_t rhs);
int64_t wasmi_i64_sub(int64_t lhs, int64_t rhs);
int64_t wasmi_i64_mul(int64_t lhs, int64_t rhs);
int64_t wasmi_i64_bitand(int64_t lhs, int64_t rhs);
int64_t wasmi_i64_bitor(int64_t lhs, int64_t rhs);
int64_t wasmi_i64_bitxor(int64_t lhs, int64_t rhs);
int64_t wasmi_i64_shl(int64_t lhs, int64_t rhs);
int64_t wasmi_i64_shr_s(int64_t lhs, int64_t rhs);
uint64_t wasmi_i64_shr_u(uint64_t lhs, uint64_t rhs);
int64_t wasmi_i64_rotl(int64_t lhs, int64_t rhs);
int64_t wasmi_i64_rotr(int64_t lhs, int64_t rhs);
uint8_t wasmi_i64_div_s(int64_t lhs, int64_t rhs, int64_t *value) WASMI_CHECKED WASMI_NOT_NULL(3);
uint8_t wasmi_i64_div_u(uint64_t lhs, uint64_t rhs, uint64_t *value) WASMI_CHECKED WASMI_NOT_NULL(3);
uint8_t wasmi_i64_rem_s(int64_t lhs, int64_t rhs, int64_t *value) WASMI_CHECKED WASMI_NOT_NULL(3);
uint8_t wasmi_i64_rem_u(uint64_t lhs, uint64_t rhs, uint64_t *value) WASMI_CHECKED WASMI_NOT_NULL(3);
bool wasmi_i64_eq(int64_t lhs, int64_t rhs);
bool wasmi_i64_ne(int64_t lhs, int64_t rhs);
bool wasmi_i64_lt_s(int64_t lhs, int64_t rhs);
bool wasmi_i64_lt_u(uint64_t lhs, uint64_t rhs);
bool wasmi_i64_le_s(int64_t lhs, int64_t rhs);
bool wasmi_i64_le_u(uint64_t lhs, uint64_t rhs);
bool wasmi_i64_gt_s(int64_t lhs, int64_t rhs);
bool wasmi_i64_gt_u(uint64_t lhs, uint64_t rhs);
bool wasmi_i64_ge_s(int64_t lhs, int64_t rhs);
bool wasmi_i64_ge_u(uint64_t lhs, uint64_t rhs);
void wasmi_i64_add128(int64_t lhs_lo, int64_t lhs_hi, int64_t rhs_lo, int64_t rhs_hi, int64_t *lo, int64_t *hi)
    WASMI_NOT_NULL(5, 6);
void wasmi_i64_sub128(int64_t lhs_lo, int64_t lhs_hi, int64_t rhs_lo, int64_t rhs_hi, int64_t *lo, int64_t *hi)
    WASMI_NOT_NULL(5, 6);
void wasmi_i64_mul_wide_s(int64_t lhs, int64_t rhs, int64_t *lo, int64_t *hi) WASMI_NOT_NULL(3, 4);
void wasmi_i64_mul_wide_u(int64_t lhs, int64_t rhs, int64_t *lo, int64_t *hi) WASMI_NOT_NULL(3, 4);

/* The loads by name. */
uint8_t wasmi_i32_load8_s(const uint8_t *memory, size_t memory_len, uint64_t ptr, uint64_t offset, int32_t *value)
    WASMI_CHECKED WASMI_NOT_NULL(5);
uint8_t wasmi_i32_load8_u(const uint8_t *memory, size_t memory_len, uint64_t ptr, uint64_t offset, int32_t *value)
    WASMI_CHECKED WASMI_NOT_NULL(5);
uint8_t wasmi_i32_load16_s(const uint8_t *memory, size_t memory_len, uint64_t ptr, uint64_t offset, int32_t *value)
    WASMI_CHECKED WASMI_NOT_NULL(5);
uint8_t wasmi_i32_load16_u(const uint8_t *memory, size_t memory_len, uint64_t ptr, uint64_t offset, int32_t *value)
    WASMI_CHECKED WASMI_NOT_NULL(5);
uint8_t wasmi_i64_load8_s(const uint8_t *memory, size_t memory_len, uint64_t ptr, uint64_t offset, int64_t *value)
    WASMI_CHECKED WASMI_NOT_NULL(5);
uint8_t wasmi_i64_load8_u(const uint8_t *memory, size_t memory_len, uint64_t ptr, uint64_t offset, int64_t *value)
    WASMI_CHECKED WASMI_NOT_NULL(5);
uint8_t wasmi_i64_load16_s(const uint8_t *memory, size_t memory_len, uint64_t ptr, uint64_t offset, int64_t *value)
    WASMI_CHECKED WASMI_NOT_NULL(5);
uint8_t wasmi_i64_load16_u(const uint8_t *memory, size_t memory_len, uint64_t ptr, uint64_t offset, int64_t *value)
    WASMI_CHECKED WASMI_NOT_NULL(5);
uint8_t wasmi_i64_load32_s(const uint8_t *memory, size_t memory_len, uint64_t ptr, uint64_t offset, int64_t *value)
    WASMI_CHECKED WASMI_NOT_NULL(5);
uint8_t wasmi_i64_load32_u(const uint8_t *memory, size_t memory_len, uint64_t ptr, uint64_t offset, int64_t *value)
    WASMI_CHECKED WASMI_NOT_NULL(5);
uint8_t wasmi_load_u32(const uint8_t *memory, size_t memory_len, uint64_t ptr, uint64_t offset, uint32_t *value)
    WASMI_CHECKED WASMI_NOT_NULL(5);
uint8_t wasmi_load_u64(const uint8_t *memory, size_t memory_len, uint64_t ptr, uint64_t offset, uint64_t *value)
    WASMI_CHECKED WASMI_NOT_NULL(5);

/* The loads of vectors by name. */
uint8_t wasmi_v128_load(const uint8_t *memory, size_t memory_len, uint64_t ptr, uint64_t offset, wasmi_words *value)
    WASMI_CHECKED WASMI_NOT_NULL(5);
uint8_t wasmi_v128_load8x8_s(const uint8_t *memory, size_t memory_len, uint64_t ptr, uint64_t offset,
                             wasmi_words *value) WASMI_CHECKED WASMI_NOT_NULL(5);
uint8_t wasmi_v128_load8x8_u(const uint8_t *memory, size_t memory_len, uint64_t ptr, uint64_t offset,
                             wasmi_words *value) WASMI_CHECKED WASMI_NOT_NULL(5);
uint8_t wasmi_v128_load16x4_s(const uint8_t *memory, size_t memory_len, uint64_t ptr, uint64_t offset,
                              wasmi_words *value) WASMI_CHECKED WASMI_NOT_NULL(5);
uint8_t wasmi_v128_load16x4_u(const uint8_t *memory, size_t memory_len, uint64_t ptr, uint64_t offset,
                              wasmi_words *value) WASMI_CHECKED WASMI_NOT_NULL(5);
uint8_t wasmi_v128_load32x2_s(const uint8_t *memory, size_t memory_len, uint64_t ptr, uint64_t offset,
                              wasmi_words *value) WASMI_CHECKED WASMI_NOT_NULL(5);
uint8_t wasmi_v128_load32x2_u(const uint8_t *memory, size_t memory_len, uint64_t ptr, uint64_t offset,
                              wasmi_words *value) WASMI_CHECKED WASMI_NOT_NULL(5);
uint8_t wasmi_v128_load8_splat(const uint8_t *memory, size_t memory_len, uint64_t ptr, uint64_t offset,
                               wasmi_words *value) WASMI_CHECKED WASMI_NOT_NULL(5);
uint8_t wasmi_v128_load16_splat(const uint8_t *memory, size_t memory_len, uint64_t ptr, uint64_t offset,
                                wasmi_words *value) WASMI_CHECKED WASMI_NOT_NULL(5);
uint8_t wasmi_v128_load32_splat(const uint8_t *memory, size_t memory_len, uint64_t ptr, uint64_t offset,
                                wasmi_words *value) WASMI_CHECKED WASMI_NOT_NULL(5);
uint8_t wasmi_v128_load64_splat(const uint8_t *memory, size_t memory_len, uint64_t ptr, uint64_t offset,
                                wasmi_words *value) WASMI_CHECKED WASMI_NOT_NULL(5);
uint8_t wasmi_v128_load32_zero(const uint8_t *memory, size_t memory_len, uint64_t ptr, uint64_t offset,
                               wasmi_words *value) WASMI_CHECKED WASMI_NOT_NULL(5);
uint8_t wasmi_v128_load64_zero(const uint8_t *memory, size_t memory_len, uint64_t ptr, uint64_t offset,
                               wasmi_words *value) WASMI_CHECKED WASMI_NOT_NULL(5);

/* The stores by name. */
uint8_t wasmi_i32_store8(uint8_t *memory, size_t memory_len, uint64_t ptr, uint64_t offset, int32_t value)
    WASMI_CHECKED;
uint8_t wasmi_i32_store16(uint8_t *memory, size_t memory_len, uint64_t ptr, uint64_t offset, int32_t value)
    WASMI_CHECKED;
uint8_t wasmi_i64_store8(uint8_t *memory, size_t memory_len, uint64_t ptr, uint64_t offset, int64_t value)
    WASMI_CHECKED;
uint8_t wasmi_i64_store16(uint8_t *memory, size_t memory_len, uint64_t ptr, uint64_t offset, int64_t value)
    WASMI_CHECKED;
uint8_t wasmi_i64_store32(uint8_t *memory, size_t memory_len, uint64_t ptr, uint64_t offset, int64_t value)
    WASMI_CHECKED;
uint8_t wasmi_store32(uint8_t *memory, size_t memory_len, uint64_t ptr, uint64_t offset, uint32_t value) WASMI_CHECKED;
uint8_t wasmi_store64(uint8_t *memory, size_t memory_len, uint64_t ptr, uint64_t offset, uint64_t value) WASMI_CHECKED;

/* These functions, by the shape in which wasmi_core.h has the numbers of their instructions. */
#define WASMI_UNARY_FUNCTIONS(X) \
    X(i32_clz) X(i32_ctz) X(i32_popcnt) X(i32_eqz) X(i64_clz) X(i64_ctz) X(i64_popcnt) X(i64_eqz) X(i32_wrap_i64) \
    X(i64_extend_i32_s) X(i64_extend_i32_u) X(i32_extend8_s) X(i32_extend16_s) X(i64_extend8_s) X(i64_extend16_s) \
    X(i64_extend32_s)
#define WASMI_BINARY_FUNCTIONS(X) \
    X(i32_add) X(i32_sub) X(i32_mul) X(i32_bitand) X(i32_bitor) X(i32_bitxor) X(i32_shl) X(i32_shr_s) X(i32_shr_u) \
    X(i32_rotl) X(i32_rotr) X(i32_div_s) X(i32_div_u) X(i32_rem_s) X(i32_rem_u) X(i32_eq) X(i32_ne) X(i32_lt_s) \
    X(i32_lt_u) X(i32_le_s) X(i32_le_u) X(i32_gt_s) X(i32_gt_u) X(i32_ge_s) X(i32_ge_u) X(i64_add) X(i64_sub) \
    X(i64_mul) X(i64_bitand) X(i64_bitor) X(i64_bitxor) X(i64_shl) X(i64_shr_s) X(i64_shr_u) X(i64_rotl) \
    X(i64_rotr) X(i64_div_s) X(i64_div_u) X(i64_rem_s) X(i64_rem_u) X(i64_eq) X(i64_ne) X(i64_lt_s) X(i64_lt_u) \
    X(i64_le_s) X(i64_le_u) X(i64_gt_s) X(i64_gt_u) X(i64_ge_s) X(i64_ge_u) X(i64_add128) X(i64_sub128) \
    X(i64_mul_wide_s) X(i64_mul_wide_u)
#define WASMI_LOAD_FUNCTIONS(X) \
    X(i32_load8_s) X(i32_load8_u) X(i32_load16_s) X(i32_load16_u) X(i64_load8_s) X(i64_load8_u) X(i64_load16_s) \
    X(i64_load16_u) X(i64_load32_s) X(i64_load32_u) X(load_u32) X(load_u64) X(v128_load) X(v128_load8x8_s) \
    X(v128_load8x8_u) X(v128_load16x4_s) X(v128_load16x4_u) X(v128_load32x2_s) X(v128_load32x2_u) \
    X(v128_load8_splat) X(v128_load16_splat) X(v128_load32_splat) X(v128_load64_splat) X(v128_load32_zero) \
    X(v128_load64_zero)
#define WASMI_STORE_FUNCTIONS(X) \
    X(i32_store8) X(i32_store16) X(i64_store8) X(i64_store16) X(i64_store32) X(store32) X(store64)

/* Their short names. */
#ifndef WASMI_CORE_NO_SHORT_NAMES
#define wasm_i8x16_shuffle wasmi_i8x16_shuffle
#define wasm_v128_store wasmi_v128_store
#define wasm_i32_clz wasmi_i32_clz
#define wasm_i32_ctz wasmi_i32_ctz
#define wasm_i32_popcnt wasmi_i32_popcnt
#define wasm_i32_eqz wasmi_i32_eqz
#define wasm_i64_clz wasmi_i64_clz
#define wasm_i64_ctz wasmi_i64_ctz
#define wasm_i64_popcnt wasmi_i64_popcnt
#define wasm_i64_eqz wasmi_i64_eqz
#define wasm_i32_wrap_i64 wasmi_i32_wrap_i64
#define wasm_i64_extend_i32_s wasmi_i64_extend_i32_s
#define wasm_i64_extend_i32_u wasmi_i64_extend_i32_u
#define wasm_i32_extend8_s wasmi_i32_extend8_s
#define wasm_i32_extend16_s wasmi_i32_extend16_s
#define wasm_i64_extend8_s wasmi_i64_extend8_s
#define wasm_i64_extend16_s wasmi_i64_extend16_s
#define wasm_i64_extend32_s wasmi_i64_extend32_s
#define wasm_i32_add wasmi_i32_add
#define wasm_i32_sub wasmi_i32_sub
#define wasm_i32_mul wasmi_i32_mul
#define wasm_i32_bitand wasmi_i32_bitand
#define wasm_i32_bitor wasmi_i32_bitor
#define wasm_i32_bitxor wasmi_i32_bitxor
#define wasm_i32_shl wasmi_i32_shl
#define wasm_i32_shr_s wasmi_i32_shr_s
#define wasm_i32_shr_u wasmi_i32_shr_u
#define wasm_i32_rotl wasmi_i32_rotl
#define wasm_i32_rotr wasmi_i32_rotr
#define wasm_i32_div_s wasmi_i32_div_s
#define wasm_i32_div_u wasmi_i32_div_u
#define wasm_i32_rem_s wasmi_i32_rem_s
#define wasm_i32_rem_u wasmi_i32_rem_u
#define wasm_i32_eq wasmi_i32_eq
#define wasm_i32_ne wasmi_i32_ne
#define wasm_i32_lt_s wasmi_i32_lt_s
#define wasm_i32_lt_u wasmi_i32_lt_u
#define wasm_i32_le_s wasmi_i32_le_s
#define wasm_i32_le_u wasmi_i32_le_u
#define wasm_i32_gt_s wasmi_i32_gt_s
#define wasm_i32_gt_u wasmi_i32_gt_u
#define wasm_i32_ge_s wasmi_i32_ge_s
#define wasm_i32_ge_u wasmi_i32_ge_u
#define wasm_i64_add wasmi_i64_add
#define wasm_i64_sub wasmi_i64_sub
#define wasm_i64_mul wasmi_i64_mul
#define wasm_i64_bitand wasmi_i64_bitand
#define wasm_i64_bitor wasmi_i64_bitor
#define wasm_i64_bitxor wasmi_i64_bitxor
#define wasm_i64_shl wasmi_i64_shl
#define wasm_i64_shr_s wasmi_i64_shr_s
#define wasm_i64_shr_u wasmi_i64_shr_u
#define wasm_i64_rotl wasmi_i64_rotl
#define wasm_i64_rotr wasmi_i64_rotr
#define wasm_i64_div_s wasmi_i64_div_s
#define wasm_i64_div_u wasmi_i64_div_u
#define wasm_i64_rem_s wasmi_i64_rem_s
#define wasm_i64_rem_u wasmi_i64_rem_u
#define wasm_i64_eq wasmi_i64_eq
#define wasm_i64_ne wasmi_i64_ne
#define wasm_i64_lt_s wasmi_i64_lt_s
#define wasm_i64_lt_u wasmi_i64_lt_u
#define wasm_i64_le_s wasmi_i64_le_s
#define wasm_i64_le_u wasmi_i64_le_u
#define wasm_i64_gt_s wasmi_i64_gt_s
#define wasm_i64_gt_u wasmi_i64_gt_u
#define wasm_i64_ge_s wasmi_i64_ge_s
#define wasm_i64_ge_u wasmi_i64_ge_u
#define wasm_i64_add128 wasmi_i64_add128
#define wasm_i64_sub128 wasmi_i64_sub128
#define wasm_i64_mul_wide_s wasmi_i64_mul_wide_s
#define wasm_i64_mul_wide_u wasmi_i64_mul_wide_u
#define wasm_i32_load8_s wasmi_i32_load8_s
#define wasm_i32_load8_u wasmi_i32_load8_u
#define wasm_i32_load16_s wasmi_i32_load16_s
#define wasm_i32_load16_u wasmi_i32_load16_u
#define wasm_i64_load8_s wasmi_i64_load8_s
#define wasm_i64_load8_u wasmi_i64_load8_u
#define wasm_i64_load16_s wasmi_i64_load16_s
#define wasm_i64_load16_u wasmi_i64_load16_u
#define wasm_i64_load32_s wasmi_i64_load32_s
#define wasm_i64_load32_u wasmi_i64_load32_u
#define wasm_load_u32 wasmi_load_u32
#define wasm_load_u64 wasmi_load_u64
#define wasm_v128_load wasmi_v128_load
#define wasm_v128_load8x8_s wasmi_v128_load8x8_s
#define wasm_v128_load8x8_u wasmi_v128_load8x8_u
#define wasm_v128_load16x4_s wasmi_v128_load16x4_s
#define wasm_v128_load16x4_u wasmi_v128_load16x4_u
#define wasm_v128_load32x2_s wasmi_v128_load32x2_s
#define wasm_v128_load32x2_u wasmi_v128_load32x2_u
#define wasm_v128_load8_splat wasmi_v128_load8_splat
#define wasm_v128_load16_splat wasmi_v128_load16_splat
#define wasm_v128_load32_splat wasmi_v128_load32_splat
#define wasm_v128_load64_splat wasmi_v128_load64_splat
#define wasm_v128_load32_zero wasmi_v128_load32_zero
#define wasm_v128_load64_zero wasmi_v128_load64_zero
#define wasm_i32_store8 wasmi_i32_store8
#define wasm_i32_store16 wasmi_i32_store16
#define wasm_i64_store8 wasmi_i64_store8
#define wasm_i64_store16 wasmi_i64_store16
#define wasm_i64_store32 wasmi_i64_store32
#define wasm_store32 wasmi_store32
#define wasm_store64 wasmi_store64
#endif
/* The table of tools/header ends. */

#ifdef __cplusplus
}
#endif

#endif
