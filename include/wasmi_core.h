/* The calls of wasmi_core for C and C++, in libwasmi_core.a.

   Processors: the archive that is proved is for Linux on x86-64, and takes a processor of x86-64-v2 (SSE4.2 and popcnt,
   since 2009); on an older one an instruction such as wasmi_i32_popcnt ends the program. Installed with it, this
   header defines WASMI_CORE_PROVED, so that a program for another target isn't compiled. The library that is built from
   source (rust/c) has the same calls for any target of Rust with std, and is tested, not proved.

   State: there is none. Instructions work on values and bytes of the caller's, and a script is run as a whole
   (wasmi_script_run). A machine with memories, fuel and limits that lives across calls is in wasmi_machine.h.
   Who takes which call:
   - An engine with values of its own: wasmi_instructions.h, or wasmi_inline.h; for vectors, the numbers below.
   - An engine with memories, tables and fuel of its own: wasmi_memory.h besides.
   - A host that leaves these to the library: wasmi_machine.h; plain arguments where there are, else a wasmi_call. For
     guests that share caps, its pools.
   - A host that has calls as text: wasmi_script_run, or on a machine wasmi_machine_run_lines.
   - Who compares another implementation with this one: wasmi_oracle.h.
   All of these are in the bitcode too, which clang 22 inlines.

   Pointers: no pointer is NULL, except one of an array. An array is a pointer and a number of elements, of at most
   PTRDIFF_MAX bytes; the pointer may be NULL only if that number is 0. What a call writes must not overlap with anything
   else that the call takes. No pointer is kept.

   Threads: calls may be made from several threads at once, as long as none writes what another one reads or writes.

   Numbers: an instruction keeps its number in every later version, and so does a status; new instructions have the
   numbers after the last one of their kind. The name of a number has the kind before the instruction, as in
   WASMI_UNARY_I32_CLZ and WASMI_LOAD_I32_LOAD8_S. */
#ifndef WASMI_CORE_H
#define WASMI_CORE_H

#if defined(WASMI_CORE_PROVED) && !(defined(__linux__) && defined(__x86_64__) && defined(__LP64__))
#error "This libwasmi_core.a is for Linux on x86-64; the library for another target is built from source (rust/c)."
#endif

#include <stddef.h>
#include <stdint.h>

#ifdef __cplusplus
extern "C" {
#endif

/* The version of this header and the others beside it: MAJOR counts what breaks a program, and MINOR what is new, such
   as a call or a status. CHANGELOG.md says what each version brought. */
#define WASMI_CORE_VERSION "2.0.0"
#define WASMI_CORE_VERSION_MAJOR 2
#define WASMI_CORE_VERSION_MINOR 0
#define WASMI_CORE_VERSION_PATCH 0
#define WASMI_CORE_VERSION_NUMBER \
    (WASMI_CORE_VERSION_MAJOR * 65536 + WASMI_CORE_VERSION_MINOR * 256 + WASMI_CORE_VERSION_PATCH)

/* What a compiler is told of a call: that its status has to be looked at, which parameters aren't NULL, and which call
   has taken its place. It is told nothing where WASMI_CORE_NO_ATTRIBUTES is defined. */
#if defined(__GNUC__) && !defined(WASMI_CORE_NO_ATTRIBUTES)
#define WASMI_CHECKED __attribute__((warn_unused_result))
#define WASMI_NOT_NULL(...) __attribute__((nonnull(__VA_ARGS__)))
#define WASMI_DEPRECATED(other) __attribute__((deprecated("call " other)))
#else
#define WASMI_CHECKED
#define WASMI_NOT_NULL(...)
#define WASMI_DEPRECATED(other)
#endif

/* The version of the library that is linked or loaded: WASMI_CORE_VERSION_NUMBER of its headers. */
uint32_t wasmi_core_version(void);

/* A value: an item of up to 64 bits in lo, or bits 0 to 63 and bits 64 to 127 of a vector, so that lo is the first 8 of
   its bytes in a memory. An instruction on 32 bits ignores the higher bits of its operands, one on an item of 64 bits
   ignores hi, and the unused bits of a value are 0. A Boolean is 0 or 1. */
typedef struct { uint64_t lo, hi; } wasmi_words;

/* What each call except wasmi_script_run returns. The statuses below 253 are the numbers of traps, and an instruction
   has no other traps than these three. UNKNOWN is tested first, then NO_LANE, LENGTHS_DIFFER (of the arrays of
   wasmi_oracle.h) and traps. After any status except WASMI_DONE nothing is written. */
enum {
    WASMI_DONE = 0,
    /* a load or a store past the end of the bytes */
    WASMI_MEMORY_OUT_OF_BOUNDS = 2,
    WASMI_INTEGER_DIVISION_BY_ZERO = 5,
    WASMI_INTEGER_OVERFLOW = 6,
    /* no lane has the index */
    WASMI_NO_LANE = 253,
    /* the arrays differ in length */
    WASMI_LENGTHS_DIFFER = 254,
    /* no instruction has the number */
    WASMI_UNKNOWN = 255
};

/* Runs a script of at most 1,048,576 bytes (SCRIPT.md of the documentation) and writes what it prints to the front of
   text; *needed is the length of that in bytes. It returns the exit status of the program, another list than that
   above:
   0: every call has a reply, refusals included;
   2: a line is no command, or the script is too long; the text says which;
   3: out of memory while reading, parsing, or for the replies; the text says so;
   4: out of memory while writing: the text is only the beginning of what the script prints;
   5: text_len is below *needed, and text is unchanged: call again with *needed bytes. */
enum {
    WASMI_TEXT_TOO_SHORT = 5
};
uint8_t wasmi_script_run(const uint8_t *script, size_t script_len, uint8_t *text, size_t text_len, size_t *needed)
    WASMI_CHECKED WASMI_NOT_NULL(5);

/* Executes the instruction that has a number in the table below. Of these instructions only those of two operands trap.
   A shift of a vector takes its amount from the low 32 bits of b. Of the relaxed instructions a swizzle gives 0 for an
   index above 15, a selection of lanes takes each bit by the mask's, the one product of q15 that doesn't fit is the
   greatest number, and a dot reads both operands with sign and its sums of 16 bits wrap. */
uint8_t wasmi_unary(uint16_t number, wasmi_words a, wasmi_words *value) WASMI_CHECKED WASMI_NOT_NULL(3);
uint8_t wasmi_binary(uint16_t number, wasmi_words a, wasmi_words b, wasmi_words *value) WASMI_CHECKED WASMI_NOT_NULL(4);
uint8_t wasmi_ternary(uint16_t number, wasmi_words a, wasmi_words b, wasmi_words c, wasmi_words *value)
    WASMI_CHECKED WASMI_NOT_NULL(5);

/* Loads and stores at ptr + offset, where 2^64 or more is past the end, on bytes of the caller's. The loads and stores
   of whole integers (i32.load, i64.load, i32.store, i64.store) are load_u32, load_u64, store32 and store64. */
uint8_t wasmi_load(uint16_t number, const uint8_t *memory, size_t memory_len, uint64_t ptr, uint64_t offset,
                   wasmi_words *value) WASMI_CHECKED WASMI_NOT_NULL(6);
uint8_t wasmi_store(uint16_t number, uint8_t *memory, size_t memory_len, uint64_t ptr, uint64_t offset,
                    wasmi_words value) WASMI_CHECKED;

/* Executes an instruction on one lane, whose index is below the number of lanes. A replacement takes its item from the
   second operand. */
uint8_t wasmi_extract_lane(uint16_t number, uint8_t lane, wasmi_words a, wasmi_words *value)
    WASMI_CHECKED WASMI_NOT_NULL(4);
uint8_t wasmi_replace_lane(uint16_t number, uint8_t lane, wasmi_words a, wasmi_words item, wasmi_words *value)
    WASMI_CHECKED WASMI_NOT_NULL(5);
uint8_t wasmi_load_lane(uint16_t number, uint8_t lane, const uint8_t *memory, size_t memory_len, uint64_t ptr,
                        uint64_t offset, wasmi_words a, wasmi_words *value) WASMI_CHECKED WASMI_NOT_NULL(8);
uint8_t wasmi_store_lane(uint16_t number, uint8_t lane, uint8_t *memory, size_t memory_len, uint64_t ptr,
                         uint64_t offset, wasmi_words a) WASMI_CHECKED;

/* The table of tools/header begins. */
/* one operand, for wasmi_unary. */
#define WASMI_UNARY_COUNT 63
#define WASMI_UNARY_NAMES(X) \
    X(0, i32_clz) \
    X(1, i32_ctz) \
    X(2, i32_popcnt) \
    X(3, i32_eqz) \
    X(4, i64_clz) \
    X(5, i64_ctz) \
    X(6, i64_popcnt) \
    X(7, i64_eqz) \
    X(8, i32_wrap_i64) \
    X(9, i64_extend_i32_s) \
    X(10, i64_extend_i32_u) \
    X(11, i32_extend8_s) \
    X(12, i32_extend16_s) \
    X(13, i64_extend8_s) \
    X(14, i64_extend16_s) \
    X(15, i64_extend32_s) \
    X(16, i8x16_splat) \
    X(17, i16x8_splat) \
    X(18, i32x4_splat) \
    X(19, i64x2_splat) \
    X(20, v128_widen8x8_s) \
    X(21, v128_widen8x8_u) \
    X(22, v128_widen16x4_s) \
    X(23, v128_widen16x4_u) \
    X(24, v128_widen32x2_s) \
    X(25, v128_widen32x2_u) \
    X(26, v128_low32_zero) \
    X(27, v128_low64_zero) \
    X(28, v128_not) \
    X(29, i8x16_neg) \
    X(30, i16x8_neg) \
    X(31, i32x4_neg) \
    X(32, i64x2_neg) \
    X(33, i8x16_abs) \
    X(34, i16x8_abs) \
    X(35, i32x4_abs) \
    X(36, i64x2_abs) \
    X(37, i8x16_popcnt) \
    X(38, i16x8_extend_low_i8x16_s) \
    X(39, i16x8_extend_low_i8x16_u) \
    X(40, i16x8_extend_high_i8x16_s) \
    X(41, i16x8_extend_high_i8x16_u) \
    X(42, i32x4_extend_low_i16x8_s) \
    X(43, i32x4_extend_low_i16x8_u) \
    X(44, i32x4_extend_high_i16x8_s) \
    X(45, i32x4_extend_high_i16x8_u) \
    X(46, i64x2_extend_low_i32x4_s) \
    X(47, i64x2_extend_low_i32x4_u) \
    X(48, i64x2_extend_high_i32x4_s) \
    X(49, i64x2_extend_high_i32x4_u) \
    X(50, i16x8_extadd_pairwise_i8x16_s) \
    X(51, i16x8_extadd_pairwise_i8x16_u) \
    X(52, i32x4_extadd_pairwise_i16x8_s) \
    X(53, i32x4_extadd_pairwise_i16x8_u) \
    X(54, i8x16_all_true) \
    X(55, i16x8_all_true) \
    X(56, i32x4_all_true) \
    X(57, i64x2_all_true) \
    X(58, v128_any_true) \
    X(59, i8x16_bitmask) \
    X(60, i16x8_bitmask) \
    X(61, i32x4_bitmask) \
    X(62, i64x2_bitmask)
enum {
    WASMI_UNARY_I32_CLZ = 0,
    WASMI_UNARY_I32_CTZ = 1,
    WASMI_UNARY_I32_POPCNT = 2,
    WASMI_UNARY_I32_EQZ = 3,
    WASMI_UNARY_I64_CLZ = 4,
    WASMI_UNARY_I64_CTZ = 5,
    WASMI_UNARY_I64_POPCNT = 6,
    WASMI_UNARY_I64_EQZ = 7,
    WASMI_UNARY_I32_WRAP_I64 = 8,
    WASMI_UNARY_I64_EXTEND_I32_S = 9,
    WASMI_UNARY_I64_EXTEND_I32_U = 10,
    WASMI_UNARY_I32_EXTEND8_S = 11,
    WASMI_UNARY_I32_EXTEND16_S = 12,
    WASMI_UNARY_I64_EXTEND8_S = 13,
    WASMI_UNARY_I64_EXTEND16_S = 14,
    WASMI_UNARY_I64_EXTEND32_S = 15,
    WASMI_UNARY_I8X16_SPLAT = 16,
    WASMI_UNARY_I16X8_SPLAT = 17,
    WASMI_UNARY_I32X4_SPLAT = 18,
    WASMI_UNARY_I64X2_SPLAT = 19,
    WASMI_UNARY_V128_WIDEN8X8_S = 20,
    WASMI_UNARY_V128_WIDEN8X8_U = 21,
    WASMI_UNARY_V128_WIDEN16X4_S = 22,
    WASMI_UNARY_V128_WIDEN16X4_U = 23,
    WASMI_UNARY_V128_WIDEN32X2_S = 24,
    WASMI_UNARY_V128_WIDEN32X2_U = 25,
    WASMI_UNARY_V128_LOW32_ZERO = 26,
    WASMI_UNARY_V128_LOW64_ZERO = 27,
    WASMI_UNARY_V128_NOT = 28,
    WASMI_UNARY_I8X16_NEG = 29,
    WASMI_UNARY_I16X8_NEG = 30,
    WASMI_UNARY_I32X4_NEG = 31,
    WASMI_UNARY_I64X2_NEG = 32,
    WASMI_UNARY_I8X16_ABS = 33,
    WASMI_UNARY_I16X8_ABS = 34,
    WASMI_UNARY_I32X4_ABS = 35,
    WASMI_UNARY_I64X2_ABS = 36,
    WASMI_UNARY_I8X16_POPCNT = 37,
    WASMI_UNARY_I16X8_EXTEND_LOW_I8X16_S = 38,
    WASMI_UNARY_I16X8_EXTEND_LOW_I8X16_U = 39,
    WASMI_UNARY_I16X8_EXTEND_HIGH_I8X16_S = 40,
    WASMI_UNARY_I16X8_EXTEND_HIGH_I8X16_U = 41,
    WASMI_UNARY_I32X4_EXTEND_LOW_I16X8_S = 42,
    WASMI_UNARY_I32X4_EXTEND_LOW_I16X8_U = 43,
    WASMI_UNARY_I32X4_EXTEND_HIGH_I16X8_S = 44,
    WASMI_UNARY_I32X4_EXTEND_HIGH_I16X8_U = 45,
    WASMI_UNARY_I64X2_EXTEND_LOW_I32X4_S = 46,
    WASMI_UNARY_I64X2_EXTEND_LOW_I32X4_U = 47,
    WASMI_UNARY_I64X2_EXTEND_HIGH_I32X4_S = 48,
    WASMI_UNARY_I64X2_EXTEND_HIGH_I32X4_U = 49,
    WASMI_UNARY_I16X8_EXTADD_PAIRWISE_I8X16_S = 50,
    WASMI_UNARY_I16X8_EXTADD_PAIRWISE_I8X16_U = 51,
    WASMI_UNARY_I32X4_EXTADD_PAIRWISE_I16X8_S = 52,
    WASMI_UNARY_I32X4_EXTADD_PAIRWISE_I16X8_U = 53,
    WASMI_UNARY_I8X16_ALL_TRUE = 54,
    WASMI_UNARY_I16X8_ALL_TRUE = 55,
    WASMI_UNARY_I32X4_ALL_TRUE = 56,
    WASMI_UNARY_I64X2_ALL_TRUE = 57,
    WASMI_UNARY_V128_ANY_TRUE = 58,
    WASMI_UNARY_I8X16_BITMASK = 59,
    WASMI_UNARY_I16X8_BITMASK = 60,
    WASMI_UNARY_I32X4_BITMASK = 61,
    WASMI_UNARY_I64X2_BITMASK = 62,
};

/* two operands, for wasmi_binary. */
#define WASMI_BINARY_COUNT 162
#define WASMI_BINARY_NAMES(X) \
    X(0, i32_add) \
    X(1, i32_sub) \
    X(2, i32_mul) \
    X(3, i32_bitand) \
    X(4, i32_bitor) \
    X(5, i32_bitxor) \
    X(6, i32_shl) \
    X(7, i32_shr_s) \
    X(8, i32_shr_u) \
    X(9, i32_rotl) \
    X(10, i32_rotr) \
    X(11, i32_div_s) \
    X(12, i32_div_u) \
    X(13, i32_rem_s) \
    X(14, i32_rem_u) \
    X(15, i32_eq) \
    X(16, i32_ne) \
    X(17, i32_lt_s) \
    X(18, i32_lt_u) \
    X(19, i32_le_s) \
    X(20, i32_le_u) \
    X(21, i32_gt_s) \
    X(22, i32_gt_u) \
    X(23, i32_ge_s) \
    X(24, i32_ge_u) \
    X(25, i64_add) \
    X(26, i64_sub) \
    X(27, i64_mul) \
    X(28, i64_bitand) \
    X(29, i64_bitor) \
    X(30, i64_bitxor) \
    X(31, i64_shl) \
    X(32, i64_shr_s) \
    X(33, i64_shr_u) \
    X(34, i64_rotl) \
    X(35, i64_rotr) \
    X(36, i64_div_s) \
    X(37, i64_div_u) \
    X(38, i64_rem_s) \
    X(39, i64_rem_u) \
    X(40, i64_eq) \
    X(41, i64_ne) \
    X(42, i64_lt_s) \
    X(43, i64_lt_u) \
    X(44, i64_le_s) \
    X(45, i64_le_u) \
    X(46, i64_gt_s) \
    X(47, i64_gt_u) \
    X(48, i64_ge_s) \
    X(49, i64_ge_u) \
    X(50, i64_add128) \
    X(51, i64_sub128) \
    X(52, i64_mul_wide_s) \
    X(53, i64_mul_wide_u) \
    X(54, i8x16_add) \
    X(55, i16x8_add) \
    X(56, i32x4_add) \
    X(57, i64x2_add) \
    X(58, i8x16_sub) \
    X(59, i16x8_sub) \
    X(60, i32x4_sub) \
    X(61, i64x2_sub) \
    X(62, i8x16_mul) \
    X(63, i16x8_mul) \
    X(64, i32x4_mul) \
    X(65, i64x2_mul) \
    X(66, i8x16_add_sat_s) \
    X(67, i8x16_add_sat_u) \
    X(68, i16x8_add_sat_s) \
    X(69, i16x8_add_sat_u) \
    X(70, i8x16_sub_sat_s) \
    X(71, i8x16_sub_sat_u) \
    X(72, i16x8_sub_sat_s) \
    X(73, i16x8_sub_sat_u) \
    X(74, i16x8_q15mulr_sat_s) \
    X(75, i8x16_min_s) \
    X(76, i8x16_min_u) \
    X(77, i16x8_min_s) \
    X(78, i16x8_min_u) \
    X(79, i32x4_min_s) \
    X(80, i32x4_min_u) \
    X(81, i8x16_max_s) \
    X(82, i8x16_max_u) \
    X(83, i16x8_max_s) \
    X(84, i16x8_max_u) \
    X(85, i32x4_max_s) \
    X(86, i32x4_max_u) \
    X(87, i8x16_avgr_u) \
    X(88, i16x8_avgr_u) \
    X(89, v128_and) \
    X(90, v128_or) \
    X(91, v128_xor) \
    X(92, v128_andnot) \
    X(93, i8x16_eq) \
    X(94, i16x8_eq) \
    X(95, i32x4_eq) \
    X(96, i64x2_eq) \
    X(97, i8x16_ne) \
    X(98, i16x8_ne) \
    X(99, i32x4_ne) \
    X(100, i64x2_ne) \
    X(101, i8x16_lt_s) \
    X(102, i16x8_lt_s) \
    X(103, i32x4_lt_s) \
    X(104, i64x2_lt_s) \
    X(105, i8x16_lt_u) \
    X(106, i16x8_lt_u) \
    X(107, i32x4_lt_u) \
    X(108, i8x16_le_s) \
    X(109, i16x8_le_s) \
    X(110, i32x4_le_s) \
    X(111, i64x2_le_s) \
    X(112, i8x16_le_u) \
    X(113, i16x8_le_u) \
    X(114, i32x4_le_u) \
    X(115, i8x16_gt_s) \
    X(116, i16x8_gt_s) \
    X(117, i32x4_gt_s) \
    X(118, i64x2_gt_s) \
    X(119, i8x16_gt_u) \
    X(120, i16x8_gt_u) \
    X(121, i32x4_gt_u) \
    X(122, i8x16_ge_s) \
    X(123, i16x8_ge_s) \
    X(124, i32x4_ge_s) \
    X(125, i64x2_ge_s) \
    X(126, i8x16_ge_u) \
    X(127, i16x8_ge_u) \
    X(128, i32x4_ge_u) \
    X(129, i8x16_swizzle) \
    X(130, i16x8_extmul_low_i8x16_s) \
    X(131, i16x8_extmul_low_i8x16_u) \
    X(132, i16x8_extmul_high_i8x16_s) \
    X(133, i16x8_extmul_high_i8x16_u) \
    X(134, i32x4_extmul_low_i16x8_s) \
    X(135, i32x4_extmul_low_i16x8_u) \
    X(136, i32x4_extmul_high_i16x8_s) \
    X(137, i32x4_extmul_high_i16x8_u) \
    X(138, i64x2_extmul_low_i32x4_s) \
    X(139, i64x2_extmul_low_i32x4_u) \
    X(140, i64x2_extmul_high_i32x4_s) \
    X(141, i64x2_extmul_high_i32x4_u) \
    X(142, i8x16_narrow_i16x8_s) \
    X(143, i8x16_narrow_i16x8_u) \
    X(144, i16x8_narrow_i32x4_s) \
    X(145, i16x8_narrow_i32x4_u) \
    X(146, i32x4_dot_i16x8_s) \
    X(147, i16x8_relaxed_dot_i8x16_i7x16_s) \
    X(148, i8x16_relaxed_swizzle) \
    X(149, i16x8_relaxed_q15mulr_s) \
    X(150, i8x16_shl) \
    X(151, i8x16_shr_s) \
    X(152, i8x16_shr_u) \
    X(153, i16x8_shl) \
    X(154, i16x8_shr_s) \
    X(155, i16x8_shr_u) \
    X(156, i32x4_shl) \
    X(157, i32x4_shr_s) \
    X(158, i32x4_shr_u) \
    X(159, i64x2_shl) \
    X(160, i64x2_shr_s) \
    X(161, i64x2_shr_u)
enum {
    WASMI_BINARY_I32_ADD = 0,
    WASMI_BINARY_I32_SUB = 1,
    WASMI_BINARY_I32_MUL = 2,
    WASMI_BINARY_I32_BITAND = 3,
    WASMI_BINARY_I32_BITOR = 4,
    WASMI_BINARY_I32_BITXOR = 5,
    WASMI_BINARY_I32_SHL = 6,
    WASMI_BINARY_I32_SHR_S = 7,
    WASMI_BINARY_I32_SHR_U = 8,
    WASMI_BINARY_I32_ROTL = 9,
    WASMI_BINARY_I32_ROTR = 10,
    WASMI_BINARY_I32_DIV_S = 11,
    WASMI_BINARY_I32_DIV_U = 12,
    WASMI_BINARY_I32_REM_S = 13,
    WASMI_BINARY_I32_REM_U = 14,
    WASMI_BINARY_I32_EQ = 15,
    WASMI_BINARY_I32_NE = 16,
    WASMI_BINARY_I32_LT_S = 17,
    WASMI_BINARY_I32_LT_U = 18,
    WASMI_BINARY_I32_LE_S = 19,
    WASMI_BINARY_I32_LE_U = 20,
    WASMI_BINARY_I32_GT_S = 21,
    WASMI_BINARY_I32_GT_U = 22,
    WASMI_BINARY_I32_GE_S = 23,
    WASMI_BINARY_I32_GE_U = 24,
    WASMI_BINARY_I64_ADD = 25,
    WASMI_BINARY_I64_SUB = 26,
    WASMI_BINARY_I64_MUL = 27,
    WASMI_BINARY_I64_BITAND = 28,
    WASMI_BINARY_I64_BITOR = 29,
    WASMI_BINARY_I64_BITXOR = 30,
    WASMI_BINARY_I64_SHL = 31,
    WASMI_BINARY_I64_SHR_S = 32,
    WASMI_BINARY_I64_SHR_U = 33,
    WASMI_BINARY_I64_ROTL = 34,
    WASMI_BINARY_I64_ROTR = 35,
    WASMI_BINARY_I64_DIV_S = 36,
    WASMI_BINARY_I64_DIV_U = 37,
    WASMI_BINARY_I64_REM_S = 38,
    WASMI_BINARY_I64_REM_U = 39,
    WASMI_BINARY_I64_EQ = 40,
    WASMI_BINARY_I64_NE = 41,
    WASMI_BINARY_I64_LT_S = 42,
    WASMI_BINARY_I64_LT_U = 43,
    WASMI_BINARY_I64_LE_S = 44,
    WASMI_BINARY_I64_LE_U = 45,
    WASMI_BINARY_I64_GT_S = 46,
    WASMI_BINARY_I64_GT_U = 47,
    WASMI_BINARY_I64_GE_S = 48,
    WASMI_BINARY_I64_GE_U = 49,
    WASMI_BINARY_I64_ADD128 = 50,
    WASMI_BINARY_I64_SUB128 = 51,
    WASMI_BINARY_I64_MUL_WIDE_S = 52,
    WASMI_BINARY_I64_MUL_WIDE_U = 53,
    WASMI_BINARY_I8X16_ADD = 54,
    WASMI_BINARY_I16X8_ADD = 55,
    WASMI_BINARY_I32X4_ADD = 56,
    WASMI_BINARY_I64X2_ADD = 57,
    WASMI_BINARY_I8X16_SUB = 58,
    WASMI_BINARY_I16X8_SUB = 59,
    WASMI_BINARY_I32X4_SUB = 60,
    WASMI_BINARY_I64X2_SUB = 61,
    WASMI_BINARY_I8X16_MUL = 62,
    WASMI_BINARY_I16X8_MUL = 63,
    WASMI_BINARY_I32X4_MUL = 64,
    WASMI_BINARY_I64X2_MUL = 65,
    WASMI_BINARY_I8X16_ADD_SAT_S = 66,
    WASMI_BINARY_I8X16_ADD_SAT_U = 67,
    WASMI_BINARY_I16X8_ADD_SAT_S = 68,
    WASMI_BINARY_I16X8_ADD_SAT_U = 69,
    WASMI_BINARY_I8X16_SUB_SAT_S = 70,
    WASMI_BINARY_I8X16_SUB_SAT_U = 71,
    WASMI_BINARY_I16X8_SUB_SAT_S = 72,
    WASMI_BINARY_I16X8_SUB_SAT_U = 73,
    WASMI_BINARY_I16X8_Q15MULR_SAT_S = 74,
    WASMI_BINARY_I8X16_MIN_S = 75,
    WASMI_BINARY_I8X16_MIN_U = 76,
    WASMI_BINARY_I16X8_MIN_S = 77,
    WASMI_BINARY_I16X8_MIN_U = 78,
    WASMI_BINARY_I32X4_MIN_S = 79,
    WASMI_BINARY_I32X4_MIN_U = 80,
    WASMI_BINARY_I8X16_MAX_S = 81,
    WASMI_BINARY_I8X16_MAX_U = 82,
    WASMI_BINARY_I16X8_MAX_S = 83,
    WASMI_BINARY_I16X8_MAX_U = 84,
    WASMI_BINARY_I32X4_MAX_S = 85,
    WASMI_BINARY_I32X4_MAX_U = 86,
    WASMI_BINARY_I8X16_AVGR_U = 87,
    WASMI_BINARY_I16X8_AVGR_U = 88,
    WASMI_BINARY_V128_AND = 89,
    WASMI_BINARY_V128_OR = 90,
    WASMI_BINARY_V128_XOR = 91,
    WASMI_BINARY_V128_ANDNOT = 92,
    WASMI_BINARY_I8X16_EQ = 93,
    WASMI_BINARY_I16X8_EQ = 94,
    WASMI_BINARY_I32X4_EQ = 95,
    WASMI_BINARY_I64X2_EQ = 96,
    WASMI_BINARY_I8X16_NE = 97,
    WASMI_BINARY_I16X8_NE = 98,
    WASMI_BINARY_I32X4_NE = 99,
    WASMI_BINARY_I64X2_NE = 100,
    WASMI_BINARY_I8X16_LT_S = 101,
    WASMI_BINARY_I16X8_LT_S = 102,
    WASMI_BINARY_I32X4_LT_S = 103,
    WASMI_BINARY_I64X2_LT_S = 104,
    WASMI_BINARY_I8X16_LT_U = 105,
    WASMI_BINARY_I16X8_LT_U = 106,
    WASMI_BINARY_I32X4_LT_U = 107,
    WASMI_BINARY_I8X16_LE_S = 108,
    WASMI_BINARY_I16X8_LE_S = 109,
    WASMI_BINARY_I32X4_LE_S = 110,
    WASMI_BINARY_I64X2_LE_S = 111,
    WASMI_BINARY_I8X16_LE_U = 112,
    WASMI_BINARY_I16X8_LE_U = 113,
    WASMI_BINARY_I32X4_LE_U = 114,
    WASMI_BINARY_I8X16_GT_S = 115,
    WASMI_BINARY_I16X8_GT_S = 116,
    WASMI_BINARY_I32X4_GT_S = 117,
    WASMI_BINARY_I64X2_GT_S = 118,
    WASMI_BINARY_I8X16_GT_U = 119,
    WASMI_BINARY_I16X8_GT_U = 120,
    WASMI_BINARY_I32X4_GT_U = 121,
    WASMI_BINARY_I8X16_GE_S = 122,
    WASMI_BINARY_I16X8_GE_S = 123,
    WASMI_BINARY_I32X4_GE_S = 124,
    WASMI_BINARY_I64X2_GE_S = 125,
    WASMI_BINARY_I8X16_GE_U = 126,
    WASMI_BINARY_I16X8_GE_U = 127,
    WASMI_BINARY_I32X4_GE_U = 128,
    WASMI_BINARY_I8X16_SWIZZLE = 129,
    WASMI_BINARY_I16X8_EXTMUL_LOW_I8X16_S = 130,
    WASMI_BINARY_I16X8_EXTMUL_LOW_I8X16_U = 131,
    WASMI_BINARY_I16X8_EXTMUL_HIGH_I8X16_S = 132,
    WASMI_BINARY_I16X8_EXTMUL_HIGH_I8X16_U = 133,
    WASMI_BINARY_I32X4_EXTMUL_LOW_I16X8_S = 134,
    WASMI_BINARY_I32X4_EXTMUL_LOW_I16X8_U = 135,
    WASMI_BINARY_I32X4_EXTMUL_HIGH_I16X8_S = 136,
    WASMI_BINARY_I32X4_EXTMUL_HIGH_I16X8_U = 137,
    WASMI_BINARY_I64X2_EXTMUL_LOW_I32X4_S = 138,
    WASMI_BINARY_I64X2_EXTMUL_LOW_I32X4_U = 139,
    WASMI_BINARY_I64X2_EXTMUL_HIGH_I32X4_S = 140,
    WASMI_BINARY_I64X2_EXTMUL_HIGH_I32X4_U = 141,
    WASMI_BINARY_I8X16_NARROW_I16X8_S = 142,
    WASMI_BINARY_I8X16_NARROW_I16X8_U = 143,
    WASMI_BINARY_I16X8_NARROW_I32X4_S = 144,
    WASMI_BINARY_I16X8_NARROW_I32X4_U = 145,
    WASMI_BINARY_I32X4_DOT_I16X8_S = 146,
    WASMI_BINARY_I16X8_RELAXED_DOT_I8X16_I7X16_S = 147,
    WASMI_BINARY_I8X16_RELAXED_SWIZZLE = 148,
    WASMI_BINARY_I16X8_RELAXED_Q15MULR_S = 149,
    WASMI_BINARY_I8X16_SHL = 150,
    WASMI_BINARY_I8X16_SHR_S = 151,
    WASMI_BINARY_I8X16_SHR_U = 152,
    WASMI_BINARY_I16X8_SHL = 153,
    WASMI_BINARY_I16X8_SHR_S = 154,
    WASMI_BINARY_I16X8_SHR_U = 155,
    WASMI_BINARY_I32X4_SHL = 156,
    WASMI_BINARY_I32X4_SHR_S = 157,
    WASMI_BINARY_I32X4_SHR_U = 158,
    WASMI_BINARY_I64X2_SHL = 159,
    WASMI_BINARY_I64X2_SHR_S = 160,
    WASMI_BINARY_I64X2_SHR_U = 161,
};

/* three operands, for wasmi_ternary. */
#define WASMI_TERNARY_COUNT 6
#define WASMI_TERNARY_NAMES(X) \
    X(0, v128_bitselect) \
    X(1, i8x16_relaxed_laneselect) \
    X(2, i16x8_relaxed_laneselect) \
    X(3, i32x4_relaxed_laneselect) \
    X(4, i64x2_relaxed_laneselect) \
    X(5, i32x4_relaxed_dot_i8x16_i7x16_add_s)
enum {
    WASMI_TERNARY_V128_BITSELECT = 0,
    WASMI_TERNARY_I8X16_RELAXED_LANESELECT = 1,
    WASMI_TERNARY_I16X8_RELAXED_LANESELECT = 2,
    WASMI_TERNARY_I32X4_RELAXED_LANESELECT = 3,
    WASMI_TERNARY_I64X2_RELAXED_LANESELECT = 4,
    WASMI_TERNARY_I32X4_RELAXED_DOT_I8X16_I7X16_ADD_S = 5,
};

/* a lane taken from a vector, for wasmi_extract_lane. */
#define WASMI_EXTRACT_LANE_COUNT 6
#define WASMI_EXTRACT_LANE_NAMES(X) \
    X(0, i8x16_extract_lane_s) \
    X(1, i8x16_extract_lane_u) \
    X(2, i16x8_extract_lane_s) \
    X(3, i16x8_extract_lane_u) \
    X(4, i32x4_extract_lane) \
    X(5, i64x2_extract_lane)
enum {
    WASMI_EXTRACT_LANE_I8X16_EXTRACT_LANE_S = 0,
    WASMI_EXTRACT_LANE_I8X16_EXTRACT_LANE_U = 1,
    WASMI_EXTRACT_LANE_I16X8_EXTRACT_LANE_S = 2,
    WASMI_EXTRACT_LANE_I16X8_EXTRACT_LANE_U = 3,
    WASMI_EXTRACT_LANE_I32X4_EXTRACT_LANE = 4,
    WASMI_EXTRACT_LANE_I64X2_EXTRACT_LANE = 5,
};

/* a lane that takes an item, for wasmi_replace_lane. */
#define WASMI_REPLACE_LANE_COUNT 4
#define WASMI_REPLACE_LANE_NAMES(X) \
    X(0, i8x16_replace_lane) \
    X(1, i16x8_replace_lane) \
    X(2, i32x4_replace_lane) \
    X(3, i64x2_replace_lane)
enum {
    WASMI_REPLACE_LANE_I8X16_REPLACE_LANE = 0,
    WASMI_REPLACE_LANE_I16X8_REPLACE_LANE = 1,
    WASMI_REPLACE_LANE_I32X4_REPLACE_LANE = 2,
    WASMI_REPLACE_LANE_I64X2_REPLACE_LANE = 3,
};

/* loads, for wasmi_load. */
#define WASMI_LOAD_COUNT 25
#define WASMI_LOAD_NAMES(X) \
    X(0, i32_load8_s) \
    X(1, i32_load8_u) \
    X(2, i32_load16_s) \
    X(3, i32_load16_u) \
    X(4, i64_load8_s) \
    X(5, i64_load8_u) \
    X(6, i64_load16_s) \
    X(7, i64_load16_u) \
    X(8, i64_load32_s) \
    X(9, i64_load32_u) \
    X(10, load_u32) \
    X(11, load_u64) \
    X(12, v128_load) \
    X(13, v128_load8x8_s) \
    X(14, v128_load8x8_u) \
    X(15, v128_load16x4_s) \
    X(16, v128_load16x4_u) \
    X(17, v128_load32x2_s) \
    X(18, v128_load32x2_u) \
    X(19, v128_load8_splat) \
    X(20, v128_load16_splat) \
    X(21, v128_load32_splat) \
    X(22, v128_load64_splat) \
    X(23, v128_load32_zero) \
    X(24, v128_load64_zero)
enum {
    WASMI_LOAD_I32_LOAD8_S = 0,
    WASMI_LOAD_I32_LOAD8_U = 1,
    WASMI_LOAD_I32_LOAD16_S = 2,
    WASMI_LOAD_I32_LOAD16_U = 3,
    WASMI_LOAD_I64_LOAD8_S = 4,
    WASMI_LOAD_I64_LOAD8_U = 5,
    WASMI_LOAD_I64_LOAD16_S = 6,
    WASMI_LOAD_I64_LOAD16_U = 7,
    WASMI_LOAD_I64_LOAD32_S = 8,
    WASMI_LOAD_I64_LOAD32_U = 9,
    WASMI_LOAD_LOAD_U32 = 10,
    WASMI_LOAD_LOAD_U64 = 11,
    WASMI_LOAD_V128_LOAD = 12,
    WASMI_LOAD_V128_LOAD8X8_S = 13,
    WASMI_LOAD_V128_LOAD8X8_U = 14,
    WASMI_LOAD_V128_LOAD16X4_S = 15,
    WASMI_LOAD_V128_LOAD16X4_U = 16,
    WASMI_LOAD_V128_LOAD32X2_S = 17,
    WASMI_LOAD_V128_LOAD32X2_U = 18,
    WASMI_LOAD_V128_LOAD8_SPLAT = 19,
    WASMI_LOAD_V128_LOAD16_SPLAT = 20,
    WASMI_LOAD_V128_LOAD32_SPLAT = 21,
    WASMI_LOAD_V128_LOAD64_SPLAT = 22,
    WASMI_LOAD_V128_LOAD32_ZERO = 23,
    WASMI_LOAD_V128_LOAD64_ZERO = 24,
};

/* stores, for wasmi_store. */
#define WASMI_STORE_COUNT 8
#define WASMI_STORE_NAMES(X) \
    X(0, i32_store8) \
    X(1, i32_store16) \
    X(2, i64_store8) \
    X(3, i64_store16) \
    X(4, i64_store32) \
    X(5, store32) \
    X(6, store64) \
    X(7, v128_store)
enum {
    WASMI_STORE_I32_STORE8 = 0,
    WASMI_STORE_I32_STORE16 = 1,
    WASMI_STORE_I64_STORE8 = 2,
    WASMI_STORE_I64_STORE16 = 3,
    WASMI_STORE_I64_STORE32 = 4,
    WASMI_STORE_STORE32 = 5,
    WASMI_STORE_STORE64 = 6,
    WASMI_STORE_V128_STORE = 7,
};

/* loads of a lane, for wasmi_load_lane. */
#define WASMI_LOAD_LANE_COUNT 4
#define WASMI_LOAD_LANE_NAMES(X) \
    X(0, v128_load8_lane) \
    X(1, v128_load16_lane) \
    X(2, v128_load32_lane) \
    X(3, v128_load64_lane)
enum {
    WASMI_LOAD_LANE_V128_LOAD8_LANE = 0,
    WASMI_LOAD_LANE_V128_LOAD16_LANE = 1,
    WASMI_LOAD_LANE_V128_LOAD32_LANE = 2,
    WASMI_LOAD_LANE_V128_LOAD64_LANE = 3,
};

/* stores of a lane, for wasmi_store_lane. */
#define WASMI_STORE_LANE_COUNT 4
#define WASMI_STORE_LANE_NAMES(X) \
    X(0, v128_store8_lane) \
    X(1, v128_store16_lane) \
    X(2, v128_store32_lane) \
    X(3, v128_store64_lane)
enum {
    WASMI_STORE_LANE_V128_STORE8_LANE = 0,
    WASMI_STORE_LANE_V128_STORE16_LANE = 1,
    WASMI_STORE_LANE_V128_STORE32_LANE = 2,
    WASMI_STORE_LANE_V128_STORE64_LANE = 3,
};

/* The table of tools/header ends. */

#ifdef __cplusplus
}
#endif
#endif
