/* Instructions on arrays, for those who compare another implementation with this one, in C and C++. An engine has no need
   of them: wasmi_core.h has each instruction on one value. */
#ifndef WASMI_ORACLE_H
#define WASMI_ORACLE_H

#include "wasmi_core.h"

#ifdef __cplusplus
extern "C" {
#endif

/* What an instruction gives for one element of an array: the value, or 0 if it traps, and the status. */
typedef struct { wasmi_words value; uint8_t status; } wasmi_result;

/* Each executes the instruction that has a number in wasmi_core.h on each element of its arrays, which have the same
   length: WASMI_LENGTHS_DIFFER if they haven't. A trap is the status of its element. */
uint8_t wasmi_unary_each(uint16_t number, const wasmi_words *a, size_t a_len, wasmi_words *values, size_t values_len)
    WASMI_CHECKED;
uint8_t wasmi_binary_each(uint16_t number, const wasmi_words *a, size_t a_len, const wasmi_words *b, size_t b_len,
                          wasmi_result *results, size_t results_len) WASMI_CHECKED;
uint8_t wasmi_ternary_each(uint16_t number, const wasmi_words *a, size_t a_len, const wasmi_words *b, size_t b_len,
                           const wasmi_words *c, size_t c_len, wasmi_words *values, size_t values_len) WASMI_CHECKED;
uint8_t wasmi_extract_lane_each(uint16_t number, uint8_t lane, const wasmi_words *a, size_t a_len, wasmi_words *values,
                                size_t values_len) WASMI_CHECKED;
uint8_t wasmi_replace_lane_each(uint16_t number, uint8_t lane, const wasmi_words *a, size_t a_len,
                                const wasmi_words *items, size_t items_len, wasmi_words *values, size_t values_len)
    WASMI_CHECKED;

/* Loads a value for each element of ptrs, at ptr + offset, from one memory; there are as many results. */
uint8_t wasmi_load_each(uint16_t number, const uint8_t *memory, size_t memory_len, const uint64_t *ptrs,
                        size_t ptrs_len, uint64_t offset, wasmi_result *results, size_t results_len) WASMI_CHECKED;

#ifdef __cplusplus
}
#endif
#endif
