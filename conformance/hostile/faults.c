/* Wrong calls in front of the proved ones, which `plant` links in one at a time: FAULT is the number of the fault. Each
   function takes the place of the library's by --wrap, and passes on everything but what its fault changes. */
#include "wasmi_oracle.h"
#include "wasmi_memory.h"
#include <stdlib.h>

/* Asks for memory and gives it back, if such a fault is linked in. */
static void request(int is_planted) {
    void *volatile block = is_planted ? malloc(16) : NULL;
    free(block);
}

uint8_t __real_wasmi_binary(uint16_t number, wasmi_words a, wasmi_words b, wasmi_words *value);
uint8_t __real_wasmi_binary_each(uint16_t number, const wasmi_words *a, size_t a_len, const wasmi_words *b, size_t b_len,
                                 wasmi_result *results, size_t results_len);
uint8_t __real_wasmi_ternary_each(uint16_t number, const wasmi_words *a, size_t a_len, const wasmi_words *b,
                                  size_t b_len, const wasmi_words *c, size_t c_len, wasmi_words *values,
                                  size_t values_len);
uint8_t __real_wasmi_load_each(uint16_t number, const uint8_t *memory, size_t memory_len, const uint64_t *ptrs,
                               size_t ptrs_len, uint64_t offset, wasmi_result *results, size_t results_len);
uint8_t __real_wasmi_extract_lane_each(uint16_t number, uint8_t lane, const wasmi_words *a, size_t a_len,
                                       wasmi_words *values, size_t values_len);
uint8_t __real_wasmi_machine_load(wasmi_machine *machine, uint16_t op, size_t memory, uint64_t ptr, uint64_t offset,
                                  uint64_t *value);
uint8_t __real_wasmi_machine_store(wasmi_machine *machine, uint16_t op, size_t memory, uint64_t ptr, uint64_t offset,
                                   uint64_t value);
wasmi_reply __real_wasmi_machine_write(wasmi_machine *machine, size_t memory, size_t offset, const uint8_t *bytes,
                                       size_t len);

uint8_t __wrap_wasmi_machine_load(wasmi_machine *machine, uint16_t op, size_t memory, uint64_t ptr, uint64_t offset,
                                  uint64_t *value) {
    request(FAULT == 17);
    uint8_t status = __real_wasmi_machine_load(machine, op, memory, ptr, offset, value);
    if (FAULT == 1 && status == WASMI_DONE && op == WASMI_LOAD_I64_LOAD32_S)
        *value &= UINT32_MAX;
    return status;
}

uint8_t __wrap_wasmi_machine_store(wasmi_machine *machine, uint16_t op, size_t memory, uint64_t ptr, uint64_t offset,
                                   uint64_t value) {
    return __real_wasmi_machine_store(machine, op, memory, ptr, FAULT == 2 ? (uint32_t)offset : offset, value);
}

wasmi_reply __wrap_wasmi_machine_write(wasmi_machine *machine, size_t memory, size_t offset, const uint8_t *bytes,
                                       size_t len) {
    return __real_wasmi_machine_write(machine, memory, offset, bytes, FAULT == 3 && len > 40 ? 40 : len);
}

#if FAULT == 4
void __wrap_wasmi_machine_drop(wasmi_machine *machine) {
    *machine = (wasmi_machine){0};
}
#endif

uint8_t __wrap_wasmi_ternary_each(uint16_t number, const wasmi_words *a, size_t a_len, const wasmi_words *b, size_t b_len,
                                  const wasmi_words *c, size_t c_len, wasmi_words *values, size_t values_len) {
    if (FAULT == 5)
        return __real_wasmi_ternary_each(number, b, b_len, a, a_len, c, c_len, values, values_len);
    return __real_wasmi_ternary_each(number, a, a_len, b, b_len, c, c_len, values, values_len);
}

uint8_t __wrap_wasmi_load_each(uint16_t number, const uint8_t *memory, size_t memory_len, const uint64_t *ptrs,
                               size_t ptrs_len, uint64_t offset, wasmi_result *results, size_t results_len) {
    return __real_wasmi_load_each(number, memory, memory_len, ptrs, ptrs_len, FAULT == 6 ? 0 : offset, results,
                                  results_len);
}

uint8_t __wrap_wasmi_extract_lane_each(uint16_t number, uint8_t lane, const wasmi_words *a, size_t a_len,
                                       wasmi_words *values, size_t values_len) {
    return __real_wasmi_extract_lane_each(number, FAULT == 7 && lane == 1 ? 0 : lane, a, a_len, values, values_len);
}

uint8_t __wrap_wasmi_binary_each(uint16_t number, const wasmi_words *a, size_t a_len, const wasmi_words *b, size_t b_len,
                                 wasmi_result *results, size_t results_len) {
    uint8_t status = __real_wasmi_binary_each(number, a, a_len, b, b_len, results, results_len);
    for (size_t i = 0; FAULT == 8 && status == WASMI_DONE && i < results_len; i++)
        if (results[i].status != WASMI_DONE)
            results[i].value.lo = 7;
    return status;
}

uint8_t __wrap_wasmi_binary(uint16_t number, wasmi_words a, wasmi_words b, wasmi_words *value) {
    request(FAULT == 18 || FAULT == 19);
    uint8_t status = __real_wasmi_binary(number, a, b, value);
    if (FAULT == 9 && number == WASMI_BINARY_I32_DIV_S && status == WASMI_INTEGER_OVERFLOW) {
        *value = a;
        return WASMI_DONE;
    }
    return status;
}

#if FAULT == 10
wasmi_reply __real_wasmi_pool_run_lines(wasmi_pool *pool, size_t tenant, const uint8_t *lines, size_t lines_len,
                                        uint8_t *text, size_t text_len);

wasmi_reply __wrap_wasmi_pool_run_lines(wasmi_pool *pool, size_t tenant, const uint8_t *lines, size_t lines_len,
                                        uint8_t *text, size_t text_len) {
    if (wasmi_pool_tenant_totals(pool, tenant).status == WASMI_NO_TENANT)
        lines_len = 0;
    return __real_wasmi_pool_run_lines(pool, tenant, lines, lines_len, text, text_len);
}
#endif

#if FAULT == 11
uint8_t __real_wasmi_pool_store(wasmi_pool *pool, size_t tenant, uint16_t op, size_t memory, uint64_t ptr, uint64_t offset,
                                uint64_t value);

uint8_t __wrap_wasmi_pool_store(wasmi_pool *pool, size_t tenant, uint16_t op, size_t memory, uint64_t ptr, uint64_t offset,
                                uint64_t value) {
    return __real_wasmi_pool_store(pool, tenant, op, memory, ptr, offset, op == 3 ? value & UINT8_MAX : value);
}
#endif

#if FAULT == 12
uint8_t __real_wasmi_memory_copy_within(const wasmi_memory *memory, uint8_t *region, size_t region_len,
                                        const wasmi_range *range, wasmi_meter *meter, uint64_t *number);

uint8_t __wrap_wasmi_memory_copy_within(const wasmi_memory *memory, uint8_t *region, size_t region_len,
                                        const wasmi_range *range, wasmi_meter *meter, uint64_t *number) {
    uint8_t status = __real_wasmi_memory_copy_within(memory, region, region_len, range, meter, number);
    for (uint64_t k = 0; status == WASMI_DONE && k < range->count; k++)
        region[range->to + k] = region[range->from + k];
    return status;
}
#endif

#if FAULT == 13 || FAULT == 16
uint8_t __real_wasmi_table_copy_within(const wasmi_table *table, uint32_t *elements, size_t elements_len,
                                       const wasmi_range *range, wasmi_meter *meter, uint64_t *number);

uint8_t __wrap_wasmi_table_copy_within(const wasmi_table *table, uint32_t *elements, size_t elements_len,
                                       const wasmi_range *range, wasmi_meter *meter, uint64_t *number) {
    const wasmi_range exchanged = {range->from, range->to, range->count};
    request(FAULT == 16);
    return __real_wasmi_table_copy_within(table, elements, elements_len, FAULT == 13 ? &exchanged : range, meter, number);
}
#endif

#if FAULT == 14
wasmi_reply __real_wasmi_pool_call(wasmi_pool *pool, size_t tenant, const wasmi_call *call);

wasmi_reply __wrap_wasmi_pool_call(wasmi_pool *pool, size_t tenant, const wasmi_call *call) {
    request(1);
    return __real_wasmi_pool_call(pool, tenant, call);
}
#endif

#if FAULT == 15
uint8_t __real_wasmi_memory_grow(wasmi_memory *memory, uint8_t *region, size_t region_len, uint64_t pages,
                                 wasmi_meter *meter, wasmi_quota *quota, uint64_t *number);

uint8_t __wrap_wasmi_memory_grow(wasmi_memory *memory, uint8_t *region, size_t region_len, uint64_t pages,
                                 wasmi_meter *meter, wasmi_quota *quota, uint64_t *number) {
    request(1);
    return __real_wasmi_memory_grow(memory, region, region_len, pages, meter, quota, number);
}
#endif
