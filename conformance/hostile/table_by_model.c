/* The tables of include/wasmi_memory.h, and the setting of fuel, by the plain model: a program that is linked with this file in
   place of libwasmi_core.a prints what it should print. conformance/run does so with examples/c/table.c. */
#include "table_model.h"

#undef wasmi_table_copy_from
#undef wasmi_table_init

/* All that a call takes, as the model has it; what it doesn't take is zeros. */
static state taken(const wasmi_table *table, uint32_t *elements, size_t length) {
    state s;
    memset(&s, 0, sizeof s);
    s.table[0] = *table;
    s.region[0] = elements;
    s.length[0] = length;
    return s;
}

static state taken_metered(const wasmi_table *table, uint32_t *elements, size_t length, const wasmi_meter *meter,
                           const uint64_t *number) {
    state s = taken(table, elements, length);
    s.meter = *meter;
    s.number = *number;
    return s;
}

/* Gives back what a metered call has written. */
static uint8_t given(const state *s, uint8_t status, wasmi_meter *meter, uint64_t *number) {
    *meter = s->meter;
    *number = s->number;
    return status;
}

uint8_t wasmi_fuel_set(wasmi_meter *meter, uint64_t amount) {
    if (!meter->is_on)
        return WASMI_METERING_DISABLED;
    meter->left = amount;
    return WASMI_DONE;
}

uint8_t wasmi_table_new(wasmi_table *table, uint32_t *elements, size_t length, uint32_t reference, wasmi_quota *quota) {
    state s = taken(table, elements, length);
    s.quota = *quota;
    uint8_t status = new_by_model(&s, 0, reference);
    *table = s.table[0];
    *quota = s.quota;
    return status;
}

uint8_t wasmi_table_grow(wasmi_table *table, uint32_t *elements, size_t length, uint64_t delta, uint32_t reference,
                         wasmi_meter *meter, wasmi_quota *quota, uint64_t *number) {
    state s = taken_metered(table, elements, length, meter, number);
    s.quota = *quota;
    uint8_t status = grow_by_model(&s, 0, delta, reference, false);
    *table = s.table[0];
    *quota = s.quota;
    return given(&s, status, meter, number);
}

uint8_t wasmi_table_question(const wasmi_table *table, const uint32_t *elements, size_t length, uint64_t delta,
                             wasmi_question *question) {
    state s = taken(table, (uint32_t *)elements, length);
    s.question = *question;
    uint8_t status = question_by_model(&s, 0, delta);
    *question = s.question;
    return status;
}

uint8_t wasmi_table_settle(wasmi_table *table, uint32_t *elements, size_t length, uint64_t delta, uint32_t reference,
                           wasmi_meter *meter, wasmi_answers *answers, uint64_t *number) {
    state s = taken_metered(table, elements, length, meter, number);
    s.answers = *answers;
    uint8_t status = grow_by_model(&s, 0, delta, reference, true);
    *table = s.table[0];
    *answers = s.answers;
    return given(&s, status, meter, number);
}

uint8_t wasmi_table_size(const wasmi_table *table, const uint32_t *elements, size_t length, uint64_t *size) {
    state s = taken(table, (uint32_t *)elements, length);
    return size_by_model(&s, 0, size);
}

uint8_t wasmi_table_get(const wasmi_table *table, const uint32_t *elements, size_t length, uint64_t index,
                        uint32_t *reference) {
    state s = taken(table, (uint32_t *)elements, length);
    return get_by_model(&s, 0, index, reference);
}

uint8_t wasmi_table_set(const wasmi_table *table, uint32_t *elements, size_t length, uint64_t index,
                        uint32_t reference) {
    state s = taken(table, elements, length);
    return set_by_model(&s, 0, index, reference);
}

uint8_t wasmi_table_fill(const wasmi_table *table, uint32_t *elements, size_t length, const wasmi_range *range,
                         uint32_t reference, wasmi_meter *meter, uint64_t *number) {
    state s = taken_metered(table, elements, length, meter, number);
    return given(&s, fill_by_model(&s, 0, range, reference), meter, number);
}

uint8_t wasmi_table_copy_within(const wasmi_table *table, uint32_t *elements, size_t length, const wasmi_range *range,
                                wasmi_meter *meter, uint64_t *number) {
    state s = taken_metered(table, elements, length, meter, number);
    return given(&s, copy_by_model(&s, 0, 0, range), meter, number);
}

uint8_t wasmi_table_copy_from(const wasmi_table *table, uint32_t *elements, size_t length, const wasmi_table *source,
                              const uint32_t *source_elements, size_t source_length, const wasmi_range *range,
                              wasmi_meter *meter, uint64_t *number) {
    state s = taken_metered(table, elements, length, meter, number);
    s.table[1] = *source;
    s.region[1] = (uint32_t *)source_elements;
    s.length[1] = source_length;
    return given(&s, copy_by_model(&s, 0, 1, range), meter, number);
}

uint8_t wasmi_table_init(const wasmi_table *table, uint32_t *elements, size_t length, const uint32_t *items,
                         size_t items_length, const wasmi_range *range, wasmi_meter *meter, uint64_t *number) {
    state s = taken_metered(table, elements, length, meter, number);
    return given(&s, init_by_model(&s, 0, items, items_length, range), meter, number);
}
