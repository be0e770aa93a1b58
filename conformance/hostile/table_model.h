/* A plain model of the tables of include/wasmi_memory.h, on all that lies with the caller. */
#ifndef TABLE_MODEL_H
#define TABLE_MODEL_H

#include "hostile.h"

enum { TABLES = 2, MOST = 96 };

/* All that lies with the caller. */
typedef struct {
    wasmi_table table[TABLES];
    uint32_t *region[TABLES];
    size_t length[TABLES];
    wasmi_meter meter;
    wasmi_quota quota;
    wasmi_answers answers;
    wasmi_question question;
    uint64_t number;
} state;

/* The items of an empty region. */
static const uint32_t copy_of_none[1] = {0};

static wide indices_of(const wasmi_table *t) {
    return two_to_32_or_64(t->is_64);
}

static bool has_type(const wasmi_table *t) {
    if (t->type != WASMI_TYPE_FUNCREF && t->type != WASMI_TYPE_EXTERNREF)
        return false;
    if (t->minimum >= indices_of(t))
        return false;
    return !t->has_maximum || (t->maximum < indices_of(t) && t->minimum <= t->maximum);
}

static bool is_state(const wasmi_table *t, size_t length) {
    return has_type(t) && t->size <= length && t->minimum <= t->size && t->size < indices_of(t) &&
           (!t->has_maximum || t->size <= t->maximum);
}

/* Whether a table may have so many elements, but for its maximum. */
static bool is_size(const wasmi_table *t, wide size) {
    return size < indices_of(t) && size <= SIZE_MAX;
}

/* The price of so many elements. */
static uint64_t price_of_elements(const wasmi_meter *meter, uint64_t count) {
    wide bytes = (wide)count * 4;
    return price_of(meter, bytes > UINT64_MAX ? UINT64_MAX : (uint64_t)bytes);
}

static uint8_t new_by_model(state *s, int i, uint32_t reference) {
    wasmi_table *t = &s->table[i];
    if (!has_type(t))
        return WASMI_INVALID_STATE;
    if (t->minimum > SIZE_MAX)
        return TABLE_MINIMUM_OVERFLOW;
    if (!permits(&s->quota, t->minimum, 2))
        return WASMI_TABLE_DENIED;
    if (s->length[i] < t->minimum) {
        gives_back(&s->quota, 2);
        return WASMI_TABLE_OUT_OF_MEMORY;
    }
    for (size_t k = 0; k < t->minimum; k++)
        s->region[i][k] = reference;
    t->size = t->minimum;
    return WASMI_DONE;
}

/* What stands against a growth after its permission, the first first; the fuel is taken if it comes that far. */
static uint8_t failure(state *s, int i, uint64_t desired, uint64_t price) {
    const wasmi_table *t = &s->table[i];
    if (t->has_maximum && desired > t->maximum)
        return WASMI_TABLE_GROWTH;
    if (s->meter.is_on && s->meter.left < price)
        return WASMI_TABLE_OUT_OF_FUEL;
    if (s->meter.is_on)
        s->meter.left -= price;
    return s->length[i] < desired ? WASMI_TABLE_OUT_OF_MEMORY : WASMI_DONE;
}

static inline uint8_t release_by_model(state *s, int i) {
    wasmi_table *t = &s->table[i];
    if (!is_state(t, s->length[i]))
        return WASMI_INVALID_STATE;
    if (!releases(&s->quota, t->size, 2))
        return WASMI_NOT_HELD;
    t->size = 0;
    t->type = 0;
    return WASMI_DONE;
}

/* A growth under the quota, or under the answers. */
static uint8_t grow_by_model(state *s, int i, uint64_t delta, uint32_t reference, bool by_answers) {
    wasmi_table *t = &s->table[i];
    if (!is_state(t, s->length[i]))
        return WASMI_INVALID_STATE;
    uint64_t old = t->size;
    bool asks = delta != 0 && is_size(t, (wide)old + delta);
    if (by_answers && (old != s->answers.current || (asks && old + delta != s->answers.desired)))
        return WASMI_OTHER_SIZE;
    if (by_answers)
        s->answers.asked = s->answers.told = 0;
    if (delta == 0) {
        s->number = old;
        return WASMI_DONE;
    }
    if (!is_size(t, (wide)old + delta))
        return WASMI_TABLE_GROWTH;
    if (by_answers) {
        s->answers.asked = 1;
        if (s->answers.answer != 1)
            return s->answers.answer ? WASMI_TABLE_DENIED : WASMI_TABLE_GROWTH;
    } else if (!permits(&s->quota, delta, 2)) {
        return WASMI_TABLE_GROWTH;
    }
    uint64_t price = price_of_elements(&s->meter, delta);
    uint8_t status = failure(s, i, old + delta, price);
    if (status == WASMI_DONE) {
        for (uint64_t k = 0; k < delta; k++)
            s->region[i][old + k] = reference;
        t->size += delta;
        s->number = old;
        return status;
    }
    if (by_answers) {
        s->answers.told = 1;
        if (s->answers.notice_answer)
            return WASMI_TABLE_DENIED;
    } else {
        gives_back(&s->quota, 2);
    }
    if (status == WASMI_TABLE_OUT_OF_FUEL)
        s->number = price;
    return status;
}

static uint8_t question_by_model(state *s, int i, uint64_t delta) {
    const wasmi_table *t = &s->table[i];
    if (!is_state(t, s->length[i]))
        return WASMI_INVALID_STATE;
    if (delta == 0)
        return WASMI_DONE;
    if (!is_size(t, (wide)t->size + delta))
        return WASMI_TABLE_GROWTH;
    s->question.current = t->size;
    s->question.desired = t->size + delta;
    s->question.maximum = !t->has_maximum ? 0 : t->maximum > SIZE_MAX ? SIZE_MAX : (size_t)t->maximum;
    s->question.has_maximum = t->has_maximum != 0;
    return WASMI_ASKS;
}

/* Whether a range lies within so many elements. */
static bool within(uint64_t from, uint64_t count, size_t length) {
    return (wide)from + count <= length;
}

/* A write of some items, or of one reference where there are none, once the tables are known to be ones. */
static uint8_t write_by_model(state *s, int i, const wasmi_range *range, const uint32_t *items, uint32_t reference) {
    uint64_t price = price_of_elements(&s->meter, range->count);
    uint32_t copy[MOST];
    if (s->meter.is_on && s->meter.left < price) {
        s->number = price;
        return WASMI_TABLE_OUT_OF_FUEL;
    }
    if (s->meter.is_on)
        s->meter.left -= price;
    for (uint64_t k = 0; k < range->count; k++)
        copy[k] = items ? items[range->from + k] : reference;
    for (uint64_t k = 0; k < range->count; k++)
        s->region[i][range->to + k] = copy[k];
    return WASMI_DONE;
}

static uint8_t fill_by_model(state *s, int i, const wasmi_range *range, uint32_t reference) {
    if (!is_state(&s->table[i], s->length[i]))
        return WASMI_INVALID_STATE;
    if (!within(range->to, range->count, s->table[i].size))
        return WASMI_TABLE_FILL;
    return write_by_model(s, i, range, NULL, reference);
}

static uint8_t copy_by_model(state *s, int i, int from, const wasmi_range *range) {
    const wasmi_table *t = &s->table[i], *source = &s->table[from];
    if (!is_state(t, s->length[i]) || !is_state(source, s->length[from]))
        return WASMI_INVALID_STATE;
    if (t->type != source->type)
        return WASMI_TABLE_TYPE;
    if (!within(range->from, range->count, source->size) || !within(range->to, range->count, t->size))
        return WASMI_TABLE_COPY;
    return write_by_model(s, i, range, s->region[from] ? s->region[from] : copy_of_none, 0);
}

static uint8_t init_by_model(state *s, int i, const uint32_t *items, size_t length, const wasmi_range *range) {
    if (!is_state(&s->table[i], s->length[i]))
        return WASMI_INVALID_STATE;
    if (!within(range->from, range->count, length) || !within(range->to, range->count, s->table[i].size))
        return WASMI_TABLE_INIT;
    return range->count == 0 ? WASMI_DONE : write_by_model(s, i, range, items, 0);
}

static uint8_t size_by_model(const state *s, int i, uint64_t *size) {
    if (!is_state(&s->table[i], s->length[i]))
        return WASMI_INVALID_STATE;
    *size = s->table[i].size;
    return WASMI_DONE;
}

static uint8_t get_by_model(const state *s, int i, uint64_t index, uint32_t *reference) {
    if (!is_state(&s->table[i], s->length[i]))
        return WASMI_INVALID_STATE;
    if (index >= s->table[i].size)
        return WASMI_NO_ELEMENT;
    *reference = s->region[i][index];
    return WASMI_DONE;
}

static uint8_t set_by_model(state *s, int i, uint64_t index, uint32_t reference) {
    if (!is_state(&s->table[i], s->length[i]))
        return WASMI_INVALID_STATE;
    if (index >= s->table[i].size)
        return WASMI_TABLE_SET;
    s->region[i][index] = reference;
    return WASMI_DONE;
}

#endif
