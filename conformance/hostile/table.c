/* Hostile use of include/wasmi_memory.h's tables, beside a plain model of them: structs with each field at its extremes,
   regions and items of any length that end at an inaccessible page, two tables under one meter and one quota, and calls in
   random order; first, sources that lie in the region. No call may ask for memory. usage: table SEQUENCES [SEED]; its last
   line is `N sequences, M calls, 0 differ`. It is built with -fsanitize=address,undefined, and linked with --wrap for
   malloc, realloc and free. */
#include "blocks.h"
#include "table_model.h"

/* ---- the comparison */

static uint32_t *end[TABLES], *model_end[TABLES], *items_end;

static void begin(state *s, state *model) {
    for (int i = 0; i < TABLES; i++) {
        size_t length = below(MOST);
        wasmi_table *t = &s->table[i];
        s->length[i] = length;
        s->region[i] = length > 0 ? end[i] - length : NULL;
        for (size_t k = 0; k < length; k++)
            s->region[i][k] = (uint32_t)any();
        memset(t, 0, sizeof *t);
        t->minimum = below(4) ? below(4) : any_number();
        t->has_maximum = flag();
        t->maximum = below(4) ? t->minimum + below(MOST) : any_number();
        t->is_64 = flag();
        t->type = below(8) ? (uint8_t)(5 + below(4) / 3) : (uint8_t)any();
        t->size = below(6) ? below(length + 1) : (size_t)any_number();
    }
    s->meter = any_meter(1);
    s->quota = any_quota();
    s->answers = any_answers();
    memset(&s->question, 0, sizeof s->question);
    s->number = any_number();
    *model = *s;
    for (int i = 0; i < TABLES; i++) {
        model->region[i] = s->length[i] > 0 ? model_end[i] - s->length[i] : NULL;
        if (s->length[i] > 0)
            memcpy(model->region[i], s->region[i], s->length[i] * sizeof *s->region[i]);
    }
}

static bool same_table(const wasmi_table *a, const wasmi_table *b) {
    return a->minimum == b->minimum && a->maximum == b->maximum && a->size == b->size && a->has_maximum == b->has_maximum &&
           a->is_64 == b->is_64 && a->type == b->type;
}

static bool same(const state *a, const state *b) {
    for (int i = 0; i < TABLES; i++)
        if (!same_table(&a->table[i], &b->table[i]) ||
            (a->length[i] > 0 && memcmp(a->region[i], b->region[i], a->length[i] * sizeof *a->region[i])))
            return false;
    return a->meter.left == b->meter.left && a->meter.is_on == b->meter.is_on && same_quota(&a->quota, &b->quota) &&
           same_answers(&a->answers, &b->answers) && same_question(&a->question, &b->question) && a->number == b->number;
}

/* An index or a count that is often within a table. */
static uint64_t place(const state *s, int i) {
    return below(6) ? below(s->table[i].size % MOST + 2) : any_number();
}

static bool init_agrees(state *s, state *model, int i, const wasmi_range *range) {
    size_t length = below(MOST);
    uint32_t *items = length > 0 ? items_end - length : NULL;
    for (size_t k = 0; k < length; k++)
        items[k] = (uint32_t)any();
    return wasmi_table_init(&s->table[i], s->region[i], s->length[i], items, length, range, &s->meter, &s->number) ==
           init_by_model(model, i, items ? items : copy_of_none, length, range);
}

static bool get_agrees(state *s, int i) {
    uint64_t index = place(s, i);
    uint32_t found = 7, wanted = 7;
    return wasmi_table_get(&s->table[i], s->region[i], s->length[i], index, &found) == get_by_model(s, i, index, &wanted) &&
           found == wanted;
}

static bool size_agrees(const state *s, int i) {
    uint64_t found = 7, wanted = 7;
    return wasmi_table_size(&s->table[i], s->region[i], s->length[i], &found) == size_by_model(s, i, &wanted) &&
           found == wanted;
}

static bool set_agrees(state *s, state *model, int i) {
    uint64_t index = place(s, i);
    uint32_t reference = (uint32_t)any();
    return wasmi_table_set(&s->table[i], s->region[i], s->length[i], index, reference) ==
           set_by_model(model, i, index, reference);
}

static bool growth_agrees(state *s, state *model, int i) {
    wasmi_table *t = &s->table[i];
    uint64_t delta = below(3) ? below(6) : any_number();
    uint32_t reference = (uint32_t)any();
    switch (below(5)) {
    case 0:
        return wasmi_table_new(t, s->region[i], s->length[i], reference, &s->quota) == new_by_model(model, i, reference);
    case 1:
        return wasmi_table_question(t, s->region[i], s->length[i], delta, &s->question) ==
               question_by_model(model, i, delta);
    case 2:
        s->answers.current = model->answers.current = below(8) ? t->size : (size_t)any_number();
        s->answers.desired = model->answers.desired = below(8) ? t->size + delta : (size_t)any_number();
        s->answers.answer = model->answers.answer = flag();
        s->answers.notice_answer = model->answers.notice_answer = flag();
        return wasmi_table_settle(t, s->region[i], s->length[i], delta, reference, &s->meter, &s->answers, &s->number) ==
               grow_by_model(model, i, delta, reference, true);
    default:
        return wasmi_table_grow(t, s->region[i], s->length[i], delta, reference, &s->meter, &s->quota, &s->number) ==
               grow_by_model(model, i, delta, reference, false);
    }
}

#pragma GCC diagnostic push
#pragma GCC diagnostic ignored "-Wdeprecated-declarations"
static uint8_t (*const former_copy)(const wasmi_table *, uint32_t *, size_t, const wasmi_range *, wasmi_meter *,
                                    uint64_t *) = wasmi_table_copy;
#pragma GCC diagnostic pop

static bool copy_agrees(state *s, state *model, int i, const wasmi_range *range) {
    uint8_t (*copy)(const wasmi_table *, uint32_t *, size_t, const wasmi_range *, wasmi_meter *, uint64_t *) =
        below(2) ? wasmi_table_copy_within : former_copy;
    return copy(&s->table[i], s->region[i], s->length[i], range, &s->meter, &s->number) ==
           copy_by_model(model, i, i, range);
}

static bool call_agrees(state *s, state *model) {
    int i = (int)below(TABLES), other = below(4) ? 1 - i : i;
    wasmi_table *t = &s->table[i];
    const wasmi_range range = {place(s, i), place(s, below(2) ? i : other), below(3) ? below(6) : any_number()};
    uint32_t reference = (uint32_t)any();
    switch (below(10)) {
    case 0: return get_agrees(s, i);
    case 1: return set_agrees(s, model, i);
    case 2:
        return wasmi_table_fill(t, s->region[i], s->length[i], &range, reference, &s->meter, &s->number) ==
               fill_by_model(model, i, &range, reference);
    case 3: return copy_agrees(s, model, i, &range);
    case 4:
        return wasmi_table_copy_from(t, s->region[i], s->length[i], &s->table[other], s->region[other], s->length[other],
                                     &range, &s->meter, &s->number) == copy_by_model(model, i, other, &range);
    case 5: return init_agrees(s, model, i, &range);
    case 6:
        if (below(4) == 0)
            return wasmi_quota_release_table(&s->quota, t, s->region[i], s->length[i]) == release_by_model(model, i);
        return size_agrees(s, i);
    default: return growth_agrees(s, model, i);
    }
}

/* ---- sources that lie in the region */

/* A table is copied onto itself, and all other sources in its region are refused. */
static bool own_copies_agree(void) {
    const wasmi_table t = {6, 0, 6, 0, 0, WASMI_TYPE_FUNCREF};
    const wasmi_range up = {2, 0, 4}, item = {0, 0, 1};
    uint32_t elements[16] = {1, 2, 3, 4, 5, 6}, *others = elements + 1;
    wasmi_meter meter = {0, 0, 0, 0, 0};
    uint64_t number = 0;
    bool agree = wasmi_table_copy_from(&t, elements, 8, &t, elements, 8, &up, &meter, &number) == WASMI_DONE &&
                 elements[2] == 1 && elements[5] == 4 && elements[6] == 0;
    agree &= wasmi_table_copy_from(&t, elements, 8, &t, others, 8, &item, &meter, &number) == WASMI_INVALID_STATE &&
             wasmi_table_copy_from(&t, others, 8, &t, elements, 8, &item, &meter, &number) == WASMI_INVALID_STATE &&
             wasmi_table_init(&t, elements, 8, others, 1, &item, &meter, &number) == WASMI_TABLE_INIT &&
             wasmi_table_init(&t, others, 8, elements, 2, &item, &meter, &number) == WASMI_TABLE_INIT &&
             wasmi_table_init(&t, elements, 5, others, 1, &item, &meter, &number) == WASMI_INVALID_STATE;
    agree &= elements[0] == 1 && elements[1] == 2;
    return agree && wasmi_table_init(&t, others, 8, elements, 1, &item, &meter, &number) == WASMI_DONE && others[0] == 1;
}

static state own, by_model;

static void begin_both(void) {
    begin(&own, &by_model);
}

static bool next_agrees(void) {
    return call_agrees(&own, &by_model) && same(&own, &by_model);
}

int main(int count, char **words) {
    for (int i = 0; i < TABLES; i++) {
        end[i] = (uint32_t *)(void *)fenced(MOST * sizeof(uint32_t));
        model_end[i] = (uint32_t *)(void *)fenced(MOST * sizeof(uint32_t));
    }
    items_end = (uint32_t *)(void *)fenced(MOST * sizeof(uint32_t));
    if (!own_copies_agree()) {
        printf("a copy of a table onto itself differs\n");
        return 1;
    }
    int differ = try_sequences(count, words, begin_both, next_agrees);
    return none_requested() ? differ : 1;
}
