/* Hostile use of include/wasmi_memory.h's memories and fuel, beside a plain model of them: structs with each field at its
   extremes, regions and arrays of any length that end at an inaccessible page, two memories under one meter and one
   quota, and calls in random order; first, copies of a memory onto itself. No call may ask for memory. usage: memory
   SEQUENCES [SEED]; its last line is `N sequences, M calls, 0 differ`. It is built with -fsanitize=address,undefined, and
   linked with --wrap for malloc, realloc and free. */
#include "blocks.h"
#include "hostile.h"

enum { MEMORIES = 2, SMALL = 96, LONG = 70000, PAGE = 65536, MOST = 3 * PAGE };

/* All that lies with the caller. */
typedef struct {
    wasmi_memory memory[MEMORIES];
    uint8_t *region[MEMORIES];
    size_t length[MEMORIES];
    wasmi_meter meter;
    wasmi_quota quota;
    wasmi_answers answers;
    wasmi_question question;
    uint64_t number;
} state;

/* ---- the model */

static size_t page_of(const wasmi_memory *m) {
    return (size_t)1 << m->page_size_log2;
}

static wide greatest_of(const wasmi_memory *m) {
    return two_to_32_or_64(m->is_64) / page_of(m);
}

static bool has_type(const wasmi_memory *m) {
    if (m->page_size_log2 != 0 && m->page_size_log2 != 16)
        return false;
    if (m->minimum > greatest_of(m))
        return false;
    return !m->has_maximum || (m->maximum <= greatest_of(m) && m->minimum <= m->maximum);
}

static bool in_bounds(const wasmi_memory *m, wide pages) {
    return pages <= greatest_of(m) && (!m->has_maximum || pages <= m->maximum) && pages * page_of(m) <= SIZE_MAX;
}

static bool is_state(const wasmi_memory *m, size_t length) {
    return has_type(m) && m->size <= length && m->size % page_of(m) == 0 && m->minimum <= m->size / page_of(m) &&
           in_bounds(m, m->size / page_of(m));
}

static uint8_t new_by_model(state *s, int i, bool writes) {
    wasmi_memory *m = &s->memory[i];
    if (!has_type(m))
        return WASMI_INVALID_STATE;
    wide size = (wide)m->minimum * page_of(m);
    if (size > SIZE_MAX)
        return WASMI_MEMORY_SIZE_OVERFLOW;
    if (!permits(&s->quota, (size_t)size, 1))
        return WASMI_MEMORY_DENIED;
    if (s->length[i] < size) {
        gives_back(&s->quota, 1);
        return WASMI_MEMORY_REGION_TOO_SHORT;
    }
    if (size > 0 && writes)
        memset(s->region[i], 0, (size_t)size);
    m->size = (size_t)size;
    return WASMI_DONE;
}

static uint8_t release_by_model(state *s, int i) {
    wasmi_memory *m = &s->memory[i];
    if (!is_state(m, s->length[i]))
        return WASMI_INVALID_STATE;
    if (!releases(&s->quota, m->size, 1))
        return WASMI_NOT_HELD;
    m->size = 0;
    m->page_size_log2 = 255;
    return WASMI_DONE;
}

/* A growth under the quota, or under the answers, which writes zeros, or leaves what stands there. */
static uint8_t grow_by_model(state *s, int i, uint64_t pages, bool by_answers, bool writes) {
    wasmi_memory *m = &s->memory[i];
    if (!is_state(m, s->length[i]))
        return WASMI_INVALID_STATE;
    uint64_t old = m->size / page_of(m);
    bool asks = pages != 0 && in_bounds(m, (wide)old + pages);
    if (by_answers && (m->size != s->answers.current || (asks && m->size + pages * page_of(m) != s->answers.desired)))
        return WASMI_OTHER_SIZE;
    if (by_answers)
        s->answers.asked = s->answers.told = 0;
    if (pages != 0 && !in_bounds(m, (wide)old + pages))
        return WASMI_MEMORY_GROWTH;
    if (pages == 0) {
        s->number = old;
        return WASMI_DONE;
    }
    size_t more = (size_t)pages * page_of(m);
    if (by_answers) {
        s->answers.asked = 1;
        if (s->answers.answer != 1)
            return s->answers.answer ? WASMI_MEMORY_DENIED : WASMI_MEMORY_GROWTH;
    } else if (!permits(&s->quota, more, 1)) {
        return WASMI_MEMORY_GROWTH;
    }
    uint64_t price = price_of(&s->meter, more);
    uint8_t status = s->length[i] - m->size < more                      ? WASMI_MEMORY_REGION_TOO_SHORT
                     : s->meter.is_on && s->meter.left < price ? WASMI_MEMORY_OUT_OF_FUEL
                                                                        : WASMI_DONE;
    if (status == WASMI_DONE) {
        if (s->meter.is_on)
            s->meter.left -= price;
        if (more > 0 && writes)
            memset(s->region[i] + m->size, 0, more);
        m->size += more;
        s->number = old;
        return status;
    }
    if (by_answers) {
        s->answers.told = 1;
        if (s->answers.notice_answer)
            return WASMI_MEMORY_DENIED;
    } else {
        gives_back(&s->quota, 1);
    }
    if (status == WASMI_MEMORY_OUT_OF_FUEL)
        s->number = price;
    return status;
}

static uint8_t question_by_model(state *s, int i, uint64_t pages) {
    const wasmi_memory *m = &s->memory[i];
    if (!is_state(m, s->length[i]))
        return WASMI_INVALID_STATE;
    if (pages == 0)
        return WASMI_DONE;
    if (!in_bounds(m, (wide)(m->size / page_of(m)) + pages))
        return WASMI_MEMORY_GROWTH;
    wide most = (wide)m->maximum * page_of(m);
    s->question.current = m->size;
    s->question.desired = m->size + (size_t)pages * page_of(m);
    s->question.maximum = !m->has_maximum ? 0 : most > SIZE_MAX ? SIZE_MAX : (size_t)most;
    s->question.has_maximum = m->has_maximum != 0;
    return WASMI_ASKS;
}

static uint8_t consume_by_model(state *s, uint64_t amount) {
    if (!s->meter.is_on)
        return WASMI_METERING_DISABLED;
    if (s->meter.left < amount) {
        s->number = amount;
        return WASMI_OUT_OF_FUEL;
    }
    s->meter.left -= amount;
    s->number = s->meter.left;
    return WASMI_DONE;
}

/* Copies between a memory and other bytes, in either direction. */
static uint8_t access_by_model(state *s, int i, size_t offset, uint8_t *bytes, size_t length, bool is_write) {
    const wasmi_memory *m = &s->memory[i];
    if (!is_state(m, s->length[i]))
        return WASMI_INVALID_STATE;
    if (m->size < offset || m->size - offset < length)
        return WASMI_MEMORY_ACCESS;
    if (length > 0)
        memcpy(is_write ? s->region[i] + offset : bytes, is_write ? bytes : s->region[i] + offset, length);
    return WASMI_DONE;
}

/* Whether a range lies within so many bytes. */
static bool within(uint64_t from, uint64_t count, size_t length) {
    return (wide)from + count <= length;
}

/* A write over a range, by bytes or by one value where there are none, once the memories are known to be ones. */
static uint8_t write_by_model(state *s, int i, const wasmi_range *range, const uint8_t *bytes, uint8_t value) {
    uint64_t price = price_of(&s->meter, range->count);
    if (s->meter.is_on && s->meter.left < price) {
        s->number = price;
        return WASMI_MEMORY_OUT_OF_FUEL;
    }
    if (s->meter.is_on)
        s->meter.left -= price;
    if (range->count > 0 && bytes)
        memmove(s->region[i] + range->to, bytes + range->from, (size_t)range->count);
    else if (range->count > 0)
        memset(s->region[i] + range->to, value, (size_t)range->count);
    return WASMI_DONE;
}

static uint8_t fill_by_model(state *s, int i, const wasmi_range *range, uint8_t value) {
    if (!is_state(&s->memory[i], s->length[i]))
        return WASMI_INVALID_STATE;
    if (!within(range->to, range->count, s->memory[i].size))
        return WASMI_MEMORY_ACCESS;
    return write_by_model(s, i, range, NULL, value);
}

/* A copy from so many bytes, which are those of a memory or of a segment. */
static uint8_t init_by_model(state *s, int i, const uint8_t *bytes, size_t length, const wasmi_range *range) {
    if (!is_state(&s->memory[i], s->length[i]))
        return WASMI_INVALID_STATE;
    if (!within(range->from, range->count, length) || !within(range->to, range->count, s->memory[i].size))
        return WASMI_MEMORY_ACCESS;
    return write_by_model(s, i, range, bytes, 0);
}

static uint8_t copy_by_model(state *s, int i, int from, const wasmi_range *range) {
    if (!is_state(&s->memory[from], s->length[from]))
        return WASMI_INVALID_STATE;
    return init_by_model(s, i, s->region[from], s->memory[from].size, range);
}

/* ---- the comparison */

static uint8_t *end[MEMORIES], *model_end[MEMORIES], *bytes_end;

static wasmi_memory any_memory(size_t length) {
    wasmi_memory m;
    memset(&m, 0, sizeof m);
    m.page_size_log2 = below(8) == 0 ? (uint8_t)any() : below(3) == 0 ? 16 : 0;
    m.minimum = below(2) ? below(4) : any_number();
    m.has_maximum = flag();
    m.maximum = below(2) ? m.minimum + below(SMALL) : any_number();
    m.is_64 = flag();
    size_t page = m.page_size_log2 == 16 ? PAGE : 1;
    m.size = below(4) ? below(length / page + 1) * page : (size_t)any_number();
    return m;
}

static void begin(state *s, state *model) {
    for (int i = 0; i < MEMORIES; i++) {
        size_t length = below(4) ? below(SMALL) : below(MOST + 1);
        s->length[i] = length;
        s->region[i] = length > 0 ? end[i] - length : NULL;
        if (length > 0)
            memset(s->region[i], (int)(1 + below(255)), length);
        for (size_t k = 0; k < length; k += 1 + k / SMALL)
            s->region[i][k] = (uint8_t)any();
        s->memory[i] = any_memory(length);
    }
    s->meter = any_meter(64);
    s->quota = any_quota();
    s->answers = any_answers();
    memset(&s->question, 0, sizeof s->question);
    s->number = any_number();
    *model = *s;
    for (int i = 0; i < MEMORIES; i++) {
        model->region[i] = s->length[i] > 0 ? model_end[i] - s->length[i] : NULL;
        if (s->length[i] > 0)
            memcpy(model->region[i], s->region[i], s->length[i]);
    }
}

static bool same_memory(const wasmi_memory *a, const wasmi_memory *b) {
    return a->minimum == b->minimum && a->maximum == b->maximum && a->size == b->size && a->has_maximum == b->has_maximum &&
           a->is_64 == b->is_64 && a->page_size_log2 == b->page_size_log2;
}

static bool same(const state *a, const state *b) {
    for (int i = 0; i < MEMORIES; i++)
        if (!same_memory(&a->memory[i], &b->memory[i]) ||
            (a->length[i] > 0 && memcmp(a->region[i], b->region[i], a->length[i])))
            return false;
    return a->meter.left == b->meter.left && a->meter.is_on == b->meter.is_on && same_quota(&a->quota, &b->quota) &&
           same_answers(&a->answers, &b->answers) && same_question(&a->question, &b->question) && a->number == b->number;
}

/* The size of a page, or 1 where the struct has none. */
static size_t some_page(const wasmi_memory *m) {
    return m->page_size_log2 == 16 ? PAGE : 1;
}

/* A number of pages that is often one that fits. */
static uint64_t some_pages(const state *s, int i) {
    size_t page = some_page(&s->memory[i]);
    size_t left = s->memory[i].size <= s->length[i] ? (s->length[i] - s->memory[i].size) / page : 0;
    return below(3) ? below(left / 2 + 3) : any_number();
}

/* How many bytes are read or written. */
static size_t some_length(void) {
    static const size_t edges[] = {PAGE - 1, PAGE, PAGE + 1, LONG};
    return below(12) ? below(SMALL) : below(2) ? edges[below(4)] : 1 + below(LONG);
}

/* Where they begin: mostly where they fit. */
static size_t some_offset(const wasmi_memory *m, size_t length) {
    size_t size = m->size % (MOST + 1);
    return below(4) ? below((size > length ? size - length : size) + 2) : (size_t)any_number();
}

/* Bytes that are read or written, with those of the model. */
static bool access_agrees(state *s, state *model, int i, bool is_write) {
    static uint8_t expected[LONG];
    size_t length = some_length(), offset = some_offset(&s->memory[i], length);
    uint8_t *bytes = length > 0 ? bytes_end - length : NULL;
    for (size_t k = 0; k < length; k++)
        bytes[k] = expected[k] = (uint8_t)any();
    uint8_t status = is_write ? wasmi_memory_write(&s->memory[i], s->region[i], s->length[i], offset, bytes, length)
                              : wasmi_memory_read(&s->memory[i], s->region[i], s->length[i], offset, bytes, length);
    return status == access_by_model(model, i, offset, expected, length, is_write) &&
           (length == 0 || memcmp(bytes, expected, length) == 0);
}

/* A range that mostly lies within two memories, or within a memory and so many bytes. */
static wasmi_range some_range(const state *s, int i, size_t source) {
    size_t size = s->memory[i].size % (MOST + 1), least = size < source ? size : source;
    uint64_t count = below(8) ? below(below(8) ? least % SMALL + 2 : least + 2) : any_number();
    wasmi_range range = {any_number(), any_number(), count};
    if (below(8))
        range.to = below((size > count ? size - count : size) + 2);
    if (below(8))
        range.from = below((source > count ? source - count : source) + 2);
    return range;
}

/* A range of a memory is written over. */
static bool write_agrees(state *s, state *model, int i) {
    int other = below(4) ? 1 - i : i;
    wasmi_memory *m = &s->memory[i];
    const wasmi_memory *o = &s->memory[other];
    uint8_t value = (uint8_t)any();
    size_t length = some_length();
    const wasmi_range range = some_range(s, i, below(3) ? m->size % (MOST + 1) : length);
    switch (below(4)) {
    case 0:
        return wasmi_memory_fill(m, s->region[i], s->length[i], &range, value, &s->meter, &s->number) ==
               fill_by_model(model, i, &range, value);
    case 1:
        return wasmi_memory_copy_within(m, s->region[i], s->length[i], &range, &s->meter, &s->number) ==
               copy_by_model(model, i, i, &range);
    case 2:
        return wasmi_memory_copy(m, s->region[i], s->length[i], o, s->region[other], s->length[other], &range, &s->meter,
                                 &s->number) == copy_by_model(model, i, other, &range);
    default: {
        uint8_t *bytes = length > 0 ? bytes_end - length : NULL;
        for (size_t k = 0; k < length; k++)
            bytes[k] = (uint8_t)(any() >> (k % 8));
        return wasmi_memory_init(m, s->region[i], s->length[i], bytes, length, &range, &s->meter, &s->number) ==
               init_by_model(model, i, bytes, length, &range);
    }
    }
}

/* A call that reads a number alone. */
static bool number_agrees(state *s, state *model, int i) {
    const wasmi_memory *m = &s->memory[i];
    uint64_t found = 7, amount = any_number();
    switch (below(4)) {
    case 0: {
        bool is = is_state(m, s->length[i]);
        uint8_t status = wasmi_memory_size(m, s->region[i], s->length[i], &found);
        return status == (is ? WASMI_DONE : WASMI_INVALID_STATE) && found == (is ? m->size / page_of(m) : 7);
    }
    case 1: {
        uint8_t status = wasmi_fuel_left(&s->meter, &found);
        return status == (s->meter.is_on ? WASMI_DONE : WASMI_METERING_DISABLED) &&
               found == (s->meter.is_on ? model->meter.left : 7);
    }
    case 2: return wasmi_fuel_copy_cost(&s->meter, amount) == price_of(&model->meter, amount);
    default:
        if (model->meter.is_on)
            model->meter.left = amount;
        return wasmi_fuel_set(&s->meter, amount) == (model->meter.is_on ? WASMI_DONE : WASMI_METERING_DISABLED);
    }
}

static bool call_agrees(state *s, state *model) {
    int i = (int)below(MEMORIES);
    wasmi_memory *m = &s->memory[i];
    uint64_t pages = some_pages(s, i);
    switch (below(11)) {
    case 0:
        if (below(2))
            return wasmi_memory_new_zeroed(m, s->region[i], s->length[i], &s->quota) == new_by_model(model, i, false);
        return wasmi_memory_new(m, s->region[i], s->length[i], &s->quota) == new_by_model(model, i, true);
    case 1:
    case 2:
        return wasmi_memory_grow(m, s->region[i], s->length[i], pages, &s->meter, &s->quota, &s->number) ==
               grow_by_model(model, i, pages, false, true);
    case 3:
        return wasmi_memory_grow_zeroed(m, s->region[i], s->length[i], pages, &s->meter, &s->quota, &s->number) ==
               grow_by_model(model, i, pages, false, false);
    case 4:
        return wasmi_memory_question(m, s->region[i], s->length[i], pages, &s->question) ==
               question_by_model(model, i, pages);
    case 5:
        s->answers.current = model->answers.current = below(8) ? m->size : (size_t)any_number();
        s->answers.desired = model->answers.desired = below(8) ? m->size + pages * some_page(m) : (size_t)any_number();
        s->answers.answer = model->answers.answer = flag();
        s->answers.notice_answer = model->answers.notice_answer = flag();
        return wasmi_memory_settle(m, s->region[i], s->length[i], pages, &s->meter, &s->answers, &s->number) ==
               grow_by_model(model, i, pages, true, true);
    case 6: return access_agrees(s, model, i, below(2) != 0);
    case 7: {
        uint64_t amount = any_number();
        return wasmi_fuel_consume(&s->meter, amount, &s->number) == consume_by_model(model, amount);
    }
    case 8: return write_agrees(s, model, i);
    case 9: {
        uint64_t amount = any_number();
        return wasmi_fuel_consume_copy(&s->meter, amount, &s->number) ==
               consume_by_model(model, price_of(&model->meter, amount));
    }
    default:
        if (below(4) == 0)
            return wasmi_quota_release_memory(&s->quota, m, s->region[i], s->length[i]) == release_by_model(model, i);
        return number_agrees(s, model, i);
    }
}

/* ---- sources that lie in the region */

enum { OWN = 64, REGION = 80, COUNT = 24, PLACES = 40 };
static const wasmi_memory OWN_MEMORY = {OWN, 0, OWN, 0, 0, 0};
static wasmi_meter no_meter;

/* Copies COUNT bytes of a region over others by one of the calls that take a source. */
static uint8_t copied_onto_itself(int call, uint8_t *region, size_t to, size_t from) {
    const wasmi_memory *m = &OWN_MEMORY;
    const wasmi_range range = {to, from, COUNT}, part = {to, from % 5, COUNT};
    uint64_t number = 0;
    switch (call) {
    case 0: return wasmi_memory_copy(m, region, REGION, m, region, REGION, &range, &no_meter, &number);
    case 1: return wasmi_memory_write(m, region, REGION, to, region + from, COUNT);
    default:
        return wasmi_memory_init(m, region, REGION, region + from - part.from, COUNT + part.from, &part, &no_meter,
                                 &number);
    }
}

/* Each does what memmove does, or is refused and writes nothing where the bytes don't all lie in the memory. */
static bool own_copies_agree(void) {
    uint8_t region[REGION], expected[REGION];
    bool agree = true;
    for (int call = 0; call < 3; call++)
        for (size_t to = 0; to < PLACES; to++)
            for (size_t from = 0; from <= REGION - COUNT; from++) {
                for (size_t k = 0; k < REGION; k++)
                    region[k] = expected[k] = (uint8_t)(k * 37 + 5);
                bool is_within = from + COUNT <= OWN;
                if (is_within)
                    memmove(expected + to, expected + from, COUNT);
                uint8_t status = copied_onto_itself(call, region, to, from);
                agree &= status == (is_within ? WASMI_DONE : WASMI_MEMORY_ACCESS) && !memcmp(region, expected, REGION);
            }
    return agree;
}

/* The other ways to overlap with a region are refused; to touch it isn't. */
static bool overlaps_are_refused(void) {
    const wasmi_memory *m = &OWN_MEMORY;
    const wasmi_range range = {0, 1, COUNT}, past = {0, 1, 8};
    uint8_t bytes[2 * REGION] = {1, 2, 3}, *region = bytes + 8;
    uint64_t number = 0;
    bool agree = wasmi_memory_copy(m, region, REGION, m, bytes, REGION, &range, &no_meter, &number) == WASMI_INVALID_STATE &&
                 wasmi_memory_copy(m, bytes, REGION, m, region, REGION, &range, &no_meter, &number) == WASMI_INVALID_STATE &&
                 wasmi_memory_write(m, region, REGION, 0, bytes, COUNT) == WASMI_MEMORY_ACCESS &&
                 wasmi_memory_init(m, region, REGION, region, 8, &past, &no_meter, &number) == WASMI_MEMORY_ACCESS &&
                 bytes[2] == 3 && region[0] == 0;
    agree &= wasmi_memory_copy(m, bytes + REGION, REGION, m, bytes, REGION, &range, &no_meter, &number) == WASMI_DONE;
    return agree && bytes[REGION] == 2 && bytes[REGION + 1] == 3;
}

static state own, by_model;

static void begin_both(void) {
    begin(&own, &by_model);
}

static bool next_agrees(void) {
    return call_agrees(&own, &by_model) && same(&own, &by_model);
}

int main(int count, char **words) {
    for (int i = 0; i < MEMORIES; i++) {
        end[i] = fenced(MOST);
        model_end[i] = fenced(MOST);
    }
    bytes_end = fenced(LONG);
    if (!own_copies_agree() || !overlaps_are_refused()) {
        printf("a copy of a memory onto itself differs\n");
        return 1;
    }
    int differ = try_sequences(count, words, begin_both, next_agrees);
    return none_requested() ? differ : 1;
}
