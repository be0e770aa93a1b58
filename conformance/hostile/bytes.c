/* Memories of a machine whose bytes aren't zeros, beside a plain model of their bytes: reads and writes of 1 to 70,000
   bytes, whose arrays end at an inaccessible page, and loads and stores of items, by calls with plain arguments and by
   structs, inside the memory, at its end, and past 2^32 and 2^64; none of them may ask for memory. usage: bytes ROUNDS
   [SEED]; its last line is `N calls, M differ`, and the exit status is 0 if M is 0. It is built with
   -fsanitize=address,undefined, and linked with --wrap for malloc, realloc and free. */
#include "blocks.h"
#include "hostile.h"
#include "wasmi_machine.h"

enum { MEMORIES = 2, PAGE = 65536, MOST = 3 * PAGE, LONG = 70000, LOADS = 12, STORES = 7, ACCESSES = 40 };

static wasmi_machine machine;
static size_t size[MEMORIES];
static uint8_t *model[MEMORIES], *array_end, *whole;
static uint64_t calls, differ;

static void compare(const char *what, uint64_t first, uint64_t second, bool agrees) {
    calls++;
    if (!agrees && differ++ < 5)
        printf("%s at %" PRIu64 " and %" PRIu64 " differs\n", what, first, second);
}

/* ---- the model */

/* What a load gives: so many bytes, the sign in the higher bits of so many. */
static const struct { uint8_t bytes, bits; bool is_signed; } LOADED[LOADS] = {
    [WASMI_LOAD_I32_LOAD8_S] = {1, 32, true},   [WASMI_LOAD_I32_LOAD8_U] = {1, 32, false},
    [WASMI_LOAD_I32_LOAD16_S] = {2, 32, true},  [WASMI_LOAD_I32_LOAD16_U] = {2, 32, false},
    [WASMI_LOAD_I64_LOAD8_S] = {1, 64, true},   [WASMI_LOAD_I64_LOAD8_U] = {1, 64, false},
    [WASMI_LOAD_I64_LOAD16_S] = {2, 64, true},  [WASMI_LOAD_I64_LOAD16_U] = {2, 64, false},
    [WASMI_LOAD_I64_LOAD32_S] = {4, 64, true},  [WASMI_LOAD_I64_LOAD32_U] = {4, 64, false},
    [WASMI_LOAD_LOAD_U32] = {4, 32, false},     [WASMI_LOAD_LOAD_U64] = {8, 64, false},
};
static const uint8_t STORED[STORES] = {
    [WASMI_STORE_I32_STORE8] = 1, [WASMI_STORE_I32_STORE16] = 2, [WASMI_STORE_I64_STORE8] = 1,
    [WASMI_STORE_I64_STORE16] = 2, [WASMI_STORE_I64_STORE32] = 4, [WASMI_STORE_STORE32] = 4,
    [WASMI_STORE_STORE64] = 8,
};

static bool is_within(int memory, uint64_t ptr, uint64_t offset, size_t length) {
    return (wide)ptr + offset + length <= size[memory];
}

static uint64_t loaded(int memory, uint16_t op, size_t at) {
    uint64_t item = 0;
    for (int i = 0; i < LOADED[op].bytes; i++)
        item |= (uint64_t)model[memory][at + (size_t)i] << (8 * i);
    bool is_negative = LOADED[op].is_signed && item >> (8 * LOADED[op].bytes - 1) == 1;
    if (is_negative)
        item |= UINT64_MAX << (8 * LOADED[op].bytes);
    return LOADED[op].bits == 32 ? item & UINT32_MAX : item;
}

/* ---- calls */

/* An item that is loaded twice: by a call with plain arguments and by a struct. */
static void load(int memory, uint16_t op, uint64_t ptr, uint64_t offset) {
    bool is_there = is_within(memory, ptr, offset, LOADED[op].bytes);
    uint64_t item = is_there ? loaded(memory, op, (size_t)(ptr + offset)) : 7, found = 7;
    uint8_t status = is_there ? WASMI_DONE : WASMI_MEMORY_OUT_OF_BOUNDS;
    wasmi_call call;
    memset(&call, 0, sizeof call);
    call.kind = WASMI_CALL_LOAD, call.op = op, call.index = (size_t)memory, call.ptr = ptr, call.offset = offset;
    compare("a load", ptr, offset,
            wasmi_machine_load(&machine, op, (size_t)memory, ptr, offset, &found) == status && found == item);
    wasmi_reply reply = wasmi_machine_call(&machine, &call);
    compare("a load by a struct", ptr, offset, reply.status == status && reply.value.lo == (is_there ? item : 0));
}

/* An item that is stored, by one of the two. */
static void store(int memory, uint16_t op, uint64_t ptr, uint64_t offset) {
    bool is_there = is_within(memory, ptr, offset, STORED[op]);
    uint64_t item = any();
    wasmi_call call;
    memset(&call, 0, sizeof call);
    call.kind = WASMI_CALL_STORE, call.op = op, call.index = (size_t)memory, call.ptr = ptr, call.offset = offset;
    call.value.lo = item, call.value.hi = any();
    uint8_t status = below(2) ? wasmi_machine_store(&machine, op, (size_t)memory, ptr, offset, item)
                              : wasmi_machine_call(&machine, &call).status;
    compare("a store", ptr, offset, status == (is_there ? WASMI_DONE : WASMI_MEMORY_OUT_OF_BOUNDS));
    for (int i = 0; is_there && i < STORED[op]; i++)
        model[memory][(size_t)(ptr + offset) + (size_t)i] = (uint8_t)(item >> (8 * i));
}

/* Whether all bytes of a memory are those of the model. */
static void look(int memory) {
    wasmi_reply reply = wasmi_machine_read(&machine, (size_t)memory, 0, whole, size[memory]);
    compare("a whole memory", (uint64_t)memory, size[memory],
            reply.status == WASMI_DONE && memcmp(whole, model[memory], size[memory]) == 0);
}

static size_t some_length(void) {
    static const size_t edges[] = {1, 31, 32, 33, 64, 255, 256, 4096, PAGE - 1, PAGE, PAGE + 1, LONG};
    return below(2) ? edges[below(sizeof edges / sizeof *edges)] : 1 + below(LONG);
}

/* Where so many bytes may begin: inside, at the last place, one further, or anywhere. */
static size_t some_place(int memory, size_t length) {
    size_t last = size[memory] > length ? size[memory] - length : 0;
    switch (below(6)) {
    case 0: return last;
    case 1: return last + 1;
    case 2: return (size_t)any_number();
    default: return below(last + 1);
    }
}

static void write_bytes(int memory) {
    size_t length = some_length(), at = some_place(memory, length);
    uint8_t *bytes = array_end - length;
    for (size_t i = 0; i < length; i++)
        bytes[i] = (uint8_t)(1 + any() % 255);
    bool is_there = is_within(memory, at, 0, length);
    wasmi_reply reply = wasmi_machine_write(&machine, (size_t)memory, at, bytes, length);
    compare("a write", at, length, reply.status == (is_there ? WASMI_DONE : WASMI_MEMORY_ACCESS));
    if (is_there)
        memcpy(model[memory] + at, bytes, length);
}

static void read_bytes(int memory) {
    size_t length = some_length(), at = some_place(memory, length);
    uint8_t *bytes = array_end - length;
    memset(bytes, 0xa5, length);
    bool is_there = is_within(memory, at, 0, length);
    wasmi_reply reply = wasmi_machine_read(&machine, (size_t)memory, at, bytes, length);
    bool is_same = is_there ? memcmp(bytes, model[memory] + at, length) == 0 : bytes[0] == 0xa5 && bytes[length - 1] == 0xa5;
    compare("a read", at, length, reply.status == (is_there ? WASMI_DONE : WASMI_MEMORY_ACCESS) && is_same);
}

/* Each load and each store at sums of edges. */
static void access_edges(int memory) {
    const uint64_t end = size[memory], beyond = (uint64_t)1 << 32;
    const uint64_t edges[] = {0,      1,          7,          end - 9,        end - 8,    end - 4,   end - 2,
                              end - 1, end,       beyond - 1, beyond,         beyond + 1, beyond * 2 + 9,
                              (uint64_t)INT64_MAX + 1, UINT64_MAX - 7, UINT64_MAX};
    const size_t count = sizeof edges / sizeof *edges;
    for (size_t place = 0; place < count * count; place++) {
        for (uint16_t op = 0; op < LOADS; op++)
            load(memory, op, edges[place / count], edges[place % count]);
        for (uint16_t op = 0; op < STORES; op++)
            store(memory, op, edges[place / count], edges[place % count]);
    }
    look(memory);
}

static void one_round(void) {
    int memory = (int)below(MEMORIES);
    write_bytes(memory);
    read_bytes(memory);
    for (int i = 0; i < ACCESSES; i++) {
        uint64_t ptr = below(4) ? below(size[memory]) : any_number(), offset = below(2) ? below(16) : any_number();
        load(memory, (uint16_t)below(LOADS), ptr, offset);
        store(memory, (uint16_t)below(STORES), ptr, offset);
    }
    for (int i = 0; i < MEMORIES; i++)
        look(i);
}

/* A machine with a memory of 32-bit addresses and a smaller one of 64-bit addresses, filled with bytes that aren't 0. */
static void begin(void) {
    const wasmi_limits limits = {.is_unlimited = 1};
    compare("a machine", 0, 0, wasmi_machine_new(&machine, &limits) == WASMI_DONE);
    for (int memory = 0; memory < MEMORIES; memory++) {
        size[memory] = (size_t)(MOST - memory * PAGE);
        model[memory] = (uint8_t *)malloc(size[memory]);
        wasmi_call call;
        memset(&call, 0, sizeof call);
        call.kind = WASMI_CALL_NEW_MEMORY, call.count = size[memory] / PAGE, call.page_size_log2 = 16;
        call.is_64 = (uint8_t)memory;
        compare("a new memory", 0, 0, wasmi_machine_call(&machine, &call).number == (uint64_t)memory);
        for (size_t i = 0; i < size[memory]; i++)
            model[memory][i] = (uint8_t)(1 + any() % 255);
        wasmi_reply written = wasmi_machine_write(&machine, (size_t)memory, 0, model[memory], size[memory]);
        compare("what is written first", 0, 0, written.status == WASMI_DONE);
        look(memory);
    }
}

int main(int count, char **words) {
    uint64_t rounds = argument(count, words, 1, 400);
    random_state = argument(count, words, 2, 1);
    array_end = fenced(LONG);
    whole = fenced(MOST) - MOST;
    begin();
    requests = 0;
    for (int memory = 0; memory < MEMORIES; memory++)
        access_edges(memory);
    for (uint64_t i = 0; i < rounds; i++)
        one_round();
    differ += !none_requested();
    wasmi_machine_drop(&machine);
    for (int memory = 0; memory < MEMORIES; memory++)
        free(model[memory]);
    printf("%" PRIu64 " calls, %" PRIu64 " differ\n", calls, differ);
    return differ != 0;
}
