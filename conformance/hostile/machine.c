/* Calls the machines of include/wasmi_machine.h as a hostile host would, and compares each random sequence of calls
   with the same calls as a script (docs/SCRIPT.md). usage: machine CALLS [SEED]. It prints a line for each part, and
   last `N calls, M differ`; the exit status is 0 if M is 0. A block that is left after the last drop of a part is a
   difference. Link it with --wrap for malloc, realloc and free. */
#define _DEFAULT_SOURCE
#include "blocks.h"
#include "calls.h"
#include "hostile.h"
#include "wasmi_machine.h"
#include <pthread.h>

enum { PAGE = 65536, TEXT = 1 << 16, SEQUENCE = 60, THREADS = 4, REGISTERS = 5 };
enum { MOST_ANSWERS = 24, FRONT = 1024 };

static _Thread_local long calls;

/* The uses of `at_edge`. */
enum { OF_CALL, OF_ARRAY, OF_WORD };

static int is_direct(const wasmi_call *c);
static wasmi_reply called_directly(wasmi_machine *machine, const wasmi_call *c);

/* A call as a list of it alone. A list that is refused leaves the reply as it was. */
static wasmi_reply called_as_list(wasmi_machine *machine, const wasmi_call *call) {
    wasmi_reply reply;
    memset(&reply, 0xa5, sizeof reply);
    const wasmi_call *list = at_edge(OF_CALL, call, sizeof *call);
    wasmi_reply *replies = at_edge(OF_ARRAY, &reply, sizeof reply);
    uint8_t refusal = machine->is_made ? WASMI_LENGTHS_DIFFER : WASMI_NO_MACHINE;
    if (wasmi_machine_run_into(machine, list, 1, replies, 0) != refusal) {
        differs("a list", "it has another length than its replies");
    }
    uint8_t status = wasmi_machine_run_into(machine, list, 1, replies, 1);
    if (status == WASMI_DONE) {
        return *replies;
    }
    if (status != WASMI_NO_MACHINE || memcmp(replies, &reply, sizeof reply) != 0) {
        differs("a list", "it is refused, and a reply was written");
    }
    memset(&reply, 0, sizeof reply);
    reply.status = status;
    return reply;
}

/* A call by its struct, as a list of it alone in some of the cases, or, where it has a function of its own, by that one
   in half of them. */
static wasmi_reply called(wasmi_machine *machine, wasmi_call call) {
    calls++;
    if (is_direct(&call) && below(2)) {
        return called_directly(machine, &call);
    }
    if (below(4) == 0) {
        return called_as_list(machine, &call);
    }
    /* The struct lies at a multiple of its alignment, since its size is one. */
    return wasmi_machine_call(machine, at_edge(OF_CALL, &call, sizeof call));
}

/* After the machines of a part have ended, their memory has been given back. */
static void nothing_left(const char *part) {
    if (blocks != 0) {
        differs(part, "memory wasn't given back");
        blocks = 0;
    }
}

/* A number that is small, within some pages, or next to a border. */
static uint64_t number(void) {
    static const uint64_t borders[] = {1 << 8, PAGE, UINT64_C(1) << 32, UINT64_C(1) << 48, UINT64_C(1) << 63, 0};
    uint64_t form = below(8);
    return form < 5 ? below(5) : form < 7 ? below(3 * PAGE) : borders[below(6)] + below(5) - 2;
}

/* Calls by functions of their own. */

/* Whether a call has a function of its own, which takes this number or finds none of it. */
static int is_direct(const wasmi_call *c) {
    switch (c->kind) {
        case WASMI_CALL_GET_FUEL:
        case WASMI_CALL_GROW_MEMORY:
        case WASMI_CALL_FILL_MEMORY:
        case WASMI_CALL_COPY_MEMORY: return 1;
        case WASMI_CALL_INIT_MEMORY: return c->from <= UINT32_MAX && c->count <= UINT32_MAX;
        case WASMI_CALL_LOAD: return !is_vector_load(c->op);
        case WASMI_CALL_STORE: return !is_vector_store(c->op);
        case WASMI_CALL_BINARY: return !is_shift(c->op);
        default: return 0;
    }
}

/* The status that the function of a write over a range of a memory leaves. */
static uint8_t ranged_directly(wasmi_machine *machine, const wasmi_call *c, uint64_t *word) {
    switch (c->kind) {
        case WASMI_CALL_FILL_MEMORY:
            return wasmi_machine_fill(machine, c->index, c->to, (uint8_t)c->value.lo, c->count, word);
        case WASMI_CALL_COPY_MEMORY:
            return wasmi_machine_copy(machine, c->index, c->to, c->source, c->from, c->count, word);
        default:
            return wasmi_machine_init(machine, c->index, c->source, c->to, (uint32_t)c->from, (uint32_t)c->count, word);
    }
}

/* The reply that a call's own function leaves; its word lies at the end of a page, and stays after a refusal. */
static wasmi_reply called_directly(wasmi_machine *machine, const wasmi_call *c) {
    const uint64_t before = UINT64_C(0x5ac3965ac3965ac3);
    uint64_t *word = at_edge(OF_WORD, &before, sizeof before);
    wasmi_reply reply;
    memset(&reply, 0, sizeof reply);
    switch (c->kind) {
        case WASMI_CALL_LOAD:
            reply.status = wasmi_machine_load(machine, c->op, c->index, c->ptr, c->offset, word);
            reply.value.lo = reply.status == WASMI_DONE ? *word : 0;
            break;
        case WASMI_CALL_STORE:
            reply.status = wasmi_machine_store(machine, c->op, c->index, c->ptr, c->offset, c->value.lo);
            break;
        case WASMI_CALL_BINARY: reply.status = wasmi_machine_binary(machine, c->op, c->dst, c->a, c->b); break;
        case WASMI_CALL_GET_FUEL:
            reply.status = wasmi_machine_fuel_left(machine, word);
            reply.number = reply.status == WASMI_DONE ? *word : 0;
            break;
        case WASMI_CALL_GROW_MEMORY:
            reply.status = wasmi_machine_grow(machine, c->index, c->count, word);
            reply.number = reply.status == WASMI_DONE || reply.status == WASMI_MEMORY_OUT_OF_FUEL ? *word : 0;
            break;
        default:
            reply.status = ranged_directly(machine, c, word);
            reply.number = reply.status == WASMI_MEMORY_OUT_OF_FUEL ? *word : 0;
            if (reply.status == WASMI_DONE && *word != before) {
                differs("a write over a range", "a word was written");
            }
    }
    if (reply.status != WASMI_DONE && reply.status != WASMI_MEMORY_OUT_OF_FUEL && *word != before) {
        differs("a refusal", "a word was written");
    }
    return reply;
}

/* Replies as the lines that a script prints. */

static const char *refusal_of(uint8_t status) {
    switch (status) {
        case WASMI_MEMORY_OUT_OF_BOUNDS: return "out of bounds memory access";
        case WASMI_METERING_DISABLED: return "fuel metering is disabled";
        case WASMI_GLOBAL_IMMUTABLE: return "tried to write to immutable global variable";
        case WASMI_GLOBAL_TYPE: return "tried to write value of non-matching type to global variable";
        case WASMI_SEGMENT_OUT_OF_MEMORY: return "out of memory";
        default: return error_of(status);
    }
}

static char *refusal_text(char *at, wasmi_reply reply) {
    switch (reply.status) {
        case WASMI_NO_SUCH: return put(at, "no such\n");
        case WASMI_NO_ROOM: return put(at, "no room\n");
        case WASMI_NO_ELEMENT: return put(at, "none\n");
        case WASMI_MEMORY_OUT_OF_FUEL: return put(at, "error not enough fuel. required=%" PRIu64 "\n", reply.number);
        case WASMI_TABLE_OUT_OF_FUEL: return put(at, "error not enough fuel: required=%" PRIu64 "\n", reply.number);
        default: return put(at, "error %s\n", refusal_of(reply.status));
    }
}

static int gives_value(const wasmi_call *c) {
    switch (c->kind) {
        case WASMI_CALL_GET_GLOBAL:
        case WASMI_CALL_GET_REGISTER:
        case WASMI_CALL_EXTRACT_LANE: return 1;
        case WASMI_CALL_LOAD: return !is_vector_load(c->op);
        case WASMI_CALL_UNARY: return is_test(c->op);
        default: return 0;
    }
}

static char *text_of(char *at, const wasmi_call *c, wasmi_reply reply) {
    if (reply.status != WASMI_DONE) {
        return refusal_text(at, reply);
    }
    if (gives_value(c)) {
        return put(at, "raw" U U "\n", reply.value.lo, reply.value.hi);
    }
    switch (c->kind) {
        case WASMI_CALL_NEW_MEMORY: return put(at, "memory" U "\n", reply.number);
        case WASMI_CALL_NEW_TABLE: return put(at, "table" U "\n", reply.number);
        case WASMI_CALL_NEW_GLOBAL: return put(at, "global" U "\n", reply.number);
        case WASMI_CALL_GET_ELEMENT: return put(at, "%s %" PRIu32 "\n", reference_word(reply.type), reply.reference);
        case WASMI_CALL_GET_FUEL:
        case WASMI_CALL_GROW_MEMORY:
        case WASMI_CALL_GROW_TABLE: return put(at, "value" U "\n", reply.number);
        default: return put(at, "done\n");
    }
}

/* Random calls: most have a meaning. */

/* A number of a list or the one after them; seldom that of a scalar instruction, which no call has. */
static uint16_t number_below(size_t count, int (*is_scalar)(uint16_t)) {
    uint16_t op;
    do {
        op = (uint16_t)below(count + 1);
    } while (is_scalar(op) && below(20) > 0);
    return op;
}

static uint16_t random_op(uint16_t kind) {
    switch (kind) {
        case WASMI_CALL_LOAD: return (uint16_t)below(COUNT(LOADS) + 1);
        case WASMI_CALL_STORE: return (uint16_t)below(COUNT(STORES) + 1);
        case WASMI_CALL_UNARY: return number_below(COUNT(UNARIES), is_scalar_unary);
        case WASMI_CALL_BINARY: return number_below(COUNT(BINARIES), is_scalar_binary);
        case WASMI_CALL_TERNARY: return (uint16_t)below(COUNT(TERNARIES) + 1);
        case WASMI_CALL_EXTRACT_LANE: return (uint16_t)below(COUNT(EXTRACTIONS) + 1);
        default: return (uint16_t)below(COUNT(REPLACEMENTS) + 1);
    }
}

static uint8_t random_register(void) {
    return (uint8_t)(below(40) == 0 ? below(256) : below(REGISTERS));
}

static wasmi_call random_call(void) {
    wasmi_call c;
    memset(&c, 0, sizeof c);
    c.kind = (uint16_t)(below(60) == 0 ? any() : below(KINDS));
    c.op = random_op(c.kind);
    c.lane = (uint8_t)(below(20) == 0 ? below(256) : below(2));
    c.dst = random_register(), c.a = random_register(), c.b = random_register(), c.c = random_register();
    c.type = (uint8_t)(below(40) == 0 ? any() : c.kind <= WASMI_CALL_DROP_ITEMS ? 5 + below(2) : below(7));
    c.is_mutable = (uint8_t)below(3), c.is_64 = (uint8_t)below(3), c.has_maximum = (uint8_t)below(3);
    c.page_size_log2 = (uint8_t)(below(30) == 0 ? any() : below(2) * 16);
    c.reference = (uint32_t)number();
    c.index = (size_t)(below(30) == 0 ? number() : below(3)), c.source = (size_t)(below(30) == 0 ? number() : below(3));
    c.count = below(3) ? below(6) : number(), c.maximum = below(2) ? 1 + below(40) : number();
    c.ptr = below(3) ? below(below(2) ? 16 : PAGE) : number(), c.offset = below(3) ? 0 : number();
    c.to = below(3) ? below(6) : number(), c.from = below(3) ? below(6) : number();
    c.value = (wasmi_words){any(), any()};
    for (int i = 0; i < 16; i++) {
        c.lanes[i] = (uint8_t)(below(200) == 0 ? any() : below(32));
    }
    return c;
}

/* Sequences: what the machine replies, beside what the script prints. */

struct sequence {
    wasmi_machine machine;
    wasmi_limits limits;
    int has_quota;
    char script[TEXT], expected[TEXT], printed[TEXT];
    char *script_end, *expected_end;
};

/* Runs a script, and says how it ended; what it printed is in `printed`, and `needed` bytes long. */
static uint8_t replay(struct sequence *s, const char *script, size_t len, size_t *needed) {
    const uint8_t *bytes = at_edge(OF_ARRAY, script, len);
    return wasmi_script_run(bytes, len, (uint8_t *)s->printed, sizeof s->printed, needed);
}

/* A call that stands for none has a bad line; another one goes into the script with its reply. */
static void take(struct sequence *s, const char *line, size_t len, wasmi_reply reply, char *expected_end) {
    if (reply.status == WASMI_NO_CALL) {
        size_t needed = 0;
        if (replay(s, line, len, &needed) != 2) {
            differs("NO_CALL, but a good line", line);
        }
        return;
    }
    memcpy(s->script_end, line, len);
    s->script_end += len;
    s->expected_end = expected_end;
}

static void one_call(struct sequence *s, wasmi_call call) {
    char line[2 * MOST_LINE];
    wasmi_reply reply = called(&s->machine, call);
    char *end = put(line_of(line, &call), "\n");
    take(s, line, (size_t)(end - line), reply, text_of(s->expected_end, &call, reply));
}

static void one_write(struct sequence *s, size_t memory, size_t offset, size_t len) {
    char line[16 * MOST_LINE];
    uint8_t bytes[FRONT];
    char *end = put(line, "write %zu %zu", memory, offset);
    for (size_t i = 0; i < len; i++) {
        bytes[i] = (uint8_t)any();
        end = put(end, " %d", bytes[i]);
    }
    end = put(end, "\n");
    calls++;
    wasmi_reply reply = wasmi_machine_write(&s->machine, memory, offset, at_edge(OF_ARRAY, bytes, len), len);
    char *at = s->expected_end;
    take(s, line, (size_t)(end - line), reply, reply.status ? refusal_text(at, reply) : put(at, "done\n"));
}

static void some_data(struct sequence *s) {
    char line[2 * MOST_LINE];
    uint8_t bytes[24];
    size_t len = (size_t)below(sizeof bytes);
    char *end = put(line, "data");
    for (size_t i = 0; i < len; i++) {
        bytes[i] = (uint8_t)any();
        end = put(end, " %d", bytes[i]);
    }
    end = put(end, "\n");
    calls++;
    wasmi_reply reply = wasmi_machine_new_data(&s->machine, at_edge(OF_ARRAY, bytes, len), len);
    char *at = s->expected_end;
    at = reply.status ? refusal_text(at, reply) : put(at, "data" U "\n", reply.number);
    take(s, line, (size_t)(end - line), reply, at);
}

static void some_write(struct sequence *s) {
    size_t len = (size_t)below(32), memory = (size_t)below(3), offset = (size_t)number();
    one_write(s, memory, offset, len);
}

static void one_read(struct sequence *s, size_t memory, size_t offset, size_t len) {
    char line[MOST_LINE];
    uint8_t bytes[32];
    memset(bytes, 0xa5, sizeof bytes);
    uint8_t *copy = at_edge(OF_ARRAY, bytes, len);
    char *end = put(line, "read %zu %zu %zu\n", memory, offset, len);
    calls++;
    wasmi_reply reply = wasmi_machine_read(&s->machine, memory, offset, copy, len);
    char *at = s->expected_end;
    if (reply.status != WASMI_DONE) {
        if (memcmp(copy, bytes, len) != 0) {
            differs("a refused read wrote", line);
        }
        at = refusal_text(at, reply);
    } else {
        at = put(at, "bytes");
        for (size_t i = 0; i < len; i++) {
            at = put(at, " %d", copy[i]);
        }
        at = put(at, "\n");
    }
    take(s, line, (size_t)(end - line), reply, at);
}

static void some_segment(struct sequence *s) {
    char line[2 * MOST_LINE];
    uint32_t items[16];
    size_t len = (size_t)below(16);
    uint8_t type = (uint8_t)(below(20) == 0 ? any() : 5 + below(2));
    char *end = put(line, "segment %s", reference_word(type));
    for (size_t i = 0; i < len; i++) {
        items[i] = (uint32_t)number();
        end = put(end, " %" PRIu32, items[i]);
    }
    end = put(end, "\n");
    calls++;
    const uint32_t *copy = at_edge(OF_ARRAY, items, len * sizeof items[0]);
    wasmi_reply reply = wasmi_machine_new_segment(&s->machine, type, copy, len);
    char *at = s->expected_end;
    at = reply.status ? refusal_text(at, reply) : put(at, "segment" U "\n", reply.number);
    take(s, line, (size_t)(end - line), reply, at);
}

/* Fuel that is taken is, in the script, the fuel that is set to what is left. */
static void some_fuel(struct sequence *s) {
    char line[MOST_LINE];
    uint64_t amount = number();
    calls++;
    wasmi_reply reply = wasmi_machine_consume_fuel(&s->machine, amount);
    if (reply.status == WASMI_DONE) {
        char *end = put(line, "fuel" U "\n", reply.number);
        take(s, line, (size_t)(end - line), reply, put(s->expected_end, "done\n"));
    } else if (reply.status != WASMI_METERING_DISABLED && reply.number != amount) {
        differs("fuel", "a refused amount isn't the amount");
    }
}

static wasmi_call of_kind(uint16_t kind) {
    wasmi_call call;
    memset(&call, 0, sizeof call);
    call.kind = kind, call.count = 1, call.type = WASMI_TYPE_FUNCREF, call.page_size_log2 = 16;
    return call;
}

/* A memory whose front has random bytes, a table and a segment of each kind to begin with, and numbers in the registers. */
static void fill(struct sequence *s) {
    wasmi_call table = of_kind(WASMI_CALL_NEW_TABLE), set = of_kind(WASMI_CALL_SET_REGISTER);
    table.count = 6;
    one_call(s, of_kind(WASMI_CALL_NEW_MEMORY));
    one_write(s, 0, 0, FRONT);
    one_call(s, table);
    some_segment(s);
    some_data(s);
    for (set.dst = 0; set.dst < REGISTERS; set.dst++) {
        set.value = (wasmi_words){any(), any()};
        one_call(s, set);
    }
}

/* What the registers, the first globals, and the first elements and bytes of the first tables and memories are. */
static void look_around(struct sequence *s) {
    wasmi_call show = of_kind(WASMI_CALL_GET_REGISTER), element = of_kind(WASMI_CALL_GET_ELEMENT);
    wasmi_call global = of_kind(WASMI_CALL_GET_GLOBAL);
    for (show.a = 0; show.a < REGISTERS; show.a++) {
        one_call(s, show);
    }
    for (size_t index = 0; index < 3; index++) {
        global.index = element.index = index;
        one_call(s, global);
        one_read(s, index, 0, 16);
        for (element.to = 0; element.to < 8; element.to++) {
            one_call(s, element);
        }
    }
}

/* A machine with random answers, and their header line. With a number of no answer among them none is made. */
static uint8_t begin_with_answers(struct sequence *s) {
    static const char *const words[] = {"permit", "deny", "error", "complain"};
    uint8_t answers[MOST_ANSWERS];
    size_t len = (size_t)below(MOST_ANSWERS);
    s->script_end = put(s->script_end, "answers");
    for (size_t i = 0; i < len; i++) {
        answers[i] = (uint8_t)(below(2) ? below(4) : WASMI_ANSWER_PERMIT);
        s->script_end = put(s->script_end, " %s", words[answers[i]]);
    }
    s->script_end = put(s->script_end, "\n");
    if (len > 0) {
        size_t forged = (size_t)below(len);
        uint8_t answer = answers[forged];
        answers[forged] = (uint8_t)(4 + below(252));
        const uint8_t *copy = at_edge(OF_ARRAY, answers, len);
        uint8_t status = wasmi_machine_new_with_answers(&s->machine, &s->limits, copy, len);
        calls++;
        if (status != WASMI_NO_ANSWER || s->machine.is_made) {
            differs("new", "a machine was made with a number of no answer");
        }
        answers[forged] = answer;
    }
    return wasmi_machine_new_with_answers(&s->machine, &s->limits, at_edge(OF_ARRAY, answers, len), len);
}

/* A machine with random limits, and the header lines of the same. */
static void begin(struct sequence *s) {
    wasmi_limits *limits = &s->limits;
    memset(&s->machine, 0, sizeof s->machine);
    memset(limits, 0, sizeof *limits);
    limits->bytes = below(20) * PAGE + below(4), limits->elements = below(40);
    limits->bytes_copied_per_fuel = (uint32_t)(below(6) ? 64 : number());
    limits->is_metered = (uint8_t)below(3), limits->is_unlimited = (uint8_t)(below(3) == 0);
    s->script_end = put(s->script, "meter off\n");
    if (limits->is_metered) {
        s->script_end = put(s->script, "meter on %" PRIu32 "\n", limits->bytes_copied_per_fuel);
    }
    int has_answers = below(3) == 0;
    s->has_quota = !has_answers && !limits->is_unlimited;
    if (s->has_quota) {
        s->script_end = put(s->script_end, "quota" U U "\n", limits->bytes, limits->elements);
    }
    s->expected_end = s->expected;
    calls += 2;
    if ((has_answers ? begin_with_answers(s) : wasmi_machine_new(&s->machine, limits)) != WASMI_DONE) {
        differs("new", "no machine was made");
    }
    if (wasmi_machine_new_with_answers(&s->machine, limits, (const uint8_t *)"\4", 1) != WASMI_HAS_MACHINE) {
        differs("new", "a machine was made where there is one");
    }
}

static void end(struct sequence *s) {
    wasmi_totals totals = wasmi_machine_totals(&s->machine);
    if (s->has_quota) {
        s->expected_end = put(s->expected_end, "held" U U "\n", totals.bytes.lo, totals.elements.lo);
    }
    wasmi_machine_drop(&s->machine);
    calls += 2;
    size_t len = (size_t)(s->script_end - s->script), text_len = (size_t)(s->expected_end - s->expected);
    size_t needed = 0;
    uint8_t status = replay(s, s->script, len, &needed);
    if (status != 0 || needed != text_len || memcmp(s->printed, s->expected, text_len) != 0) {
        *s->script_end = *s->expected_end = 0;
        differs(s->script, s->expected);
    }
}

static uint64_t run_sequence(struct sequence *s, uint64_t seed) {
    random_state = seed;
    begin(s);
    fill(s);
    for (int i = 0; i < SEQUENCE; i++) {
        switch (below(13)) {
            case 0: some_write(s); break;
            case 1: one_read(s, (size_t)below(3), (size_t)number(), (size_t)below(32)); break;
            case 2: some_segment(s); break;
            case 3: some_fuel(s); break;
            case 4: some_data(s); break;
            default: one_call(s, random_call());
        }
    }
    look_around(s);
    end(s);
    uint64_t sum = seed;
    for (const char *at = s->expected; at < s->expected_end; at++) {
        sum = sum * 31 + (uint8_t)*at;
    }
    return sum;
}

static uint64_t run_sequences(uint64_t seed, long count) {
    struct sequence *s = __real_malloc(sizeof *s);
    uint64_t sum = 0;
    for (long i = 0; s != NULL && i < count; i++) {
        sum = sum * 31 + run_sequence(s, seed + (uint64_t)i);
    }
    __real_free(s);
    return sum;
}

/* Forged structs: each field at its extremes, for each kind, and structs of random bytes. */

static const wasmi_limits LIMITS = {4 * PAGE, 32, 64, 7, 2, 1, 0};

static void small_machine(wasmi_machine *machine) {
    const uint32_t items[3] = {1, 2, 3};
    memset(machine, 0, sizeof *machine);
    if (wasmi_machine_new(machine, &LIMITS) != WASMI_DONE) {
        exit(2);
    }
    for (uint16_t kind = 0; kind < KINDS; kind++) {
        if (kind != WASMI_CALL_DROP_MEMORY && kind != WASMI_CALL_DROP_TABLE) {
            called(machine, of_kind(kind));
        }
    }
    if (wasmi_machine_new_segment(machine, WASMI_TYPE_FUNCREF, items, 3).status != WASMI_DONE) {
        exit(2);
    }
    if (wasmi_machine_new_data(machine, (const uint8_t *)"bytes", 5).status != WASMI_DONE) {
        exit(2);
    }
}

/* What a reply to any struct has: nothing beside a refusal except fuel that is short, and totals within the caps. */
static void look(wasmi_machine *machine, const wasmi_call *call, wasmi_reply reply) {
    wasmi_totals totals = wasmi_machine_totals(machine);
    int has_number = reply.status == WASMI_MEMORY_OUT_OF_FUEL || reply.status == WASMI_TABLE_OUT_OF_FUEL;
    uint64_t number = has_number ? 0 : reply.number;
    int is_bare = (reply.value.lo | reply.value.hi | reply.reference | reply.type | number) == 0;
    int is_within = totals.bytes.lo <= LIMITS.bytes && totals.elements.lo <= LIMITS.elements && totals.bytes.hi == 0;
    calls++;
    if ((reply.status != WASMI_DONE && !is_bare) || !is_within || totals.status != WASMI_DONE) {
        char line[2 * MOST_LINE] = "";
        *line_of(line, call) = 0;
        differs("a forged struct", line);
    }
}

#define FIELD(name) {offsetof(wasmi_call, name), sizeof((wasmi_call *)0)->name}
static const struct { size_t at, size; } FIELDS[] = {
    FIELD(op), FIELD(lane), FIELD(dst), FIELD(a), FIELD(b), FIELD(c), FIELD(type), FIELD(is_mutable), FIELD(is_64),
    FIELD(has_maximum), FIELD(page_size_log2), FIELD(reference), FIELD(index), FIELD(source), FIELD(count),
    FIELD(maximum), FIELD(ptr), FIELD(offset), FIELD(to), FIELD(from), FIELD(value.lo), FIELD(value.hi),
    FIELD(lanes[0]), FIELD(lanes[15]),
};
enum { FIELD_COUNT = sizeof FIELDS / sizeof FIELDS[0], EXTREMES = 8 };

static uint64_t extreme(int which, size_t size) {
    uint64_t most = size == 8 ? UINT64_MAX : (UINT64_C(1) << (8 * size)) - 1;
    const uint64_t values[EXTREMES] = {0, 1, 2, most / 2, most / 2 + 1, most - 2, most - 1, most};
    return values[which];
}

static void forge_fields(wasmi_machine *machine, uint16_t kind) {
    for (int f = 0; f < FIELD_COUNT * FIELD_COUNT; f++) {
        for (int which = 0; which < EXTREMES * EXTREMES; which += 1 + f % 7) {
            uint64_t first = extreme(which % EXTREMES, FIELDS[f % FIELD_COUNT].size);
            uint64_t second = extreme(which / EXTREMES, FIELDS[f / FIELD_COUNT].size);
            wasmi_call call = of_kind(kind);
            memcpy((uint8_t *)&call + FIELDS[f / FIELD_COUNT].at, &second, FIELDS[f / FIELD_COUNT].size);
            memcpy((uint8_t *)&call + FIELDS[f % FIELD_COUNT].at, &first, FIELDS[f % FIELD_COUNT].size);
            look(machine, &call, called(machine, call));
        }
    }
}

static void forge(long count) {
    wasmi_machine machine;
    for (uint16_t kind = 0; kind <= KINDS; kind++) {
        small_machine(&machine);
        forge_fields(&machine, kind == KINDS ? UINT16_MAX : kind);
        wasmi_machine_drop(&machine);
    }
    small_machine(&machine);
    for (long i = 0; i < count; i++) {
        wasmi_call call;
        for (size_t at = 0; at < sizeof call; at += sizeof(uint64_t)) {
            uint64_t word = below(3) ? number() : any();
            memcpy((uint8_t *)&call + at, &word, sizeof call - at < sizeof word ? sizeof call - at : sizeof word);
        }
        call.kind = (uint16_t)below(KINDS);
        look(&machine, &call, called(&machine, call));
    }
    wasmi_machine_drop(&machine);
    printf("forged: %ld calls\n", calls);
}

/* A handle of zeros: each call says that there is no machine, and leaves the handle and the caller's arrays. */
static void without_machine(void) {
    static const wasmi_machine zeros;
    wasmi_machine machine = zeros;
    uint8_t bytes[3] = {1, 2, 3};
    const uint32_t items[1] = {1};
    int count = 0;
    for (uint16_t kind = 0; kind < KINDS; kind++) {
        for (int times = 0; times < 8; times++) {
            wasmi_call call = of_kind(kind);
            call.op = (uint16_t)(times % 2 ? UINT16_MAX : kind == WASMI_CALL_BINARY ? (int)COUNT(BINARIES) - 1 : 0);
            count += called(&machine, call).status == WASMI_NO_MACHINE;
        }
    }
    count += wasmi_machine_read(&machine, 0, 0, bytes, 3).status == WASMI_NO_MACHINE;
    count += wasmi_machine_write(&machine, 0, 0, bytes, 3).status == WASMI_NO_MACHINE;
    count += wasmi_machine_new_segment(&machine, UINT8_MAX, items, 1).status == WASMI_NO_MACHINE;
    count += wasmi_machine_new_data(&machine, bytes, 3).status == WASMI_NO_MACHINE;
    count += wasmi_machine_consume_fuel(&machine, 1).status == WASMI_NO_MACHINE;
    count += wasmi_machine_totals(&machine).status == WASMI_NO_MACHINE;
    wasmi_machine_drop(&machine);
    calls += 6;
    if (count != 8 * KINDS + 6 || machine.at != zeros.at || machine.is_made || bytes[0] != 1 || bytes[2] != 3) {
        differs("a handle of zeros", "a call found a machine");
    }
}

/* Threads: a handle each, and one handle that goes from thread to thread. */

struct work {
    uint64_t seed, sum;
    long count, calls, differing;
    wasmi_machine *machine;
};

static void *in_thread(void *given) {
    struct work *work = given;
    work->sum = run_sequences(work->seed, work->count);
    work->calls = calls, work->differing = differing;
    return NULL;
}

static void *grow_in_thread(void *given) {
    struct work *work = given;
    work->sum = called(work->machine, of_kind(WASMI_CALL_GROW_MEMORY)).number;
    return NULL;
}

static void run_threads(uint64_t seed, long count) {
    pthread_t threads[THREADS];
    struct work works[THREADS];
    for (int i = 0; i < THREADS; i++) {
        works[i] = (struct work){.seed = seed + 1000000 * (uint64_t)i, .count = count};
        if (pthread_create(&threads[i], NULL, in_thread, &works[i]) != 0) {
            fprintf(stderr, "no thread\n");
            exit(2);
        }
    }
    for (int i = 0; i < THREADS; i++) {
        pthread_join(threads[i], NULL);
        calls += works[i].calls, differing += works[i].differing;
        if (works[i].sum != run_sequences(works[i].seed, works[i].count)) {
            differs("threads", "a thread had other replies");
        }
    }
}

static void pass_on(void) {
    wasmi_machine machine;
    memset(&machine, 0, sizeof machine);
    const wasmi_limits limits = {.is_unlimited = 1};
    if (wasmi_machine_new(&machine, &limits) != WASMI_DONE) {
        exit(2);
    }
    called(&machine, of_kind(WASMI_CALL_NEW_MEMORY));
    for (uint64_t i = 1; i <= THREADS; i++) {
        pthread_t thread;
        struct work work = {.machine = &machine};
        if (pthread_create(&thread, NULL, grow_in_thread, &work) != 0 || pthread_join(thread, NULL) != 0) {
            fprintf(stderr, "no thread\n");
            exit(2);
        }
        if (work.sum != i) {
            differs("threads", "a handle that was passed on has another memory");
        }
    }
    if (wasmi_machine_totals(&machine).bytes.lo != (1 + THREADS) * PAGE) {
        differs("threads", "a handle that came back has another memory");
    }
    wasmi_machine_drop(&machine);
}

/* Each request for memory refused in turn: the reply says so, and the same call goes well after that. */

enum { STEPS = 32 };

static int lacks_memory(uint8_t status) {
    return status == WASMI_NO_ROOM || status == WASMI_MEMORY_OUT_OF_MEMORY || status == WASMI_TABLE_OUT_OF_MEMORY
        || status == WASMI_SEGMENT_OUT_OF_MEMORY;
}

static wasmi_reply step_of(wasmi_machine *machine, int step, size_t answers) {
    static const uint16_t kinds[] = {
        WASMI_CALL_NEW_MEMORY, WASMI_CALL_NEW_TABLE, WASMI_CALL_NEW_GLOBAL, WASMI_CALL_SET_FUEL, WASMI_CALL_GROW_MEMORY,
        WASMI_CALL_GROW_TABLE, WASMI_CALL_NEW_MEMORY, WASMI_CALL_STORE, WASMI_CALL_FILL_TABLE, WASMI_CALL_INIT_TABLE,
        WASMI_CALL_INIT_MEMORY,
    };
    static const uint32_t items[3] = {4, 5, 6};
    wasmi_call call = of_kind(kinds[step % 11]);
    if (step == 0) {
        static const uint8_t permits[STEPS];
        wasmi_reply reply = {.status = answers == 0 ? wasmi_machine_new(machine, &LIMITS)
            : wasmi_machine_new_with_answers(machine, &LIMITS, permits, answers)};
        return reply;
    }
    if (step == 1) {
        return wasmi_machine_new_segment(machine, WASMI_TYPE_FUNCREF, items, 3);
    }
    if (step % 5 == 2) {
        return wasmi_machine_new_data(machine, (const uint8_t *)"bytes", 5);
    }
    if (step % 3 == 0) {
        return wasmi_machine_write(machine, 0, 0, (const uint8_t *)"written", 7);
    }
    call.count = call.kind == WASMI_CALL_SET_FUEL ? 100000 : 1;
    return called(machine, call);
}

/* The replies with one request refused, if any: whether it was reached. The machine has so many answers, or caps. */
static int run_refused(long request, wasmi_reply replies[STEPS], size_t answers) {
    wasmi_machine machine;
    memset(&machine, 0, sizeof machine);
    requests = 0, refused = request;
    for (int step = 0; step < STEPS; step++) {
        replies[step] = step_of(&machine, step, answers);
        if (lacks_memory(replies[step].status)) {
            if (requests < request) {
                differs("refused", "out of memory before the request was refused");
            }
            replies[step] = step_of(&machine, step, answers);
        }
        calls++;
    }
    refused = 0;
    wasmi_machine_drop(&machine);
    return requests >= request;
}

static void refuse(size_t answers) {
    wasmi_reply plain[STEPS], replies[STEPS];
    long request = 1;
    run_refused(0, plain, answers);
    while (run_refused(request, replies, answers)) {
        for (int step = 0; step < STEPS; step++) {
            if (replies[step].status != plain[step].status || replies[step].number != plain[step].number) {
                differs("refused", "another reply after memory was refused");
            }
        }
        request++;
    }
    nothing_left("refused");
    printf("refused: %ld requests, each in turn\n", request - 1);
}

/* What was reserved takes no memory: each global of a list is made with the first request refused. Nor do writes. */
static void reserved(void) {
    enum { MADE = 100 };
    wasmi_call list[MADE];
    wasmi_reply replies[MADE];
    const wasmi_limits limits = {.is_unlimited = 1};
    const wasmi_room room = {.globals = MADE}, too_much = {.globals = MADE, .memories = SIZE_MAX};
    wasmi_machine machine;
    memset(&machine, 0, sizeof machine);
    if (wasmi_machine_reserve(&machine, &room) != WASMI_NO_MACHINE || wasmi_machine_new(&machine, &limits) != WASMI_DONE
        || wasmi_machine_reserve(&machine, &too_much) != WASMI_NO_ROOM
        || wasmi_machine_reserve(&machine, &room) != WASMI_DONE) {
        differs("reserved", "another status");
    }
    for (int i = 0; i < MADE; i++) {
        list[i] = of_kind(WASMI_CALL_NEW_GLOBAL);
    }
    requests = 0, refused = 1;
    uint8_t status = wasmi_machine_run_into(&machine, list, MADE, replies, MADE);
    if (status != WASMI_DONE || wasmi_machine_reserve(&machine, &room) != WASMI_NO_ROOM || requests != 1) {
        differs("reserved", "memory was asked for where it is there, or not where it isn't");
    }
    requests = 0;
    if (wasmi_machine_write(&machine, 0, 0, (const uint8_t *)"written", 7).status != WASMI_NO_SUCH || requests != 0) {
        differs("reserved", "a write asked for memory");
    }
    refused = 0;
    for (int i = 0; i < MADE; i++) {
        if (replies[i].status != WASMI_DONE || replies[i].number != (uint64_t)i) {
            differs("reserved", "a global wasn't made");
        }
    }
    calls += MADE;
    wasmi_machine_drop(&machine);
    nothing_left("reserved");
}

/* A table whose elements are reserved grows up to its maximum with the first request refused. */
static void reserved_elements(void) {
    enum { MOST = 1000 };
    const wasmi_limits limits = {.is_unlimited = 1};
    wasmi_call table = of_kind(WASMI_CALL_NEW_TABLE), growth = of_kind(WASMI_CALL_GROW_TABLE);
    wasmi_machine machine;
    memset(&machine, 0, sizeof machine);
    table.maximum = MOST, table.has_maximum = 1, growth.count = MOST / 2;
    if (wasmi_machine_reserve_elements(&machine, 0, MOST) != WASMI_NO_MACHINE
        || wasmi_machine_new(&machine, &limits) != WASMI_DONE
        || wasmi_machine_reserve_elements(&machine, 0, MOST) != WASMI_NO_SUCH
        || wasmi_machine_call(&machine, &table).status != WASMI_DONE
        || wasmi_machine_reserve_elements(&machine, 0, UINT64_MAX) != WASMI_NO_ROOM
        || wasmi_machine_reserve_elements(&machine, 0, MOST) != WASMI_DONE) {
        differs("reserved elements", "another status");
    }
    requests = 0, refused = 1;
    wasmi_reply first = wasmi_machine_call(&machine, &growth);
    growth.count = MOST - MOST / 2 - 1;
    wasmi_reply second = wasmi_machine_call(&machine, &growth);
    if (first.status != WASMI_DONE || first.number != 1 || second.status != WASMI_DONE || second.number != MOST / 2 + 1
        || wasmi_machine_reserve_elements(&machine, 0, MOST) != WASMI_DONE || requests != 0) {
        differs("reserved elements", "memory was asked for where it is there");
    }
    refused = 0;
    calls += 3;
    wasmi_machine_drop(&machine);
    nothing_left("reserved elements");
}

/* What is set up once: a machine and a tenant of a pool that have reserved what their calls need, and a machine that has
   reserved nothing. */
struct once {
    wasmi_machine machine, plain;
    wasmi_pool pool;
};

/* How many slots of each kind are reserved, and the elements of each table. */
enum { SLOTS = 40, MOST_ELEMENTS = 12 };

/* The same reply of all three, for which none of the first two asked for memory. */
static void same_of_each(const wasmi_call *call, wasmi_reply own, wasmi_reply tenants, wasmi_reply plain) {
    char texts[3][MOST_LINE], line[2 * MOST_LINE];
    *text_of(texts[0], call, own) = *text_of(texts[1], call, tenants) = *text_of(texts[2], call, plain) = 0;
    calls++;
    if (requests != 0 || strcmp(texts[0], texts[2]) != 0 || strcmp(texts[1], texts[2]) != 0) {
        *line_of(line, call) = 0;
        differs(requests != 0 ? "set up once: memory is asked for" : "set up once: another reply", line);
    }
}

/* A call of the set-up, which is done on each. */
static void made_on_each(struct once *o, wasmi_call call) {
    if (wasmi_machine_call(&o->machine, &call).status != WASMI_DONE
        || wasmi_machine_call(&o->plain, &call).status != WASMI_DONE
        || wasmi_pool_call(&o->pool, 0, &call).status != WASMI_DONE) {
        differs("set up once", "a call of the set-up isn't done");
    }
}

/* Segments with items, which take memory, on each. */
static void segments_on_each(struct once *o) {
    const uint32_t items[3] = {1, 2, 3};
    const uint8_t *bytes = (const uint8_t *)"bytes";
    if (wasmi_machine_new_segment(&o->machine, WASMI_TYPE_FUNCREF, items, 3).status != WASMI_DONE
        || wasmi_machine_new_segment(&o->plain, WASMI_TYPE_FUNCREF, items, 3).status != WASMI_DONE
        || wasmi_pool_new_segment(&o->pool, 0, WASMI_TYPE_FUNCREF, items, 3).status != WASMI_DONE
        || wasmi_machine_new_data(&o->machine, bytes, 5).status != WASMI_DONE
        || wasmi_machine_new_data(&o->plain, bytes, 5).status != WASMI_DONE
        || wasmi_pool_new_data(&o->pool, 0, bytes, 5).status != WASMI_DONE) {
        differs("set up once", "a segment isn't made");
    }
}

/* A memory, two tables, segments and fuel on each, and slots and elements that are reserved on the first two. */
static void set_up(struct once *o) {
    const wasmi_room room = {.segments = SLOTS, .data_segments = SLOTS, .globals = SLOTS};
    wasmi_call table = of_kind(WASMI_CALL_NEW_TABLE), fuel = of_kind(WASMI_CALL_SET_FUEL);
    table.count = 3, table.maximum = MOST_ELEMENTS, table.has_maximum = 1, fuel.count = below(100000);
    memset(o, 0, sizeof *o);
    if (wasmi_machine_new(&o->machine, &LIMITS) != WASMI_DONE || wasmi_machine_new(&o->plain, &LIMITS) != WASMI_DONE
        || wasmi_pool_new(&o->pool, LIMITS.bytes, LIMITS.elements) != WASMI_DONE
        || wasmi_pool_add(&o->pool, &LIMITS).status != WASMI_DONE) {
        exit(2);
    }
    made_on_each(o, of_kind(WASMI_CALL_NEW_MEMORY));
    made_on_each(o, table);
    made_on_each(o, table);
    made_on_each(o, fuel);
    segments_on_each(o);
    uint8_t status = wasmi_machine_reserve(&o->machine, &room) | wasmi_pool_reserve(&o->pool, 0, &room);
    for (size_t index = 0; index < 2; index++) {
        status |= wasmi_machine_reserve_elements(&o->machine, index, MOST_ELEMENTS);
        status |= wasmi_pool_reserve_elements(&o->pool, 0, index, MOST_ELEMENTS);
    }
    if (status != WASMI_DONE) {
        differs("set up once", "a reservation is refused");
    }
}

/* Whether a call needs no memory but what is reserved, after so many globals. */
static int is_reserved(const wasmi_call *call, int *globals) {
    switch (call->kind) {
        case WASMI_CALL_NEW_MEMORY:
        case WASMI_CALL_NEW_TABLE:
        case WASMI_CALL_GROW_MEMORY: return 0;
        case WASMI_CALL_NEW_GLOBAL: return ++*globals <= SLOTS;
        default: return 1;
    }
}

/* A random call on each, on the first two with the first request for memory refused. */
static void call_on_each(struct once *o, wasmi_call call) {
    requests = 0, refused = 1;
    wasmi_reply own = called(&o->machine, call);
    wasmi_reply tenants = wasmi_pool_call(&o->pool, 0, at_edge(OF_CALL, &call, sizeof call));
    long asked = requests;
    refused = 0;
    wasmi_reply plain = called(&o->plain, call);
    requests = asked;
    same_of_each(&call, own, tenants, plain);
}

/* What has arrays of the caller's: segments without items, a read and a write. */
static void arrays_on_each(struct once *o) {
    const wasmi_call none = of_kind(WASMI_CALL_SET_FUEL);
    uint8_t bytes[3][8] = {{0}, {1}, {2}};
    size_t offset = (size_t)number(), len = (size_t)below(8);
    requests = 0, refused = 1;
    wasmi_reply own[4] = {wasmi_machine_new_segment(&o->machine, WASMI_TYPE_FUNCREF, NULL, 0),
                          wasmi_machine_new_data(&o->machine, NULL, 0),
                          wasmi_machine_write(&o->machine, 0, offset, bytes[2], len),
                          wasmi_machine_read(&o->machine, 0, offset, bytes[0], len)};
    wasmi_reply tenants[4] = {wasmi_pool_new_segment(&o->pool, 0, WASMI_TYPE_FUNCREF, NULL, 0),
                              wasmi_pool_new_data(&o->pool, 0, NULL, 0),
                              wasmi_pool_write(&o->pool, 0, 0, offset, bytes[2], len),
                              wasmi_pool_read(&o->pool, 0, 0, offset, bytes[1], len)};
    long asked = requests;
    refused = 0;
    wasmi_reply plain[4] = {wasmi_machine_new_segment(&o->plain, WASMI_TYPE_FUNCREF, NULL, 0),
                            wasmi_machine_new_data(&o->plain, NULL, 0),
                            wasmi_machine_write(&o->plain, 0, offset, bytes[2], len),
                            wasmi_machine_read(&o->plain, 0, offset, bytes[2], len)};
    requests = asked;
    for (int i = 0; i < 4; i++) {
        same_of_each(&none, own[i], tenants[i], plain[i]);
    }
    if (own[3].status == WASMI_DONE && (memcmp(bytes[0], bytes[2], len) != 0 || memcmp(bytes[1], bytes[2], len) != 0)) {
        differs("set up once", "other bytes");
    }
}

/* A hostile guest on what is set up once: no call asks for memory, and each does what it does where nothing is reserved. */
static void run_once(uint64_t seed) {
    struct once o;
    int globals = 0;
    random_state = seed;
    set_up(&o);
    for (int i = 0; i < 5 * SEQUENCE; i++) {
        wasmi_call call = random_call();
        if (is_reserved(&call, &globals)) {
            call_on_each(&o, call);
        }
        if (i % SLOTS == 0) {
            arrays_on_each(&o);
        }
    }
    wasmi_machine_drop(&o.machine);
    wasmi_machine_drop(&o.plain);
    wasmi_pool_drop(&o.pool);
}

int main(int count, char **words) {
    long wanted = (long)argument(count, words, 1, 10000);
    uint64_t seed = argument(count, words, 2, 1);
    random_state = seed;
    without_machine();
    nothing_left("a handle of zeros");
    forge(wanted / 10);
    nothing_left("forged");
    long before = calls, sequences = wanted / 100 + 1;
    run_sequences(seed, sequences);
    nothing_left("random");
    printf("random: %ld calls beside %ld scripts\n", calls - before, sequences);
    reserved();
    reserved_elements();
    before = calls;
    for (long i = 0; i < sequences; i++) {
        run_once(seed + (uint64_t)i);
    }
    nothing_left("set up once");
    printf("set up once: %ld calls, with the first request for memory refused\n", calls - before);
    run_threads(seed, sequences / 40 + 1);
    nothing_left("threads");
    pass_on();
    nothing_left("a handle that goes from thread to thread");
    printf("threads: %d with a handle each, and a handle that goes from one to another\n", THREADS);
    refuse(0);
    refuse(STEPS);
    printf("%ld calls, %ld differ\n", calls, differing);
    return differing == 0 ? 0 : 1;
}
