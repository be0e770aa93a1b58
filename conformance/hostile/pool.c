/* Runs random scripts of tenants twice: whole by wasmi_script_run, and in parts on a pool that lives from part to part,
   by wasmi_pool_run_lines and by single calls, with plain arguments too; both have to print the same. A part for a tenant that there isn't, one on
   a handle without a pool, and one with a request for memory refused have to leave the pool as it was, or as their
   script says. Each array ends where a page begins which can't be touched, and a block that is left after a pool has
   ended is a difference. usage: pool SCRIPTS [SEED]. The last line is `N scripts, M differ`; the exit status is 0 if M
   is 0. Link it with --wrap for malloc, realloc and free. */
#define _DEFAULT_SOURCE
#include "calls.h"
#include "scripts.h"
#include "wasmi_machine.h"

enum { MOST_TENANTS = 4, TURNS = 16, MOST_LINES = 6, WRITTEN = 8 };

static wasmi_pool pool, none;
static size_t tenants, printed_len;

static void prints(const char *text) {
    printed_len += (size_t)sprintf(printed + printed_len, "%s\n", text);
}

/* What a script prints for a call that has no value. */
static void prints_status(uint8_t status) {
    switch (status) {
        case WASMI_DONE: prints("done"); break;
        case WASMI_NO_SUCH: prints("no such"); break;
        case WASMI_MEMORY_ACCESS:
        case WASMI_MEMORY_OUT_OF_BOUNDS: prints("error out of bounds memory access"); break;
        case WASMI_METERING_DISABLED: prints("error fuel metering is disabled"); break;
        default: differs("a status that no such call has", printed);
    }
}

static void prints_fuel_needed(uint64_t fuel) {
    printed_len += (size_t)sprintf(printed + printed_len, "error not enough fuel. required=%" PRIu64 "\n", fuel);
}

static int same_totals(wasmi_totals a, wasmi_totals b) {
    return a.status == b.status && memcmp(&a.bytes, &b.bytes, sizeof a.bytes) == 0
           && memcmp(&a.elements, &b.elements, sizeof a.elements) == 0;
}

/* A call on a tenant by its struct, or as a list of it alone; a list that is refused leaves the reply as it was. */
static wasmi_reply replied(wasmi_pool *on, size_t tenant, const wasmi_call *call) {
    const wasmi_call *list = at_edge(0, call, sizeof *call);
    wasmi_reply reply;
    memset(&reply, 0xa5, sizeof reply);
    if (below(2)) {
        return wasmi_pool_call(on, tenant, list);
    }
    wasmi_reply *replies = at_edge(1, &reply, sizeof reply);
    uint8_t status = wasmi_pool_run_into(on, tenant, list, 1, replies, 1);
    if (status == WASMI_DONE) {
        return *replies;
    }
    if (memcmp(replies, &reply, sizeof reply) != 0) {
        differs("a list", "it is refused, and a reply was written");
    }
    memset(&reply, 0, sizeof reply);
    reply.status = status;
    return reply;
}

/* Lines on a tenant, in a text of dots, which is left as it was where they are refused. */
static wasmi_reply run(wasmi_pool *on, size_t tenant, const char *part, size_t len, char *text) {
    uint8_t *copy = at_edge(1, dots, TEXT);
    wasmi_reply reply = wasmi_pool_run_lines(on, tenant, at_edge(0, part, len), len, copy, TEXT);
    memcpy(text, copy, TEXT);
    if (reply.status != WASMI_DONE && memcmp(text, dots, TEXT) != 0) {
        differs("a refused part wrote", part);
    }
    return reply;
}

/* No part is run on a tenant that there isn't, nor without a pool; that it has header lines is told before. */
static void refused_parts(const char *part, size_t len) {
    static char text[TEXT];
    wasmi_totals before = wasmi_pool_totals(&pool);
    size_t index = tenants + (size_t)below(3);
    if (run(&pool, index, part, len, text).status != WASMI_NO_TENANT
        || run(&pool, index, "meter off\n", 10, text).status != WASMI_HEADER_LINE
        || wasmi_pool_tenant_totals(&pool, index).status != WASMI_NO_TENANT
        || run(&none, 0, part, len, text).status != WASMI_NO_POOL || none.is_made) {
        differs("no such tenant, or no pool", part);
    }
    if (!same_totals(before, wasmi_pool_totals(&pool))) {
        differs("a refused part changed the pool", part);
    }
}

/* Lines for a tenant, which are refused where one is bad, also if there is no such tenant, and where the first request
   for memory is refused. */
static char *lines_of(char *at, size_t tenant) {
    static char text[TEXT];
    char *from = at;
    for (uint64_t i = below(MOST_LINES); i > 0; i--) {
        at = line(at, FORMS[below(sizeof FORMS / sizeof *FORMS)]);
    }
    size_t len = (size_t)(at - from), needed = 0;
    if (wasmi_script_run((uint8_t *)from, len, (uint8_t *)whole, TEXT, &needed) != 0) {
        if (run(&pool, tenant, from, len, text).status != WASMI_BAD_LINE
            || run(&pool, tenants, from, len, text).status != WASMI_BAD_LINE) {
            *at = 0;
            differs("bad lines are run", from);
        }
        return from;
    }
    refused_parts(from, len);
    wasmi_totals before = wasmi_pool_totals(&pool);
    requests = 0, refused = 1;
    wasmi_reply reply = run(&pool, tenant, from, len, text);
    int was_refused = requests >= refused;
    refused = 0;
    if (was_refused && (reply.status != WASMI_NO_ROOM || !same_totals(before, wasmi_pool_totals(&pool)))) {
        differs("a part without memory was run", from);
    }
    if (was_refused) {
        reply = run(&pool, tenant, from, len, text);
    }
    if (reply.status != WASMI_DONE) {
        *at = 0;
        differs("good lines are refused", from);
        return from;
    }
    memcpy(printed + printed_len, text, (size_t)reply.number);
    printed_len += (size_t)reply.number;
    return at;
}

/* A write by its own call, with the first request for memory refused, and what a read finds after it. */
static char *written(char *at, size_t tenant) {
    uint8_t bytes[WRITTEN], found[WRITTEN];
    size_t len = (size_t)below(WRITTEN), memory = (size_t)below(3), offset = (size_t)number();
    at += sprintf(at, "write %zu %zu", memory, offset);
    for (size_t i = 0; i < len; i++) {
        bytes[i] = (uint8_t)below(256);
        at += sprintf(at, " %u", bytes[i]);
    }
    requests = 0, refused = 1;
    wasmi_reply reply = wasmi_pool_write(&pool, tenant, memory, offset, at_edge(0, bytes, len), len);
    prints_status(reply.status);
    if (requests != 0) {
        differs("a write asks for memory", script);
    }
    refused = 0;
    memset(found, '.', sizeof found);
    wasmi_reply same = wasmi_pool_read(&pool, tenant, memory, offset, found, len);
    if (same.status != reply.status || memcmp(found, reply.status == WASMI_DONE ? (char *)bytes : dots, len) != 0) {
        differs("a read finds another thing than was written", script);
    }
    return at + sprintf(at, "\n");
}

/* A call by its struct. */
static char *called(char *at, size_t tenant) {
    wasmi_call call;
    memset(&call, 0, sizeof call);
    switch (below(4)) {
        case 0: call.kind = WASMI_CALL_SET_FUEL, call.count = number(); break;
        case 1: call.kind = WASMI_CALL_DROP_MEMORY, call.index = (size_t)below(40); break;
        case 2: call.kind = WASMI_CALL_SET_REGISTER, call.dst = (uint8_t)below(20), call.value.lo = number(); break;
        default:
            call.kind = (uint16_t)(KINDS + below(1000));
            if (wasmi_pool_call(&pool, tenant, at_edge(0, &call, sizeof call)).status != WASMI_NO_CALL) {
                differs("a kind that there isn't", script);
            }
            return at;
    }
    at = put(line_of(at, &call), "\n");
    requests = 0, refused = 1;
    prints_status(replied(&pool, tenant, &call).status);
    if (requests != 0) {
        differs("a call that makes nothing asks for memory", script);
    }
    refused = 0;
    if (replied(&pool, tenants, &call).status != WASMI_NO_TENANT
        || wasmi_pool_run_into(&none, tenant, &call, 1, NULL, 0) != WASMI_NO_POOL
        || wasmi_pool_run_into(&pool, tenant, &call, 1, NULL, 0) != WASMI_LENGTHS_DIFFER) {
        differs("a call on a tenant that there isn't", script);
    }
    return at;
}

/* A load by its own call is that by a call's struct, and leaves the caller's word where it is refused. */
static char *loaded(char *at, size_t tenant) {
    uint64_t before = number(), word = before, ptr = number(), offset = below(3);
    uint16_t op = (uint16_t)below(14);
    size_t memory = (size_t)below(3);
    wasmi_call call = {.kind = WASMI_CALL_LOAD, .op = op, .index = memory, .ptr = ptr, .offset = offset};
    /* By a struct the other loads write a register, which the script doesn't. */
    int is_item = op < 12;
    wasmi_reply reply = {0};
    if (is_item) {
        reply = wasmi_pool_call(&pool, tenant, &call);
    }
    uint8_t status = wasmi_pool_load(&pool, tenant, op, memory, ptr, offset, &word);
    if (status != (is_item ? reply.status : WASMI_NO_CALL)
        || word != (status == WASMI_DONE ? reply.value.lo : before)) {
        differs("a load on a tenant", script);
    }
    word = before;
    if (wasmi_pool_load(&pool, tenants, op, memory, ptr, offset, &word) != (is_item ? WASMI_NO_TENANT : WASMI_NO_CALL)
        || wasmi_pool_load(&none, tenant, op, memory, ptr, offset, &word) != WASMI_NO_POOL || word != before) {
        differs("a load on a tenant that there isn't", script);
    }
    return at;
}

/* A store by its own call, as a script does it; a read finds its bytes. */
static char *stored(char *at, size_t tenant) {
    static const char *const names[] = {"i32_store8", "i32_store16", "i64_store8", "i64_store16",
                                        "i64_store32", "store32", "store64"};
    static const size_t sizes[] = {1, 2, 1, 2, 4, 4, 8};
    uint64_t ptr = number(), offset = below(3), value = below(UINT64_MAX);
    uint8_t found[8] = {0}, status;
    uint16_t op = (uint16_t)below(7);
    size_t memory = (size_t)below(3);
    if (wasmi_pool_store(&pool, tenant, (uint16_t)(op + 7), memory, ptr, offset, value) != WASMI_NO_CALL
        || wasmi_pool_store(&pool, tenants, op, memory, ptr, offset, value) != WASMI_NO_TENANT
        || wasmi_pool_store(&none, tenant, op, memory, ptr, offset, value) != WASMI_NO_POOL) {
        differs("a store on a tenant that there isn't", script);
    }
    status = wasmi_pool_store(&pool, tenant, op, memory, ptr, offset, value);
    if (status == WASMI_DONE) {
        wasmi_reply reply = wasmi_pool_read(&pool, tenant, memory, (size_t)(ptr + offset), found, sizes[op]);
        for (size_t i = 0; i < sizes[op]; i++) {
            if (reply.status != WASMI_DONE || found[i] != (uint8_t)(value >> 8 * i)) {
                differs("a read finds another thing than was stored", script);
            }
        }
    }
    prints_status(status);
    return at + sprintf(at, "store %s %zu %" PRIu64 " %" PRIu64 " %" PRIu64 "\n", names[op], memory, ptr, offset, value);
}

/* A growth by its own call, as a script does it, with no request for memory but the growth's own. */
static char *grown(char *at, size_t tenant) {
    uint64_t before = number(), word = before, pages = below(3);
    size_t memory = (size_t)below(3);
    if (wasmi_pool_grow(&pool, tenants, memory, pages, &word) != WASMI_NO_TENANT
        || wasmi_pool_grow(&none, tenant, memory, pages, &word) != WASMI_NO_POOL || word != before) {
        differs("a growth on a tenant that there isn't", script);
    }
    uint8_t status = wasmi_pool_grow(&pool, tenant, memory, pages, &word);
    if (status == WASMI_DONE) {
        printed_len += (size_t)sprintf(printed + printed_len, "value %" PRIu64 "\n", word);
    } else if (status == WASMI_MEMORY_GROWTH) {
        prints("error out of bounds memory growth");
    } else if (status == WASMI_MEMORY_OUT_OF_FUEL) {
        prints_fuel_needed(word);
    } else {
        prints_status(status);
    }
    if (status != WASMI_DONE && status != WASMI_MEMORY_OUT_OF_FUEL && word != before) {
        differs("a refused growth wrote", script);
    }
    return at + sprintf(at, "grow %zu %" PRIu64 "\n", memory, pages);
}

/* An instruction on two vectors by its own call, as a script does it, and the fuel that is left. */
static char *direct(char *at, size_t tenant) {
    uint64_t before = number(), left = before;
    uint8_t dst = (uint8_t)below(18), a = (uint8_t)below(18), b = (uint8_t)below(18);
    wasmi_call call = {.kind = WASMI_CALL_GET_FUEL};
    wasmi_reply reply = wasmi_pool_call(&pool, tenant, &call);
    if (wasmi_pool_fuel_left(&pool, tenant, &left) != reply.status
        || left != (reply.status == WASMI_DONE ? reply.number : before)) {
        differs("the fuel of a tenant", script);
    }
    left = before;
    if (wasmi_pool_fuel_left(&pool, tenants, &left) != WASMI_NO_TENANT
        || wasmi_pool_fuel_left(&none, tenant, &left) != WASMI_NO_POOL || left != before
        || wasmi_pool_binary(&pool, tenant, WASMI_BINARY_I8X16_SHL, dst, a, b) != WASMI_NO_CALL
        || wasmi_pool_binary(&pool, tenants, WASMI_BINARY_I16X8_MUL, dst, a, b) != WASMI_NO_TENANT
        || wasmi_pool_binary(&none, tenant, WASMI_BINARY_I16X8_MUL, dst, a, b) != WASMI_NO_POOL) {
        differs("the fuel of a tenant that there isn't, or an instruction on it", script);
    }
    prints_status(wasmi_pool_binary(&pool, tenant, WASMI_BINARY_I16X8_MUL, dst, a, b));
    return at + sprintf(at, "binary i16x8_mul %u %u %u\n", dst, a, b);
}

/* Good lines that stand at a place already. */
static char *by_lines(char *at, size_t len, size_t tenant) {
    static char text[TEXT];
    wasmi_reply reply = run(&pool, tenant, at, len, text);
    if (reply.status != WASMI_DONE) {
        differs("good lines are refused", script);
        return at;
    }
    memcpy(printed + printed_len, text, (size_t)reply.number);
    printed_len += (size_t)reply.number;
    return at + len;
}

/* A memory of one page, made by a line. */
static char *with_memory(char *at, size_t tenant) {
    return by_lines(at, (size_t)sprintf(at, "memory 1 none 16 32\n"), tenant);
}

/* What a memory has from an offset on, as a script's read prints it. */
static char *read_back(char *at, size_t tenant, size_t memory, size_t offset) {
    uint8_t bytes[WRITTEN];
    wasmi_reply reply = wasmi_pool_read(&pool, tenant, memory, offset, bytes, sizeof bytes);
    if (reply.status != WASMI_DONE) {
        prints_status(reply.status);
    } else {
        printed_len += (size_t)sprintf(printed + printed_len, "bytes");
        for (size_t i = 0; i < sizeof bytes; i++) {
            printed_len += (size_t)sprintf(printed + printed_len, " %u", bytes[i]);
        }
        prints("");
    }
    return at + sprintf(at, "read %zu %zu %d\n", memory, offset, WRITTEN);
}

/* The status that the function of a write over a range of a memory leaves. */
static uint8_t ranged_directly(wasmi_pool *on, size_t tenant, const wasmi_call *call, uint64_t *word) {
    size_t memory = call->index, source = call->source;
    switch (call->kind) {
        case WASMI_CALL_FILL_MEMORY:
            return wasmi_pool_fill(on, tenant, memory, call->to, (uint8_t)call->value.lo, call->count, word);
        case WASMI_CALL_COPY_MEMORY:
            return wasmi_pool_copy(on, tenant, memory, call->to, source, call->from, call->count, word);
        default:
            return wasmi_pool_init(on, tenant, memory, source, call->to, (uint32_t)call->from, (uint32_t)call->count,
                                   word);
    }
}

/* A write over a range of a memory by its own call, or by a struct, as a script does it; a read finds what a script's
   read finds. */
static char *ranged(char *at, size_t tenant, const wasmi_call *call) {
    uint64_t before = number(), word = before;
    if (ranged_directly(&pool, tenants, call, &word) != WASMI_NO_TENANT
        || ranged_directly(&none, tenant, call, &word) != WASMI_NO_POOL || word != before) {
        differs("a write over a range on a tenant that there isn't", script);
    }
    uint8_t status;
    if (below(4)) {
        status = ranged_directly(&pool, tenant, call, &word);
    } else {
        wasmi_reply reply = wasmi_pool_call(&pool, tenant, call);
        status = reply.status, word = status == WASMI_MEMORY_OUT_OF_FUEL ? reply.number : before;
    }
    if (status == WASMI_MEMORY_OUT_OF_FUEL) {
        prints_fuel_needed(word);
    } else {
        prints_status(status);
        if (word != before) {
            differs("a write over a range changed the caller's word", script);
        }
    }
    return read_back(put(line_of(at, call), "\n"), tenant, call->index, (size_t)call->to);
}

static char *any_range(char *at, size_t tenant) {
    wasmi_call call = {.kind = (uint16_t)(WASMI_CALL_FILL_MEMORY + below(3)), .to = number()};
    bool is_init = call.kind == WASMI_CALL_INIT_MEMORY;
    call.index = (size_t)below(3), call.source = (size_t)below(3), call.value.lo = below(256);
    call.from = is_init ? below(WRITTEN) : number(), call.count = is_init ? below(WRITTEN) : number();
    return ranged(at, tenant, &call);
}

/* Fuel that the caller takes is, in the script, the fuel that is set to what is left. */
static char *paid(char *at, size_t tenant) {
    uint64_t amount = number(), left = 0;
    wasmi_call set = {.kind = WASMI_CALL_SET_FUEL, .count = number()}, get = {.kind = WASMI_CALL_GET_FUEL};
    if (below(2)) {
        at = put(line_of(at, &set), "\n");
        prints_status(wasmi_pool_call(&pool, tenant, &set).status);
    }
    uint8_t status = wasmi_pool_fuel_left(&pool, tenant, &left);
    if (wasmi_pool_consume_fuel(&pool, tenants, amount).status != WASMI_NO_TENANT
        || wasmi_pool_consume_fuel(&none, tenant, amount).status != WASMI_NO_POOL) {
        differs("fuel of a tenant that there isn't", script);
    }
    bool is_short = status == WASMI_DONE && left < amount, is_paid = status == WASMI_DONE && !is_short;
    wasmi_reply reply = wasmi_pool_consume_fuel(&pool, tenant, amount), after = wasmi_pool_call(&pool, tenant, &get);
    if (reply.status != (is_short ? WASMI_OUT_OF_FUEL : status)
        || reply.number != (is_short ? amount : is_paid ? left - amount : 0) || after.status != status
        || after.number != (is_paid ? left - amount : left)) {
        differs("fuel that is taken", script);
    }
    if (!is_paid) {
        return at;
    }
    prints("done");
    return at + sprintf(at, "fuel %" PRIu64 "\n", reply.number);
}

/* A segment of a copy of an array: of references of a type, or of bytes. */
static wasmi_reply made(wasmi_pool *on, size_t tenant, bool is_data, uint8_t type, const void *array, size_t len) {
    return is_data ? wasmi_pool_new_data(on, tenant, array, len) : wasmi_pool_new_segment(on, tenant, type, array, len);
}

/* No segment for a tenant that there isn't, without a pool, of a type of no references, or without memory, which is
   told before that there is no tenant. */
static void refused_segments(size_t tenant, bool is_data, uint8_t type, const void *array, size_t len) {
    if (made(&pool, tenants, is_data, type, array, len).status != WASMI_NO_TENANT
        || made(&none, tenant, is_data, type, array, len).status != WASMI_NO_POOL
        || (!is_data && made(&pool, tenants, is_data, WASMI_TYPE_I64, array, len).status != WASMI_NO_CALL)) {
        differs("a segment of a tenant that there isn't", script);
    }
    requests = 0, refused = 1;
    if (made(&pool, tenants, is_data, type, array, len).status != (len ? WASMI_NO_ROOM : WASMI_NO_TENANT)) {
        differs("a segment without memory of a tenant that there isn't", script);
    }
    refused = 0;
}

/* A segment by its own call, as a script makes it, and what it has: its front in a memory, or in a table. */
static char *segment(char *at, size_t tenant) {
    uint8_t bytes[WRITTEN], type = (uint8_t)(WASMI_TYPE_FUNCREF + below(2));
    uint32_t items[WRITTEN];
    size_t len = (size_t)below(WRITTEN);
    bool is_data = below(2);
    const char *word = type == WASMI_TYPE_FUNCREF ? "func" : "extern";
    at = below(2) ? at : with_memory(at, tenant);
    at += is_data ? sprintf(at, "data") : sprintf(at, "segment %s", word);
    for (size_t i = 0; i < len; i++) {
        items[i] = (uint32_t)number(), bytes[i] = (uint8_t)items[i];
        at += sprintf(at, " %" PRIu32, is_data ? bytes[i] : items[i]);
    }
    at += sprintf(at, "\n");
    const void *array = is_data ? at_edge(0, bytes, len) : at_edge(0, items, len * sizeof *items);
    refused_segments(tenant, is_data, type, array, len);
    requests = 0, refused = 1;
    wasmi_reply reply = made(&pool, tenant, is_data, type, array, len);
    bool was_refused = requests >= refused;
    refused = 0;
    if (was_refused && reply.status != WASMI_NO_ROOM && reply.status != WASMI_SEGMENT_OUT_OF_MEMORY) {
        differs("a segment without memory", script);
    }
    reply = was_refused ? made(&pool, tenant, is_data, type, array, len) : reply;
    if (reply.status != WASMI_DONE) {
        differs("a segment", script);
    }
    size_t index = (size_t)reply.number;
    printed_len += (size_t)sprintf(printed + printed_len, "%s %zu\n", is_data ? "data" : "segment", index);
    if (is_data) {
        wasmi_call call = {.kind = WASMI_CALL_INIT_MEMORY, .source = index, .to = number(), .count = len};
        return ranged(at, tenant, &call);
    }
    int size = sprintf(at, "table %s 8 none 64 %s 0\ninit 0 %zu 1 0 %zu\nget 0 1\nget 0 2\n", word, word, index, len);
    return by_lines(at, (size_t)size, tenant);
}

/* The calls with plain arguments, with each request for memory refused but that of a growth. */
static char *plain(char *at, size_t tenant) {
    uint64_t form = below(8);
    at = below(2) ? at : with_memory(at, tenant);
    if (form == 0)
        return grown(at, tenant);
    requests = 0, refused = 1;
    at = form == 1   ? loaded(at, tenant)
         : form < 4  ? stored(at, tenant)
         : form == 4 ? direct(at, tenant)
         : form < 7  ? any_range(at, tenant)
                     : paid(at, tenant);
    if (requests != 0) {
        differs("a call with plain arguments asks for memory", script);
    }
    refused = 0;
    return at;
}

/* Reserves slots for the last tenant, for which no memory is asked again; the script prints the same without them. */
static void reserved(size_t tenant) {
    const wasmi_room room = {.globals = 1 + (size_t)below(8)}, too_much = {.globals = SIZE_MAX};
    if (wasmi_pool_reserve(&none, tenant, &room) != WASMI_NO_POOL
        || wasmi_pool_reserve(&pool, tenant + 1, &room) != WASMI_NO_TENANT
        || wasmi_pool_reserve(&pool, tenant, &too_much) != WASMI_NO_ROOM
        || wasmi_pool_reserve(&pool, tenant, &room) != WASMI_DONE) {
        differs("reserved", script);
    }
    requests = 0, refused = 1;
    if (wasmi_pool_reserve(&pool, tenant, &room) != WASMI_DONE || requests != 0) {
        differs("memory was asked for where it is there", script);
    }
    refused = 0;
}

/* A pool with random caps and tenants, and the header lines of the same. */
static char *begin(void) {
    wasmi_limits limits;
    memset(&limits, 0, sizeof limits);
    uint64_t bytes = below(20) * PAGE + below(4), elements = below(40);
    limits.bytes_copied_per_fuel = (uint32_t)(below(6) ? 64 : below(3));
    limits.is_metered = (uint8_t)below(2);
    char *at = script + sprintf(script, "meter off\n");
    if (limits.is_metered) {
        at = script + sprintf(script, "meter on %" PRIu32 "\n", limits.bytes_copied_per_fuel);
    }
    tenants = 1 + (size_t)below(MOST_TENANTS);
    at += sprintf(at, "tenants %zu %" PRIu64 " %" PRIu64 "\n", tenants, bytes, elements);
    requests = 0, refused = 1;
    if (wasmi_pool_new(&pool, bytes, elements) != WASMI_NO_ROOM || pool.is_made) {
        differs("new without memory", script);
    }
    refused = 0;
    if (wasmi_pool_new(&pool, bytes, elements) != WASMI_DONE || wasmi_pool_new(&pool, 0, 0) != WASMI_HAS_POOL
        || wasmi_pool_add(&none, &limits).status != WASMI_NO_POOL) {
        differs("new", script);
    }
    requests = 0, refused = 1;
    if (wasmi_pool_add(&pool, &limits).status != WASMI_NO_ROOM
        || wasmi_pool_tenant_totals(&pool, 0).status != WASMI_NO_TENANT) {
        differs("a tenant without memory", script);
    }
    refused = 0;
    for (size_t i = 0; i < tenants; i++) {
        wasmi_reply reply = wasmi_pool_add(&pool, &limits);
        if (reply.status != WASMI_DONE || reply.number != i) {
            differs("no tenant was added", script);
        }
        reserved(i);
    }
    return at;
}

/* What each tenant has, as a script prints it, and that all have together. */
static void totals(void) {
    uint64_t bytes = 0, elements = 0;
    for (size_t i = 0; i < tenants; i++) {
        wasmi_totals held = wasmi_pool_tenant_totals(&pool, i);
        printed_len += (size_t)sprintf(printed + printed_len, "held %zu %" PRIu64 " %" PRIu64 "\n", i, held.bytes.lo,
                                       held.elements.lo);
        bytes += held.bytes.lo, elements += held.elements.lo;
    }
    wasmi_totals all = wasmi_pool_totals(&pool);
    if (all.status != WASMI_DONE || all.bytes.lo != bytes || all.elements.lo != elements || all.bytes.hi != 0
        || all.elements.hi != 0 || wasmi_pool_totals(&none).status != WASMI_NO_POOL) {
        differs("the totals of all tenants", script);
    }
}

/* Each tenant in a random order: what it had counts no more, the others have what they had, and no later call finds it.
   A tenant that is added then has the next index. */
static void removals(void) {
    size_t order[MOST_TENANTS], added = tenants;
    for (size_t i = 0; i < tenants; i++)
        order[i] = i;
    for (size_t left = tenants; left > 0; left--) {
        size_t drawn = (size_t)below(left), index = order[drawn];
        order[drawn] = order[left - 1];
        wasmi_totals own = wasmi_pool_tenant_totals(&pool, index), before = wasmi_pool_totals(&pool);
        wasmi_totals kept = wasmi_pool_tenant_totals(&pool, order[0]);
        if (wasmi_pool_remove(&none, index) != WASMI_NO_POOL || wasmi_pool_remove(&pool, added) != WASMI_NO_TENANT
            || wasmi_pool_remove(&pool, index) != WASMI_DONE || wasmi_pool_remove(&pool, index) != WASMI_NO_TENANT) {
            differs("a removal", script);
        }
        wasmi_totals all = wasmi_pool_totals(&pool);
        if (all.bytes.lo + own.bytes.lo != before.bytes.lo || all.elements.lo + own.elements.lo != before.elements.lo) {
            differs("what is held after a removal", script);
        }
        if (wasmi_pool_tenant_totals(&pool, index).status != WASMI_NO_TENANT
            || (left > 1 && !same_totals(kept, wasmi_pool_tenant_totals(&pool, order[0])))) {
            differs("the tenants that are left", script);
        }
        if (below(2)) {
            wasmi_limits limits;
            memset(&limits, 0, sizeof limits);
            wasmi_reply reply = wasmi_pool_add(&pool, &limits);
            if (reply.status != WASMI_DONE || reply.number != added++) {
                differs("an index is given twice", script);
            }
        }
    }
}

/* On a tenant whose slots and elements are reserved a global is made, and a table grows, with the first request refused. */
static void reserved_elements(void) {
    enum { MOST = 9 };
    const wasmi_call global = {.kind = WASMI_CALL_NEW_GLOBAL, .type = WASMI_TYPE_I32};
    const wasmi_call table = {.kind = WASMI_CALL_NEW_TABLE, .count = 1, .maximum = MOST, .has_maximum = 1,
                              .type = WASMI_TYPE_FUNCREF};
    const wasmi_call growth = {.kind = WASMI_CALL_GROW_TABLE, .count = MOST - 1, .type = WASMI_TYPE_FUNCREF};
    const wasmi_room room = {.globals = 1}, too_much = {.globals = SIZE_MAX};
    const wasmi_limits limits = {.is_unlimited = 1};
    wasmi_pool own;
    memset(&own, 0, sizeof own);
    if (wasmi_pool_reserve(&own, 0, &room) != WASMI_NO_POOL
        || wasmi_pool_reserve_elements(&own, 0, 0, MOST) != WASMI_NO_POOL
        || wasmi_pool_new(&own, 0, MOST) != WASMI_DONE || wasmi_pool_add(&own, &limits).status != WASMI_DONE
        || wasmi_pool_reserve(&own, 1, &room) != WASMI_NO_TENANT
        || wasmi_pool_reserve_elements(&own, 1, 0, MOST) != WASMI_NO_TENANT
        || wasmi_pool_reserve(&own, 0, &too_much) != WASMI_NO_ROOM || wasmi_pool_reserve(&own, 0, &room) != WASMI_DONE
        || wasmi_pool_reserve_elements(&own, 0, 0, MOST) != WASMI_NO_SUCH
        || wasmi_pool_call(&own, 0, &table).status != WASMI_DONE
        || wasmi_pool_reserve_elements(&own, 0, 0, UINT64_MAX) != WASMI_NO_ROOM
        || wasmi_pool_reserve_elements(&own, 0, 0, MOST) != WASMI_DONE) {
        differs("a reservation for a tenant", script);
    }
    requests = 0, refused = 1;
    if (wasmi_pool_call(&own, 0, &global).status != WASMI_DONE || wasmi_pool_call(&own, 0, &growth).status != WASMI_DONE
        || requests != 0) {
        differs("memory was asked for where it is reserved", script);
    }
    refused = 0;
    wasmi_pool_drop(&own);
}

static void one_script(void) {
    printed_len = 0;
    char *at = begin();
    for (uint64_t i = below(TURNS); i > 0; i--) {
        size_t tenant = (size_t)below(tenants);
        at += sprintf(at, "as %zu\n", tenant);
        uint64_t form = below(14);
        at = form < 4   ? lines_of(at, tenant)
             : form < 6 ? written(at, tenant)
             : form < 8 ? called(at, tenant)
             : form < 9 ? segment(at, tenant)
                        : plain(at, tenant);
    }
    totals();
    removals();
    reserved_elements();
    wasmi_pool_drop(&pool);
    wasmi_pool_drop(&none);
    same_whole(at, printed_len);
}

int main(int count, char **arguments) {
    return try_scripts(count, arguments, one_script);
}
