/* A guest memory that is grown under fuel and a limit, a table, a shuffle, what is refused, and a limiter that answers
   from a list. It is C and C++. */
#include "wasmi_machine.h"
#include <inttypes.h>
#include <stdio.h>
#include <string.h>

static wasmi_machine machine; /* zeros: a handle without a machine */

static wasmi_call of_kind(uint16_t kind, uint64_t count) {
    wasmi_call call;
    memset(&call, 0, sizeof call);
    call.kind = kind;
    call.count = count;
    call.page_size_log2 = 16;
    return call;
}

static void reply(const char *name, wasmi_reply reply) {
    printf("%-22s status %d, number %" PRIu64 ", value %" PRIx64 "\n", name, reply.status, reply.number,
           reply.value.lo);
}

static void made(const char *name, wasmi_call call) {
    reply(name, wasmi_machine_call(&machine, &call));
}

static void memories(void) {
    wasmi_call memory = of_kind(WASMI_CALL_NEW_MEMORY, 1);
    memory.has_maximum = 1;
    memory.maximum = 8;
    made("memory of a page", memory);
    made("grow without fuel", of_kind(WASMI_CALL_GROW_MEMORY, 2));
    made("set fuel", of_kind(WASMI_CALL_SET_FUEL, 8000));
    made("grow by two", of_kind(WASMI_CALL_GROW_MEMORY, 2));
    made("grow beyond the cap", of_kind(WASMI_CALL_GROW_MEMORY, 2));
    made("fuel left", of_kind(WASMI_CALL_GET_FUEL, 0));
    reply("take fuel", wasmi_machine_consume_fuel(&machine, 1000));
    reply("take too much", wasmi_machine_consume_fuel(&machine, 10000));
}

static void accesses(void) {
    const uint8_t greeting[5] = {'h', 'e', 'l', 'l', 'o'};
    uint8_t bytes[5] = {0};
    reply("write", wasmi_machine_write(&machine, 0, 65534, greeting, sizeof greeting));
    reply("read", wasmi_machine_read(&machine, 0, 65534, bytes, sizeof bytes));
    printf("%-22s %.5s\n", "what was read", (const char *)bytes);
    reply("read past the end", wasmi_machine_read(&machine, 0, 3 * 65536 - 4, bytes, sizeof bytes));
    wasmi_call load = of_kind(WASMI_CALL_LOAD, 0);
    load.op = WASMI_LOAD_LOAD_U32;
    load.ptr = 65530;
    load.offset = 4;
    made("load", load);
    load.ptr = UINT64_MAX;
    made("load past the end", load);
}

/* The calls that engines make most, with plain arguments. */
static void plain(void) {
    uint64_t word = 0;
    uint8_t status = wasmi_machine_store(&machine, WASMI_STORE_STORE64, 0, 16, 8, UINT64_C(0x1122334455667788));
    printf("%-22s status %d\n", "store", status);
    status = wasmi_machine_load(&machine, WASMI_LOAD_I64_LOAD32_U, 0, 28, 0, &word);
    printf("%-22s status %d, value %" PRIx64 "\n", "load of its half", status, word);
    status = wasmi_machine_load(&machine, WASMI_LOAD_LOAD_U64, 0, 3 * 65536 - 7, 0, &word);
    printf("%-22s status %d, value %" PRIx64 "\n", "load past the end", status, word);
    status = wasmi_machine_load(&machine, WASMI_LOAD_V128_LOAD, 0, 0, 0, &word);
    printf("%-22s status %d\n", "load of a vector", status);
    status = wasmi_machine_grow(&machine, 0, 0, &word);
    printf("%-22s status %d, number %" PRIu64 "\n", "grow by none", status, word);
    status = wasmi_machine_grow(&machine, 0, 1, &word);
    printf("%-22s status %d, number %" PRIu64 "\n", "grow by one", status, word);
    status = wasmi_machine_grow(&machine, 1, 1, &word);
    printf("%-22s status %d, number %" PRIu64 "\n", "grow another", status, word);
    status = wasmi_machine_fuel_left(&machine, &word);
    printf("%-22s status %d, number %" PRIu64 "\n", "fuel left after that", status, word);
}

static void tables(void) {
    const uint32_t items[3] = {7, 8, 9};
    wasmi_call table = of_kind(WASMI_CALL_NEW_TABLE, 4);
    table.type = WASMI_TYPE_FUNCREF;
    made("table of four", table);
    reply("segment", wasmi_machine_new_segment(&machine, WASMI_TYPE_FUNCREF, items, 3));
    wasmi_call init = of_kind(WASMI_CALL_INIT_TABLE, 3);
    init.to = 1;
    made("init from 1 on", init);
    init.to = 2;
    made("init past the end", init);
    wasmi_call get = of_kind(WASMI_CALL_GET_ELEMENT, 0);
    get.to = 2;
    wasmi_reply element = wasmi_machine_call(&machine, &get);
    printf("%-22s status %d, type %d, reference %" PRIu32 "\n", "element 2", element.status, element.type,
           element.reference);
}

static void vectors(void) {
    wasmi_call set = of_kind(WASMI_CALL_SET_REGISTER, 0);
    set.value.lo = UINT64_C(0x0706050403020100);
    set.value.hi = UINT64_C(0x0f0e0d0c0b0a0908);
    made("set register 0", set);
    set.dst = 1;
    set.value.lo |= UINT64_C(0x1010101010101010);
    set.value.hi |= UINT64_C(0x1010101010101010);
    made("set register 1", set);
    wasmi_call shuffle = of_kind(WASMI_CALL_SHUFFLE, 0);
    for (int i = 0; i < 16; i++) {
        shuffle.lanes[i] = (uint8_t)(31 - 2 * i);
    }
    shuffle.b = 1;
    shuffle.dst = 2;
    made("every second byte", shuffle);
    wasmi_call get = of_kind(WASMI_CALL_GET_REGISTER, 0);
    get.a = 2;
    made("register 2", get);
    shuffle.lanes[15] = 32;
    made("no such lane", shuffle);
    printf("%-22s status %d\n", "sums of bytes", wasmi_machine_binary(&machine, WASMI_BINARY_I8X16_ADD, 2, 2, 2));
    made("register 2", get);
    printf("%-22s status %d\n", "no such register", wasmi_machine_binary(&machine, WASMI_BINARY_I8X16_ADD, 16, 2, 2));
}

/* A table whose growths a list of answers decides, as the lines of SCRIPT.md's "A table under listed answers". */
static void answered(void) {
    const wasmi_limits limits = {0, 0, 64, 7, 2, 0, 0};
    uint8_t answers[5] = {WASMI_ANSWER_PERMIT, WASMI_ANSWER_DENY, WASMI_ANSWER_PERMIT, WASMI_ANSWER_COMPLAIN, 4};
    printf("%-22s status %d\n", "no such answer", wasmi_machine_new_with_answers(&machine, &limits, answers, 5));
    answers[4] = WASMI_ANSWER_ERROR;
    printf("%-22s status %d\n", "new with answers", wasmi_machine_new_with_answers(&machine, &limits, answers, 5));
    wasmi_call table = of_kind(WASMI_CALL_NEW_TABLE, 1), grow = of_kind(WASMI_CALL_GROW_TABLE, 1);
    table.has_maximum = 1;
    table.maximum = 3;
    table.type = WASMI_TYPE_FUNCREF;
    made("permit: a table", table);
    grow.type = WASMI_TYPE_FUNCREF;
    made("deny: grow by one", grow);
    grow.type = WASMI_TYPE_EXTERNREF;
    made("unasked: another type", grow);
    grow.type = WASMI_TYPE_FUNCREF;
    made("permit: grow by one", grow);
    grow.count = 2;
    made("complain: beyond 3", grow);
    grow.count = 1;
    made("error: grow by one", grow);
    made("no answer left", grow);
    wasmi_machine_drop(&machine);
}

int main(void) {
    const wasmi_limits limits = {4 * 65536, 16, 64, 7, 2, 1, 0};
    made("call without machine", of_kind(WASMI_CALL_GET_FUEL, 0));
    printf("%-22s status %d\n", "new", wasmi_machine_new(&machine, &limits));
    printf("%-22s status %d\n", "new again", wasmi_machine_new(&machine, &limits));
    memories();
    accesses();
    plain();
    tables();
    vectors();
    made("no such kind", of_kind(1000, 0));
    wasmi_totals totals = wasmi_machine_totals(&machine);
    printf("%-22s %" PRIu64 " bytes, %" PRIu64 " elements\n", "totals", totals.bytes.lo, totals.elements.lo);
    wasmi_machine_drop(&machine);
    wasmi_machine_drop(&machine);
    made("call after drop", of_kind(WASMI_CALL_GET_FUEL, 0));
    answered();
    return 0;
}

/* It prints:
call without machine   status 16, number 0, value 0
new                    status 0
new again              status 22
memory of a page       status 0, number 0, value 0
grow without fuel      status 40, number 2048, value 0
set fuel               status 0, number 0, value 0
grow by two            status 0, number 1, value 0
grow beyond the cap    status 33, number 0, value 0
fuel left              status 0, number 5952, value 0
take fuel              status 0, number 4952, value 0
take too much          status 65, number 10000, value 0
write                  status 0, number 0, value 0
read                   status 0, number 0, value 0
what was read          hello
read past the end      status 34, number 0, value 0
load                   status 0, number 0, value 6c6c6568
load past the end      status 2, number 0, value 0
store                  status 0
load of its half       status 0, value 11223344
load past the end      status 2, value 11223344
load of a vector       status 17
grow by none           status 0, number 3
grow by one            status 0, number 3
grow another           status 18, number 3
fuel left after that   status 0, number 3928
table of four          status 0, number 0, value 0
segment                status 0, number 0, value 0
init from 1 on         status 0, number 0, value 0
init past the end      status 53, number 0, value 0
element 2              status 0, type 5, reference 8
set register 0         status 0, number 0, value 0
set register 1         status 0, number 0, value 0
every second byte      status 0, number 0, value 0
register 2             status 0, number 0, value 11131517191b1d1f
no such lane           status 17, number 0, value 0
sums of bytes          status 0
register 2             status 0, number 0, value 22262a2e32363a3e
no such register       status 18
no such kind           status 17, number 0, value 0
totals                 262144 bytes, 4 elements
call after drop        status 16, number 0, value 0
no such answer         status 26
new with answers       status 0
permit: a table        status 0, number 0, value 0
deny: grow by one      status 52, number 0, value 0
unasked: another type  status 57, number 0, value 0
permit: grow by one    status 0, number 1, value 0
complain: beyond 3     status 51, number 0, value 0
error: grow by one     status 51, number 0, value 0
no answer left         status 0, number 2, value 0
*/
