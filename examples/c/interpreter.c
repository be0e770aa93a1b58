/* An interpreter of a dozen instructions, whose memories, tables, fuel and limits are those of the library. It is C and
   C++. Two guests share a quota, and each has a meter of its own. A guest's memory grows in place, in a region that is
   reserved for it. */
#include "wasmi_memory.h"
#include <inttypes.h>
#include <stdio.h>
#include <stdlib.h>

enum { PAGE = 65536, REGION = 4 * PAGE, STACK = 32, LOCALS = 2, ELEMENTS = 4, DEPTH = 8, FUNCTIONS = 2 };

/* The instructions. Those of the library go by their numbers in wasmi_core.h. */
typedef enum {
    CONSTANT,  /* a number */
    GET, SET,  /* a local */
    UNARY,     /* an instruction of one operand */
    BINARY,    /* an instruction of two operands */
    LOAD,      /* an instruction at the operand as an address */
    STORE,     /* an instruction: a value at an address */
    SIZE,      /* of the memory */
    GROW,      /* the memory; the old size, or -1 */
    CALL,      /* the function of an element of the table */
    BRANCH_IF, /* to an instruction */
    END
} operation;

typedef struct {
    operation op;
    uint32_t immediate;
} instruction;

/* How a guest ends, besides the statuses of the library: the numbers of traps that no call here returns. */
enum { TABLE_OUT_OF_BOUNDS = 3, CALL_TO_NULL = 4, STACK_OVERFLOW = 8, OUT_OF_FUEL = 10 };

typedef struct {
    const instruction *functions[FUNCTIONS];
    uint8_t *region;
    wasmi_memory memory;
    uint32_t elements[ELEMENTS];
    wasmi_table table;
    wasmi_meter meter;
    wasmi_quota *quota;
    wasmi_words stack[STACK];
    size_t height;
    int depth;
} guest;

static uint8_t push(guest *guest, uint64_t value) {
    if (guest->height == STACK)
        return STACK_OVERFLOW;
    guest->stack[guest->height].lo = value;
    guest->stack[guest->height++].hi = 0;
    return WASMI_DONE;
}

/* An operand. A guest that has none has 0. */
static wasmi_words pop(guest *guest) {
    const wasmi_words none = {0, 0};
    return guest->height == 0 ? none : guest->stack[--guest->height];
}

/* A growth that is refused for its size is the guest's to handle. A want of fuel ends the guest. */
static uint8_t grow(guest *guest) {
    uint64_t number = 0;
    uint64_t pages = pop(guest).lo & UINT32_MAX;
    switch (wasmi_memory_grow(&guest->memory, guest->region, REGION, pages, &guest->meter, guest->quota, &number)) {
    case WASMI_DONE:
        return push(guest, number);
    case WASMI_MEMORY_OUT_OF_FUEL:
        return OUT_OF_FUEL;
    default:
        return push(guest, UINT32_MAX);
    }
}

static uint8_t size(guest *guest) {
    uint64_t pages = 0;
    uint8_t status = wasmi_memory_size(&guest->memory, guest->region, REGION, &pages);
    return status != WASMI_DONE ? status : push(guest, pages);
}

/* An instruction on values or in memory. */
static uint8_t compute(guest *guest, instruction it) {
    wasmi_words value = {0, 0};
    wasmi_words right = pop(guest);
    uint16_t number = (uint16_t)it.immediate;
    uint8_t status;
    if (it.op == UNARY)
        status = wasmi_unary(number, right, &value);
    else if (it.op == BINARY)
        status = wasmi_binary(number, pop(guest), right, &value);
    else if (it.op == LOAD)
        status = wasmi_load(number, guest->region, guest->memory.size, right.lo & UINT32_MAX, 0, &value);
    else
        return wasmi_store(number, guest->region, guest->memory.size, pop(guest).lo & UINT32_MAX, 0, right);
    return status != WASMI_DONE ? status : push(guest, value.lo);
}

static uint8_t run(guest *guest, uint32_t function);

/* The elements of the table are the functions' numbers plus one, since 0 is null. */
static uint8_t call(guest *guest) {
    uint32_t function = 0;
    uint64_t index = pop(guest).lo & UINT32_MAX;
    if (wasmi_table_get(&guest->table, guest->elements, ELEMENTS, index, &function) != WASMI_DONE)
        return TABLE_OUT_OF_BOUNDS;
    return function == 0 ? (uint8_t)CALL_TO_NULL : run(guest, function - 1);
}

static uint8_t step(guest *guest, instruction it, uint64_t *locals, size_t *next) {
    switch (it.op) {
    case CONSTANT:
        return push(guest, it.immediate);
    case GET:
        return push(guest, locals[it.immediate]);
    case SET:
        locals[it.immediate] = pop(guest).lo;
        return WASMI_DONE;
    case SIZE:
        return size(guest);
    case GROW:
        return grow(guest);
    case CALL:
        return call(guest);
    case BRANCH_IF:
        *next = pop(guest).lo != 0 ? it.immediate : *next;
        return WASMI_DONE;
    default:
        return compute(guest, it);
    }
}

/* Runs a function to its end. Each instruction takes one unit of fuel. */
static uint8_t run(guest *guest, uint32_t function) {
    uint64_t left = 0, locals[LOCALS] = {0, 0};
    size_t next = 0;
    if (guest->depth == DEPTH)
        return STACK_OVERFLOW;
    guest->depth++;
    uint8_t status = WASMI_DONE;
    while (status == WASMI_DONE) {
        instruction it = guest->functions[function][next++];
        if (it.op == END)
            break;
        status = wasmi_fuel_consume(&guest->meter, 1, &left) != WASMI_DONE ? (uint8_t)OUT_OF_FUEL
                                                                            : step(guest, it, locals, &next);
    }
    guest->depth--;
    return status;
}

/* Makes a memory of one page, at most four, and a table of two elements, of which the last one is the second function. */
static uint8_t make(guest *guest, uint64_t fuel) {
    const wasmi_memory memory = {1, 4, 0, 1, 0, 16};
    const wasmi_table table = {2, 2, 0, 1, 0, WASMI_TYPE_FUNCREF};
    const wasmi_meter meter = {fuel, 64, 7, 2, 1};
    guest->memory = memory;
    guest->table = table;
    guest->meter = meter;
    uint8_t status = wasmi_memory_new(&guest->memory, guest->region, REGION, guest->quota);
    if (status == WASMI_DONE)
        status = wasmi_table_new(&guest->table, guest->elements, ELEMENTS, 0, guest->quota);
    if (status == WASMI_DONE)
        status = wasmi_table_set(&guest->table, guest->elements, ELEMENTS, 1, 2);
    return status;
}

/* Squares below 10, in the second page, and their sum. */
static const instruction sum_of_squares[] = {
    {CONSTANT, 1}, {GROW, 0}, {SET, 1}, {CONSTANT, 0}, {SET, 1},
    /* 5 */ {GET, 0}, {CONSTANT, 4}, {BINARY, WASMI_BINARY_I32_MUL}, {CONSTANT, PAGE}, {BINARY, WASMI_BINARY_I32_ADD},
    /* 10 */ {GET, 0}, {GET, 0}, {BINARY, WASMI_BINARY_I32_MUL}, {STORE, WASMI_STORE_STORE32},
    /* 14 */ {GET, 0}, {CONSTANT, 4}, {BINARY, WASMI_BINARY_I32_MUL}, {CONSTANT, PAGE}, {BINARY, WASMI_BINARY_I32_ADD},
    /* 19 */ {LOAD, WASMI_LOAD_LOAD_U32}, {GET, 1}, {BINARY, WASMI_BINARY_I32_ADD}, {SET, 1},
    /* 23 */ {GET, 0}, {CONSTANT, 1}, {BINARY, WASMI_BINARY_I32_ADD}, {SET, 0},
    /* 27 */ {GET, 0}, {CONSTANT, 10}, {BINARY, WASMI_BINARY_I32_LT_S}, {BRANCH_IF, 5}, {GET, 1}, {END, 0}};
static const instruction greedy[] = {{CONSTANT, 3}, {GROW, 0}, {CONSTANT, 2}, {GROW, 0}, {SIZE, 0}, {END, 0}};
static const instruction call_of_one[] = {{CONSTANT, 1}, {CALL, 0}, {END, 0}};
static const instruction call_of_null[] = {{CONSTANT, 0}, {CALL, 0}, {END, 0}};
static const instruction call_past_the_end[] = {{CONSTANT, 2}, {CALL, 0}, {END, 0}};
static const instruction bits[] = {{CONSTANT, 0xf0f0}, {UNARY, WASMI_UNARY_I32_POPCNT}, {END, 0}};
static const instruction division[] = {
    {CONSTANT, 7}, {CONSTANT, 0}, {BINARY, WASMI_BINARY_I32_DIV_S}, {END, 0}};
static const instruction load_past_the_end[] = {{CONSTANT, REGION - 3}, {LOAD, WASMI_LOAD_LOAD_U32}, {END, 0}};

/* Gives a guest fuel; its meter is on. */
static void refuel(guest *guest, uint64_t fuel) {
    if (wasmi_fuel_set(&guest->meter, fuel) != WASMI_DONE)
        abort();
}

/* Runs a function of a guest, which may call another one, and prints how it ends and what it has then. */
static void report(guest *guest, const char *name, const instruction *first, const instruction *second) {
    guest->functions[0] = first;
    guest->functions[1] = second;
    guest->height = 0;
    guest->depth = 0;
    uint8_t status = run(guest, 0);
    printf("%s: status %d, stack", name, status);
    for (size_t i = 0; i < guest->height; i++)
        printf(" %" PRIu64, guest->stack[i].lo);
    printf("; %" PRIu64 " fuel, %zu bytes; the quota holds %" PRIu64 " bytes, %" PRIu64 " elements\n",
           guest->meter.left, guest->memory.size, guest->quota->held_bytes, guest->quota->held_elements);
}

int main(void) {
    static uint8_t regions[2][REGION];
    static guest guests[2];
    wasmi_quota quota = {5 * PAGE, 4, 0, 0, 0, 0, 1};
    for (int i = 0; i < 2; i++) {
        guests[i].region = regions[i];
        guests[i].quota = &quota;
        printf("guest %d: status %d\n", i, make(&guests[i], 4000));
    }
    report(&guests[0], "sum of squares", sum_of_squares, bits);
    refuel(&guests[1], 10);
    report(&guests[1], "growths by 3 and by 2 without fuel", greedy, bits);
    refuel(&guests[1], 4000);
    report(&guests[1], "growths by 3 and by 2", greedy, bits);
    report(&guests[0], "growths beyond the type and the quota", greedy, bits);
    report(&guests[1], "a call", call_of_one, bits);
    report(&guests[1], "a call of null", call_of_null, bits);
    report(&guests[1], "a call past the end", call_past_the_end, bits);
    report(&guests[1], "a function that calls itself", call_of_one, call_of_one);
    report(&guests[1], "a division by zero", division, bits);
    report(&guests[1], "a load past the end", load_past_the_end, bits);
    return 0;
}

/* It prints:
guest 0: status 0
guest 1: status 0
sum of squares: status 0, stack 285; 2710 fuel, 131072 bytes; the quota holds 196608 bytes, 4 elements
growths by 3 and by 2 without fuel: status 10, stack 4294967295; 6 fuel, 65536 bytes; the quota holds 196608 bytes, 4 elements
growths by 3 and by 2: status 0, stack 4294967295 1 3; 1947 fuel, 196608 bytes; the quota holds 327680 bytes, 4 elements
growths beyond the type and the quota: status 0, stack 4294967295 4294967295 2; 2705 fuel, 131072 bytes; the quota holds 327680 bytes, 4 elements
a call: status 0, stack 8; 1943 fuel, 196608 bytes; the quota holds 327680 bytes, 4 elements
a call of null: status 4, stack; 1941 fuel, 196608 bytes; the quota holds 327680 bytes, 4 elements
a call past the end: status 3, stack; 1939 fuel, 196608 bytes; the quota holds 327680 bytes, 4 elements
a function that calls itself: status 8, stack; 1923 fuel, 196608 bytes; the quota holds 327680 bytes, 4 elements
a division by zero: status 5, stack; 1920 fuel, 196608 bytes; the quota holds 327680 bytes, 4 elements
a load past the end: status 2, stack; 1918 fuel, 196608 bytes; the quota holds 327680 bytes, 4 elements
*/
