/* The time of calls on a tenant of a pool beside the same calls on a machine, in nanoseconds a call: the least of all
   rounds, which alternate. The status is 1 if a call on a tenant gives something else than on a machine.
   usage: pool [ROUNDS] */
#define _POSIX_C_SOURCE 199309L
#include "wasmi_core.h"
#include "wasmi_machine.h"
#include <stdio.h>
#include <stdlib.h>
#include <time.h>

/* Places what is linked after it so many bytes further. */
#ifdef SKIP
#define TEXT(number) #number
#define SKIPPED(number) ".text\n.skip " TEXT(number) ", 0x90\n"
__asm__(SKIPPED(SKIP));
#endif

enum { CALLS = 200000, TENANTS = 8, TENANT = 5, PAGE = 65536 };

static wasmi_machine machine;
static wasmi_pool pool;
static uint64_t word, seen;
static uint8_t bytes[8];

static double now(void) {
    struct timespec at;
    clock_gettime(CLOCK_PROCESS_CPUTIME_ID, &at);
    return (double)at.tv_sec * 1e9 + (double)at.tv_nsec;
}

static wasmi_reply on_machine(wasmi_call call) { return wasmi_machine_call(&machine, &call); }

static wasmi_reply on_tenant(wasmi_call call) { return wasmi_pool_call(&pool, TENANT, &call); }

/* A loop of one call, in which I counts. */
#define LOOP(name, call)                    \
    static double name(void) {              \
        double from = now();                \
        for (uint64_t i = 0; i < CALLS; i++) \
            seen += (call);                 \
        return (now() - from) / CALLS;      \
    }

#define PTR (i * 8 & (PAGE - 8))
#define LOAD ((wasmi_call){.kind = WASMI_CALL_LOAD, .op = 11, .ptr = PTR})
#define STORE ((wasmi_call){.kind = WASMI_CALL_STORE, .op = 6, .ptr = PTR, .value = {i, 0}})
#define BINARY ((wasmi_call){.kind = WASMI_CALL_BINARY, .op = BINARY_OP, .dst = 0, .a = 1, .b = 2})
#define GROW ((wasmi_call){.kind = WASMI_CALL_GROW_MEMORY})
#define READ ((wasmi_call){.kind = WASMI_CALL_GET_REGISTER, .a = 1})

enum { BINARY_OP = WASMI_BINARY_I32X4_ADD };

LOOP(machine_load, wasmi_machine_load(&machine, 11, 0, PTR, 0, &word) + word)
LOOP(tenant_load, wasmi_pool_load(&pool, TENANT, 11, 0, PTR, 0, &word) + word)
LOOP(machine_store, wasmi_machine_store(&machine, 6, 0, PTR, 0, i))
LOOP(tenant_store, wasmi_pool_store(&pool, TENANT, 6, 0, PTR, 0, i))
LOOP(machine_binary, wasmi_machine_binary(&machine, BINARY_OP, 0, 1, 2))
LOOP(tenant_binary, wasmi_pool_binary(&pool, TENANT, BINARY_OP, 0, 1, 2))
LOOP(machine_grow, wasmi_machine_grow(&machine, 0, 0, &word) + word)
LOOP(tenant_grow, wasmi_pool_grow(&pool, TENANT, 0, 0, &word) + word)
LOOP(machine_fuel, wasmi_machine_fuel_left(&machine, &word) + word)
LOOP(tenant_fuel, wasmi_pool_fuel_left(&pool, TENANT, &word) + word)
LOOP(machine_denied, wasmi_machine_grow(&machine, 0, 1000, &word) + word)
LOOP(tenant_denied, wasmi_pool_grow(&pool, TENANT, 0, 1000, &word) + word)
LOOP(machine_fill, wasmi_machine_fill(&machine, 0, PTR, 7, 8, &word) + word)
LOOP(tenant_fill, wasmi_pool_fill(&pool, TENANT, 0, PTR, 7, 8, &word) + word)
LOOP(machine_copy, wasmi_machine_copy(&machine, 0, PTR, 0, 8, 8, &word) + word)
LOOP(tenant_copy, wasmi_pool_copy(&pool, TENANT, 0, PTR, 0, 8, 8, &word) + word)
LOOP(machine_init, wasmi_machine_init(&machine, 0, 0, PTR, 0, 8, &word) + word)
LOOP(tenant_init, wasmi_pool_init(&pool, TENANT, 0, 0, PTR, 0, 8, &word) + word)
LOOP(machine_take, wasmi_machine_consume_fuel(&machine, 1).number)
LOOP(tenant_take, wasmi_pool_consume_fuel(&pool, TENANT, 1).number)
LOOP(machine_read, wasmi_machine_read(&machine, 0, PTR, bytes, sizeof bytes).status)
LOOP(tenant_read, wasmi_pool_read(&pool, TENANT, 0, PTR, bytes, sizeof bytes).status)
LOOP(machine_write, wasmi_machine_write(&machine, 0, PTR, bytes, sizeof bytes).status)
LOOP(tenant_write, wasmi_pool_write(&pool, TENANT, 0, PTR, bytes, sizeof bytes).status)
LOOP(machine_load_by_struct, on_machine(LOAD).value.lo)
LOOP(tenant_load_by_struct, on_tenant(LOAD).value.lo)
LOOP(machine_store_by_struct, on_machine(STORE).status)
LOOP(tenant_store_by_struct, on_tenant(STORE).status)
LOOP(machine_binary_by_struct, on_machine(BINARY).status)
LOOP(tenant_binary_by_struct, on_tenant(BINARY).status)
LOOP(machine_grow_by_struct, on_machine(GROW).number)
LOOP(tenant_grow_by_struct, on_tenant(GROW).number)
LOOP(machine_register_by_struct, on_machine(READ).value.lo)
LOOP(tenant_register_by_struct, on_tenant(READ).value.lo)

#define ROW(of) {#of, machine_##of, tenant_##of, 1e9, 1e9}
static struct row {
    const char *name;
    double (*machine)(void), (*tenant)(void);
    double on_machine, on_tenant;
} rows[] = {ROW(load),           ROW(store),           ROW(binary),           ROW(grow),           ROW(fuel),
            ROW(denied),         ROW(fill),            ROW(copy),             ROW(init),           ROW(take),
            ROW(read),           ROW(write),           ROW(load_by_struct),   ROW(store_by_struct), ROW(binary_by_struct),
            ROW(grow_by_struct), ROW(register_by_struct)};

static void made(void) {
    wasmi_limits limits = {.bytes = 64 * PAGE, .elements = 64, .bytes_copied_per_fuel = 64, .is_metered = 1};
    wasmi_call memory = {.kind = WASMI_CALL_NEW_MEMORY, .count = 1, .page_size_log2 = 16};
    wasmi_call fuel = {.kind = WASMI_CALL_SET_FUEL, .count = UINT64_MAX};
    if (wasmi_machine_new(&machine, &limits) || wasmi_pool_new(&pool, 64 * PAGE, 64)) {
        exit(1);
    }
    for (int i = 0; i < TENANTS; i++) {
        seen += wasmi_pool_add(&pool, &limits).status;
    }
    if (on_machine(fuel).status || on_tenant(fuel).status || on_machine(memory).status || on_tenant(memory).status
        || wasmi_machine_new_data(&machine, bytes, sizeof bytes).status
        || wasmi_pool_new_data(&pool, TENANT, bytes, sizeof bytes).status) {
        exit(1);
    }
}

/* Takes the time of a loop if it is the least, and returns what the loop has seen. */
static uint64_t taken(double (*loop)(void), double *least) {
    seen = 0;
    double time = loop();
    *least = time < *least ? time : *least;
    return seen;
}

int main(int argc, char **argv) {
    int rounds = argc > 1 ? atoi(argv[1]) : 40;
    made();
    for (int round = 0; round < rounds; round++) {
        for (size_t i = 0; i < sizeof rows / sizeof *rows; i++) {
            if (taken(rows[i].machine, &rows[i].on_machine) != taken(rows[i].tenant, &rows[i].on_tenant)) {
                fprintf(stderr, "%s: another result than on a machine\n", rows[i].name);
                return 1;
            }
        }
    }
    for (size_t i = 0; i < sizeof rows / sizeof *rows; i++) {
        printf("%-20s machine %6.2f  tenant %6.2f  %5.2f\n", rows[i].name, rows[i].on_machine, rows[i].on_tenant,
               rows[i].on_tenant / rows[i].on_machine);
    }
    wasmi_machine_drop(&machine);
    wasmi_pool_drop(&pool);
    return 0;
}
