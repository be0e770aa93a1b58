/* The time of calls by name beside the same in plain C, in nanoseconds a call: the least of all rounds, which alternate.
   With -DINLINE the calls are those of wasmi_inline.h. The status is 1 if a call gives something else than plain C.
   usage: calls [ROUNDS] */
#define _POSIX_C_SOURCE 199309L
#ifdef INLINE
#include "wasmi_inline.h"
#else
#include "wasmi_instructions.h"
#endif
#include "wasmi_memory.h"
#include <stdio.h>
#include <stdlib.h>
#include <string.h>
#include <time.h>

enum { CALLS = 200000, PAGE = 65536 };

static uint8_t memory[PAGE];
static uint32_t elements[64];
static uint64_t seen, word, number;
static int32_t small;
static uint32_t element;
static wasmi_memory own = {.minimum = 1, .maximum = 1, .page_size_log2 = 16};
static wasmi_table table = {.minimum = 64, .maximum = 64, .type = WASMI_TYPE_FUNCREF};
static wasmi_quota none;
static wasmi_meter meter = {.left = UINT64_MAX, .bytes_copied_per_fuel = 64, .is_on = 1}, off;

static double now(void) {
    struct timespec at;
    clock_gettime(CLOCK_PROCESS_CPUTIME_ID, &at);
    return (double)at.tv_sec * 1e9 + (double)at.tv_nsec;
}

/* A loop of one call, in which I counts. */
#define LOOP(name, call)                     \
    static double name(void) {               \
        double from = now();                 \
        for (uint64_t i = 0; i < CALLS; i++) \
            seen += (uint64_t)(call);        \
        return (now() - from) / CALLS;       \
    }

#define PTR (i * 8 & (PAGE - 64))

static uint8_t plain_load(uint64_t ptr, uint64_t *value) {
    if (ptr > PAGE - 8)
        return WASMI_MEMORY_OUT_OF_BOUNDS;
    memcpy(value, memory + ptr, 8);
    return WASMI_DONE;
}

static uint8_t plain_store(uint64_t ptr, uint64_t value) {
    if (ptr > PAGE - 8)
        return WASMI_MEMORY_OUT_OF_BOUNDS;
    memcpy(memory + ptr, &value, 8);
    return WASMI_DONE;
}

static uint8_t plain_fill(uint64_t ptr) {
    if (ptr > PAGE - 64)
        return WASMI_MEMORY_ACCESS;
    memset(memory + ptr, 7, 64);
    return WASMI_DONE;
}

static uint8_t filled(uint64_t ptr, wasmi_meter *by) {
    wasmi_range range = {.to = ptr, .count = 64};
    return wasmi_memory_fill(&own, memory, PAGE, &range, 7, by, &number);
}

static uint8_t got(uint64_t index, uint32_t *reference) { return wasmi_table_get(&table, elements, 64, index, reference); }

LOOP(plain_add, (uint32_t)small + (uint32_t)i)
LOOP(here_add, wasmi_i32_add(small, (int32_t)i))
LOOP(plain_rotl, (uint64_t)i << (i & 63) | i >> (-i & 63))
LOOP(here_rotl, wasmi_i64_rotl((int64_t)i, (int64_t)(i & 63)))
LOOP(plain_div, (int32_t)i / (int32_t)(i | 1))
LOOP(here_div, wasmi_i32_div_s((int32_t)i, (int32_t)(i | 1), &small) + small)
LOOP(plain_load64, plain_load(PTR, &word) + word)
LOOP(here_load64, wasmi_load_u64(memory, PAGE, PTR, 0, &word) + word)
LOOP(plain_store64, plain_store(PTR, i))
LOOP(here_store64, wasmi_store64(memory, PAGE, PTR, 0, i))
LOOP(plain_fill64, plain_fill(PTR))
LOOP(here_fill64, filled(PTR, &off))
LOOP(plain_metered, plain_fill(PTR) + (meter.left -= 1))
LOOP(here_metered, filled(PTR, &meter) + meter.left)
LOOP(plain_get, elements[i & 63])
LOOP(here_get, got(i & 63, &element) + element)

#define ROW(of) {#of, plain_##of, here_##of, 1e9, 1e9}
static struct row {
    const char *name;
    double (*in_plain)(void), (*in_here)(void);
    double plain, here;
} rows[] = {ROW(add),    ROW(rotl),    ROW(div), ROW(load64), ROW(store64),
            ROW(fill64), ROW(metered), ROW(get)};

/* Takes the time of a loop if it is the least, and returns what the loop has seen and left in the memory, which is the
   same before each loop. */
static uint64_t taken(double (*loop)(void), double *least) {
    seen = 0, small = 5, meter.left = UINT64_MAX;
    for (size_t i = 0; i < PAGE; i++)
        memory[i] = (uint8_t)(i * 31);
    double time = loop();
    *least = time < *least ? time : *least;
    for (size_t i = 0; i < PAGE; i++)
        seen = seen * 31 + memory[i];
    return seen;
}

int main(int argc, char **argv) {
    int rounds = argc > 1 ? atoi(argv[1]) : 60;
    if (wasmi_memory_new(&own, memory, PAGE, &none) || wasmi_table_new(&table, elements, 64, 0, &none)) {
        return 1;
    }
    for (uint32_t i = 0; i < 64; i++)
        elements[i] = i * 7;
    for (int round = 0; round < rounds; round++) {
        for (size_t i = 0; i < sizeof rows / sizeof *rows; i++) {
            if (taken(rows[i].in_plain, &rows[i].plain) != taken(rows[i].in_here, &rows[i].here)) {
                fprintf(stderr, "%s: another result than plain C\n", rows[i].name);
                return 1;
            }
        }
    }
    for (size_t i = 0; i < sizeof rows / sizeof *rows; i++) {
        printf("%-8s plain %6.2f  here %6.2f\n", rows[i].name, rows[i].plain, rows[i].here);
    }
    return 0;
}
