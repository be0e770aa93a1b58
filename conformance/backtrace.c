/* A backtrace passes through the library: each call here is given a pointer that leads nowhere, and the handler of the
   signal has to find the function that made the call, above the library's own. It prints `N backtraces, M cut off`. */
#define _GNU_SOURCE
#include "wasmi_instructions.h"
#include "wasmi_memory.h"
#include <execinfo.h>
#include <setjmp.h>
#include <signal.h>
#include <stdio.h>

enum { MOST = 64, LEN = 100 };

static uint8_t *volatile nowhere = (uint8_t *)64;
static volatile uint8_t status;
static sigjmp_buf after;
static void *wanted;
static volatile int is_found;

static void on_signal(int number) {
    void *frames[MOST];
    int count = backtrace(frames, MOST);
    for (int i = 0; i < count; i++)
        is_found |= frames[i] == wanted;
    siglongjmp(after, number);
}

static void load(void) {
    uint64_t value;
    status = wasmi_load_u64(nowhere, LEN, 0, 0, &value);
}

static void write_bytes(void) {
    const wasmi_memory memory = {LEN, 0, LEN, 0, 0, 0};
    static uint8_t region[LEN];
    status = wasmi_memory_write(&memory, region, LEN, 0, nowhere, LEN);
}

static void fill(void) {
    const wasmi_memory memory = {LEN, 0, LEN, 0, 0, 0};
    const wasmi_range range = {0, 0, LEN};
    wasmi_meter meter = {0, 0, 0, 0, 0};
    uint64_t number;
    status = wasmi_memory_fill(&memory, nowhere, LEN, &range, 7, &meter, &number);
}

static void set(void) {
    const wasmi_table table = {LEN, 0, LEN, 0, 0, WASMI_TYPE_FUNCREF};
    status = wasmi_table_set(&table, (uint32_t *)(void *)nowhere, LEN, 3, 7);
}

static void binary_in_machine(void) {
    status = wasmi_machine_binary((wasmi_machine *)(void *)nowhere, WASMI_BINARY_I8X16_ADD, 0, 1, 2);
}

static void run(void) {
    uint8_t text[LEN];
    size_t needed;
    status = wasmi_script_run(nowhere, LEN, text, LEN, &needed);
}

/* Calls a function, to whose caller the frames have to come. */
__attribute__((noinline)) static void called(void (*call)(void)) {
    wanted = __builtin_return_address(0);
    call();
    status = 0;
}

int main(void) {
    void (*const calls[])(void) = {load, write_bytes, fill, set, binary_in_machine, run};
    enum { COUNT = sizeof calls / sizeof calls[0] };
    struct sigaction action = {0};
    void *first[1];
    volatile int cut_off = 0;
    action.sa_handler = on_signal;
    sigaction(SIGSEGV, &action, NULL);
    /* The first backtrace loads what all of them take. */
    backtrace(first, 1);
    for (volatile int i = 0; i < COUNT; i++) {
        is_found = 0;
        if (sigsetjmp(after, 1) == 0)
            called(calls[i]);
        cut_off += !is_found;
    }
    printf("%d backtraces, %d cut off\n", COUNT, cut_off);
    return cut_off != 0;
}
