/* A host that asks for memory once: it sets up a pool of four tenants, each with a page and with reserved slots of
   globals, and then runs a thousand guests on them, with calls and replies in arrays of its own. After the set-up nothing
   asks for memory. Compiled with -DABORTS_ONCE_SET_UP and linked statically with --wrap for malloc, calloc and realloc, a
   request would end the program. It is C and C++. */
#include "wasmi_status.h"
#include <inttypes.h>
#include <stdio.h>
#include <stdlib.h>
#include <string.h>

enum { TENANTS = 4, GUESTS = 1000, CALLS = 4, PAGE = 65536 };

static wasmi_pool pool; /* zeros: a handle without a pool */

#ifdef ABORTS_ONCE_SET_UP
static bool is_set_up;
void *__real_malloc(size_t size);
void *__real_calloc(size_t count, size_t size);
void *__real_realloc(void *old, size_t size);
void *__wrap_malloc(size_t size) { return is_set_up ? (abort(), NULL) : __real_malloc(size); }
void *__wrap_calloc(size_t count, size_t size) { return is_set_up ? (abort(), NULL) : __real_calloc(count, size); }
void *__wrap_realloc(void *old, size_t size) { return is_set_up ? (abort(), NULL) : __real_realloc(old, size); }
#endif

static wasmi_call call_of(uint16_t kind, uint64_t count) {
    wasmi_call call;
    memset(&call, 0, sizeof call);
    call.kind = kind;
    call.count = count;
    call.page_size_log2 = 16; /* no kind but NEW_MEMORY reads it */
    return call;
}

/* Asks for all memory that the guests need. */
static bool set_up(void) {
    const wasmi_room room = {0, 0, 0, 0, GUESTS / TENANTS};
    const wasmi_limits limits = {0, 0, 0, 0, 0, 0, 0};
    const wasmi_call page = call_of(WASMI_CALL_NEW_MEMORY, 1);
    bool is_done = wasmi_pool_new(&pool, (uint64_t)TENANTS * PAGE, 0) == WASMI_DONE;
    for (size_t tenant = 0; is_done && tenant < TENANTS; tenant++)
        is_done = wasmi_pool_add(&pool, &limits).status == WASMI_DONE
                  && wasmi_pool_call(&pool, tenant, &page).status == WASMI_DONE
                  && wasmi_pool_reserve(&pool, tenant, &room) == WASMI_DONE;
    return is_done;
}

/* A guest clears the page, stores its number there and loads it, and makes a global: whether all that was done. */
static bool runs(uint64_t guest, wasmi_reply replies[CALLS]) {
    wasmi_call calls[CALLS] = {call_of(WASMI_CALL_FILL_MEMORY, PAGE), call_of(WASMI_CALL_STORE, 0),
                               call_of(WASMI_CALL_LOAD, 0), call_of(WASMI_CALL_NEW_GLOBAL, 0)};
    calls[1].op = WASMI_STORE_STORE64;
    calls[1].value.lo = guest;
    calls[2].op = WASMI_LOAD_LOAD_U64;
    calls[3].type = WASMI_TYPE_I64;
    bool is_done = wasmi_pool_run_into(&pool, (size_t)guest % TENANTS, calls, CALLS, replies, CALLS) == WASMI_DONE;
    for (int i = 0; i < CALLS; i++)
        is_done = is_done && replies[i].status == WASMI_DONE;
    return is_done && replies[2].value.lo == guest;
}

int main(void) {
    wasmi_reply replies[CALLS];
    int done = 0;
    printf("set up: %s\n", set_up() ? "done" : "refused");
#ifdef ABORTS_ONCE_SET_UP
    is_set_up = true;
#endif
    for (uint64_t guest = 0; guest < GUESTS; guest++)
        done += runs(guest, replies);
    printf("guests: %d, of which all calls were done: %d\n", GUESTS, done);
    printf("the last global of a tenant: %" PRIu64 "\n", replies[3].number);
    wasmi_pool_drop(&pool);
    return 0;
}

/* It prints:
set up: done
guests: 1000, of which all calls were done: 1000
the last global of a tenant: 249
*/
