/* Two plug-ins of a host, the tenants of a pool, which share a cap of four pages and ten elements. It is C and C++. */
#include "wasmi_machine.h"
#include <inttypes.h>
#include <stdio.h>
#include <string.h>

static wasmi_pool pool; /* zeros: a handle without a pool */

static void reply(const char *name, size_t tenant, wasmi_reply reply) {
    printf("plug-in %zu: %-26s status %d, number %" PRIu64 "\n", tenant, name, reply.status, reply.number);
}

static void call(const char *name, size_t tenant, uint16_t kind, uint64_t count) {
    wasmi_call call;
    memset(&call, 0, sizeof call);
    call.kind = kind;
    call.count = count;
    call.page_size_log2 = 16;
    reply(name, tenant, wasmi_pool_call(&pool, tenant, &call));
}

static void held(void) {
    wasmi_totals all = wasmi_pool_totals(&pool);
    for (size_t tenant = 0; tenant < 2; tenant++) {
        wasmi_totals own = wasmi_pool_tenant_totals(&pool, tenant);
        printf("plug-in %zu: %" PRIu64 " bytes, %" PRIu64 " elements\n", tenant, own.bytes.lo, own.elements.lo);
    }
    printf("all: %" PRIu64 " bytes, %" PRIu64 " elements\n", all.bytes.lo, all.elements.lo);
}

/* One plug-in by its calls. */
static void calls(void) {
    const uint8_t greeting[5] = {'h', 'e', 'l', 'l', 'o'};
    uint8_t bytes[5] = {0};
    call("set fuel", 0, WASMI_CALL_SET_FUEL, 2000);
    call("memory of two pages", 0, WASMI_CALL_NEW_MEMORY, 2);
    reply("write", 0, wasmi_pool_write(&pool, 0, 0, 65534, greeting, sizeof greeting));
    reply("read", 0, wasmi_pool_read(&pool, 0, 0, 65534, bytes, sizeof bytes));
    printf("plug-in 0: what was read is %.5s\n", (const char *)bytes);
}

/* The other one by lines. Their text is cut to its array. */
static void lines(void) {
    const char *const text = "fuel 2000\n"
                             "memory 1 none 16 32\n"
                             "table func 8 none 32 func 0\n"
                             "read 0 65531 5\n"
                             "grow 0 2\n"
                             "grow 0 1\n"
                             "left\n";
    uint8_t printed[1024];
    wasmi_reply ran = wasmi_pool_run_lines(&pool, 1, (const uint8_t *)text, strlen(text), printed, sizeof printed);
    reply("lines", 1, ran);
    printf("%.*s", (int)ran.number, (const char *)printed);
}

/* What one has, the other can't get, and what isn't there is refused. */
static void refused(void) {
    call("grow by one", 0, WASMI_CALL_GROW_MEMORY, 1);
    call("no plug-in", 2, WASMI_CALL_GET_FUEL, 0);
    call("fuel left", 0, WASMI_CALL_GET_FUEL, 0);
    call("drop the memory", 0, WASMI_CALL_DROP_MEMORY, 0);
    call("another one", 0, WASMI_CALL_NEW_MEMORY, 1);
}

int main(void) {
    wasmi_limits limits;
    memset(&limits, 0, sizeof limits);
    limits.bytes_copied_per_fuel = 64;
    limits.is_metered = 1;
    printf("new status %d\n", wasmi_pool_new(&pool, 4 * 65536, 10));
    for (size_t tenant = 0; tenant < 2; tenant++) {
        reply("added", tenant, wasmi_pool_add(&pool, &limits));
    }
    calls();
    lines();
    held();
    refused();
    held();
    wasmi_pool_drop(&pool);
    call("call after the end", 0, WASMI_CALL_GET_FUEL, 0);
    return 0;
}

/* It prints:
new status 0
plug-in 0: added                      status 0, number 0
plug-in 1: added                      status 0, number 1
plug-in 0: set fuel                   status 0, number 0
plug-in 0: memory of two pages        status 0, number 0
plug-in 0: write                      status 0, number 0
plug-in 0: read                       status 0, number 0
plug-in 0: what was read is hello
plug-in 1: lines                      status 0, number 90
done
memory 0
table 0
bytes 0 0 0 0 0
error out of bounds memory growth
value 1
value 976
plug-in 0: 131072 bytes, 0 elements
plug-in 1: 131072 bytes, 8 elements
all: 262144 bytes, 8 elements
plug-in 0: grow by one                status 33, number 0
plug-in 2: no plug-in                 status 29, number 0
plug-in 0: fuel left                  status 0, number 2000
plug-in 0: drop the memory            status 0, number 0
plug-in 0: another one                status 37, number 0
plug-in 0: 131072 bytes, 0 elements
plug-in 1: 131072 bytes, 8 elements
all: 262144 bytes, 8 elements
plug-in 0: call after the end         status 27, number 0
*/
