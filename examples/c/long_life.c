/* A host of long life: 100,000 guests, ten at a time, in a pool of ten pages, and 100,000 memories, ten at a time, under
   a quota of ten pages. No guest and no memory is denied, and the process takes no more memory for all guests than for
   the first ten thousand. It is C and C++. */
#define _DEFAULT_SOURCE
#include "wasmi_status.h"
#include <inttypes.h>
#include <stdio.h>
#include <string.h>
#include <sys/resource.h>

enum { LIVING = 10, FIRST = 10000, ALL = 100000, PAGE = 65536 };

/* The most memory that the process had so far, in KiB. */
static long peak(void) {
    struct rusage usage;
    getrusage(RUSAGE_SELF, &usage);
    return usage.ru_maxrss;
}

/* Whether a guest is added, makes its page and has the index that is next. */
static bool guest_runs(wasmi_pool *pool, uint64_t next) {
    wasmi_limits limits;
    wasmi_call call;
    memset(&limits, 0, sizeof limits);
    memset(&call, 0, sizeof call);
    call.kind = WASMI_CALL_NEW_MEMORY;
    call.count = 1;
    call.page_size_log2 = 16;
    wasmi_reply added = wasmi_pool_add(pool, &limits);
    return added.status == WASMI_DONE && added.number == next
           && wasmi_pool_call(pool, (size_t)added.number, &call).status == WASMI_DONE;
}

/* Each guest runs, and ends when ten more have come. */
static void guests(void) {
    wasmi_pool pool;
    uint64_t denied = 0;
    long first = 0;
    memset(&pool, 0, sizeof pool);
    denied += wasmi_pool_new(&pool, (uint64_t)LIVING * PAGE, 0) != WASMI_DONE;
    for (uint64_t guest = 0; guest < ALL; guest++) {
        if (guest >= LIVING)
            denied += wasmi_pool_remove(&pool, (size_t)(guest - LIVING)) != WASMI_DONE;
        denied += !guest_runs(&pool, guest);
        if (guest == FIRST)
            first = peak();
    }
    printf("guests: %d, denied: %" PRIu64 ", %" PRIu64 " bytes are held\n", ALL, denied,
           wasmi_pool_totals(&pool).bytes.lo);
    printf("a guest that is gone: %s\n", wasmi_status_name(wasmi_pool_remove(&pool, 0)));
    printf("memory since guest %d: %s\n", FIRST, peak() - first < 1024 ? "no more" : "more");
    wasmi_pool_drop(&pool);
}

/* Each memory is made, and ends when ten more were made, which use its region again. */
static void memories(void) {
    static uint8_t regions[LIVING][PAGE];
    wasmi_memory memory[LIVING];
    wasmi_quota quota;
    uint64_t denied = 0;
    memset(memory, 0, sizeof memory);
    memset(&quota, 0, sizeof quota);
    quota.is_on = 1;
    quota.cap_bytes = (uint64_t)LIVING * PAGE;
    for (int made = 0; made < ALL; made++) {
        wasmi_memory *own = &memory[made % LIVING];
        uint8_t *region = regions[made % LIVING];
        if (made >= LIVING)
            denied += wasmi_quota_release_memory(&quota, own, region, PAGE) != WASMI_DONE;
        own->minimum = 1;
        own->page_size_log2 = 16;
        denied += wasmi_memory_new(own, region, PAGE, &quota) != WASMI_DONE;
    }
    printf("memories: %d, denied: %" PRIu64 ", %" PRIu64 " bytes are held\n", ALL, denied, quota.held_bytes);
    printf("an end: status %d\n", wasmi_quota_release_memory(&quota, &memory[0], regions[0], PAGE));
    printf("a second end: status %d, %" PRIu64 " bytes are held\n",
           wasmi_quota_release_memory(&quota, &memory[0], regions[0], PAGE), quota.held_bytes);
}

int main(void) {
    guests();
    memories();
    return 0;
}

/* It prints:
guests: 100000, denied: 0, 655360 bytes are held
a guest that is gone: NO_TENANT
memory since guest 10000: no more
memories: 100000, denied: 0, 655360 bytes are held
an end: status 0
a second end: status 96, 589824 bytes are held
*/
