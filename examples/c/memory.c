/* A guest memory in a reserved region of address space: it is grown in place across calls, under fuel and a limit, and
   refused in each way; then under a limiter of one's own. It is C and C++. */
#define _DEFAULT_SOURCE
#include "wasmi_memory.h"
#include <inttypes.h>
#include <stdio.h>
#include <stdlib.h>
#include <string.h>
#include <sys/mman.h>
#include <unistd.h>

#define PAGE ((size_t)65536)

static wasmi_memory memory;
static wasmi_meter meter;
static wasmi_quota quota;
static uint8_t *region;
static size_t reserved = 64 * PAGE;

static void said(const char *name, uint8_t status, uint64_t number) {
    printf("%-24s status %2d, number %5" PRIu64 ", %2zu pages, fuel %" PRIu64 ", held %" PRIu64 "\n", name, status,
           number, memory.size / PAGE, meter.left, quota.held_bytes / PAGE);
}

/* Sets the fuel that is left; the meter is on. */
static void refuel(uint64_t amount) {
    if (wasmi_fuel_set(&meter, amount) != WASMI_DONE)
        abort();
}

static void grow(const char *name, uint64_t pages) {
    uint64_t number = 0;
    uint8_t status = wasmi_memory_grow(&memory, region, reserved, pages, &meter, &quota, &number);
    said(name, status, number);
}

static void under_fuel_and_a_limit(void) {
    grow("grow by none", 0);
    grow("grow without fuel", 1);
    refuel(40000);
    grow("grow by two", 2);
    grow("grow beyond the maximum", 62);
    grow("grow beyond the cap", 38);
    grow("grow up to the cap", 37);
    quota.cap_bytes = UINT64_MAX;
    refuel(1000000);
    reserved = 60 * PAGE;
    grow("grow in a short region", 24);
    reserved = 64 * PAGE;
    grow("grow up to the maximum", 24);
    quota.is_on = 0;
    grow("grow without a quota", 1);
    grow("grow by none again", 0);
}

static void bytes(void) {
    const uint8_t greeting[5] = {'h', 'e', 'l', 'l', 'o'};
    uint8_t read[5] = {0};
    said("write", wasmi_memory_write(&memory, region, reserved, PAGE - 2, greeting, sizeof greeting), 0);
    said("read", wasmi_memory_read(&memory, region, reserved, PAGE - 2, read, sizeof read), 0);
    printf("%-24s %.5s\n", "what was read", (const char *)read);
    said("read past the end", wasmi_memory_read(&memory, region, reserved, 64 * PAGE - 4, read, sizeof read), 0);
}

static void fuel(void) {
    uint64_t number = 0;
    uint8_t status = wasmi_fuel_consume(&meter, 5424, &number);
    said("take fuel", status, number);
    number = 0;
    status = wasmi_fuel_consume(&meter, 1000000, &number);
    said("take too much", status, number);
    printf("%-24s %" PRIu64 "\n", "price of a page", wasmi_fuel_copy_cost(&meter, PAGE));
}

static void forged(void) {
    const wasmi_memory whole = memory;
    memory.size += PAGE;
    grow("a size past the region", 0);
    memory.size = 100;
    grow("no whole pages", 0);
    memory = whole;
    memory.minimum = 65;
    grow("limits out of order", 0);
    memory = whole;
    memory.page_size_log2 = 5;
    grow("pages of 32 bytes", 0);
    memory = whole;
}

/* A limiter of one's own: it permits growths by an even number of pages, and complains of each that fails. */
static void settle(const char *name, uint64_t pages) {
    wasmi_question question;
    wasmi_answers answers;
    uint64_t number = 0;
    memset(&answers, 0, sizeof answers);
    uint8_t status = wasmi_memory_question(&memory, region, reserved, pages, &question);
    if (status == WASMI_ASKS) {
        answers.current = question.current;
        answers.desired = question.desired;
        answers.answer = (question.desired - question.current) / PAGE % 2 == 0;
        answers.notice_answer = 2;
        status = wasmi_memory_settle(&memory, region, reserved, pages, &meter, &answers, &number);
    }
    said(name, status, number);
    printf("%-24s asked %d, told %d\n", "", answers.asked, answers.told);
}

/* Fresh pages of the system are zeros: a growth over 256 MiB of them writes nothing, so they stay with the system. */
static void fresh_pages(void) {
    const size_t most = 4096 * PAGE, size = (size_t)sysconf(_SC_PAGESIZE);
    wasmi_memory large = memory;
    size_t touched = 0;
    uint8_t *fresh = (uint8_t *)mmap(NULL, most, PROT_READ | PROT_WRITE, MAP_PRIVATE | MAP_ANONYMOUS, -1, 0);
    unsigned char *resident = (unsigned char *)malloc(most / size);
    uint64_t number = 0;
    if (fresh == MAP_FAILED || resident == NULL || madvise(fresh, most, MADV_NOHUGEPAGE) < 0)
        return;
    large.maximum = 4096;
    meter.is_on = 0;
    uint8_t status = wasmi_memory_new(&large, fresh, most, &quota);
    if (status == WASMI_DONE)
        status = wasmi_memory_grow_zeroed(&large, fresh, most, 4095, &meter, &quota, &number);
    if (mincore(fresh, most, resident) == 0)
        for (size_t i = 0; i < most / size; i++)
            touched += resident[i] & 1;
    printf("%-24s status %d, %zu pages, %zu of them touched\n", "256 MiB of fresh pages", status, large.size / PAGE,
           (touched * size + PAGE - 1) / PAGE);
    free(resident);
}

int main(void) {
    region = (uint8_t *)mmap(NULL, reserved, PROT_READ | PROT_WRITE, MAP_PRIVATE | MAP_ANONYMOUS, -1, 0);
    if (region == MAP_FAILED)
        return 1;
    const wasmi_meter metered = {0, 64, 7, 2, 1};
    const wasmi_quota limited = {40 * PAGE, 0, 0, 0, 0, 0, 1};
    meter = metered;
    quota = limited;
    memory.minimum = 1;
    memory.maximum = 64;
    memory.has_maximum = 1;
    memory.page_size_log2 = 16;
    said("new", wasmi_memory_new(&memory, region, reserved, &quota), 0);
    under_fuel_and_a_limit();
    bytes();
    fuel();
    forged();
    memory.size = PAGE;
    refuel(3000);
    settle("one page, not permitted", 1);
    settle("two pages", 2);
    settle("two pages, no fuel", 2);
    settle("beyond the maximum", 62);
    uint64_t pages = 0;
    uint8_t status = wasmi_memory_size(&memory, region, reserved, &pages);
    said("size", status, pages);
    fresh_pages();
    return 0;
}

/* It prints:
new                      status  0, number     0,  1 pages, fuel 0, held 1
grow by none             status  0, number     1,  1 pages, fuel 0, held 1
grow without fuel        status 40, number  1024,  1 pages, fuel 0, held 1
grow by two              status  0, number     1,  3 pages, fuel 37952, held 3
grow beyond the maximum  status 33, number     0,  3 pages, fuel 37952, held 3
grow beyond the cap      status 33, number     0,  3 pages, fuel 37952, held 3
grow up to the cap       status  0, number     3, 40 pages, fuel 64, held 40
grow in a short region   status 36, number     0, 40 pages, fuel 1000000, held 40
grow up to the maximum   status  0, number    40, 64 pages, fuel 975424, held 64
grow without a quota     status 33, number     0, 64 pages, fuel 975424, held 64
grow by none again       status  0, number    64, 64 pages, fuel 975424, held 64
write                    status  0, number     0, 64 pages, fuel 975424, held 64
read                     status  0, number     0, 64 pages, fuel 975424, held 64
what was read            hello
read past the end        status 34, number     0, 64 pages, fuel 975424, held 64
take fuel                status  0, number 970000, 64 pages, fuel 970000, held 64
take too much            status 65, number 1000000, 64 pages, fuel 970000, held 64
price of a page          1024
a size past the region   status 96, number     0, 65 pages, fuel 970000, held 64
no whole pages           status 96, number     0,  0 pages, fuel 970000, held 64
limits out of order      status 96, number     0, 64 pages, fuel 970000, held 64
pages of 32 bytes        status 96, number     0, 64 pages, fuel 970000, held 64
one page, not permitted  status 33, number     0,  1 pages, fuel 3000, held 64
                         asked 1, told 0
two pages                status  0, number     1,  3 pages, fuel 952, held 64
                         asked 1, told 0
two pages, no fuel       status 37, number     0,  3 pages, fuel 952, held 64
                         asked 1, told 1
beyond the maximum       status 33, number     0,  3 pages, fuel 952, held 64
                         asked 0, told 0
size                     status  0, number     3,  3 pages, fuel 952, held 64
256 MiB of fresh pages   status 0, 4096 pages, 1 of them touched
*/
