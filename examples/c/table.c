/* A table in an array of the caller's: grown in place, under fuel and a limit, filled, copied and initialized, and what is
   refused. It is C and C++. */
#include "wasmi_memory.h"
#include <inttypes.h>
#include <stdio.h>
#include <stdlib.h>
#include <string.h>

enum { ROOM = 12, ITEMS = 3 };

static wasmi_table table, other;
static uint32_t elements[ROOM], others[ROOM];
static wasmi_meter meter;
static wasmi_quota quota;
static uint64_t number;

static void said(const char *name, uint8_t status) {
    printf("%-24s status %2d, number %3" PRIu64 ", fuel %3" PRIu64 ", held %2" PRIu64 ":", name, status, number, meter.left,
           quota.held_elements);
    for (size_t i = 0; i < table.size && i < ROOM; i++)
        printf(" %" PRIu32, elements[i]);
    printf("\n");
    number = 0;
}

/* Sets the fuel that is left; the meter is on. */
static void refuel(uint64_t amount) {
    if (wasmi_fuel_set(&meter, amount) != WASMI_DONE)
        abort();
}

static uint8_t grown(uint64_t delta, size_t room) {
    return wasmi_table_grow(&table, elements, room, delta, 7, &meter, &quota, &number);
}

static void growths(void) {
    said("grow without fuel", grown(2, ROOM));
    refuel(100);
    said("grow by two", grown(2, ROOM));
    said("grow in a short region", grown(2, 7));
    said("grow beyond the maximum", grown(7, ROOM));
    said("grow beyond the cap", grown(100, ROOM));
    said("grow by none", grown(0, ROOM));
}

static void writes(void) {
    const uint32_t items[ITEMS] = {21, 22, 23};
    const wasmi_range init = {1, 1, 2}, up = {2, 0, 4}, past = {4, 0, 3}, fill = {0, 0, 1};
    said("set", wasmi_table_set(&table, elements, ROOM, 0, 5));
    said("set past the end", wasmi_table_set(&table, elements, ROOM, 6, 5));
    said("init", wasmi_table_init(&table, elements, ROOM, items, ITEMS, &init, &meter, &number));
    said("init past the items", wasmi_table_init(&table, elements, ROOM, items, 2, &init, &meter, &number));
    said("copy onto itself", wasmi_table_copy_within(&table, elements, ROOM, &up, &meter, &number));
    said("copy past the end", wasmi_table_copy_within(&table, elements, ROOM, &past, &meter, &number));
    said("fill", wasmi_table_fill(&table, elements, ROOM, &fill, 9, &meter, &number));
    said("copy from another", wasmi_table_copy_from(&table, elements, ROOM, &other, others, ROOM, &init, &meter, &number));
    other.type = WASMI_TYPE_EXTERNREF;
    said("copy of another type", wasmi_table_copy_from(&table, elements, ROOM, &other, others, ROOM, &init, &meter, &number));
    refuel(0);
    said("fill without fuel", wasmi_table_fill(&table, elements, ROOM, &up, 9, &meter, &number));
}

/* A limiter of one's own: it permits any growth, and complains of each that fails. */
static void settled(const char *name, uint64_t delta) {
    wasmi_question question;
    wasmi_answers answers;
    memset(&answers, 0, sizeof answers);
    uint8_t status = wasmi_table_question(&table, elements, ROOM, delta, &question);
    if (status == WASMI_ASKS) {
        answers.current = question.current;
        answers.desired = question.desired;
        answers.answer = 1;
        answers.notice_answer = 1;
        status = wasmi_table_settle(&table, elements, ROOM, delta, 8, &meter, &answers, &number);
    }
    said(name, status);
    printf("%-24s asked %d, told %d\n", "", answers.asked, answers.told);
}

int main(void) {
    const wasmi_meter metered = {0, 1, 7, 2, 1};
    const wasmi_quota limited = {0, 20, 0, 0, 0, 0, 1};
    uint32_t found = 0;
    meter = metered;
    quota = limited;
    table.minimum = 4;
    table.maximum = 10;
    table.has_maximum = 1;
    table.type = WASMI_TYPE_FUNCREF;
    other = table;
    said("new", wasmi_table_new(&table, elements, ROOM, 3, &quota));
    said("another", wasmi_table_new(&other, others, ROOM, 4, &quota));
    growths();
    writes();
    printf("%-24s status %d\n", "get past the end", wasmi_table_get(&table, elements, ROOM, 6, &found));
    printf("%-24s status %d, ", "get", wasmi_table_get(&table, elements, ROOM, 5, &found));
    printf("reference %" PRIu32 "\n", found);
    refuel(10);
    settled("settle two", 2);
    settled("settle beyond", 5);
    table.size = ROOM + 1;
    said("a size past the region", grown(0, ROOM));
    return 0;
}

/* It prints:
new                      status  0, number   0, fuel   0, held  4: 3 3 3 3
another                  status  0, number   0, fuel   0, held  8: 3 3 3 3
grow without fuel        status 58, number   8, fuel   0, held  8: 3 3 3 3
grow by two              status  0, number   4, fuel  92, held 10: 3 3 3 3 7 7
grow in a short region   status 48, number   0, fuel  84, held 10: 3 3 3 3 7 7
grow beyond the maximum  status 52, number   0, fuel  84, held 10: 3 3 3 3 7 7
grow beyond the cap      status 52, number   0, fuel  84, held 10: 3 3 3 3 7 7
grow by none             status  0, number   6, fuel  84, held 10: 3 3 3 3 7 7
set                      status  0, number   0, fuel  84, held 10: 5 3 3 3 7 7
set past the end         status 55, number   0, fuel  84, held 10: 5 3 3 3 7 7
init                     status  0, number   0, fuel  76, held 10: 5 22 23 3 7 7
init past the items      status 53, number   0, fuel  76, held 10: 5 22 23 3 7 7
copy onto itself         status  0, number   0, fuel  60, held 10: 5 22 5 22 23 3
copy past the end        status 56, number   0, fuel  60, held 10: 5 22 5 22 23 3
fill                     status  0, number   0, fuel  56, held 10: 9 22 5 22 23 3
copy from another        status  0, number   0, fuel  48, held 10: 9 4 4 22 23 3
copy of another type     status 57, number   0, fuel  48, held 10: 9 4 4 22 23 3
fill without fuel        status 58, number  16, fuel   0, held 10: 9 4 4 22 23 3
get past the end         status 21
get                      status 0, reference 3
settle two               status  0, number   6, fuel   2, held 10: 9 4 4 22 23 3 8 8
                         asked 1, told 0
settle beyond            status 51, number   0, fuel   2, held 10: 9 4 4 22 23 3 8 8
                         asked 1, told 1
a size past the region   status 96, number   0, fuel   2, held 10: 9 4 4 22 23 3 8 8 0 0 0 0
*/
