// Runs a driver as a program of the machine: the checksum, and the processor time of the call in milliseconds.
#include "driver.h"
#include <inttypes.h>
#include <stdio.h>
#include <time.h>

static double milliseconds(void) {
    struct timespec now;
    clock_gettime(CLOCK_PROCESS_CPUTIME_ID, &now);
    return now.tv_sec * 1e3 + now.tv_nsec / 1e6;
}

int main(int count, char **words) {
    uint32_t n = count > 1 ? strtoul(words[1], NULL, 10) : 0;
    double begun = milliseconds();
    uint64_t sum = run(n);
    printf("%" PRId64 "\n%.3f\n", (int64_t)sum, milliseconds() - begun);
    return 0;
}
