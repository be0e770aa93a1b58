/* A machine under a cap of two pages, whose memory grows up to the cap and is then refused. It is C and C++. */
#include "wasmi_machine.h"
#include "wasmi_status.h"
#include <stdio.h>

static wasmi_machine machine; /* zeros: a handle without a machine */
static wasmi_limits limits;
static wasmi_call memory;

int main(void) {
    uint64_t old_pages = 0;
    limits.bytes = 2 * 65536;
    memory.kind = WASMI_CALL_NEW_MEMORY;
    memory.count = 1; /* page */
    memory.page_size_log2 = 16;
    if (wasmi_machine_new(&machine, &limits) || wasmi_machine_call(&machine, &memory).status)
        return 1;
    for (int i = 0; i < 2; i++)
        puts(wasmi_status_name(wasmi_machine_grow(&machine, 0, 1, &old_pages)));
    wasmi_machine_drop(&machine);
    return 0;
}

/* It prints:
DONE
MEMORY_GROWTH
*/
