/* What a script says, continued on a machine that lives on: lines in parts, and calls between them. It is C and C++. */
#include "wasmi_machine.h"
#include <inttypes.h>
#include <stdio.h>
#include <string.h>

static wasmi_machine machine; /* zeros: a handle without a machine */

/* Runs lines, and prints the reply and as much of the text as room has. */
static void run(const char *lines, size_t room) {
    uint8_t text[256];
    memset(text, '.', sizeof text);
    wasmi_reply reply = wasmi_machine_run_lines(&machine, (const uint8_t *)lines, strlen(lines), text, room);
    printf("status %d, number %" PRIu64 "\n", reply.status, reply.number);
    if (reply.status == WASMI_DONE) {
        fwrite(text, 1, reply.number < room ? reply.number : room, stdout);
    }
    if (reply.number > room) {
        printf("..\n");
    }
}

int main(void) {
    const wasmi_limits limits = {4 * 65536, 8, 64, 7, 2, 1, 0};
    printf("made: %d\n", wasmi_machine_new(&machine, &limits));
    run("fuel 5000\nmemory 1 8 16 32\ngrow 0 1\nleft\n", 256);
    printf("taken: %d\n", wasmi_machine_consume_fuel(&machine, 1000).status);
    run("left\nwrite 0 131070 7 8\nread 0 131068 4\ngrow 0 9\ngrow 0 2\nleft", 256);
    run("table func 3 none 32 func 5\nfill 0 1 func 6 2\nget 0 2\ntgrow 0 6 func 0\n", 256);
    run("set 0 1 2\nbinary i64x2_add 1 0 0\nshow 1\nlent 1 1 16 32\n", 256);
    run("left\nshow x\n", 256);      /* a bad line: nothing is run */
    run("quota 1 1\nleft\n", 256);   /* a header line: the machine has its limits */
    run("read 0 131068 4\n", 5);     /* room for the front of the text */
    run("", 256);
    wasmi_machine_drop(&machine);
    run("left\n", 256);              /* the handle has no machine */
    return 0;
}

/* It prints:
made: 0
status 0, number 33
done
memory 0
value 1
value 3976
taken: 0
status 0, number 82
value 2976
done
bytes 0 0 7 8
error out of bounds memory growth
value 2
value 928
status 0, number 69
table 0
done
func 6
error out of bounds table access: `table.growth`
status 0, number 28
done
done
raw 2 4
no region
status 23, number 2
status 24, number 0
status 0, number 14
bytes..
status 0, number 0
status 16, number 0
*/
