/* Runs random scripts twice: whole by wasmi_script_run, and in parts by wasmi_machine_run_lines on a machine that lives
   from part to part; both have to print the same. A second machine gets each part with less room than its text needs.
   Each array ends where a page begins which can't be touched, and a block that is left after the machines of a script
   have ended is a difference. usage: lines SCRIPTS [SEED]. The last line is `N scripts, M differ`; the exit status is 0
   if M is 0. Link it with --wrap for malloc, realloc and free. */
#define _DEFAULT_SOURCE
#include "scripts.h"
#include "wasmi_machine.h"

enum { LINES = 40, PARTS = 6 };

static wasmi_machine machine, narrow;

/* Runs a part on a machine, with so much room, and leaves in `text` what the room has then. */
static wasmi_reply run(wasmi_machine *on, const char *part, size_t len, char *text, size_t room) {
    uint8_t *copy = at_edge(1, dots, room);
    wasmi_reply reply = wasmi_machine_run_lines(on, at_edge(0, part, len), len, copy, room);
    memcpy(text, copy, room);
    return reply;
}

/* The number of the first bad line of a part, if there is one: the script with it is refused, and is as it was without. */
static void bad_part(const char *part, size_t len, uint8_t status, uint64_t number) {
    char expected[64] = "";
    size_t needed = 0;
    uint8_t ended = wasmi_script_run((const uint8_t *)part, len, (uint8_t *)whole, TEXT, &needed);
    if (status == WASMI_BAD_LINE) {
        sprintf(expected, "line %" PRIu64 ": bad command\n", number);
    }
    if (status == WASMI_BAD_LINE ? ended != 2 || strncmp(whole, expected, strlen(expected)) != 0
                                 : status != WASMI_HEADER_LINE || ended != 0) {
        differs("a part that isn't run", part);
    }
}

/* One part on both machines: where it stands if it is run, else it is taken back. */
static char *one_part(char *at, size_t *printed_len) {
    static char text[TEXT], front[TEXT];
    char *from = at;
    for (uint64_t i = below(2 * LINES / PARTS); i > 0; i--) {
        at = below(100) ? line(at, FORMS[below(sizeof FORMS / sizeof *FORMS)]) : line(at, BAD_FORMS[below(7)]);
    }
    size_t len = (size_t)(at - from);
    wasmi_reply reply = run(&machine, from, len, text, TEXT);
    size_t room = (size_t)below(reply.number + 2);
    wasmi_reply same = run(&narrow, from, len, front, room);
    size_t fits = reply.status != WASMI_DONE ? 0 : room < reply.number ? room : (size_t)reply.number;
    if (same.status != reply.status || same.number != reply.number || memcmp(front, text, fits) != 0
        || memcmp(front + fits, dots, room - fits) != 0) {
        *at = 0;
        differs("less room", from);
    }
    if (reply.status != WASMI_DONE) {
        if (memcmp(text, dots, TEXT) != 0) {
            differs("a refused part wrote", from);
        }
        bad_part(from, len, reply.status, reply.number);
        return from;
    }
    memcpy(printed + *printed_len, text, (size_t)reply.number);
    *printed_len += (size_t)reply.number;
    return at;
}

/* Two machines with random answers, and their header line. */
static char *begin_with_answers(char *at, const wasmi_limits *limits) {
    static const char *const words[] = {"permit", "deny", "error", "complain"};
    uint8_t answers[16];
    size_t len = (size_t)below(sizeof answers);
    at += sprintf(at, "answers");
    for (size_t i = 0; i < len; i++) {
        answers[i] = (uint8_t)(below(2) ? below(4) : WASMI_ANSWER_PERMIT);
        at += sprintf(at, " %s", words[answers[i]]);
    }
    if (wasmi_machine_new_with_answers(&machine, limits, answers, len) != WASMI_DONE
        || wasmi_machine_new_with_answers(&narrow, limits, answers, len) != WASMI_DONE) {
        differs("new", "no machine was made with answers");
    }
    return at + sprintf(at, "\n");
}

/* Machines with random limits, and the header lines of the same. */
static char *begin(wasmi_limits *limits) {
    memset(limits, 0, sizeof *limits);
    limits->bytes = below(20) * PAGE + below(4), limits->elements = below(40);
    limits->bytes_copied_per_fuel = (uint32_t)(below(6) ? 64 : below(3));
    limits->fuel_per_bytes_translated = 7, limits->fuel_per_bytes_validated = 2;
    limits->is_metered = (uint8_t)below(2), limits->is_unlimited = (uint8_t)(below(3) == 0);
    char *at = script + sprintf(script, "meter off\n");
    if (limits->is_metered) {
        at = script + sprintf(script, "meter on %" PRIu32 "\n", limits->bytes_copied_per_fuel);
    }
    if (limits->is_unlimited && below(2)) {
        return begin_with_answers(at, limits);
    }
    if (!limits->is_unlimited) {
        at += sprintf(at, "quota %" PRIu64 " %" PRIu64 "\n", limits->bytes, limits->elements);
    }
    if (wasmi_machine_new(&machine, limits) != WASMI_DONE || wasmi_machine_new(&narrow, limits) != WASMI_DONE) {
        differs("new", "no machine was made");
    }
    return at;
}

static void one_script(void) {
    wasmi_limits limits;
    size_t len = 0;
    char *at = begin(&limits);
    for (int part = 0; part < PARTS; part++) {
        at = one_part(at, &len);
    }
    wasmi_totals totals = wasmi_machine_totals(&machine);
    if (!limits.is_unlimited) {
        len += (size_t)sprintf(printed + len, "held %" PRIu64 " %" PRIu64 "\n", totals.bytes.lo, totals.elements.lo);
    }
    wasmi_machine_drop(&machine);
    wasmi_machine_drop(&narrow);
    same_whole(at, len);
}

int main(int count, char **arguments) {
    return try_scripts(count, arguments, one_script);
}
