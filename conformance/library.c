/* Answers requests on standard input by the proved static library, one line each: a shape, the number of an instruction, its lane if it
   has one, the address, and the words of its operands. A load or a store works on one page of bytes. A store answers with the 32 bytes
   around its address too, `sum` with a sum over the page, `fill` fills the page anew, and `script LENGTH` runs the bytes after its
   line: it answers with the status, the number of lines and the lines. */
#include "wasmi_core.h"
#include <inttypes.h>
#include <stdio.h>
#include <stdlib.h>
#include <string.h>
#include <sys/resource.h>

enum { PAGE = 65536, AROUND = 32, SCRIPT = 1 << 20 };

static uint8_t page[PAGE];

static uint64_t word(void) {
    uint64_t value = 0;
    if (scanf("%" SCNu64, &value) != 1) {
        fprintf(stderr, "a request of another form\n");
        exit(2);
    }
    return value;
}

static wasmi_words words(void) {
    uint64_t lo = word(), hi = word();
    return (wasmi_words){lo, hi};
}

static void answer(uint8_t status, wasmi_words value) {
    printf("%d %" PRIu64 " %" PRIu64, status, value.lo, value.hi);
}

/* The bytes from 8 before an address, or the first or last ones of the page. */
static void around(uint64_t ptr, uint64_t offset) {
    uint64_t at = ptr > PAGE || offset > PAGE ? PAGE : ptr + offset;
    uint64_t start = at < 8 ? 0 : at - 8 > PAGE - AROUND ? PAGE - AROUND : at - 8;
    for (int i = 0; i < AROUND; i++) {
        printf(" %d", page[start + i]);
    }
}

static void fill(void) {
    for (uint32_t i = 0; i < PAGE; i++) {
        page[i] = (uint8_t)(i * 37 + (i >> 8) * 11 + 5);
    }
    printf("filled");
}

static void sum(void) {
    uint32_t total = 0;
    for (uint32_t i = 0; i < PAGE; i++) {
        total = total * 31 + page[i];
    }
    printf("%" PRIu32, total);
}

static void run_script(void) {
    static uint8_t script[SCRIPT];
    static uint8_t text[16 * SCRIPT];
    size_t length = (size_t)word(), needed = 0, lines = 0;
    if (length > SCRIPT || getchar() != '\n' || fread(script, 1, length, stdin) != length) {
        exit(2);
    }
    uint8_t status = wasmi_script_run(script, length, text, sizeof text, &needed);
    for (size_t i = 0; i < needed; i++) {
        lines += text[i] == '\n';
    }
    printf("%d %zu%s", status, lines, needed ? "\n" : "");
    fwrite(text, 1, needed ? needed - 1 : 0, stdout);
}

static void on_values(const char *shape) {
    wasmi_words value = {0, 0};
    uint16_t number = (uint16_t)word();
    uint8_t lane = strstr(shape, "lane") ? (uint8_t)word() : 0;
    wasmi_words a = words(), b = words(), c = words();
    uint8_t status = !strcmp(shape, "unary")        ? wasmi_unary(number, a, &value)
                     : !strcmp(shape, "binary")     ? wasmi_binary(number, a, b, &value)
                     : !strcmp(shape, "ternary")    ? wasmi_ternary(number, a, b, c, &value)
                     : !strcmp(shape, "extract_lane") ? wasmi_extract_lane(number, lane, a, &value)
                                                    : wasmi_replace_lane(number, lane, a, b, &value);
    answer(status, value);
}

static void on_page(const char *shape) {
    wasmi_words value = {0, 0};
    uint16_t number = (uint16_t)word();
    uint8_t lane = strstr(shape, "lane") ? (uint8_t)word() : 0;
    uint64_t ptr = word(), offset = word();
    wasmi_words a = words();
    uint8_t status = !strcmp(shape, "load")        ? wasmi_load(number, page, PAGE, ptr, offset, &value)
                     : !strcmp(shape, "load_lane") ? wasmi_load_lane(number, lane, page, PAGE, ptr, offset, a, &value)
                     : !strcmp(shape, "store")     ? wasmi_store(number, page, PAGE, ptr, offset, a)
                                                   : wasmi_store_lane(number, lane, page, PAGE, ptr, offset, a);
    answer(status, value);
    if (strstr(shape, "store")) {
        around(ptr, offset);
    }
}

int main(void) {
    const struct rlimit most = {(rlim_t)1 << 31, (rlim_t)1 << 31};
    setrlimit(RLIMIT_AS, &most);
    char shape[16];
    while (scanf("%15s", shape) == 1) {
        if (!strcmp(shape, "fill")) {
            fill();
        } else if (!strcmp(shape, "sum")) {
            sum();
        } else if (!strcmp(shape, "script")) {
            run_script();
        } else if (strstr(shape, "load") || strstr(shape, "store")) {
            on_page(shape);
        } else {
            on_values(shape);
        }
        putchar('\n');
        fflush(stdout);
    }
    return 0;
}
