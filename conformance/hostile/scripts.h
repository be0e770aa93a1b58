/* What programs of random scripts share: lines, and how a script's text is compared with that of its parts. */
#ifndef SCRIPTS_H
#define SCRIPTS_H

#include "blocks.h"
#include "hostile.h"

enum { PAGE = 65536, TEXT = 1 << 16 };

static char script[TEXT], printed[TEXT], whole[TEXT], dots[TEXT];

static uint64_t number(void) {
    static const uint64_t borders[] = {0, 255, PAGE, UINT32_MAX, UINT64_C(1) << 48, INT64_MAX, UINT64_MAX};
    uint64_t form = below(12);
    return form < 8 ? below(6) : form < 11 ? below(2 * PAGE) : borders[below(7)];
}

/* Lines: a capital letter stands for a random word. K is a small index, D a register, N a number, B a byte, L a lane,
   T a type of references, V a type of values, M a maximum, X more than there is. */

static const char *const FORMS[] = {
    "fuel N", "left", "memory K M 16 32", "memory B M 0 64", "memory X none 0 64", "lent 1 M 16 32", "grow K K", "grow K X", "drop memory K",
    "read K N B", "write K N B B B", "write K K B B B B B B B B B B B B B B B B", "write K N",
    "load i64_load32_s K N K", "store store64 K N K N",
    "table T K M 32 T N", "table T B M 64 T N", "tgrow K K T N", "tgrow K X T N", "drop table K", "get K K", "tset K K T N",
    "init K K K K K", "copy K K K K K", "fill K K T N K", "segment T N N N", "segment T", "empty K", "global V var N N",
    "global V const N N", "gset K V N N", "gget K", "set D N N", "show D", "make i32x4_splat D D", "unary i32x4_neg D D",
    "binary i16x8_mul D D D", "ternary v128_bitselect D D D D", "shift i64x2_shl D D K", "test i8x16_bitmask D",
    "extract i64x2_extract_lane D L", "replace i64x2_replace_lane D D L D", "vload v128_load D K N K",
    "vloadlane v128_load64_lane D D L K N K", "vstore D K N K", "vstorelane v128_store64_lane D L K N K",
    "shuffle D D D K K K K K K K K K K K K K K K K", "",
};
static const char *const BAD_FORMS[] = {"as 0", "meter off", "quota N N", "show", "\xff", "left N", "unknown"};

static char *word(char *at, char letter) {
    static const char *const types[] = {"i32", "i64", "f32", "f64", "v128", "funcref", "externref"};
    switch (letter) {
        case 'K': return at + sprintf(at, "%" PRIu64, below(3));
        case 'D': return at + sprintf(at, "%" PRIu64, below(40) ? below(5) : below(256));
        case 'N': return at + sprintf(at, "%" PRIu64, number());
        case 'B': return at + sprintf(at, "%" PRIu64, below(256));
        case 'L': return at + sprintf(at, "%" PRIu64, below(2));
        case 'T': return at + sprintf(at, "%s", below(4) ? "func" : "extern");
        case 'V': return at + sprintf(at, "%s", types[below(7)]);
        case 'M': return at + sprintf(at, "%s", below(2) ? "none" : "300");
        case 'X': return at + sprintf(at, "%" PRIu64, (UINT64_C(1) << 47) + below(6));
        default: *at = letter; return at + 1;
    }
}

static char *line(char *at, const char *form) {
    for (; *form; form++) {
        at = word(at, *form);
    }
    *at = '\n';
    return at + 1;
}

static size_t lines_in(const char *text, size_t len) {
    size_t count = 0;
    for (size_t i = 0; i < len; i++)
        count += text[i] == '\n';
    return count;
}

/* Each request for memory of a script refused in turn: the status says for what there was none, and what is printed is
   that sentence, the beginning of what is printed otherwise, or a line for each call. */
static void refused_in_turn(size_t size, size_t len) {
    static const char sentence[] = "out of memory\n";
    for (long request = 1;; request++) {
        size_t needed = 0;
        requests = 0, refused = request;
        uint8_t ended = wasmi_script_run((uint8_t *)script, size, (uint8_t *)whole, TEXT, &needed);
        int was_refused = requests >= request;
        refused = 0;
        if (!was_refused)
            return;
        bool says_so = needed == strlen(sentence) && memcmp(whole, sentence, needed) == 0;
        bool begins = needed < len && memcmp(whole, printed, needed) == 0;
        if (ended == 3 ? !says_so : ended == 4 ? !begins : ended != 0 || lines_in(whole, needed) != lines_in(printed, len))
            differs("a request for memory is refused", script);
    }
}

/* Whether the script up to a place prints what its parts have, whole, and no block of memory is left. */
static void same_whole(char *end, size_t len) {
    size_t needed = 0;
    uint8_t ended = wasmi_script_run((uint8_t *)script, (size_t)(end - script), (uint8_t *)whole, TEXT, &needed);
    *end = 0;
    if (ended != 0 || needed != len || memcmp(whole, printed, len) != 0) {
        differs("a whole script", script);
    }
    if (len % 8 == 0)
        refused_in_turn((size_t)(end - script), len);
    if (blocks != 0) {
        differs("memory wasn't given back", script);
        blocks = 0;
    }
}

/* Tries so many scripts, as the arguments say. */
static int try_scripts(int count, char **arguments, void (*one_script)(void)) {
    uint64_t scripts = argument(count, arguments, 1, 2000), seed = argument(count, arguments, 2, 1);
    memset(dots, '.', sizeof dots);
    for (uint64_t i = 0; i < scripts; i++) {
        random_state = seed + i * 1000003;
        one_script();
    }
    printf("%" PRIu64 " scripts, %ld differ\n", scripts, differing);
    return differing != 0;
}

#endif
