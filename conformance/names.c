/* Compares the instruction of each number of wasmi_core.h with what its name means elsewhere: the scalar ones with a
   list of answers, which is the argument, the others with what scripts print. Then it tries each number for each other
   name of its kind: none passes, except those of one meaning. It compares each call on arrays with the call on values,
   for each element. At the end it sees each status, and compares the version with that of the headers. Nothing but a
   script may ask for memory: it is linked with --wrap for malloc, realloc and free. */
#include "hostile/blocks.h"
#include "wasmi_oracle.h"
#include <inttypes.h>
#include <stdio.h>
#include <stdlib.h>
#include <string.h>

/* Operands, and what an instruction gives for them: the value and 0, or the number of its trap. */
struct trial {
    wasmi_words a, b, c;
    wasmi_result expected;
};

enum { MOST_TRIALS = 32 };

/* Operands on which no two instructions of one kind and of different meaning agree, and the least numbers, on which a
   relaxed product has a choice. */
static const wasmi_words OPERANDS[][3] = {
    {{0x26a391d7fe968f77, 0x8074514c7cb73161}, {0xdf80c7f57be56be3, 0xc6ef0106b80e0c01}, {0, 0}},
    {{0x126c7bc33ba7526d, 0x51e692737a521a7d}, {0x126c7bc33ba7526d, 0x51e69273641927c5}, {0, 1}},
    {{0xeaec48d956a79a47, 0x7f4738f79dd8810d}, {0xeaec78d956a71b98, 0xd48f38d8fad8810d}, {1, 0}},
    {{0x1818e811892f902b, 0x9531985d5d9dc9f8}, {0xe8e25d940ed90475, 0x36f675cc81e74ef5},
     {0x1600a35a099950d8, 0x6b0d549b6f03675a}},
    {{0xa82e478c09381efa, 0xd534c087ed7c5da0}, {77, 0}, {0, 0}},
    {{0xcda5d9c3e487efd5, 0x91fdf8b68ae9c8d5}, {0xa4845a65b215d19c, 0x10f250393f26b8d1}, {0, 0}},
    {{0x8101010101018100, 0x8101810180018101}, {0x93e9d0bcb8f69dc7, 0x9e6014efef1919e4}, {0, 0}},
    {{0x8101010181010000, 0x8101810180018101}, {0x0c5c7fd0a6a3a450, 0xd23f0824128b2f33}, {0, 0}},
    {{0x8101010100000000, 0x8101810180018101}, {0, 0}, {0, 0}},
    {{0, 0x8101810180018101}, {0, 0}, {0, 0}},
    {{0x8000800080008000, 0x8000800080008000}, {0x8000800080008000, 0x8000800080008000}, {0, 0}},
    {{0, 0}, {0, 0}, {0, 0}},
};
enum { OPERAND_COUNT = sizeof OPERANDS / sizeof OPERANDS[0] };

/* The names of one meaning, with a space before and after each. */
static const char *const ONE_MEANING[] = {
    " i32_wrap_i64 i64_extend_i32_u v128_low32_zero ",
    " i64_extend_i32_s i64_extend32_s ",
    " v128_widen8x8_s i16x8_extend_low_i8x16_s ",
    " v128_widen8x8_u i16x8_extend_low_i8x16_u ",
    " v128_widen16x4_s i32x4_extend_low_i16x8_s ",
    " v128_widen16x4_u i32x4_extend_low_i16x8_u ",
    " v128_widen32x2_s i64x2_extend_low_i32x4_s ",
    " v128_widen32x2_u i64x2_extend_low_i32x4_u ",
    " i8x16_swizzle i8x16_relaxed_swizzle ",
    " i16x8_q15mulr_sat_s i16x8_relaxed_q15mulr_s ",
    " v128_bitselect i8x16_relaxed_laneselect i16x8_relaxed_laneselect i32x4_relaxed_laneselect "
    "i64x2_relaxed_laneselect ",
    " i32_load8_u i64_load8_u ",
    " i32_load16_u i64_load16_u ",
    " i64_load32_u load_u32 v128_load32_zero ",
    " load_u64 v128_load64_zero ",
    " i32_store8 i64_store8 ",
    " i32_store16 i64_store16 ",
    " i64_store32 store32 ",
};
enum { MEANING_COUNT = sizeof ONE_MEANING / sizeof ONE_MEANING[0] };

static int compared = 0, differing = 0;

static void compare(const char *what, int agrees) {
    compared++;
    if (!agrees) {
        differing++;
        printf("%s differs\n", what);
    }
}

static int is_same(wasmi_words one, wasmi_words other) {
    return one.lo == other.lo && one.hi == other.hi;
}

/* The bytes of a and b, in which loads and stores are tried, at 2 + 1. */
static void set_memory(uint8_t memory[32], const struct trial *on) {
    const uint64_t words[4] = {on->a.lo, on->a.hi, on->b.lo, on->b.hi};
    for (int i = 0; i < 32; i++) {
        memory[i] = (uint8_t)(words[i / 8] >> i % 8 * 8);
    }
}

/* The first 16 bytes. */
static wasmi_words front_of(const uint8_t memory[32]) {
    wasmi_words front = {0, 0};
    for (int i = 0; i < 8; i++) {
        front.lo |= (uint64_t)memory[i] << i * 8;
        front.hi |= (uint64_t)memory[i + 8] << i * 8;
    }
    return front;
}

/* What the instruction of a number gives on the operands of a trial; a store, the bytes that it leaves. */

static wasmi_result unary(uint16_t number, const struct trial *on) {
    wasmi_result given = {{0, 0}, 0};
    given.status = wasmi_unary(number, on->a, &given.value);
    return given;
}

static wasmi_result binary(uint16_t number, const struct trial *on) {
    wasmi_result given = {{0, 0}, 0};
    given.status = wasmi_binary(number, on->a, on->b, &given.value);
    return given;
}

static wasmi_result ternary(uint16_t number, const struct trial *on) {
    wasmi_result given = {{0, 0}, 0};
    given.status = wasmi_ternary(number, on->a, on->b, on->c, &given.value);
    return given;
}

static wasmi_result extract(uint16_t number, const struct trial *on) {
    wasmi_result given = {{0, 0}, 0};
    given.status = wasmi_extract_lane(number, 1, on->a, &given.value);
    return given;
}

static wasmi_result replace(uint16_t number, const struct trial *on) {
    wasmi_result given = {{0, 0}, 0};
    given.status = wasmi_replace_lane(number, 1, on->a, on->b, &given.value);
    return given;
}

static wasmi_result load(uint16_t number, const struct trial *on) {
    uint8_t memory[32];
    set_memory(memory, on);
    wasmi_result given = {{0, 0}, 0};
    given.status = wasmi_load(number, memory, 32, 2, 1, &given.value);
    return given;
}

static wasmi_result store(uint16_t number, const struct trial *on) {
    uint8_t memory[32];
    set_memory(memory, on);
    uint8_t status = wasmi_store(number, memory, 32, 2, 1, on->b);
    return (wasmi_result){front_of(memory), status};
}

static wasmi_result load_lane(uint16_t number, const struct trial *on) {
    uint8_t memory[32];
    set_memory(memory, on);
    wasmi_result given = {{0, 0}, 0};
    given.status = wasmi_load_lane(number, 1, memory, 32, 2, 1, on->b, &given.value);
    return given;
}

static wasmi_result store_lane(uint16_t number, const struct trial *on) {
    uint8_t memory[32];
    set_memory(memory, on);
    uint8_t status = wasmi_store_lane(number, 1, memory, 32, 2, 1, on->b);
    return (wasmi_result){front_of(memory), status};
}

/* A kind of instructions: what runs one by its number, the pairs of commands of which one prints what it gives, and the
   names in the order of their numbers. In a command %s is the name; the number after it is the low word of b, or its
   low 32 bits in a shift. */
struct kind {
    wasmi_result (*run)(uint16_t number, const struct trial *on);
    const char *commands[3][2];
    int count;
    const char *const *names;
};

#define NAME(number, name) [number] = #name,
static const char *const UNARIES[] = {WASMI_UNARY_NAMES(NAME)};
static const char *const BINARIES[] = {WASMI_BINARY_NAMES(NAME)};
static const char *const TERNARIES[] = {WASMI_TERNARY_NAMES(NAME)};
static const char *const EXTRACTS[] = {WASMI_EXTRACT_LANE_NAMES(NAME)};
static const char *const REPLACES[] = {WASMI_REPLACE_LANE_NAMES(NAME)};
static const char *const LOADS[] = {WASMI_LOAD_NAMES(NAME)};
static const char *const STORES[] = {WASMI_STORE_NAMES(NAME)};
static const char *const LOAD_LANES[] = {WASMI_LOAD_LANE_NAMES(NAME)};
static const char *const STORE_LANES[] = {WASMI_STORE_LANE_NAMES(NAME)};

#define SHOW_FRONT "vload v128_load 3 0 0 0\nshow 3"
static const struct kind KINDS[] = {
    {unary,
     {{"make %s 3 0", "show 3"}, {"unary %s 3 0", "show 3"}, {"show 0", "test %s 0"}},
     WASMI_UNARY_COUNT,
     UNARIES},
    {binary, {{"binary %s 3 0 1", "show 3"}, {"shift %s 3 0 %" PRIu64, "show 3"}}, WASMI_BINARY_COUNT, BINARIES},
    {ternary, {{"ternary %s 3 0 1 2", "show 3"}}, WASMI_TERNARY_COUNT, TERNARIES},
    {extract, {{"show 0", "extract %s 0 1"}}, WASMI_EXTRACT_LANE_COUNT, EXTRACTS},
    {replace, {{"replace %s 3 0 1 1", "show 3"}}, WASMI_REPLACE_LANE_COUNT, REPLACES},
    {load, {{"show 0", "load %s 0 2 1"}, {"vload %s 3 0 2 1", "show 3"}}, WASMI_LOAD_COUNT, LOADS},
    {store,
     {{"store %s 0 2 1 %" PRIu64, SHOW_FRONT}, {"vstore 1 0 2 1", SHOW_FRONT}},
     WASMI_STORE_COUNT,
     STORES},
    {load_lane, {{"vloadlane %s 3 1 1 0 2 1", "show 3"}}, WASMI_LOAD_LANE_COUNT, LOAD_LANES},
    {store_lane, {{"vstorelane %s 1 1 0 2 1", SHOW_FRONT}}, WASMI_STORE_LANE_COUNT, STORE_LANES},
};
enum { KIND_COUNT = sizeof KINDS / sizeof KINDS[0] };
enum { OF_UNARY = 0, OF_TERNARY = 2, OF_EXTRACT = 3, OF_REPLACE = 4 };

/* Runs a script, whose requests for memory aren't counted. */
static uint8_t run(const uint8_t *script, size_t length, uint8_t *text, size_t text_len, size_t *needed) {
    long before = requests;
    uint8_t status = wasmi_script_run(script, length, text, text_len, needed);
    requests = before;
    return status;
}

/* Whether a script ends with 0, and the raw value that its last line prints. The registers 0 to 2 hold a, b and c, and
   memory 0 has the bytes of a, then those of b. */
static int prints(const struct trial *on, const char *commands, wasmi_words *value) {
    char script[1024], text[1024];
    size_t needed = 0;
    int length = snprintf(script, sizeof script,
                          "set 0 %" PRIu64 " %" PRIu64 "\nset 1 %" PRIu64 " %" PRIu64 "\nset 2 %" PRIu64 " %" PRIu64
                          "\nmemory 1 1 16 32\nvstore 0 0 0 0\nvstore 1 0 16 0\n%s\n",
                          on->a.lo, on->a.hi, on->b.lo, on->b.hi, on->c.lo, on->c.hi, commands);
    const uint8_t *bytes = (const uint8_t *)script;
    uint8_t status = run(bytes, (size_t)length, (uint8_t *)text, sizeof text - 1, &needed);
    if (status != 0) {
        return 0;
    }
    text[needed - 1] = 0;
    const char *last = strrchr(text, '\n');
    return last != NULL && sscanf(last + 1, "raw %" SCNu64 " %" SCNu64, &value->lo, &value->hi) == 2;
}

/* Whether one of the pairs of commands, with the name in it, gives a value. */
static int in_scripts(const struct kind *kind, const char *name, struct trial *on) {
    on->expected.status = WASMI_DONE;
    for (int i = 0; i < 3 && kind->commands[i][0] != NULL; i++) {
        char commands[256];
        int is_shift = strncmp(kind->commands[i][0], "shift", 5) == 0;
        uint64_t number = is_shift ? on->b.lo & UINT32_MAX : on->b.lo;
        int length = snprintf(commands, 128, kind->commands[i][0], name, number);
        commands[length] = '\n';
        snprintf(commands + length + 1, 100, kind->commands[i][1], name);
        if (prints(on, commands, &on->expected.value)) {
            return 1;
        }
    }
    return 0;
}

/* The list of answers, of which each line is a name, its operands, an arrow and the answer. */
static char list[1 << 20];

static uint64_t number_of(const char *word) {
    return word[0] == '-' ? (uint64_t)strtoll(word, NULL, 10) : strtoull(word, NULL, 10);
}

/* The operands and the answer of a line. The bits that an instruction on 32 or 64 bits ignores are such that they would
   be seen. */
static struct trial trial_of(char *line) {
    uint64_t words[8] = {0};
    int count = 0, before = 0;
    struct trial on = {{0, 0xd534c087ed7c5da0}, {0, 0xa4845a65b215d19c}, {0, 0}, {{0, 0}, WASMI_DONE}};
    int gives_32 = strncmp(line, "i32_", 4) == 0;
    int takes_32 = (gives_32 && strncmp(line, "i32_wrap_", 9) != 0) || strncmp(line, "i64_extend_", 11) == 0;
    strtok(line, " ");
    for (char *word = strtok(NULL, " "); word != NULL && count < 6; word = strtok(NULL, " ")) {
        if (strcmp(word, "->") == 0) {
            before = count;
        } else if (strcmp(word, "IntegerOverflow") == 0) {
            on.expected.status = WASMI_INTEGER_OVERFLOW;
        } else if (strcmp(word, "IntegerDivisionByZero") == 0) {
            on.expected.status = WASMI_INTEGER_DIVISION_BY_ZERO;
        } else if (strcmp(word, "trap") != 0) {
            words[count++] = number_of(word);
        }
    }
    on.a.lo = takes_32 ? (words[0] & UINT32_MAX) | 0x9101010200000000 : words[0];
    on.b.lo = takes_32 ? (words[1] & UINT32_MAX) | 0xa82e478c00000000 : words[1];
    if (before == 4) {
        on.a = (wasmi_words){words[0], words[1]};
        on.b = (wasmi_words){words[2], words[3]};
    }
    on.expected.value.lo = gives_32 ? words[before] & UINT32_MAX : words[before];
    on.expected.value.hi = words[before + 1];
    return on;
}

/* How many lines of the list have a name, and their trials. */
static int listed(const char *name, struct trial trials[MOST_TRIALS]) {
    char front[64], line[256];
    int count = 0;
    snprintf(front, sizeof front, "\n%s ", name);
    for (const char *at = strstr(list, front); at != NULL && count < MOST_TRIALS; at = strstr(at + 1, front)) {
        snprintf(line, sizeof line, "%.*s", (int)strcspn(at + 1, "\n"), at + 1);
        trials[count++] = trial_of(line);
    }
    return count;
}

/* What a name means: its lines in the list, or what scripts print on each of the operands. Returns how many trials. */
static int trials_of(const struct kind *kind, const char *name, struct trial trials[MOST_TRIALS]) {
    int count = listed(name, trials);
    if (count > 0) {
        return count;
    }
    for (int i = 0; i < OPERAND_COUNT; i++) {
        struct trial on = {OPERANDS[i][0], OPERANDS[i][1], OPERANDS[i][2], {{0, 0}, 0}};
        if (!in_scripts(kind, name, &on)) {
            return 0;
        }
        trials[i] = on;
    }
    return OPERAND_COUNT;
}

/* Whether the instruction of a number gives what is expected in each trial. */
static int passes(const struct kind *kind, int number, const struct trial *trials, int count) {
    for (int i = 0; i < count; i++) {
        wasmi_result given = kind->run((uint16_t)number, &trials[i]);
        if (given.status != trials[i].expected.status) {
            return 0;
        }
        if (given.status == WASMI_DONE && !is_same(given.value, trials[i].expected.value)) {
            return 0;
        }
    }
    return count > 0;
}

static int has_name(const char *names, const char *name) {
    char word[64];
    snprintf(word, sizeof word, " %s ", name);
    return strstr(names, word) != NULL;
}

static int is_one_meaning(const char *one, const char *other) {
    for (int i = 0; i < MEANING_COUNT; i++) {
        if (has_name(ONE_MEANING[i], one) && has_name(ONE_MEANING[i], other)) {
            return 1;
        }
    }
    return 0;
}

/* Each number passes for its own name, and for another one exactly where the two mean the same. */
static void compare_kind(const struct kind *kind) {
    for (int i = 0; i < kind->count; i++) {
        struct trial trials[MOST_TRIALS];
        int count = trials_of(kind, kind->names[i], trials);
        compare(kind->names[i], passes(kind, i, trials, count));
        for (int other = 0; other < kind->count; other++) {
            int is_same_meaning = is_one_meaning(kind->names[i], kind->names[other]);
            if (other != i && passes(kind, other, trials, count) != is_same_meaning) {
                differing++;
                printf("%s %s %s\n", kind->names[other], is_same_meaning ? "doesn't pass for" : "passes for",
                       kind->names[i]);
            }
        }
    }
}

/* The number after the last one of each kind. */
static void compare_unknown(void) {
    for (int i = 0; i < KIND_COUNT; i++) {
        struct trial on = {OPERANDS[0][0], OPERANDS[0][1], OPERANDS[0][2], {{0, 0}, 0}};
        compare("an unknown number", KINDS[i].run((uint16_t)KINDS[i].count, &on).status == WASMI_UNKNOWN);
    }
}

/* Calls on arrays: no two of their parameters are alike, and each element has to be what the call on values gives. */

static wasmi_words all_a[OPERAND_COUNT], all_b[OPERAND_COUNT], all_c[OPERAND_COUNT];

static void set_arrays(void) {
    for (int i = 0; i < OPERAND_COUNT; i++) {
        all_a[i] = OPERANDS[i][0];
        all_b[i] = OPERANDS[i][1];
        all_c[i] = OPERANDS[(i + 3) % OPERAND_COUNT][0];
    }
}

/* The operands of element i. */
static struct trial element(int i) {
    return (struct trial){all_a[i], all_b[i], all_c[i], {{0, 0}, 0}};
}

/* Whether an element is what a call on values gives: the value, or 0 beside the status of a trap. */
static int is_result(wasmi_result found, wasmi_result single) {
    const wasmi_words zero = {0, 0};
    return found.status == single.status && is_same(found.value, single.status == WASMI_DONE ? single.value : zero);
}

/* Compares what a call on arrays wrote, and its status, with what an instruction of a kind gives for each element. */
static void compare_values(const struct kind *kind, uint16_t number, uint8_t status, const wasmi_words *values) {
    int agrees = status == WASMI_DONE;
    for (int i = 0; i < OPERAND_COUNT; i++) {
        struct trial on = element(i);
        agrees &= is_result((wasmi_result){values[i], WASMI_DONE}, kind->run(number, &on));
    }
    compare(kind->names[number], agrees);
}

static void compare_on_values(void) {
    wasmi_words values[OPERAND_COUNT];
    const size_t len = OPERAND_COUNT;
    for (uint16_t i = 0; i < WASMI_UNARY_COUNT; i++) {
        uint8_t status = wasmi_unary_each(i, all_a, len, values, len);
        compare_values(&KINDS[OF_UNARY], i, status, values);
    }
    for (uint16_t i = 0; i < WASMI_TERNARY_COUNT; i++) {
        uint8_t status = wasmi_ternary_each(i, all_a, len, all_b, len, all_c, len, values, len);
        compare_values(&KINDS[OF_TERNARY], i, status, values);
    }
    for (uint16_t i = 0; i < WASMI_EXTRACT_LANE_COUNT; i++) {
        uint8_t status = wasmi_extract_lane_each(i, 1, all_a, len, values, len);
        compare_values(&KINDS[OF_EXTRACT], i, status, values);
    }
    for (uint16_t i = 0; i < WASMI_REPLACE_LANE_COUNT; i++) {
        uint8_t status = wasmi_replace_lane_each(i, 1, all_a, len, all_b, len, values, len);
        compare_values(&KINDS[OF_REPLACE], i, status, values);
    }
}

static void compare_binary_each(void) {
    for (uint16_t number = 0; number < WASMI_BINARY_COUNT; number++) {
        wasmi_result results[OPERAND_COUNT];
        const size_t len = OPERAND_COUNT;
        int agrees = wasmi_binary_each(number, all_a, len, all_b, len, results, len) == WASMI_DONE;
        for (int i = 0; i < OPERAND_COUNT; i++) {
            struct trial on = element(i);
            agrees &= is_result(results[i], binary(number, &on));
        }
        compare(BINARIES[number], agrees);
    }
}

/* Loads from each of some pointers, inside the memory, at its end, past it, and past 2^32 and 2^64. */
static void compare_load_each(void) {
    const uint64_t ptrs[] = {0, 2, 5, 13, 21, 25, 27, 28, 29, (uint64_t)1 << 32, UINT64_MAX};
    enum { COUNT = sizeof ptrs / sizeof ptrs[0], OFFSET = 3 };
    uint8_t memory[32];
    struct trial on = element(0);
    set_memory(memory, &on);
    for (uint16_t number = 0; number < WASMI_LOAD_COUNT; number++) {
        wasmi_result results[COUNT];
        int agrees = wasmi_load_each(number, memory, sizeof memory, ptrs, COUNT, OFFSET, results, COUNT) == WASMI_DONE;
        for (size_t i = 0; i < COUNT; i++) {
            wasmi_result single = {{0, 0}, 0};
            single.status = wasmi_load(number, memory, sizeof memory, ptrs[i], OFFSET, &single.value);
            agrees &= is_result(results[i], single);
        }
        compare(LOADS[number], agrees);
    }
}

/* Arrays that differ in length: nothing is written. */
static void compare_lengths(void) {
    const wasmi_words a[2] = {{1, 2}, {3, 4}};
    const uint64_t ptrs[2] = {0, 1};
    const uint8_t memory[32] = {9};
    wasmi_words values[2] = {{5, 6}, {7, 8}};
    wasmi_result results[2] = {{{5, 6}, 7}, {{8, 9}, 10}};
    uint8_t statuses[] = {
        wasmi_unary_each(0, a, 2, values, 1),
        wasmi_binary_each(0, a, 2, a, 1, results, 2),
        wasmi_binary_each(0, a, 2, a, 2, results, 1),
        wasmi_ternary_each(0, a, 2, a, 1, a, 2, values, 2),
        wasmi_ternary_each(0, a, 2, a, 2, a, 1, values, 2),
        wasmi_ternary_each(0, a, 2, a, 2, a, 2, values, 1),
        wasmi_load_each(0, memory, 32, ptrs, 2, 0, results, 1),
        wasmi_extract_lane_each(0, 0, a, 2, values, 1),
        wasmi_replace_lane_each(0, 0, a, 2, a, 1, values, 2),
        wasmi_replace_lane_each(0, 0, a, 2, a, 2, values, 1),
    };
    for (size_t i = 0; i < sizeof statuses; i++) {
        compare("the status of lengths that differ", statuses[i] == WASMI_LENGTHS_DIFFER);
    }
    compare("what lengths that differ leave", values[0].lo == 5 && values[1].hi == 8 && results[0].status == 7);
}

/* An index that no lane has: nothing is written. */
static void compare_lanes(void) {
    const wasmi_words a = {1, 2};
    uint8_t memory[32] = {9};
    wasmi_words value = {5, 6};
    uint8_t statuses[] = {
        wasmi_extract_lane(0, 16, a, &value),
        wasmi_extract_lane_each(0, 16, &a, 1, &value, 1),
        wasmi_replace_lane(0, 16, a, a, &value),
        wasmi_replace_lane_each(0, 16, &a, 1, &a, 1, &value, 1),
        wasmi_load_lane(0, 16, memory, 32, 0, 0, a, &value),
        wasmi_store_lane(0, 16, memory, 32, 0, 0, a),
    };
    for (size_t i = 0; i < sizeof statuses; i++) {
        compare("the status of no lane", statuses[i] == WASMI_NO_LANE);
    }
    compare("what no lane leaves", value.lo == 5 && value.hi == 6 && memory[0] == 9);
}

/* A load and a store past the end, also past 2^32 and 2^64, and the two traps of a division: nothing is written. */
static void compare_traps(void) {
    const wasmi_words zero = {0, 0}, least = {0x80000000, 0}, minus_one = {UINT32_MAX, 0};
    const uint64_t ptr = 29, beyond = (uint64_t)1 << 32;
    uint8_t memory[32] = {9};
    wasmi_words value = {5, 6};
    wasmi_result result = {{5, 6}, 7};
    uint8_t past[] = {
        wasmi_load(WASMI_LOAD_LOAD_U32, memory, 32, 29, 0, &value),
        wasmi_load(WASMI_LOAD_LOAD_U32, memory, 32, UINT64_MAX, 2, &value),
        wasmi_load(WASMI_LOAD_LOAD_U32, memory, 32, beyond, 1, &value),
        wasmi_load(WASMI_LOAD_LOAD_U32, memory, 32, 1, beyond, &value),
        wasmi_store(WASMI_STORE_STORE32, memory, 32, 29, 0, least),
        wasmi_store(WASMI_STORE_STORE32, memory, 32, beyond, 1, least),
        wasmi_store(WASMI_STORE_STORE32, memory, 32, 1, beyond, least),
        wasmi_load_lane(WASMI_LOAD_LANE_V128_LOAD32_LANE, 0, memory, 32, 29, 0, zero, &value),
        wasmi_load_lane(WASMI_LOAD_LANE_V128_LOAD32_LANE, 0, memory, 32, beyond, 1, zero, &value),
        wasmi_load_lane(WASMI_LOAD_LANE_V128_LOAD32_LANE, 0, memory, 32, 1, beyond, zero, &value),
        wasmi_store_lane(WASMI_STORE_LANE_V128_STORE32_LANE, 0, memory, 32, 29, 0, least),
        wasmi_store_lane(WASMI_STORE_LANE_V128_STORE32_LANE, 0, memory, 32, beyond, 1, least),
        wasmi_store_lane(WASMI_STORE_LANE_V128_STORE32_LANE, 0, memory, 32, 1, beyond, least),
    };
    for (size_t i = 0; i < sizeof past; i++) {
        compare("the status past the end", past[i] == WASMI_MEMORY_OUT_OF_BOUNDS);
    }
    uint8_t status = wasmi_load_each(WASMI_LOAD_LOAD_U32, memory, 32, &ptr, 1, 0, &result, 1);
    compare("the result past the end",
            status == WASMI_DONE && result.status == WASMI_MEMORY_OUT_OF_BOUNDS && is_same(result.value, zero));
    status = wasmi_binary(WASMI_BINARY_I32_DIV_S, least, zero, &value);
    compare("the status of a division by zero", status == WASMI_INTEGER_DIVISION_BY_ZERO);
    status = wasmi_binary(WASMI_BINARY_I32_DIV_S, least, minus_one, &value);
    compare("the status of an overflow", status == WASMI_INTEGER_OVERFLOW);
    int is_unchanged = memory[0] == 9 && memory[4] == 0 && memory[29] == 0;
    compare("what a trap leaves", value.lo == 5 && value.hi == 6 && is_unchanged);
}

/* The status of a script that is printed to bytes of a length, and whether what it prints is the text. */
static int script_ends(const char *script, size_t length, size_t text_len, uint8_t status, const char *printed) {
    uint8_t text[64] = {0};
    size_t needed = 0;
    uint8_t given = run((const uint8_t *)script, length, text_len == 0 ? NULL : text, text_len, &needed);
    int has_text = strcmp((const char *)text, given == WASMI_TEXT_TOO_SHORT ? "" : printed) == 0;
    return given == status && needed == strlen(printed) && has_text;
}

static void compare_scripts(void) {
    static char long_script[1048577];
    const char *show = "set 0 1 2\nshow 0\n";
    size_t length = strlen(show);
    compare("a script", script_ends(show, length, 63, 0, "done\nraw 1 2\n"));
    compare("a script without a text", script_ends(show, length, 0, WASMI_TEXT_TOO_SHORT, "done\nraw 1 2\n"));
    compare("a text of one byte too few", script_ends(show, length, 12, WASMI_TEXT_TOO_SHORT, "done\nraw 1 2\n"));
    compare("a text of as many bytes", script_ends(show, length, 13, 0, "done\nraw 1 2\n"));
    compare("a bad line", script_ends("show 0\nshow x\n", 14, 63, 2, "line 2: bad command\n"));
    compare("a script that is too long", script_ends(long_script, sizeof long_script, 63, 2, "script too long\n"));
}

int main(int count, char **words) {
    FILE *file = count == 2 ? fopen(words[1], "r") : NULL;
    if (file == NULL) {
        fprintf(stderr, "usage: names conformance/scalar_answers.txt\n");
        return 2;
    }
    list[0] = '\n';
    list[1 + fread(list + 1, 1, sizeof list - 2, file)] = 0;
    fclose(file);
    for (int i = 0; i < KIND_COUNT; i++) {
        compare_kind(&KINDS[i]);
    }
    set_arrays();
    compare_on_values();
    compare_binary_each();
    compare_load_each();
    compare_unknown();
    compare_lengths();
    compare_lanes();
    compare_traps();
    compare_scripts();
    compare("the version", wasmi_core_version() == WASMI_CORE_VERSION_NUMBER);
    compare("the memory that is asked for", none_requested());
    printf("%d compared, %d differ\n", compared, differing);
    return differing != 0;
}
