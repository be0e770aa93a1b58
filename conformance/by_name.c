/* Compares each function of wasmi_instructions.h with the instruction of its name by number, on some operands, which
   make each trap, and on COUNT random ones. None may ask for memory: it is linked with --wrap for malloc, realloc and free.
   At the end it prints how many were compared. usage: by_name [COUNT] */
#include "hostile/blocks.h"
#include "wasmi_instructions.h"
#include "wasmi_oracle.h"
#include <stdio.h>
#include <stdlib.h>
#include <string.h>

/* Operands, and addresses inside a memory of 32 bytes, at its end, past it, and past 2^32 and 2^64. */
static const wasmi_words OPERANDS[] = {
    {0, 0}, {1, 2}, {5, UINT64_MAX}, {0x80000000, 1}, {0xffffffff, 0}, {0x8000000000000000, 7}, {UINT64_MAX, 3},
    {0x26a391d7fe968f77, 0x8074514c7cb73161}, {0xdf80c7f57be56be3, 0xc6ef0106b80e0c01},
};
static const uint64_t PTRS[] = {0, 2, 5, 13, 21, 25, 27, 28, 29, (uint64_t)1 << 32, UINT64_MAX};
enum { OPERAND_COUNT = sizeof OPERANDS / sizeof OPERANDS[0], PTR_COUNT = sizeof PTRS / sizeof PTRS[0], LEN = 32 };

typedef void (*any)(void);

/* A function by its name, and what calls one of its type on two values, or at an address of a memory. */
struct by_name {
    const char *name;
    any function;
    wasmi_result (*call)(any function, wasmi_words a, wasmi_words b);
    wasmi_result (*access)(any function, uint8_t *memory, uint64_t ptr, wasmi_words value);
};

static wasmi_result done(uint64_t lo, uint64_t hi) {
    return (wasmi_result){{lo, hi}, WASMI_DONE};
}

/* Of each type a function that calls it. U is the unsigned type of a result's width. */
#define UNARY(id, R, U, T) \
    static wasmi_result id(any function, wasmi_words a, wasmi_words b) { \
        (void)b; \
        return done((U)((R(*)(T))function)((T)a.lo), 0); \
    }
#define BINARY(id, R, U, T) \
    static wasmi_result id(any function, wasmi_words a, wasmi_words b) { \
        return done((U)((R(*)(T, T))function)((T)a.lo, (T)b.lo), 0); \
    }
#define TRAPPING(id, T, U) \
    static wasmi_result id(any function, wasmi_words a, wasmi_words b) { \
        T value = 0; \
        uint8_t status = ((uint8_t(*)(T, T, T *))function)((T)a.lo, (T)b.lo, &value); \
        return (wasmi_result){{(U)value, 0}, status}; \
    }
#define LOAD(id, T, U) \
    static wasmi_result id(any function, uint8_t *memory, uint64_t ptr, wasmi_words unused) { \
        T value = 0; \
        uint8_t status = ((uint8_t(*)(const uint8_t *, size_t, uint64_t, uint64_t, T *))function)(memory, LEN, ptr, 3, &value); \
        (void)unused; \
        return (wasmi_result){{(U)value, 0}, status}; \
    }
#define STORE(id, T) \
    static wasmi_result id(any function, uint8_t *memory, uint64_t ptr, wasmi_words value) { \
        uint8_t status = ((uint8_t(*)(uint8_t *, size_t, uint64_t, uint64_t, T))function)(memory, LEN, ptr, 3, (T)value.lo); \
        return (wasmi_result){{0, 0}, status}; \
    }
UNARY(i32_of_i32, int32_t, uint32_t, int32_t)
UNARY(i64_of_i64, int64_t, uint64_t, int64_t)
UNARY(i32_of_i64, int32_t, uint32_t, int64_t)
UNARY(i64_of_i32, int64_t, uint64_t, int32_t)
UNARY(u64_of_u32, uint64_t, uint64_t, uint32_t)
UNARY(bool_of_i32, bool, uint32_t, int32_t)
UNARY(bool_of_i64, bool, uint32_t, int64_t)
BINARY(i32_of_two, int32_t, uint32_t, int32_t)
BINARY(u32_of_two, uint32_t, uint32_t, uint32_t)
BINARY(i64_of_two, int64_t, uint64_t, int64_t)
BINARY(u64_of_two, uint64_t, uint64_t, uint64_t)
BINARY(bool_of_two_i32, bool, uint32_t, int32_t)
BINARY(bool_of_two_u32, bool, uint32_t, uint32_t)
BINARY(bool_of_two_i64, bool, uint32_t, int64_t)
BINARY(bool_of_two_u64, bool, uint32_t, uint64_t)
TRAPPING(trapping_i32, int32_t, uint32_t)
TRAPPING(trapping_u32, uint32_t, uint32_t)
TRAPPING(trapping_i64, int64_t, uint64_t)
TRAPPING(trapping_u64, uint64_t, uint64_t)
LOAD(load_i32, int32_t, uint32_t)
LOAD(load_u32, uint32_t, uint32_t)
LOAD(load_i64, int64_t, uint64_t)
LOAD(load_u64, uint64_t, uint64_t)
STORE(store_i32, int32_t)
STORE(store_u32, uint32_t)
STORE(store_i64, int64_t)
STORE(store_u64, uint64_t)

static wasmi_result wide(any function, wasmi_words a, wasmi_words b) {
    int64_t lo = 0, hi = 0;
    ((void (*)(int64_t, int64_t, int64_t *, int64_t *))function)((int64_t)a.lo, (int64_t)b.lo, &lo, &hi);
    return done((uint64_t)lo, (uint64_t)hi);
}

static wasmi_result wide_of_four(any function, wasmi_words a, wasmi_words b) {
    int64_t lo = 0, hi = 0;
    ((void (*)(int64_t, int64_t, int64_t, int64_t, int64_t *, int64_t *))function)((int64_t)a.lo, (int64_t)a.hi,
                                                                                  (int64_t)b.lo, (int64_t)b.hi, &lo, &hi);
    return done((uint64_t)lo, (uint64_t)hi);
}

static wasmi_result load_vector(any function, uint8_t *memory, uint64_t ptr, wasmi_words unused) {
    wasmi_result given = {{0, 0}, 0};
    (void)unused;
    given.status = ((uint8_t(*)(const uint8_t *, size_t, uint64_t, uint64_t, wasmi_words *))function)(memory, LEN, ptr, 3, &given.value);
    return given;
}

static wasmi_result store_vector(any function, uint8_t *memory, uint64_t ptr, wasmi_words value) {
    uint8_t status = ((uint8_t(*)(uint8_t *, size_t, uint64_t, uint64_t, wasmi_words))function)(memory, LEN, ptr, 3, value);
    return (wasmi_result){{0, 0}, status};
}

#define LOAD_TYPE(T) uint8_t (*)(const uint8_t *, size_t, uint64_t, uint64_t, T *)
#define STORE_TYPE(T) uint8_t (*)(uint8_t *, size_t, uint64_t, uint64_t, T)
#define CALL_OF(f) \
    _Generic(f, int32_t (*)(int32_t): i32_of_i32, int64_t (*)(int64_t): i64_of_i64, int32_t (*)(int64_t): i32_of_i64, \
        int64_t (*)(int32_t): i64_of_i32, uint64_t (*)(uint32_t): u64_of_u32, bool (*)(int32_t): bool_of_i32, \
        bool (*)(int64_t): bool_of_i64, int32_t (*)(int32_t, int32_t): i32_of_two, \
        uint32_t (*)(uint32_t, uint32_t): u32_of_two, int64_t (*)(int64_t, int64_t): i64_of_two, \
        uint64_t (*)(uint64_t, uint64_t): u64_of_two, bool (*)(int32_t, int32_t): bool_of_two_i32, \
        bool (*)(uint32_t, uint32_t): bool_of_two_u32, bool (*)(int64_t, int64_t): bool_of_two_i64, \
        bool (*)(uint64_t, uint64_t): bool_of_two_u64, uint8_t (*)(int32_t, int32_t, int32_t *): trapping_i32, \
        uint8_t (*)(uint32_t, uint32_t, uint32_t *): trapping_u32, uint8_t (*)(int64_t, int64_t, int64_t *): trapping_i64, \
        uint8_t (*)(uint64_t, uint64_t, uint64_t *): trapping_u64, \
        void (*)(int64_t, int64_t, int64_t *, int64_t *): wide, \
        void (*)(int64_t, int64_t, int64_t, int64_t, int64_t *, int64_t *): wide_of_four)
#define ACCESS_OF(f) \
    _Generic(f, LOAD_TYPE(int32_t): load_i32, LOAD_TYPE(uint32_t): load_u32, LOAD_TYPE(int64_t): load_i64, \
        LOAD_TYPE(uint64_t): load_u64, LOAD_TYPE(wasmi_words): load_vector, STORE_TYPE(int32_t): store_i32, \
        STORE_TYPE(uint32_t): store_u32, STORE_TYPE(int64_t): store_i64, STORE_TYPE(uint64_t): store_u64, \
        STORE_TYPE(wasmi_words): store_vector)
#define CALLED(name) {#name, (any)wasmi_##name, CALL_OF(&wasmi_##name), NULL},
#define ACCESSED(name) {#name, (any)wasmi_##name, NULL, ACCESS_OF(&wasmi_##name)},
static const struct by_name UNARIES[] = {WASMI_UNARY_FUNCTIONS(CALLED)};
static const struct by_name BINARIES[] = {WASMI_BINARY_FUNCTIONS(CALLED)};
static const struct by_name LOADS[] = {WASMI_LOAD_FUNCTIONS(ACCESSED)};
static const struct by_name STORES[] = {WASMI_STORE_FUNCTIONS(ACCESSED) ACCESSED(v128_store)};
#define COUNT(list) (sizeof list / sizeof list[0])

#define NAME(number, name) [number] = #name,
static const char *const UNARY_NAMES[] = {WASMI_UNARY_NAMES(NAME) NULL};
static const char *const BINARY_NAMES[] = {WASMI_BINARY_NAMES(NAME) NULL};
static const char *const LOAD_NAMES[] = {WASMI_LOAD_NAMES(NAME) NULL};
static const char *const STORE_NAMES[] = {WASMI_STORE_NAMES(NAME) NULL};

static int compared = 0, differing = 0;
static long random_count = 0;

/* Random numbers (splitmix64), a fourth of them small. */
static uint64_t any_number(void) {
    static uint64_t state = 1;
    uint64_t z = state += UINT64_C(0x9e3779b97f4a7c15);
    z = (z ^ (z >> 30)) * UINT64_C(0xbf58476d1ce4e5b9);
    z = (z ^ (z >> 27)) * UINT64_C(0x94d049bb133111eb);
    z ^= z >> 31;
    return z % 4 == 0 ? z >> 58 : z;
}

static wasmi_words any_words(void) {
    wasmi_words made = {any_number(), any_number()};
    return made;
}

static void compare(const char *name, int agrees) {
    compared++;
    if (!agrees) {
        differing++;
        printf("%s differs\n", name);
    }
}

/* The number of a name; one that no instruction has if there is none. */
static uint16_t number_of(const char *name, const char *const *names) {
    for (uint16_t number = 0; names[number] != NULL; number++) {
        if (strcmp(name, names[number]) == 0) {
            return number;
        }
    }
    return UINT16_MAX;
}

static int is_same(wasmi_result one, wasmi_result other) {
    int is_same_value = one.value.lo == other.value.lo && one.value.hi == other.value.hi;
    return one.status == other.status && (one.status != WASMI_DONE || is_same_value);
}

static int call_agrees(const struct by_name *it, int is_unary, uint16_t number, wasmi_words a, wasmi_words b) {
    wasmi_result wanted = {{0, 0}, 0};
    wanted.status = is_unary ? wasmi_unary(number, a, &wanted.value) : wasmi_binary(number, a, b, &wanted.value);
    return is_same(it->call(it->function, a, b), wanted);
}

static void compare_calls(void) {
    for (size_t f = 0; f < COUNT(UNARIES) + COUNT(BINARIES); f++) {
        int is_unary = f < COUNT(UNARIES), agrees = 1;
        const struct by_name *it = is_unary ? &UNARIES[f] : &BINARIES[f - COUNT(UNARIES)];
        uint16_t number = number_of(it->name, is_unary ? UNARY_NAMES : BINARY_NAMES);
        for (int i = 0; i < OPERAND_COUNT * OPERAND_COUNT; i++) {
            agrees &= call_agrees(it, is_unary, number, OPERANDS[i / OPERAND_COUNT], OPERANDS[i % OPERAND_COUNT]);
        }
        for (long i = 0; i < random_count; i++) {
            agrees &= call_agrees(it, is_unary, number, any_words(), any_words());
        }
        compare(it->name, agrees);
    }
}

/* The function by name and the call by number begin with the same bytes, and leave the same. */
static int access_agrees(const struct by_name *it, int is_load, uint16_t number, uint64_t ptr, wasmi_words value) {
    uint8_t memory[LEN], other[LEN];
    for (int k = 0; k < LEN; k++) {
        memory[k] = other[k] = (uint8_t)(k * 37 + 129);
    }
    wasmi_result wanted = {{0, 0}, 0};
    wanted.status = is_load ? wasmi_load(number, other, LEN, ptr, 3, &wanted.value)
                            : wasmi_store(number, other, LEN, ptr, 3, value);
    int agrees = is_same(it->access(it->function, memory, ptr, value), wanted);
    return agrees & (memcmp(memory, other, LEN) == 0);
}

static void compare_accesses(void) {
    for (size_t f = 0; f < COUNT(LOADS) + COUNT(STORES); f++) {
        int is_load = f < COUNT(LOADS), agrees = 1;
        const struct by_name *it = is_load ? &LOADS[f] : &STORES[f - COUNT(LOADS)];
        uint16_t number = number_of(it->name, is_load ? LOAD_NAMES : STORE_NAMES);
        for (int i = 0; i < PTR_COUNT; i++) {
            agrees &= access_agrees(it, is_load, number, PTRS[i], OPERANDS[OPERAND_COUNT - 1]);
        }
        for (long i = 0; i < random_count; i++) {
            agrees &= access_agrees(it, is_load, number, any_number() % 8 == 0 ? any_number() : any_number() % LEN, any_words());
        }
        compare(it->name, agrees);
    }
}

/* The shuffle, by the bytes of its vectors; an index of 32 is refused, and nothing is written. */
static void compare_shuffles(void) {
    wasmi_words a = OPERANDS[OPERAND_COUNT - 2], b = OPERANDS[OPERAND_COUNT - 1], value = {5, 6};
    for (int shift = 0; shift <= 16; shift++) {
        uint8_t lanes[17] = {0}, bytes[32];
        memcpy(bytes, &a, 16);
        memcpy(bytes + 16, &b, 16);
        for (int i = 0; i < 16; i++) {
            lanes[i] = (uint8_t)(shift + 15 - i);
        }
        uint8_t status = wasmi_i8x16_shuffle(a, b, lanes, &value);
        int agrees = status == WASMI_DONE;
        for (int i = 0; i < 16; i++) {
            agrees &= ((const uint8_t *)&value)[i] == bytes[lanes[i]];
        }
        compare("i8x16_shuffle", agrees);
        wasmi_words kept = value;
        lanes[shift % 16] = 32;
        agrees = wasmi_i8x16_shuffle(b, a, lanes, &value) == WASMI_NO_LANE;
        compare("i8x16_shuffle of no lane", agrees && value.lo == kept.lo && value.hi == kept.hi);
    }
}

int main(int count, char **words) {
    random_count = count > 1 ? atol(words[1]) : 0;
    compare_calls();
    compare_accesses();
    compare_shuffles();
    compare("the memory that is asked for", none_requested());
    printf("%d compared, %d differ\n", compared, differing);
    return differing != 0;
}
