/* A register machine of eleven instructions. Its instructions are plain C (-DPLAIN), functions of the library, or those
   of wasmi_inline.h (-DINLINE). It prints the processor time of an instruction in nanoseconds, and a checksum.
   usage: interpreter [ROUNDS] */
#ifdef INLINE
#include "wasmi_inline.h"
#else
#include "wasmi_instructions.h"
#endif
#include <stdio.h>
#include <stdlib.h>
#include <string.h>
#include <time.h>

enum { MEMORY = 65536, REGISTERS = 8 };

typedef enum { ADD, SUB, MUL, XOR, ROTL, SHR_U, LOAD, LOAD8, STORE, LT_U, BRANCH_IF } operation;
typedef struct {
    uint8_t operation, to, one, other;
    uint32_t immediate;
} instruction;

#ifdef PLAIN
#define PLAIN_ACCESS(size, ptr) (ptr) + it.immediate > MEMORY - (size)
static inline uint8_t loaded(const uint8_t *memory, instruction it, uint64_t ptr, uint32_t *value) {
    if (PLAIN_ACCESS(4, ptr))
        return WASMI_MEMORY_OUT_OF_BOUNDS;
    memcpy(value, memory + ptr + it.immediate, 4);
    return WASMI_DONE;
}
static inline uint8_t loaded_byte(const uint8_t *memory, instruction it, uint64_t ptr, int32_t *value) {
    if (PLAIN_ACCESS(1, ptr))
        return WASMI_MEMORY_OUT_OF_BOUNDS;
    *value = (int8_t)memory[ptr + it.immediate];
    return WASMI_DONE;
}
static inline uint8_t stored(uint8_t *memory, instruction it, uint64_t ptr, uint32_t value) {
    if (PLAIN_ACCESS(4, ptr))
        return WASMI_MEMORY_OUT_OF_BOUNDS;
    memcpy(memory + ptr + it.immediate, &value, 4);
    return WASMI_DONE;
}
#define ADDED(a, b) ((uint32_t)(a) + (uint32_t)(b))
#define SUBTRACTED(a, b) ((uint32_t)(a) - (uint32_t)(b))
#define MULTIPLIED(a, b) ((uint32_t)(a) * (uint32_t)(b))
#define EITHER(a, b) ((a) ^ (b))
#define ROTATED(a, b) ((uint32_t)(a) << ((b)&31) | (uint32_t)(a) >> (-(uint32_t)(b)&31))
#define SHIFTED(a, b) ((uint32_t)(a) >> ((b)&31))
#define IS_LESS(a, b) ((uint32_t)(a) < (uint32_t)(b))
#else
#define loaded(memory, it, ptr, value) wasmi_load_u32(memory, MEMORY, ptr, it.immediate, value)
#define loaded_byte(memory, it, ptr, value) wasmi_i32_load8_s(memory, MEMORY, ptr, it.immediate, value)
#define stored(memory, it, ptr, value) wasmi_store32(memory, MEMORY, ptr, it.immediate, value)
#define ADDED(a, b) wasmi_i32_add(a, b)
#define SUBTRACTED(a, b) wasmi_i32_sub(a, b)
#define MULTIPLIED(a, b) wasmi_i32_mul(a, b)
#define EITHER(a, b) wasmi_i32_bitxor(a, b)
#define ROTATED(a, b) wasmi_i32_rotl(a, b)
#define SHIFTED(a, b) wasmi_i32_shr_u((uint32_t)(a), (uint32_t)(b))
#define IS_LESS(a, b) wasmi_i32_lt_u((uint32_t)(a), (uint32_t)(b))
#endif

/* A loop that mixes 1,024 numbers of the memory with a state. */
static const instruction code[] = {
    {LOAD, 2, 0, 0, 16},  {ADD, 3, 3, 2, 0},  {ROTL, 3, 3, 6, 0}, {LOAD8, 4, 0, 0, 19}, {XOR, 3, 3, 4, 0}, {MUL, 5, 3, 7, 0},
    {SHR_U, 5, 5, 6, 0},  {XOR, 3, 3, 5, 0},  {SUB, 2, 2, 3, 0},  {STORE, 0, 0, 2, 16}, {ADD, 0, 0, 6, 0}, {LT_U, 2, 0, 1, 0},
    {BRANCH_IF, 0, 2, 0, 0},
};

/* Runs the loop to its end: how many instructions were executed; 0 if one trapped. */
static uint64_t run(uint8_t *memory, int32_t *registers) {
    uint64_t executed = 0;
    size_t next = 0;
    while (next < sizeof code / sizeof *code) {
        instruction it = code[next++];
        int32_t one = registers[it.one], other = registers[it.other];
        uint8_t status = WASMI_DONE;
        uint32_t value = 0;
        executed++;
        switch ((operation)it.operation) {
        case ADD: registers[it.to] = (int32_t)ADDED(one, other); break;
        case SUB: registers[it.to] = (int32_t)SUBTRACTED(one, other); break;
        case MUL: registers[it.to] = (int32_t)MULTIPLIED(one, other); break;
        case XOR: registers[it.to] = EITHER(one, other); break;
        case ROTL: registers[it.to] = (int32_t)ROTATED(one, other); break;
        case SHR_U: registers[it.to] = (int32_t)SHIFTED(one, other); break;
        case LOAD:
            status = loaded(memory, it, (uint32_t)one, &value);
            registers[it.to] = (int32_t)value;
            break;
        case LOAD8: status = loaded_byte(memory, it, (uint32_t)one, &registers[it.to]); break;
        case STORE: status = stored(memory, it, (uint32_t)one, (uint32_t)other); break;
        case LT_U: registers[it.to] = IS_LESS(one, other); break;
        case BRANCH_IF: next = one != 0 ? it.immediate : next; break;
        }
        if (status != WASMI_DONE)
            return 0;
    }
    return executed;
}

static double seconds(void) {
    struct timespec now;
    clock_gettime(CLOCK_PROCESS_CPUTIME_ID, &now);
    return (double)now.tv_sec + (double)now.tv_nsec / 1e9;
}

int main(int count, char **words) {
    static uint8_t memory[MEMORY];
    int rounds = count > 1 ? atoi(words[1]) : 21;
    double least = 1e9;
    int32_t registers[REGISTERS] = {0, 4096, 0, 1, 0, 0, 4, 40503};
    for (int round = 0; round < rounds; round++) {
        uint64_t executed = 0;
        double start = seconds();
        for (int turn = 0; turn < 1000; turn++) {
            registers[0] = 0;
            executed += run(memory, registers);
        }
        double taken = (seconds() - start) / (double)executed;
        least = taken < least ? taken : least;
    }
    printf("%.2f ns an instruction, checksum %d\n", least * 1e9, registers[3]);
    return 0;
}
