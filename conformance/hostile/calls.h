/* The calls of wasmi_machine.h as lines of a script (docs/SCRIPT.md), for the programs that compare the two. */
#ifndef CALLS_H
#define CALLS_H

#include "wasmi_machine.h"
#include <inttypes.h>
#include <stdarg.h>
#include <stdio.h>

/* The longest text that is put at once. */
enum { MOST_LINE = 512 };

#define NAME(number, name) #name,
static const char *const UNARIES[] = {WASMI_UNARY_NAMES(NAME)};
static const char *const BINARIES[] = {WASMI_BINARY_NAMES(NAME)};
static const char *const TERNARIES[] = {WASMI_TERNARY_NAMES(NAME)};
static const char *const EXTRACTIONS[] = {WASMI_EXTRACT_LANE_NAMES(NAME)};
static const char *const REPLACEMENTS[] = {WASMI_REPLACE_LANE_NAMES(NAME)};
static const char *const LOADS[] = {WASMI_LOAD_NAMES(NAME)};
static const char *const STORES[] = {WASMI_STORE_NAMES(NAME)};
static const char *const LANE_LOADS[] = {WASMI_LOAD_LANE_NAMES(NAME)};
static const char *const LANE_STORES[] = {WASMI_STORE_LANE_NAMES(NAME)};

#define COUNT(list) (sizeof(list) / sizeof(list)[0])

/* What tools/generate writes begins. */
/* Which instruction a number of a shape is. */
static inline int is_scalar_unary(uint16_t op) { return op < 16; }
static inline int is_make(uint16_t op) { return op >= 16 && op < 28; }
static inline int is_test(uint16_t op) { return op >= 54 && op < 63; }
static inline int is_scalar_binary(uint16_t op) { return op < 54; }
static inline int is_shift(uint16_t op) { return op >= 150 && op < 162; }
static inline int is_vector_load(uint16_t op) { return op >= 12 && op < 25; }
static inline int is_vector_store(uint16_t op) { return op == 7; }
/* What tools/generate writes ends. */

static inline const char *name_of(const char *const *names, size_t count, uint16_t op) {
    return op < count ? names[op] : "unknown";
}
#define NAME_OF(names, op) name_of(names, COUNT(names), op)

static inline const char *reference_word(uint8_t type) {
    return type == WASMI_TYPE_FUNCREF ? "func" : type == WASMI_TYPE_EXTERNREF ? "extern" : "unknown";
}

static inline const char *type_word(uint8_t type) {
    static const char *const words[] = {"i32", "i64", "f32", "f64", "v128", "funcref", "externref"};
    return type < 7 ? words[type] : "unknown";
}

static inline char *put(char *at, const char *format, ...) {
    va_list words;
    va_start(words, format);
    at += vsnprintf(at, MOST_LINE, format, words);
    va_end(words);
    return at;
}

#define U " %" PRIu64

static inline char *maximum_word(char *at, const wasmi_call *c) {
    return c->has_maximum ? put(at, U, c->maximum) : put(at, " none");
}

/* The lines of the kinds that several calls share, and of those with a type of memories or tables or with lanes. */
static inline char *line_by_hand(char *at, const wasmi_call *c) {
    const char *type = reference_word(c->type);
    switch (c->kind) {
        case WASMI_CALL_NEW_MEMORY:
            at = maximum_word(put(at, "memory" U, c->count), c);
            return put(at, " %d %d", c->page_size_log2, c->is_64 ? 64 : 32);
        case WASMI_CALL_LOAD:
            return is_vector_load(c->op)
                ? put(at, "vload %s %d %zu" U U, NAME_OF(LOADS, c->op), c->dst, c->index, c->ptr, c->offset)
                : put(at, "load %s %zu" U U, NAME_OF(LOADS, c->op), c->index, c->ptr, c->offset);
        case WASMI_CALL_STORE:
            return is_vector_store(c->op)
                ? put(at, "vstore %d %zu" U U, c->a, c->index, c->ptr, c->offset)
                : put(at, "store %s %zu" U U U, NAME_OF(STORES, c->op), c->index, c->ptr, c->offset, c->value.lo);
        case WASMI_CALL_NEW_TABLE:
            at = maximum_word(put(at, "table %s" U, type, c->count), c);
            return put(at, " %d %s %" PRIu32, c->is_64 ? 64 : 32, type, c->reference);
        case WASMI_CALL_UNARY:
            if (is_test(c->op)) {
                return put(at, "test %s %d", NAME_OF(UNARIES, c->op), c->a);
            }
            at = put(at, is_make(c->op) ? "make" : "unary");
            return put(at, " %s %d %d", NAME_OF(UNARIES, c->op), c->dst, c->a);
        case WASMI_CALL_BINARY:
            at = put(at, is_shift(c->op) ? "shift" : "binary");
            at = put(at, " %s %d %d", NAME_OF(BINARIES, c->op), c->dst, c->a);
            return put(at, U, is_shift(c->op) ? c->count : c->b);
        case WASMI_CALL_SHUFFLE:
            at = put(at, "shuffle %d %d %d", c->dst, c->a, c->b);
            for (int i = 0; i < 16; i++) {
                at = put(at, " %d", c->lanes[i]);
            }
            return at;
        default: return put(at, "unknown");
    }
}

/* What tools/generate writes begins. */
/* How many kinds of calls there are: the numbers from this one on stand for none. */
enum { KINDS = 33 };

/* The line of a call, without its end. */
static inline char *line_of(char *at, const wasmi_call *c) {
    switch (c->kind) {
        case WASMI_CALL_SET_FUEL: return put(at, "fuel" U, c->count);
        case WASMI_CALL_GET_FUEL: return put(at, "left");
        case WASMI_CALL_GROW_MEMORY: return put(at, "grow %zu" U, c->index, c->count);
        case WASMI_CALL_DROP_MEMORY: return put(at, "drop memory %zu", c->index);
        case WASMI_CALL_LOAD_LANE:
            return put(at, "vloadlane %s %d %d %d %zu" U U, NAME_OF(LANE_LOADS, c->op), c->dst, c->a, c->lane, c->index,
                       c->ptr, c->offset);
        case WASMI_CALL_STORE_LANE:
            return put(at, "vstorelane %s %d %d %zu" U U, NAME_OF(LANE_STORES, c->op), c->a, c->lane, c->index, c->ptr,
                       c->offset);
        case WASMI_CALL_GROW_TABLE:
            return put(at, "tgrow %zu" U " %s %" PRIu32, c->index, c->count, reference_word(c->type), c->reference);
        case WASMI_CALL_DROP_TABLE: return put(at, "drop table %zu", c->index);
        case WASMI_CALL_GET_ELEMENT: return put(at, "get %zu" U, c->index, c->to);
        case WASMI_CALL_SET_ELEMENT:
            return put(at, "tset %zu" U " %s %" PRIu32, c->index, c->to, reference_word(c->type), c->reference);
        case WASMI_CALL_INIT_TABLE: return put(at, "init %zu %zu" U U U, c->index, c->source, c->to, c->from, c->count);
        case WASMI_CALL_COPY_TABLE:
            return put(at, "copy %zu" U " %zu" U U, c->index, c->to, c->source, c->from, c->count);
        case WASMI_CALL_FILL_TABLE:
            return put(at, "fill %zu" U " %s %" PRIu32 U, c->index, c->to, reference_word(c->type), c->reference,
                       c->count);
        case WASMI_CALL_DROP_ITEMS: return put(at, "empty %zu", c->index);
        case WASMI_CALL_NEW_GLOBAL:
            return put(at, "global %s %s" U U, type_word(c->type), c->is_mutable ? "var" : "const", c->value.lo,
                       c->value.hi);
        case WASMI_CALL_SET_GLOBAL:
            return put(at, "gset %zu %s" U U, c->index, type_word(c->type), c->value.lo, c->value.hi);
        case WASMI_CALL_GET_GLOBAL: return put(at, "gget %zu", c->index);
        case WASMI_CALL_SET_REGISTER: return put(at, "set %d" U U, c->dst, c->value.lo, c->value.hi);
        case WASMI_CALL_GET_REGISTER: return put(at, "show %d", c->a);
        case WASMI_CALL_TERNARY:
            return put(at, "ternary %s %d %d %d %d", NAME_OF(TERNARIES, c->op), c->dst, c->a, c->b, c->c);
        case WASMI_CALL_EXTRACT_LANE: return put(at, "extract %s %d %d", NAME_OF(EXTRACTIONS, c->op), c->a, c->lane);
        case WASMI_CALL_REPLACE_LANE:
            return put(at, "replace %s %d %d %d %d", NAME_OF(REPLACEMENTS, c->op), c->dst, c->a, c->lane, c->b);
        case WASMI_CALL_FILL_MEMORY:
            return put(at, "mfill %zu" U " %d" U, c->index, c->to, (int)(c->value.lo & 255), c->count);
        case WASMI_CALL_COPY_MEMORY:
            return put(at, "mcopy %zu" U " %zu" U U, c->index, c->to, c->source, c->from, c->count);
        case WASMI_CALL_INIT_MEMORY:
            return put(at, "minit %zu %zu" U U U, c->index, c->source, c->to, c->from, c->count);
        case WASMI_CALL_DROP_DATA: return put(at, "dempty %zu", c->index);
        default: return line_by_hand(at, c);
    }
}

/* The text of an error of a memory or a table, but for want of fuel. */
static inline const char *error_of(uint8_t status) {
    switch (status) {
        case WASMI_MEMORY_OUT_OF_MEMORY: return "tried to allocate more virtual memory than available on the system";
        case WASMI_MEMORY_GROWTH: return "out of bounds memory growth";
        case WASMI_MEMORY_ACCESS: return "out of bounds memory access";
        case 35: return "tried to create an invalid linear memory type";
        case 36: return "tried to use too small static buffer";
        case WASMI_MEMORY_DENIED: return "a resource limiter denied to allocate or grow the linear memory";
        case WASMI_MEMORY_SIZE_OVERFLOW: return "the minimum size of the memory type overflows the system index type";
        case 39: return "the maximum size of the memory type overflows the system index type";
        case WASMI_TABLE_OUT_OF_MEMORY: return "tried to allocate more virtual memory than available on the system";
        case 49: return "the minimum table size overflows the system bounds";
        case 50: return "the maximum table size overflows the system bounds";
        case WASMI_TABLE_DENIED: return "a resource limiter denied to allocate or grow the table";
        case WASMI_TABLE_GROWTH: return "out of bounds table access: `table.growth`";
        case WASMI_TABLE_INIT: return "out of bounds table access: `table.init`";
        case WASMI_TABLE_FILL: return "out of bounds table access: `table.fill`";
        case WASMI_TABLE_SET: return "out of bounds table access: `table.set`";
        case WASMI_TABLE_COPY: return "out of bounds table access: `table.copy`";
        case WASMI_TABLE_TYPE: return "encountered mismatching table element type";
        default: return "unknown status";
    }
}
/* What tools/generate writes ends. */

#endif
