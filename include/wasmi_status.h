/* The names of statuses, for messages, in C and C++. tools/header writes this file. */
#ifndef WASMI_STATUS_H
#define WASMI_STATUS_H

#include "wasmi_memory.h"

/* The name of a status without WASMI_, as "MEMORY_GROWTH", or "no status" if no call of these headers returns it. The
   numbers that wasmi_script_run returns have other meanings. */
static inline const char *wasmi_status_name(uint8_t status) {
    switch (status) {
    case WASMI_DONE: return "DONE";
    case WASMI_MEMORY_OUT_OF_BOUNDS: return "MEMORY_OUT_OF_BOUNDS";
    case WASMI_INTEGER_DIVISION_BY_ZERO: return "INTEGER_DIVISION_BY_ZERO";
    case WASMI_INTEGER_OVERFLOW: return "INTEGER_OVERFLOW";
    case WASMI_NO_LANE: return "NO_LANE";
    case WASMI_LENGTHS_DIFFER: return "LENGTHS_DIFFER";
    case WASMI_UNKNOWN: return "UNKNOWN";
    case WASMI_NO_MACHINE: return "NO_MACHINE";
    case WASMI_NO_CALL: return "NO_CALL";
    case WASMI_NO_SUCH: return "NO_SUCH";
    case WASMI_NO_ROOM: return "NO_ROOM";
    case WASMI_NO_ELEMENT: return "NO_ELEMENT";
    case WASMI_HAS_MACHINE: return "HAS_MACHINE";
    case WASMI_BAD_LINE: return "BAD_LINE";
    case WASMI_HEADER_LINE: return "HEADER_LINE";
    case WASMI_TEXT_CUT: return "TEXT_CUT";
    case WASMI_NO_ANSWER: return "NO_ANSWER";
    case WASMI_NO_POOL: return "NO_POOL";
    case WASMI_HAS_POOL: return "HAS_POOL";
    case WASMI_NO_TENANT: return "NO_TENANT";
    case WASMI_MEMORY_OUT_OF_MEMORY: return "MEMORY_OUT_OF_MEMORY";
    case WASMI_MEMORY_GROWTH: return "MEMORY_GROWTH";
    case WASMI_MEMORY_ACCESS: return "MEMORY_ACCESS";
    case WASMI_MEMORY_DENIED: return "MEMORY_DENIED";
    case WASMI_MEMORY_SIZE_OVERFLOW: return "MEMORY_SIZE_OVERFLOW";
    case WASMI_MEMORY_OUT_OF_FUEL: return "MEMORY_OUT_OF_FUEL";
    case WASMI_TABLE_OUT_OF_MEMORY: return "TABLE_OUT_OF_MEMORY";
    case WASMI_TABLE_DENIED: return "TABLE_DENIED";
    case WASMI_TABLE_GROWTH: return "TABLE_GROWTH";
    case WASMI_TABLE_INIT: return "TABLE_INIT";
    case WASMI_TABLE_FILL: return "TABLE_FILL";
    case WASMI_TABLE_SET: return "TABLE_SET";
    case WASMI_TABLE_COPY: return "TABLE_COPY";
    case WASMI_TABLE_TYPE: return "TABLE_TYPE";
    case WASMI_TABLE_OUT_OF_FUEL: return "TABLE_OUT_OF_FUEL";
    case WASMI_METERING_DISABLED: return "METERING_DISABLED";
    case WASMI_OUT_OF_FUEL: return "OUT_OF_FUEL";
    case WASMI_GLOBAL_IMMUTABLE: return "GLOBAL_IMMUTABLE";
    case WASMI_GLOBAL_TYPE: return "GLOBAL_TYPE";
    case WASMI_SEGMENT_TOO_MANY_ITEMS: return "SEGMENT_TOO_MANY_ITEMS";
    case WASMI_SEGMENT_OUT_OF_MEMORY: return "SEGMENT_OUT_OF_MEMORY";
    case WASMI_MEMORY_REGION_TOO_SHORT: return "MEMORY_REGION_TOO_SHORT";
    case WASMI_INVALID_STATE: return "INVALID_STATE";
    case WASMI_ASKS: return "ASKS";
    case WASMI_OTHER_SIZE: return "OTHER_SIZE";
    case WASMI_NOT_HELD: return "NOT_HELD";
    default: return "no status";
    }
}
#endif
