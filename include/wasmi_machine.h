/* A machine that lives from call to call, with memories, tables, segments, globals, registers, fuel and limits, for C
   and C++, in libwasmi_core.a. wasmi_core.h has the numbers of instructions, and calls on values and bytes of the
   caller's.

   A machine makes its memories and tables in memory of its own, within two caps or as a list of answers permits, if it
   is made with either; it grows them, and writes over ranges of them, for fuel if its meter is on. Memories, tables,
   element segments, data segments and globals go by their indices, which count from 0 for each kind and aren't used
   again. A memory or a table that is dropped gives its bytes back and counts within the caps at its last size, and its
   slot stays, until the machine ends: 1,000,000 memories that were made and dropped on one machine keep 78 MB. So a host
   that runs guest after guest makes a machine, or a tenant of a pool, for each, and ends it with the guest.

   What the caller owes, which no call tests:
   - A handle is all zeros before its first call, and is written by these calls alone from then on.
   - It isn't used in two copies: whoever copies or moves it uses the new one alone from then on.
   - It is in one call at a time. Several threads may use a handle each, and a handle may go to another thread: the
     caller orders the calls on both threads by a lock, by the start or the end of a thread, or by a sequentially
     consistent atomic.
   - A pointer leads to what its type says, and isn't NULL, except for an array of length 0; an array has at most
     PTRDIFF_MAX bytes. What a call writes doesn't overlap with anything else that it takes. No pointer is kept.
   Everything else is tested: a handle without a machine, and any numbers in the structs that are passed.

   What is promised, by proof:
   - A call leaves a machine as one step of the library's machine does (SCRIPT.md of the documentation has the same
     calls as lines). So the library's laws over such steps hold: a refused call changes nothing except where it is said
     below.
   - After each call the memories and the tables of a machine are within its caps, if it has caps, and these are the
     caps that it was made with.
   - A machine keeps the kind of limiter that it was made with. Of answers each question takes the next one, and nothing
     else takes any.
   - A handle may go to another thread.

   All calls of the library's machine are here except the one that makes a memory in a region of the caller's: no
   contract of a C function can say that the caller lends the region until the machine ends. */
#ifndef WASMI_MACHINE_H
#define WASMI_MACHINE_H

#include "wasmi_core.h"
#include <stdbool.h>

#ifdef __cplusplus
extern "C" {
#endif

/* A handle: zeros, or what wasmi_machine_new or wasmi_machine_new_with_answers has made of it. */
typedef struct { uint8_t *at; bool is_made; } wasmi_machine;

/* What a machine is made with. */
typedef struct {
    uint64_t bytes;                     /* the caps: the most bytes that its memories may have together .. */
    uint64_t elements;                  /* .. and the most elements of its tables; dropped ones count */
    uint32_t bytes_copied_per_fuel;     /* 64 upstream; 0 makes each copy cost UINT64_MAX */
    uint32_t fuel_per_bytes_translated; /* 7 upstream; no call here takes it */
    uint32_t fuel_per_bytes_validated;  /* 2 upstream; no call here takes it */
    uint8_t is_metered;                 /* 0: the meter is off, and nothing takes fuel; else on, with none at first */
    uint8_t is_unlimited;               /* 0: the caps hold; else there are none, and bytes and elements aren't read */
} wasmi_limits;

/* Makes a machine with nothing on it. DONE; HAS_MACHINE if the handle has one; then NO_ROOM if the system refuses memory.
   After a refusal the handle is unchanged. */
uint8_t wasmi_machine_new(wasmi_machine *machine, const wasmi_limits *limits) WASMI_CHECKED WASMI_NOT_NULL(1, 2);

/* The answers of a limiter. */
enum {
    WASMI_ANSWER_PERMIT = 0,
    WASMI_ANSWER_DENY = 1,
    WASMI_ANSWER_ERROR = 2,   /* it denies by an error */
    WASMI_ANSWER_COMPLAIN = 3 /* it permits; if that then fails, the answer to the notice of it is an error */
};

/* Makes a machine whose limiter answers from a list, as that of a script with an `answers` line (SCRIPT.md). Each
   question takes the next answer, and after the last one everything is permitted. A question is asked before a memory
   or a table is made, and before one grows by more than 0; not if a memory would grow beyond its type, or a table
   beyond what its indices reach. If the answer is DENY, a new one is refused by MEMORY_DENIED or TABLE_DENIED, and a
   growth by MEMORY_GROWTH or TABLE_GROWTH; if it is ERROR, both by MEMORY_DENIED or TABLE_DENIED. If it was COMPLAIN,
   and what it permitted fails, for want of fuel or memory or beyond a table's maximum, the status is MEMORY_DENIED or
   TABLE_DENIED, and not that of the failure.
   Of limits, bytes, elements and is_unlimited aren't read: there are no caps. The answers are copied.
   DONE; HAS_MACHINE if the handle has one; then NO_ANSWER if a byte is no number of an answer; then NO_ROOM if the
   system refuses memory. After a refusal the handle is unchanged. */
uint8_t wasmi_machine_new_with_answers(wasmi_machine *machine, const wasmi_limits *limits, const uint8_t *answers,
                                       size_t len) WASMI_CHECKED WASMI_NOT_NULL(1, 2);

/* Ends the machine, if there is one, and gives all of its memory back, which is tested and not proved. The handle may be
   used for a new one. */
void wasmi_machine_drop(wasmi_machine *machine) WASMI_NOT_NULL(1);

/* The kinds of calls. Behind each stands what it reads of a wasmi_call, then what its reply has, and then its refusals
   in the order in which they are tested. The first is always WASMI_NO_SUCH, if there is no memory, table, segment,
   global or register of an index or a number. Growths and writes over a range take fuel, as it says there; no other kind
   does, and neither do wasmi_machine_read and wasmi_machine_write. */
enum {
    WASMI_CALL_SET_FUEL = 0, /* count, in place of what is left; METERING_DISABLED */
    WASMI_CALL_GET_FUEL = 1, /* -> number; METERING_DISABLED */
    /* Makes a memory of zeros: count and maximum in pages, page_size_log2 (0 or 16), is_64 -> number: its index;
       NO_ROOM, MEMORY_SIZE_OVERFLOW, MEMORY_DENIED (by the limiter), MEMORY_OUT_OF_MEMORY. */
    WASMI_CALL_NEW_MEMORY = 2,
    /* Grows a memory by pages of zeros: index, count -> number: its old size in pages; MEMORY_GROWTH (beyond its type,
       or denied), MEMORY_OUT_OF_FUEL (number: what is needed), MEMORY_OUT_OF_MEMORY, after which the fuel is spent.
       A growth by 0 returns the size, and takes no fuel. Each other growth costs as much as a copy of the added
       bytes: 1,024 for a page of 64 KiB at 64 bytes for a unit. A copy of n bytes costs n / bytes_copied_per_fuel,
       rounded down. */
    WASMI_CALL_GROW_MEMORY = 3,
    WASMI_CALL_DROP_MEMORY = 4, /* index; its size still counts */
    /* Accesses at ptr + offset (2^64 or more is past the end); op is a number of wasmi_load, wasmi_store, wasmi_load_lane
       or wasmi_store_lane in wasmi_core.h, as WASMI_LOAD_I32_LOAD8_S; MEMORY_OUT_OF_BOUNDS. A load of an item is in
       the reply, one of a vector in register dst; a store of an item takes value, one of a vector register a; a lane
       goes into or comes from a. */
    WASMI_CALL_LOAD = 5,        /* op, index, ptr, offset, dst -> value */
    WASMI_CALL_STORE = 6,       /* op, index, ptr, offset, value, a */
    WASMI_CALL_LOAD_LANE = 7,   /* op, lane, index, ptr, offset, a, dst */
    WASMI_CALL_STORE_LANE = 8,  /* op, lane, index, ptr, offset, a */
    /* Makes a table of one reference: count and maximum in elements, is_64, type, reference -> number: its index;
       NO_ROOM, TABLE_DENIED (by the limiter), TABLE_OUT_OF_MEMORY. */
    WASMI_CALL_NEW_TABLE = 9,
    /* Grows a table by elements of one reference: index, count, type, reference -> number: its old size;
       TABLE_TYPE, TABLE_GROWTH (beyond its type, or denied), TABLE_OUT_OF_FUEL, TABLE_OUT_OF_MEMORY, after which the
       fuel is spent. A growth by 0 returns the size, and takes no fuel. Each other growth, and each write below, costs
       as much as a copy of 4 bytes an element, or of UINT64_MAX bytes where that is more; INIT_TABLE of no items
       costs nothing. */
    WASMI_CALL_GROW_TABLE = 10,
    WASMI_CALL_DROP_TABLE = 11,  /* index; its size still counts */
    WASMI_CALL_GET_ELEMENT = 12, /* index, to -> type, reference; NO_ELEMENT */
    WASMI_CALL_SET_ELEMENT = 13, /* index, to, type, reference; TABLE_TYPE, TABLE_SET */
    /* Writes over count elements of a table from to on, for fuel: TABLE_TYPE, then out of bounds, then
       TABLE_OUT_OF_FUEL. */
    WASMI_CALL_INIT_TABLE = 14,  /* index, to, source (an element segment), from, count (below 2^32 both);
                                    .. TABLE_INIT .. */
    WASMI_CALL_COPY_TABLE = 15,  /* index, to, source (a table, this one too), from, count; .. TABLE_COPY .. */
    WASMI_CALL_FILL_TABLE = 16,  /* index, to, count, type, reference; .. TABLE_FILL .. */
    WASMI_CALL_DROP_ITEMS = 17,  /* index: the items of an element segment, which stays */
    WASMI_CALL_NEW_GLOBAL = 18,  /* type, is_mutable, value -> number: its index; NO_ROOM */
    WASMI_CALL_SET_GLOBAL = 19,  /* index, type, value, whose bits above the type stay; GLOBAL_IMMUTABLE, GLOBAL_TYPE */
    WASMI_CALL_GET_GLOBAL = 20,  /* index -> value */
    WASMI_CALL_SET_REGISTER = 21, /* dst, value */
    WASMI_CALL_GET_REGISTER = 22, /* a -> value */
    /* Instructions on registers; op is a number of wasmi_unary, wasmi_binary, wasmi_ternary, wasmi_extract_lane or
       wasmi_replace_lane in wasmi_core.h, of one that has a vector: one on items alone is NO_CALL. The result is in
       register dst, or in the reply if it is an item. */
    WASMI_CALL_UNARY = 23,        /* op, a, dst -> value, of a test */
    WASMI_CALL_BINARY = 24,       /* op, a, b, dst; a shift: op, a, count (below 2^32), dst */
    WASMI_CALL_TERNARY = 25,      /* op, a, b, c, dst */
    WASMI_CALL_EXTRACT_LANE = 26, /* op, lane, a -> value */
    WASMI_CALL_REPLACE_LANE = 27, /* op, lane, a, b (the item), dst */
    WASMI_CALL_SHUFFLE = 28,      /* lanes, a, b, dst: byte i of the result is the byte of lane lanes[i] */
    /* What tools/generate writes begins. */
    /* Writes over count bytes of a memory from to on, for fuel: MEMORY_ACCESS, then MEMORY_OUT_OF_FUEL. */
    WASMI_CALL_FILL_MEMORY = 29, /* index, to, count, value: its lowest byte */
    WASMI_CALL_COPY_MEMORY = 30, /* index, to, source (a memory, this one too), from, count */
    WASMI_CALL_INIT_MEMORY = 31, /* index, to, source (a data segment), from, count (below 2^32 both) */
    WASMI_CALL_DROP_DATA = 32    /* index: the bytes of a data segment, which stays */
    /* What tools/generate writes ends. */
};

/* Value types. */
enum {
    WASMI_TYPE_I32 = 0,
    WASMI_TYPE_I64 = 1,
    WASMI_TYPE_F32 = 2,
    WASMI_TYPE_F64 = 3,
    WASMI_TYPE_V128 = 4,
    WASMI_TYPE_FUNCREF = 5,
    WASMI_TYPE_EXTERNREF = 6
};

/* A call: its kind, and its operands. What its kind doesn't read isn't looked at, so begin with zeros. */
typedef struct {
    uint16_t kind;
    uint16_t op;
    uint8_t lane;
    uint8_t dst, a, b, c;        /* registers: 0 to 15 */
    uint8_t type;
    uint8_t is_mutable;          /* 0: a constant */
    uint8_t is_64;               /* 0: addresses or indices of 32 bits; else of 64 */
    uint8_t has_maximum;         /* 0: maximum isn't read */
    uint8_t page_size_log2;      /* 16: pages of 64 KiB; 0: pages of one byte */
    uint32_t reference;
    size_t index, source;
    uint64_t count, maximum;
    uint64_t ptr, offset;
    uint64_t to, from;
    wasmi_words value;
    uint8_t lanes[16];           /* 0 to 15: a byte of register a; 16 to 31: one of register b */
} wasmi_call;

/* The statuses of replies, besides WASMI_DONE, and WASMI_MEMORY_OUT_OF_BOUNDS for a load or a store. */
enum {
    WASMI_NO_MACHINE = 16,  /* the handle has none */
    WASMI_NO_CALL = 17,     /* no such kind, type, instruction or lane, count above maximum or either above what
                               addresses or indices reach, or a number below 2^32 that is greater */
    WASMI_NO_SUCH = 18,
    WASMI_NO_ROOM = 20,     /* out of memory for a slot, a copy or a machine: nothing was asked or changed */
    WASMI_NO_ELEMENT = 21,
    WASMI_HAS_MACHINE = 22, /* the handle has one */
    WASMI_BAD_LINE = 23,    /* of wasmi_machine_run_lines, as the next two: nothing was run */
    WASMI_HEADER_LINE = 24, /* nothing was run */
    WASMI_TEXT_CUT = 25,    /* the lines were run; their text has 2^64 - 1 bytes or more */
    WASMI_NO_ANSWER = 26,   /* of wasmi_machine_new_with_answers: a byte is no number of an answer */
    WASMI_NO_POOL = 27,     /* of the calls on a pool: the handle has none */
    WASMI_HAS_POOL = 28,    /* the handle has one */
    WASMI_NO_TENANT = 29,   /* no tenant of the pool has the index: nothing was run */
    /* What tools/generate writes begins. */
    WASMI_MEMORY_OUT_OF_MEMORY = 32,
    WASMI_MEMORY_GROWTH = 33,        /* beyond the type, or denied, as beyond the caps */
    WASMI_MEMORY_ACCESS = 34,        /* of wasmi_machine_read and wasmi_machine_write */
    WASMI_MEMORY_DENIED = 37,        /* a new memory is denied, or an answer is an error */
    WASMI_MEMORY_SIZE_OVERFLOW = 38,
    WASMI_MEMORY_OUT_OF_FUEL = 40,
    WASMI_TABLE_OUT_OF_MEMORY = 48,
    WASMI_TABLE_DENIED = 51,         /* a new table is denied, or an answer is an error */
    WASMI_TABLE_GROWTH = 52,         /* beyond the type, or denied, as beyond the caps */
    WASMI_TABLE_INIT = 53,
    WASMI_TABLE_FILL = 54,
    WASMI_TABLE_SET = 55,
    WASMI_TABLE_COPY = 56,
    WASMI_TABLE_TYPE = 57,
    WASMI_TABLE_OUT_OF_FUEL = 58,
    /* What tools/generate writes ends. */
    WASMI_METERING_DISABLED = 64,
    WASMI_OUT_OF_FUEL = 65,
    WASMI_GLOBAL_IMMUTABLE = 72,
    WASMI_GLOBAL_TYPE = 73,
    WASMI_SEGMENT_TOO_MANY_ITEMS = 80,
    WASMI_SEGMENT_OUT_OF_MEMORY = 81
};

/* A reply. What it doesn't have is 0: after a refusal all except the status, and the number if fuel is short. */
typedef struct {
    wasmi_words value;
    uint64_t number;
    uint32_t reference;
    uint8_t type;
    uint8_t status;
} wasmi_reply;

/* The bytes of all memories and the elements of all tables, dropped ones at their last size, each below 2^128. */
typedef struct { wasmi_words bytes, elements; uint8_t status; } wasmi_totals;

/* Replies to a call. Before all else: NO_MACHINE, NO_CALL. */
wasmi_reply wasmi_machine_call(wasmi_machine *machine, const wasmi_call *call) WASMI_CHECKED WASMI_NOT_NULL(1, 2);

/* Replies to calls one after the other, each as wasmi_machine_call does, and sets replies[i] to the reply to calls[i]. A
   call that is refused, also by NO_CALL, has that in its reply, and the next one follows. It takes no memory but what
   the calls take. DONE; NO_MACHINE; then LENGTHS_DIFFER if there aren't as many replies as calls. After a refusal of
   the list no call was made, and the replies are unchanged. */
uint8_t wasmi_machine_run_into(wasmi_machine *machine, const wasmi_call *calls, size_t calls_len, wasmi_reply *replies,
                               size_t replies_len) WASMI_CHECKED WASMI_NOT_NULL(1);

/* Slots of each kind: how many more are reserved. */
typedef struct { size_t memories, tables, segments, data_segments, globals; } wasmi_room;

/* Reserves so many more slots at once, beside those of what was made. What is made in them later takes no memory for
   its slot: a global then takes none, and is never refused by NO_ROOM; a memory takes its bytes, a table its elements,
   and a segment the copies of what it has. All other calls on what is there take none, except a growth, unless it is one
   of a table for whose elements memory is reserved, and wasmi_machine_run_lines. So a host that reserves, and makes what
   it needs, runs any number of these without asking for memory again. What was reserved already stays so, and doesn't
   add up: to reserve 4 twice, with nothing made between, reserves 4. It counts within no cap.
   DONE; NO_MACHINE; then NO_ROOM if the system refuses memory for some of them. Then none more is reserved. */
uint8_t wasmi_machine_reserve(wasmi_machine *machine, const wasmi_room *room) WASMI_CHECKED WASMI_NOT_NULL(1, 2);

/* Reserves memory for so many elements of a table, those that are there included: until it has more, no growth of it is
   refused with TABLE_OUT_OF_MEMORY. What was reserved already stays so, and it counts within no cap.
   DONE; NO_MACHINE; then NO_SUCH, NO_ROOM if the system refuses the memory. Then no more is reserved. */
uint8_t wasmi_machine_reserve_elements(wasmi_machine *machine, size_t table, uint64_t elements)
    WASMI_CHECKED WASMI_NOT_NULL(1);

/* The calls that engines make most, with plain arguments; each does what wasmi_machine_call does with the same operands,
   and returns the status. Before all else: NO_MACHINE, then NO_CALL if op is no number of such an
   instruction. */

/* WASMI_CALL_LOAD of an item, by a number of wasmi_load below 12; sets *value to the item: NO_SUCH,
   MEMORY_OUT_OF_BOUNDS. After a refusal *value is unchanged. */
uint8_t wasmi_machine_load(wasmi_machine *machine, uint16_t op, size_t memory, uint64_t ptr, uint64_t offset,
                           uint64_t *value) WASMI_CHECKED WASMI_NOT_NULL(1, 6);

/* WASMI_CALL_STORE of an item, by a number of wasmi_store below 7: NO_SUCH, MEMORY_OUT_OF_BOUNDS. */
uint8_t wasmi_machine_store(wasmi_machine *machine, uint16_t op, size_t memory, uint64_t ptr, uint64_t offset,
                            uint64_t value) WASMI_CHECKED WASMI_NOT_NULL(1);

/* WASMI_CALL_BINARY of two registers, by a number of wasmi_binary that is no shift's: NO_SUCH. */
uint8_t wasmi_machine_binary(wasmi_machine *machine, uint16_t op, uint8_t dst, uint8_t a, uint8_t b)
    WASMI_CHECKED WASMI_NOT_NULL(1);

/* WASMI_CALL_GROW_MEMORY: sets *number to the old size in pages, or to the fuel that is needed at MEMORY_OUT_OF_FUEL;
   else *number is unchanged. */
uint8_t wasmi_machine_grow(wasmi_machine *machine, size_t memory, uint64_t pages, uint64_t *number)
    WASMI_CHECKED WASMI_NOT_NULL(1, 4);

/* WASMI_CALL_FILL_MEMORY, _COPY_MEMORY and _INIT_MEMORY: NO_SUCH, MEMORY_ACCESS, MEMORY_OUT_OF_FUEL, at which *number is
   set to the fuel that is needed; else *number is unchanged. */
uint8_t wasmi_machine_fill(wasmi_machine *machine, size_t memory, uint64_t to, uint8_t value, uint64_t count,
                           uint64_t *number) WASMI_CHECKED WASMI_NOT_NULL(1, 6);
uint8_t wasmi_machine_copy(wasmi_machine *machine, size_t memory, uint64_t to, size_t source, uint64_t from,
                           uint64_t count, uint64_t *number) WASMI_CHECKED WASMI_NOT_NULL(1, 7);
uint8_t wasmi_machine_init(wasmi_machine *machine, size_t memory, size_t segment, uint64_t to, uint32_t from,
                           uint32_t count, uint64_t *number) WASMI_CHECKED WASMI_NOT_NULL(1, 7);

/* WASMI_CALL_GET_FUEL: sets *left to the fuel that is left; METERING_DISABLED, after which *left is unchanged. */
uint8_t wasmi_machine_fuel_left(wasmi_machine *machine, uint64_t *left) WASMI_CHECKED WASMI_NOT_NULL(1, 2);

/* Copies len bytes of a memory from offset on to bytes: NO_MACHINE, NO_SUCH, or MEMORY_ACCESS if they end past it;
   then bytes is unchanged. It takes no memory of its own. */
wasmi_reply wasmi_machine_read(wasmi_machine *machine, size_t memory, size_t offset, uint8_t *bytes, size_t len)
    WASMI_CHECKED WASMI_NOT_NULL(1);

/* Writes len bytes over those of a memory from offset on: NO_MACHINE, NO_SUCH, or MEMORY_ACCESS if they end past it;
   then the memory is unchanged. It takes no memory of its own. */
wasmi_reply wasmi_machine_write(wasmi_machine *machine, size_t memory, size_t offset, const uint8_t *bytes, size_t len)
    WASMI_CHECKED WASMI_NOT_NULL(1);

/* Makes an element segment of a copy of references of a type -> number: its index; NO_MACHINE, NO_CALL if type is of no
   references, NO_ROOM, SEGMENT_TOO_MANY_ITEMS, SEGMENT_OUT_OF_MEMORY. */
wasmi_reply wasmi_machine_new_segment(wasmi_machine *machine, uint8_t type, const uint32_t *items, size_t len)
    WASMI_CHECKED WASMI_NOT_NULL(1);

/* Makes a data segment of a copy of bytes -> number: its index; NO_MACHINE, NO_ROOM. */
wasmi_reply wasmi_machine_new_data(wasmi_machine *machine, const uint8_t *bytes, size_t len)
    WASMI_CHECKED WASMI_NOT_NULL(1);

/* Takes fuel for what the caller does itself, as an interpreter's instructions -> number: what is left then;
   NO_MACHINE, METERING_DISABLED, or OUT_OF_FUEL if less is left (number: the amount): then none is taken. */
wasmi_reply wasmi_machine_consume_fuel(wasmi_machine *machine, uint64_t amount) WASMI_CHECKED WASMI_NOT_NULL(1);

/* The totals; NO_MACHINE. Without caps its time grows with the number of memories and tables that were ever made. */
wasmi_totals wasmi_machine_totals(wasmi_machine *machine) WASMI_NOT_NULL(1);

/* Runs lines of calls, as SCRIPT.md has them, one after the other, and writes what a script prints for them to the
   front of text, as much as text_len has room for -> number: the length of the whole text. First NO_MACHINE. Then, with
   nothing run and text unchanged: BAD_LINE (number: the first line that is no command, from 1; an `as` line is one),
   HEADER_LINE if the first lines are headers (later ones are bad), since the machine has its meter and its limiter
   already, or NO_ROOM if memory is refused for the calls or for their replies. The text takes no memory. After the run
   TEXT_CUT, if the text has 2^64 - 1 bytes or more (number: 2^64 - 1). */
wasmi_reply wasmi_machine_run_lines(wasmi_machine *machine, const uint8_t *lines, size_t lines_len, uint8_t *text,
                                    size_t text_len) WASMI_CHECKED WASMI_NOT_NULL(1);

/* A pool: machines, its tenants, under one cap of bytes and one of elements that they share. A tenant goes by its
   index, which counts from 0 and is given once; what a tenant drops counts until it is removed. A pool takes memory for
   the tenants that it has, and none for those that it had. The caller owes a handle of a pool what it owes one of a
   machine.

   What is promised, by proof:
   - A call on a tenant is a run of that call on its machine alone, under a limiter which permits a growth exactly if
     all tenants together stay within the cap. No other tenant's machine changes, nor what it has.
   - After each call all tenants together are within the caps, and these are the caps that the pool was made with.
   - A tenant that is never denied gets what it gets in a pool of its own with the same caps, whatever other tenants do.
   - What a removed tenant has counts no more, and no later call finds a tenant at its index.
   - A handle may go to another thread. */

/* A handle: zeros, or what wasmi_pool_new has made of it. */
typedef struct { uint8_t *at; bool is_made; } wasmi_pool;

/* Makes a pool without tenants: at most so many bytes in all memories, and so many elements in all tables. DONE;
   HAS_POOL if the handle has one; then NO_ROOM if the system refuses memory. After a refusal the handle is unchanged. */
uint8_t wasmi_pool_new(wasmi_pool *pool, uint64_t bytes, uint64_t elements) WASMI_CHECKED WASMI_NOT_NULL(1);

/* Ends the pool and its tenants' machines, if there is one, and gives all memory back, which is tested and not proved.
   The handle may be used for a new one. */
void wasmi_pool_drop(wasmi_pool *pool) WASMI_NOT_NULL(1);

/* Adds a tenant, a machine with nothing on it -> number: its index; NO_POOL, NO_ROOM. Of limits, bytes, elements and
   is_unlimited aren't read: the caps are the pool's. */
wasmi_reply wasmi_pool_add(wasmi_pool *pool, const wasmi_limits *limits) WASMI_CHECKED WASMI_NOT_NULL(1, 2);

/* Removes a tenant and ends its machine: what it has, with what it dropped, can be had by others from then on. Its index
   is given to no other, and each later call on it is NO_TENANT. DONE; NO_POOL, NO_TENANT. All memory of the machine is
   given back, which is tested and not proved. Its time grows with the number of tenants that were added later. */
uint8_t wasmi_pool_remove(wasmi_pool *pool, size_t tenant) WASMI_CHECKED WASMI_NOT_NULL(1);

/* Replies to a call on the machine of a tenant. Before all else: NO_POOL, NO_CALL, NO_TENANT. It takes no memory but what
   the call takes on the machine. */
wasmi_reply wasmi_pool_call(wasmi_pool *pool, size_t tenant, const wasmi_call *call) WASMI_CHECKED WASMI_NOT_NULL(1, 3);

/* As wasmi_machine_run_into on a tenant's machine: DONE; NO_POOL, NO_TENANT, LENGTHS_DIFFER. */
uint8_t wasmi_pool_run_into(wasmi_pool *pool, size_t tenant, const wasmi_call *calls, size_t calls_len,
                            wasmi_reply *replies, size_t replies_len) WASMI_CHECKED WASMI_NOT_NULL(1);

/* As wasmi_machine_reserve on a tenant's machine: DONE; NO_POOL, NO_TENANT, NO_ROOM. */
uint8_t wasmi_pool_reserve(wasmi_pool *pool, size_t tenant, const wasmi_room *room) WASMI_CHECKED WASMI_NOT_NULL(1, 3);

/* As wasmi_machine_reserve_elements for a table of a tenant: DONE; NO_POOL, NO_TENANT, NO_SUCH, NO_ROOM. */
uint8_t wasmi_pool_reserve_elements(wasmi_pool *pool, size_t tenant, size_t table, uint64_t elements)
    WASMI_CHECKED WASMI_NOT_NULL(1);

/* The calls that engines make most, with plain arguments: each does what wasmi_pool_call does with the same operands, in
   less time, and returns and sets what the call of a machine by the same name does. Before all else: NO_POOL, then
   NO_CALL if op is no number of such an instruction, then NO_TENANT; then *value, *number or *left is unchanged. */
uint8_t wasmi_pool_load(wasmi_pool *pool, size_t tenant, uint16_t op, size_t memory, uint64_t ptr, uint64_t offset,
                        uint64_t *value) WASMI_CHECKED WASMI_NOT_NULL(1, 7);
uint8_t wasmi_pool_store(wasmi_pool *pool, size_t tenant, uint16_t op, size_t memory, uint64_t ptr, uint64_t offset,
                         uint64_t value) WASMI_CHECKED WASMI_NOT_NULL(1);
uint8_t wasmi_pool_binary(wasmi_pool *pool, size_t tenant, uint16_t op, uint8_t dst, uint8_t a, uint8_t b)
    WASMI_CHECKED WASMI_NOT_NULL(1);
uint8_t wasmi_pool_grow(wasmi_pool *pool, size_t tenant, size_t memory, uint64_t pages, uint64_t *number)
    WASMI_CHECKED WASMI_NOT_NULL(1, 5);
uint8_t wasmi_pool_fill(wasmi_pool *pool, size_t tenant, size_t memory, uint64_t to, uint8_t value, uint64_t count,
                        uint64_t *number) WASMI_CHECKED WASMI_NOT_NULL(1, 7);
uint8_t wasmi_pool_copy(wasmi_pool *pool, size_t tenant, size_t memory, uint64_t to, size_t source, uint64_t from,
                        uint64_t count, uint64_t *number) WASMI_CHECKED WASMI_NOT_NULL(1, 8);
uint8_t wasmi_pool_init(wasmi_pool *pool, size_t tenant, size_t memory, size_t segment, uint64_t to, uint32_t from,
                        uint32_t count, uint64_t *number) WASMI_CHECKED WASMI_NOT_NULL(1, 8);
uint8_t wasmi_pool_fuel_left(wasmi_pool *pool, size_t tenant, uint64_t *left) WASMI_CHECKED WASMI_NOT_NULL(1, 3);

/* As wasmi_machine_read on a tenant's machine; before all else: NO_POOL, NO_TENANT. */
wasmi_reply wasmi_pool_read(wasmi_pool *pool, size_t tenant, size_t memory, size_t offset, uint8_t *bytes, size_t len)
    WASMI_CHECKED WASMI_NOT_NULL(1);

/* As wasmi_machine_write on a tenant's machine; before all else: NO_POOL, NO_TENANT. */
wasmi_reply wasmi_pool_write(wasmi_pool *pool, size_t tenant, size_t memory, size_t offset, const uint8_t *bytes,
                             size_t len) WASMI_CHECKED WASMI_NOT_NULL(1);

/* As wasmi_machine_new_segment on a tenant's machine; before all else: NO_POOL, NO_CALL, NO_ROOM, NO_TENANT. */
wasmi_reply wasmi_pool_new_segment(wasmi_pool *pool, size_t tenant, uint8_t type, const uint32_t *items, size_t len)
    WASMI_CHECKED WASMI_NOT_NULL(1);

/* As wasmi_machine_new_data on a tenant's machine; before all else: NO_POOL, NO_ROOM, NO_TENANT. */
wasmi_reply wasmi_pool_new_data(wasmi_pool *pool, size_t tenant, const uint8_t *bytes, size_t len)
    WASMI_CHECKED WASMI_NOT_NULL(1);

/* As wasmi_machine_consume_fuel on a tenant's machine; before all else: NO_POOL, NO_TENANT. */
wasmi_reply wasmi_pool_consume_fuel(wasmi_pool *pool, size_t tenant, uint64_t amount) WASMI_CHECKED WASMI_NOT_NULL(1);

/* As wasmi_machine_run_lines on a tenant's machine; before all else NO_POOL, and before the run NO_TENANT, then NO_ROOM
   if memory for the replies is refused. An `as` line is a bad line. */
wasmi_reply wasmi_pool_run_lines(wasmi_pool *pool, size_t tenant, const uint8_t *lines, size_t lines_len, uint8_t *text,
                                 size_t text_len) WASMI_CHECKED WASMI_NOT_NULL(1);

/* What a tenant has, dropped memories and tables at their last size; NO_POOL, NO_TENANT, after which both are 0. */
wasmi_totals wasmi_pool_tenant_totals(wasmi_pool *pool, size_t tenant) WASMI_NOT_NULL(1);

/* What all tenants have together; NO_POOL. */
wasmi_totals wasmi_pool_totals(wasmi_pool *pool) WASMI_NOT_NULL(1);

#ifdef __cplusplus
}
#endif
#endif
