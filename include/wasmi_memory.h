/* Memories, fuel and tables whose state lies with the caller, for C and C++, in libwasmi_core.a.

   State: all of it is in structs of plain numbers and in arrays of the caller's; the library keeps nothing between
   calls. A memory is a wasmi_memory and a region of bytes: its first `size` bytes are the memory's, and the rest is
   room to grow in place. A table is a wasmi_table and a region of references. So a region may be reserved address space
   with guard pages, and a struct with its bytes may be copied, stored and sent: a snapshot, a fork, a shared mapping.
   A memory that is made or grown gets zeros: each of its new bytes is written, so that it has to be accessible before
   the call (wasmi_memory_question gives the new size). No byte past the new size is written, and
   wasmi_memory_new_zeroed and wasmi_memory_grow_zeroed write none at all.
   The loads and stores of wasmi_core.h work on (region, memory.size).

   Meters and quotas: a wasmi_meter with is_on == 0 is no meter, and then nothing is charged. A wasmi_quota with
   is_on == 0 is no quota, and then every growth is permitted. Structs of zeros are both. One meter and one quota may
   serve any number of memories and tables, in one call at a time.
   A copy of a quota counts apart: each of the two permits up to the caps, and neither knows what the other holds. Copy
   it only where both copies are meant, as in a snapshot that replaces the original.

   Trust: the structs may have any contents. Where a struct stands for no memory or table on its region, the status is
   WASMI_INVALID_STATE, and nothing is written. A wasmi_memory stands for a memory on a region where it has a type
   (wasmi_memory_new), size is whole pages, from minimum to maximum, and the region has as many bytes. A wasmi_table
   likewise. Each meter and each quota is valid.

   What the caller owes, which no call tests:
   - A pointer leads to what its type says, and isn't NULL, except for an array of length 0; an array has at most
     PTRDIFF_MAX bytes. What a call writes doesn't overlap with anything else that it takes, but for the source of
     wasmi_memory_write, _copy and _init, and of wasmi_table_copy_from and _init. No pointer is kept.
   - No other thread writes what a call takes, or reads what it writes, while the call runs.
   - Between calls, a struct stays with its region: that the bytes and references are those of before is the caller's
     matter.

   Statuses are those of wasmi_core.h and wasmi_machine.h and the five below. After a status other than WASMI_DONE the
   structs, the regions and the numbers are as they were, except where a call says otherwise, and except that a quota
   that is on may have another `last` and last_kind where it was asked; both are 0 then if it has nothing to take back.
   No call writes a flag that it reads (is_on, has_maximum, is_64), and none writes a meter or a quota that is off.

   What is promised, by proof: a growth is a growth of the library's memory or table, between the states that the
   structs stand for before and after the call, with the same charge, the same question to the quota and the same
   refusals in the same order; and a struct that a call has written stands for a memory or table on the region. */
#ifndef WASMI_MEMORY_H
#define WASMI_MEMORY_H

#include "wasmi_machine.h"

#ifdef __cplusplus
extern "C" {
#endif

enum {
    WASMI_MEMORY_REGION_TOO_SHORT = 36, /* the region is shorter than the new size */
    WASMI_INVALID_STATE = 96,           /* a struct stands for no memory or table on its region */
    WASMI_ASKS = 97,                    /* of a question: a limiter is asked */
    WASMI_OTHER_SIZE = 98,              /* of a settlement: the limiter was asked about other sizes */
    WASMI_NOT_HELD = 99                 /* of an end: the quota holds less than what ends */
};

/* A linear memory, except its bytes. The caller sets all except size before wasmi_memory_new. Zeros are a memory of pages
   of one byte without a maximum. */
typedef struct {
    uint64_t minimum;       /* in pages */
    uint64_t maximum;       /* in pages; not read where has_maximum is 0 */
    size_t size;            /* in bytes; the library's */
    uint8_t has_maximum;
    uint8_t is_64;          /* 0: addresses of 32 bits; else of 64 */
    uint8_t page_size_log2; /* 16: pages of 64 KiB; 0: pages of one byte */
} wasmi_memory;

/* A table, except its elements. The caller sets all except size before wasmi_table_new. */
typedef struct {
    uint64_t minimum;    /* in elements */
    uint64_t maximum;    /* in elements; not read where has_maximum is 0 */
    size_t size;         /* in elements; the library's */
    uint8_t has_maximum;
    uint8_t is_64;       /* 0: indices of 32 bits; else of 64 */
    uint8_t type;        /* WASMI_TYPE_FUNCREF or WASMI_TYPE_EXTERNREF */
} wasmi_table;

/* A fuel meter. */
typedef struct {
    uint64_t left;                      /* not read where is_on is 0 */
    uint32_t bytes_copied_per_fuel;     /* 64 upstream; 0 makes each copy cost UINT64_MAX */
    uint32_t fuel_per_bytes_translated; /* 7 upstream; no call here takes it */
    uint32_t fuel_per_bytes_validated;  /* 2 upstream; no call here takes it */
    uint8_t is_on;
} wasmi_meter;

/* A limiter with a cap on the bytes of memories and one on the elements of tables. */
typedef struct {
    uint64_t cap_bytes, cap_elements;   /* UINT64_MAX: in effect none */
    uint64_t held_bytes, held_elements; /* permitted so far; 0 at first */
    uint64_t last;                      /* the library's: what it permitted last */
    uint8_t last_kind;                  /* the library's; 0 at first */
    uint8_t is_on;
} wasmi_quota;

/* Makes a memory of zeros at the front of a region, at its minimum, and sets its size. It takes no fuel, and leaves the
   bytes past the minimum alone.
   Refusals in their order: INVALID_STATE where page_size_log2 is neither 0 nor 16, or the limits are out of order or
   above what addresses reach; MEMORY_SIZE_OVERFLOW where the minimum has 2^64 bytes or more; MEMORY_DENIED where the
   quota doesn't permit; MEMORY_REGION_TOO_SHORT, after which the quota has taken its permission back. */
uint8_t wasmi_memory_new(wasmi_memory *memory, uint8_t *region, size_t region_len, wasmi_quota *quota)
    WASMI_CHECKED WASMI_NOT_NULL(1, 4);

/* Grows a memory by pages of zeros. *number is its old size in pages. A growth by 0 changes nothing else. It costs as
   much fuel as a copy of the added bytes (wasmi_fuel_copy_cost): 1,024 for a page of 64 KiB at 64 bytes for a unit.
   Refusals in their order: INVALID_STATE; MEMORY_GROWTH above the maximum or what addresses reach, or where the quota
   doesn't permit; MEMORY_REGION_TOO_SHORT; MEMORY_OUT_OF_FUEL with what is needed in *number. At the last two the quota
   has taken its permission back, and no fuel is taken. */
uint8_t wasmi_memory_grow(wasmi_memory *memory, uint8_t *region, size_t region_len, uint64_t pages, wasmi_meter *meter,
                          wasmi_quota *quota, uint64_t *number) WASMI_CHECKED WASMI_NOT_NULL(1, 5, 6, 7);

/* As wasmi_memory_new and wasmi_memory_grow, where the new bytes of the region are zeros already, as fresh pages of mmap
   are. No byte is written: this takes no time for the bytes, and no page is touched. Where they aren't zeros, the memory
   has what stands there; the guest reads it then, and nothing else follows. */
uint8_t wasmi_memory_new_zeroed(wasmi_memory *memory, const uint8_t *region, size_t region_len, wasmi_quota *quota)
    WASMI_CHECKED WASMI_NOT_NULL(1, 4);
uint8_t wasmi_memory_grow_zeroed(wasmi_memory *memory, const uint8_t *region, size_t region_len, uint64_t pages,
                                 wasmi_meter *meter, wasmi_quota *quota, uint64_t *number)
    WASMI_CHECKED WASMI_NOT_NULL(1, 5, 6, 7);

/* Ends a memory: the quota gives up its size in bytes, so that others can have it, and the struct stands for no memory
   from then on. Its size is 0 then, so that no load or store reaches the region, and page_size_log2 is 255, so that
   each call on it is INVALID_STATE, this one too: nothing is given up twice. The region isn't touched, and is the
   caller's to free or to use; for a new memory in the struct set page_size_log2 again.
   Call it before a memory is given up that was made under a quota: the quota doesn't learn of it otherwise, and its
   caps are used up in the end. held_bytes and held_elements are the library's; the caller has no need to lower them.
   Refusals in their order: INVALID_STATE; NOT_HELD where the quota holds less, as where the memory was made under
   another one: nothing is written. Memories that were made and that grew under one quota, and none under another, are
   never refused so. Where two structs are copies of one memory, end one of them. Under a quota that is off nothing is
   given up, and the memory ends all the same. */
uint8_t wasmi_quota_release_memory(wasmi_quota *quota, wasmi_memory *memory, const uint8_t *region, size_t region_len)
    WASMI_CHECKED WASMI_NOT_NULL(1, 2);

/* What a growth asks a limiter: may a memory get from current to desired bytes, or a table to so many elements, where
   its type allows at most maximum (which is 0 where has_maximum is)? A maximum of 2^64 bytes or more is cut at
   UINT64_MAX. */
typedef struct {
    size_t current, desired, maximum;
    uint8_t has_maximum;
} wasmi_question;

/* What a limiter of the caller's own answered. */
typedef struct {
    size_t current;        /* of the question */
    uint8_t answer;        /* to the question: 1 permits, 0 is no, another number is an error */
    uint8_t notice_answer; /* to the notice, if there is one: 0 accepts it, another number is an error */
    uint8_t asked;         /* out: 1 where the growth asked the limiter, else 0 */
    uint8_t told;          /* out: 1 where it was permitted and failed, so that the limiter is told; else 0 */
    size_t desired;        /* of the question; not read where the growth asks nothing */
} wasmi_answers;

/* A growth under a limiter of the caller's own takes two calls. This one gives the question, and changes nothing else:
   WASMI_ASKS. Where no limiter is asked the question stays: INVALID_STATE; DONE for a growth by 0; MEMORY_GROWTH where
   the type refuses, which no other refusal of this call has. */
uint8_t wasmi_memory_question(const wasmi_memory *memory, const uint8_t *region, size_t region_len, uint64_t pages,
                              wasmi_question *question) WASMI_CHECKED WASMI_NOT_NULL(1, 5);

/* This one grows as wasmi_memory_grow does, under a limiter that answers so. Refusals in their order: INVALID_STATE;
   OTHER_SIZE where the answers are to another question, so that the memory's size isn't answers->current (any more), or
   its size after the growth isn't answers->desired; then those of wasmi_memory_grow, where MEMORY_GROWTH is also an
   answer of 0, and MEMORY_DENIED is an error, to the question or to the notice. At the first two nothing is written;
   else asked and told are set, and the other answers stay.
   Where told is 1 the growth has failed, by REGION_TOO_SHORT or OUT_OF_FUEL (or MEMORY_DENIED, where notice_answer was
   an error; *number stays then); the limiter is told then. Where its answer depends on the cause, settle with a
   notice_answer of 0, tell it, and take its error for MEMORY_DENIED. */
uint8_t wasmi_memory_settle(wasmi_memory *memory, uint8_t *region, size_t region_len, uint64_t pages,
                            wasmi_meter *meter, wasmi_answers *answers, uint64_t *number)
    WASMI_CHECKED WASMI_NOT_NULL(1, 5, 6, 7);

/* The size in pages; INVALID_STATE. */
uint8_t wasmi_memory_size(const wasmi_memory *memory, const uint8_t *region, size_t region_len, uint64_t *pages)
    WASMI_CHECKED WASMI_NOT_NULL(1, 4);

/* Copies len bytes of a memory from offset on to bytes; INVALID_STATE, then MEMORY_ACCESS where they end past it. */
uint8_t wasmi_memory_read(const wasmi_memory *memory, const uint8_t *region, size_t region_len, size_t offset,
                          uint8_t *bytes, size_t len) WASMI_CHECKED WASMI_NOT_NULL(1);

/* Writes len bytes over those of a memory from offset on; INVALID_STATE, then MEMORY_ACCESS where they end past it.
   Bytes that lie in the memory itself are copied as wasmi_memory_copy_within copies them; MEMORY_ACCESS where they lie
   in the region, past the memory. */
uint8_t wasmi_memory_write(const wasmi_memory *memory, uint8_t *region, size_t region_len, size_t offset,
                           const uint8_t *bytes, size_t len) WASMI_CHECKED WASMI_NOT_NULL(1);

/* What is written over: count bytes or elements from `to` on, in a copy by those from `from` on. */
typedef struct {
    uint64_t to, from, count;
} wasmi_range;

/* Bulk memory. Each takes as much fuel as a copy of count bytes (wasmi_fuel_copy_cost), also where count is 0: nothing,
   or UINT64_MAX where bytes_copied_per_fuel is 0. Refusals in their order: INVALID_STATE, for either memory;
   MEMORY_ACCESS where a range ends past its memory or its bytes; MEMORY_OUT_OF_FUEL with what is needed in *number. */

/* Fills the bytes of a range with a value; range->from isn't read. */
uint8_t wasmi_memory_fill(const wasmi_memory *memory, uint8_t *region, size_t region_len, const wasmi_range *range,
                          uint8_t value, wasmi_meter *meter, uint64_t *number) WASMI_CHECKED WASMI_NOT_NULL(1, 4, 6, 7);

/* Copies bytes of a memory over others of it. Where the ranges overlap, the old bytes are copied. */
uint8_t wasmi_memory_copy_within(const wasmi_memory *memory, uint8_t *region, size_t region_len,
                                 const wasmi_range *range, wasmi_meter *meter, uint64_t *number)
    WASMI_CHECKED WASMI_NOT_NULL(1, 4, 5, 6);

/* Copies bytes of another memory over those of a memory. Where both regions begin at one address, as a memory.copy may
   have it, this is wasmi_memory_copy_within, and source isn't read; where they overlap otherwise, it is INVALID_STATE. */
uint8_t wasmi_memory_copy(const wasmi_memory *memory, uint8_t *region, size_t region_len, const wasmi_memory *source,
                          const uint8_t *source_region, size_t source_len, const wasmi_range *range,
                          wasmi_meter *meter, uint64_t *number) WASMI_CHECKED WASMI_NOT_NULL(1, 4, 7, 8, 9);

/* Copies bytes, such as a data segment's, over those of a memory. Bytes that lie in its region are as those of
   wasmi_memory_write. */
uint8_t wasmi_memory_init(const wasmi_memory *memory, uint8_t *region, size_t region_len, const uint8_t *bytes,
                          size_t len, const wasmi_range *range, wasmi_meter *meter, uint64_t *number)
    WASMI_CHECKED WASMI_NOT_NULL(1, 6, 7, 8);

/* Sets the fuel that is left; METERING_DISABLED where the meter is off. */
uint8_t wasmi_fuel_set(wasmi_meter *meter, uint64_t amount) WASMI_CHECKED WASMI_NOT_NULL(1);

/* The fuel that is left; METERING_DISABLED where the meter is off. */
uint8_t wasmi_fuel_left(const wasmi_meter *meter, uint64_t *left) WASMI_CHECKED WASMI_NOT_NULL(1, 2);

/* Takes fuel, as for the caller's own instructions; *number is what is left then. METERING_DISABLED; OUT_OF_FUEL where
   less is left, with the amount in *number, and none is taken. */
uint8_t wasmi_fuel_consume(wasmi_meter *meter, uint64_t amount, uint64_t *number) WASMI_CHECKED WASMI_NOT_NULL(1, 3);

/* The price of a copy of so many bytes, also by a meter that is off: bytes / bytes_copied_per_fuel, rounded down, or
   UINT64_MAX where that is 0. */
uint64_t wasmi_fuel_copy_cost(const wasmi_meter *meter, uint64_t bytes) WASMI_NOT_NULL(1);

/* Takes the price of a copy of so many bytes, as wasmi_fuel_consume takes an amount. */
uint8_t wasmi_fuel_consume_copy(wasmi_meter *meter, uint64_t bytes, uint64_t *number)
    WASMI_CHECKED WASMI_NOT_NULL(1, 3);

/* Tables. A reference is a number, 0 for null; its type is the caller's matter. elements_len is the length of the
   region in elements. The calls that write over a range or grow take fuel for 4 bytes an element, or for UINT64_MAX
   bytes where that is more.
   The elements lie in the caller's own array. So an engine may read and write elements[k] itself for each k below the
   size, as wasmi_table_get and _set do, and need not call for it: table->size is the size since the last call that was
   done, and wasmi_table_size tests that the struct stands for a table first. */

/* Makes a table with one reference in each place, at its minimum, and sets its size. It takes no fuel, and leaves the
   elements past the minimum alone.
   Refusals in their order: INVALID_STATE where type is of no references, or the limits are out of order or not below
   the number of indices; TABLE_DENIED where the quota doesn't permit; TABLE_OUT_OF_MEMORY where the region is too
   short, after which the quota has taken its permission back. */
uint8_t wasmi_table_new(wasmi_table *table, uint32_t *elements, size_t elements_len, uint32_t reference,
                        wasmi_quota *quota) WASMI_CHECKED WASMI_NOT_NULL(1, 5);

/* Grows a table by elements of one reference. *number is its old size. A growth by 0 changes nothing else.
   Refusals in their order: INVALID_STATE; TABLE_GROWTH where there would be as many elements as indices, where the
   quota doesn't permit, or above the maximum; TABLE_OUT_OF_FUEL with what is needed in *number; TABLE_OUT_OF_MEMORY
   where the region is too short, which leaves the fuel taken. At a refusal after its permission the quota has taken it
   back. */
uint8_t wasmi_table_grow(wasmi_table *table, uint32_t *elements, size_t elements_len, uint64_t delta,
                         uint32_t reference, wasmi_meter *meter, wasmi_quota *quota, uint64_t *number)
    WASMI_CHECKED WASMI_NOT_NULL(1, 6, 7, 8);

/* Ends a table, as wasmi_quota_release_memory ends a memory: the quota gives up its size in elements. The size is 0
   then, and type is 0, which no table has. INVALID_STATE; NOT_HELD where the quota holds less. */
uint8_t wasmi_quota_release_table(wasmi_quota *quota, wasmi_table *table, const uint32_t *elements,
                                  size_t elements_len) WASMI_CHECKED WASMI_NOT_NULL(1, 2);

/* A growth of a table under a limiter of the caller's own: as wasmi_memory_question and wasmi_memory_settle, but in
   elements. TABLE_GROWTH is where there would be as many elements as indices, unasked, or an answer of 0; it is also
   above the maximum, after the permission, and then told is 1. TABLE_DENIED is an error. */
uint8_t wasmi_table_question(const wasmi_table *table, const uint32_t *elements, size_t elements_len, uint64_t delta,
                             wasmi_question *question) WASMI_CHECKED WASMI_NOT_NULL(1, 5);
uint8_t wasmi_table_settle(wasmi_table *table, uint32_t *elements, size_t elements_len, uint64_t delta,
                           uint32_t reference, wasmi_meter *meter, wasmi_answers *answers, uint64_t *number)
    WASMI_CHECKED WASMI_NOT_NULL(1, 6, 7, 8);

/* The size in elements; INVALID_STATE. */
uint8_t wasmi_table_size(const wasmi_table *table, const uint32_t *elements, size_t elements_len, uint64_t *size)
    WASMI_CHECKED WASMI_NOT_NULL(1, 4);

/* The element at an index; INVALID_STATE, then NO_ELEMENT past the end. */
uint8_t wasmi_table_get(const wasmi_table *table, const uint32_t *elements, size_t elements_len, uint64_t index,
                        uint32_t *reference) WASMI_CHECKED WASMI_NOT_NULL(1, 5);

/* Sets the element at an index; INVALID_STATE, then TABLE_SET past the end. */
uint8_t wasmi_table_set(const wasmi_table *table, uint32_t *elements, size_t elements_len, uint64_t index,
                        uint32_t reference) WASMI_CHECKED WASMI_NOT_NULL(1);

/* Fills the elements of a range with a reference; range->from isn't read. Refusals in their order: INVALID_STATE;
   TABLE_FILL where they end past the table; TABLE_OUT_OF_FUEL with what is needed in *number. */
uint8_t wasmi_table_fill(const wasmi_table *table, uint32_t *elements, size_t elements_len, const wasmi_range *range,
                         uint32_t reference, wasmi_meter *meter, uint64_t *number)
    WASMI_CHECKED WASMI_NOT_NULL(1, 4, 6, 7);

/* Copies elements of a table over others of it. Where the ranges overlap, the old elements are copied. Refusals in
   their order: INVALID_STATE; TABLE_COPY where a range ends past the table; TABLE_OUT_OF_FUEL with what is needed in
   *number. */
uint8_t wasmi_table_copy_within(const wasmi_table *table, uint32_t *elements, size_t elements_len,
                                const wasmi_range *range, wasmi_meter *meter, uint64_t *number)
    WASMI_CHECKED WASMI_NOT_NULL(1, 4, 5, 6);

/* Deprecated: its former name. */
uint8_t wasmi_table_copy(const wasmi_table *table, uint32_t *elements, size_t elements_len, const wasmi_range *range,
                         wasmi_meter *meter, uint64_t *number)
    WASMI_CHECKED WASMI_NOT_NULL(1, 4, 5, 6) WASMI_DEPRECATED("wasmi_table_copy_within");

/* Copies elements of another table over those of a table. Refusals in their order: INVALID_STATE, for either; TABLE_TYPE
   where their types differ; TABLE_COPY where a range ends past its table; TABLE_OUT_OF_FUEL with what is needed in
   *number. Where both regions begin at one address, this is wasmi_table_copy_within, and source isn't read; where they
   overlap otherwise, it is INVALID_STATE. */
uint8_t wasmi_table_copy_from(const wasmi_table *table, uint32_t *elements, size_t elements_len,
                              const wasmi_table *source, const uint32_t *source_elements, size_t source_len,
                              const wasmi_range *range, wasmi_meter *meter, uint64_t *number)
    WASMI_CHECKED WASMI_NOT_NULL(1, 4, 7, 8, 9);

/* Copies items, such as an element segment's, over the elements of a table; to copy no item costs nothing. Refusals in
   their order: INVALID_STATE; TABLE_INIT where a range ends past the items or the table, or items lie in its region;
   TABLE_OUT_OF_FUEL with what is needed in *number. */
uint8_t wasmi_table_init(const wasmi_table *table, uint32_t *elements, size_t elements_len, const uint32_t *items,
                         size_t items_len, const wasmi_range *range, wasmi_meter *meter, uint64_t *number)
    WASMI_CHECKED WASMI_NOT_NULL(1, 6, 7, 8);

/* The library's functions take arrays that don't overlap. These compare the addresses, and call them or a copy within
   a region. */

#ifdef __cplusplus
#define WASMI_INLINE_ADDRESS(pointer) reinterpret_cast<uintptr_t>(pointer)
#else
#define WASMI_INLINE_ADDRESS(pointer) ((uintptr_t)(pointer))
#endif

/* Whether two arrays of so many bytes have no byte in common. */
static inline bool wasmi_inline_lies_apart(const void *one, size_t one_size, const void *other, size_t other_size) {
    const uintptr_t at = WASMI_INLINE_ADDRESS(one), other_at = WASMI_INLINE_ADDRESS(other);
    if (one_size == 0 || other_size == 0)
        return true;
    return at <= other_at ? other_at - at >= one_size : at - other_at >= other_size;
}

/* An array that overlaps with the region but doesn't begin in it has an index above each size here. */
WASMI_CHECKED WASMI_NOT_NULL(1)
static inline uint8_t wasmi_inline_memory_write(const wasmi_memory *memory, uint8_t *region, size_t region_len,
                                                size_t offset, const uint8_t *bytes, size_t len) {
    if (wasmi_inline_lies_apart(region, region_len, bytes, len))
        return wasmi_memory_write(memory, region, region_len, offset, bytes, len);
    const wasmi_range range = {offset, WASMI_INLINE_ADDRESS(bytes) - WASMI_INLINE_ADDRESS(region), len};
    wasmi_meter no_meter = {0, 0, 0, 0, 0};
    uint64_t number = 0;
    return wasmi_memory_copy_within(memory, region, region_len, &range, &no_meter, &number);
}

WASMI_CHECKED WASMI_NOT_NULL(1, 4, 7, 8, 9)
static inline uint8_t wasmi_inline_memory_copy(const wasmi_memory *memory, uint8_t *region, size_t region_len,
                                               const wasmi_memory *source, const uint8_t *source_region,
                                               size_t source_len, const wasmi_range *range, wasmi_meter *meter,
                                               uint64_t *number) {
    if (wasmi_inline_lies_apart(region, region_len, source_region, source_len))
        return wasmi_memory_copy(memory, region, region_len, source, source_region, source_len, range, meter, number);
    if (region == source_region)
        return wasmi_memory_copy_within(memory, region, region_len, range, meter, number);
    return WASMI_INVALID_STATE;
}

/* A range that ends past the bytes is one that ends past each memory. */
WASMI_CHECKED WASMI_NOT_NULL(1, 6, 7, 8)
static inline uint8_t wasmi_inline_memory_init(const wasmi_memory *memory, uint8_t *region, size_t region_len,
                                               const uint8_t *bytes, size_t len, const wasmi_range *range,
                                               wasmi_meter *meter, uint64_t *number) {
    if (wasmi_inline_lies_apart(region, region_len, bytes, len))
        return wasmi_memory_init(memory, region, region_len, bytes, len, range, meter, number);
    const bool is_past = range->from > len || range->count > len - range->from;
    const uint64_t from = range->from + (WASMI_INLINE_ADDRESS(bytes) - WASMI_INLINE_ADDRESS(region));
    const wasmi_range moved = {range->to, is_past ? UINT64_MAX : from, is_past ? 1 : range->count};
    return wasmi_memory_copy_within(memory, region, region_len, &moved, meter, number);
}

WASMI_CHECKED WASMI_NOT_NULL(1, 4, 7, 8, 9)
static inline uint8_t wasmi_inline_table_copy_from(const wasmi_table *table, uint32_t *elements, size_t elements_len,
                                                   const wasmi_table *source, const uint32_t *source_elements,
                                                   size_t source_len, const wasmi_range *range, wasmi_meter *meter,
                                                   uint64_t *number) {
    const size_t size = elements_len * sizeof *elements, source_size = source_len * sizeof *source_elements;
    if (wasmi_inline_lies_apart(elements, size, source_elements, source_size))
        return wasmi_table_copy_from(table, elements, elements_len, source, source_elements, source_len, range, meter,
                                     number);
    if (elements == source_elements)
        return wasmi_table_copy_within(table, elements, elements_len, range, meter, number);
    return WASMI_INVALID_STATE;
}

WASMI_CHECKED WASMI_NOT_NULL(1, 6, 7, 8)
static inline uint8_t wasmi_inline_table_init(const wasmi_table *table, uint32_t *elements, size_t elements_len,
                                              const uint32_t *items, size_t items_len, const wasmi_range *range,
                                              wasmi_meter *meter, uint64_t *number) {
    if (wasmi_inline_lies_apart(elements, elements_len * sizeof *elements, items, items_len * sizeof *items))
        return wasmi_table_init(table, elements, elements_len, items, items_len, range, meter, number);
    uint64_t size = 0;
    const uint8_t status = wasmi_table_size(table, elements, elements_len, &size);
    if (status != WASMI_DONE)
        return status;
    return WASMI_TABLE_INIT;
}

/* Who needs the library's own functions, which must not be given arrays that overlap, undefines these names. */
#define wasmi_memory_write wasmi_inline_memory_write
#define wasmi_memory_copy wasmi_inline_memory_copy
#define wasmi_memory_init wasmi_inline_memory_init
#define wasmi_table_copy_from wasmi_inline_table_copy_from
#define wasmi_table_init wasmi_inline_table_init

#ifdef __cplusplus
}
#endif
#endif
