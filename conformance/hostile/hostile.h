/* What the programs of this folder share: the numbers that they take, random ones, arrays that end at an inaccessible
   page, what differs, and, of state that lies with the caller, flags and plain models of a quota and of a price. */
#ifndef HOSTILE_H
#define HOSTILE_H

#include "wasmi_memory.h"
#include <ctype.h>
#include <errno.h>
#include <inttypes.h>
#include <stdbool.h>
#include <stdio.h>
#include <stdlib.h>
#include <string.h>
#include <sys/mman.h>
#include <unistd.h>

/* Numbers of more than 64 bits; where C has none, one of the floats that has the same sums and products of powers of two. */
#ifdef __SIZEOF_INT128__
__extension__ typedef unsigned __int128 wide;
#else
__extension__ typedef __float128 wide;
#endif

/* The status of a table whose minimum is above SIZE_MAX, which the headers for 64 bits haven't got. */
enum { TABLE_MINIMUM_OVERFLOW = 49 };

static inline wide two_to_32_or_64(bool is_64) {
    return (wide)UINT64_C(0x80000000) * 2 * (is_64 ? UINT64_C(0x100000000) : 1);
}

/* The argument at a place, a number from 1 to 2^63 - 1, or another number if there is no such argument. A program that is
   given anything else would compare nothing, so it ends with 2. */
static inline uint64_t argument(int count, char **words, int place, uint64_t otherwise) {
    if (count <= place) {
        return otherwise;
    }
    char *end;
    errno = 0;
    unsigned long long number = strtoull(words[place], &end, 10);
    if (!isdigit((unsigned char)words[place][0]) || *end != 0 || errno != 0 || number == 0 || number > INT64_MAX) {
        fprintf(stderr, "%s: an argument is a number above 0, and \"%s\" is none\n", words[0], words[place]);
        exit(2);
    }
    return number;
}

/* Random numbers (splitmix64). */
static _Thread_local uint64_t random_state;

static inline uint64_t any(void) {
    random_state += UINT64_C(0x9e3779b97f4a7c15);
    uint64_t z = random_state;
    z = (z ^ (z >> 30)) * UINT64_C(0xbf58476d1ce4e5b9);
    z = (z ^ (z >> 27)) * UINT64_C(0x94d049bb133111eb);
    return z ^ (z >> 31);
}

static inline uint64_t below(uint64_t bound) {
    return any() % bound;
}

/* A number that is often small, or at an edge. */
static inline uint64_t any_number(void) {
    static const uint64_t edges[] = {0, 1, 2, 15, 16, 17, 63, 64, 65, 255, 65535, 65536, 65537, 131072, 196608, UINT32_MAX,
                                     (uint64_t)UINT32_MAX + 1, (uint64_t)1 << 47, (uint64_t)1 << 48, (uint64_t)INT64_MAX,
                                     (uint64_t)INT64_MAX + 1, UINT64_MAX - 65536, UINT64_MAX - 1, UINT64_MAX};
    switch (below(4)) {
    case 0: return edges[below(sizeof edges / sizeof *edges)];
    case 1: return any() >> below(64);
    default: return below(96);
    }
}

/* Bytes that end at an inaccessible page. */
static inline uint8_t *fenced(size_t length) {
    size_t page = (size_t)sysconf(_SC_PAGESIZE);
    size_t whole = (length + page - 1) / page * page;
    uint8_t *at = (uint8_t *)mmap(NULL, whole + page, PROT_READ | PROT_WRITE, MAP_PRIVATE | MAP_ANONYMOUS, -1, 0);
    if (at == MAP_FAILED || mprotect(at + whole, page, PROT_NONE))
        exit(3);
    return at + whole;
}

/* A copy that ends at an inaccessible page; there is one copy of each use, 0 to 2, at a time, of at most 64 KiB. */
static inline void *at_edge(int use, const void *from, size_t length) {
    static _Thread_local uint8_t *ends[3];
    if (ends[use] == NULL)
        ends[use] = fenced(65536);
    if (length > 0)
        memcpy(ends[use] - length, from, length);
    return ends[use] - length;
}

static _Thread_local long differing;

static inline void differs(const char *what, const char *more) {
    if (++differing < 5)
        printf("%s\n%s\n", what, more);
}

static inline uint8_t flag(void) {
    static const uint8_t flags[] = {0, 0, 1, 1, 2, 16, 255};
    return flags[below(sizeof flags)];
}

/* What reading a quota and writing it back does, which it is where it is asked. */
static inline void written_back(wasmi_quota *quota) {
    if (quota->last_kind != 1 && quota->last_kind != 2) {
        quota->last_kind = 0;
        quota->last = 0;
    }
}

/* Whether a quota permits so many more: of bytes (1) or of elements (2). */
static inline bool permits(wasmi_quota *quota, size_t more, uint8_t kind) {
    uint64_t *held = kind == 1 ? &quota->held_bytes : &quota->held_elements;
    if (!quota->is_on)
        return true;
    written_back(quota);
    if ((wide)*held + more > (kind == 1 ? quota->cap_bytes : quota->cap_elements))
        return false;
    *held += more;
    quota->last = more;
    quota->last_kind = kind;
    return true;
}

/* Takes the last permission back. */
static inline void gives_back(wasmi_quota *quota, uint8_t kind) {
    uint64_t *held = kind == 1 ? &quota->held_bytes : &quota->held_elements;
    if (!quota->is_on)
        return;
    *held -= quota->last < *held ? quota->last : *held;
    quota->last = 0;
    quota->last_kind = 0;
}

/* Whether a quota gives up so many, which takes the last permission out of reach of a notice. */
static inline bool releases(wasmi_quota *quota, size_t less, uint8_t kind) {
    uint64_t *held = kind == 1 ? &quota->held_bytes : &quota->held_elements;
    if (!quota->is_on)
        return true;
    if (*held < less)
        return false;
    *held -= less;
    quota->last = 0;
    quota->last_kind = 0;
    return true;
}

/* The price of a copy. */
static inline uint64_t price_of(const wasmi_meter *meter, uint64_t bytes) {
    return meter->bytes_copied_per_fuel ? bytes / meter->bytes_copied_per_fuel : UINT64_MAX;
}

static inline bool same_quota(const wasmi_quota *a, const wasmi_quota *b) {
    return a->cap_bytes == b->cap_bytes && a->cap_elements == b->cap_elements && a->held_bytes == b->held_bytes &&
           a->held_elements == b->held_elements && a->last == b->last && a->last_kind == b->last_kind && a->is_on == b->is_on;
}

static inline wasmi_meter any_meter(uint32_t often) {
    return (wasmi_meter){any_number(), below(2) ? often : (uint32_t)any_number(), 7, 2, flag()};
}

static inline wasmi_quota any_quota(void) {
    uint64_t bytes = below(2) ? 0 : any_number(), elements = below(2) ? 0 : any_number();
    return (wasmi_quota){any_number(), any_number(), bytes, elements, any_number(), (uint8_t)below(4), flag()};
}

static inline wasmi_answers any_answers(void) {
    return (wasmi_answers){(size_t)any_number(), flag(), flag(), flag(), flag(), (size_t)any_number()};
}

static inline bool same_answers(const wasmi_answers *a, const wasmi_answers *b) {
    return a->current == b->current && a->answer == b->answer && a->notice_answer == b->notice_answer &&
           a->asked == b->asked && a->told == b->told && a->desired == b->desired;
}

static inline bool same_question(const wasmi_question *a, const wasmi_question *b) {
    return a->current == b->current && a->desired == b->desired && a->maximum == b->maximum &&
           a->has_maximum == b->has_maximum;
}

/* Tries so many sequences of random calls, as the arguments say: each begins anew, and ends with the first call that
   differs. */
static inline int try_sequences(int count, char **words, void (*begin)(void), bool (*agrees)(void)) {
    uint64_t sequences = argument(count, words, 1, 20000), first = argument(count, words, 2, 1), calls = 0, differ = 0;
    for (uint64_t n = 0; n < sequences; n++) {
        random_state = (first + n) * 1000003;
        begin();
        for (uint64_t k = below(24); k > 0; k--, calls++)
            if (!agrees()) {
                printf("seed %" PRIu64 ": a call differs, with %" PRIu64 " before its end\n", first + n, k);
                differ++;
                break;
            }
    }
    printf("%" PRIu64 " sequences, %" PRIu64 " calls, %" PRIu64 " differ\n", sequences, calls, differ);
    return differ != 0;
}

#endif
