// What the drivers share. A driver makes its own input, gives it to a library, and returns a checksum of what comes back.
#include <stddef.h>
#include <stdint.h>
#include <stdlib.h>
#include <string.h>

#ifdef __wasm__
__attribute__((export_name("run")))
#endif
uint64_t run(uint32_t n);

// A guest traps where the library is wrong by its own answers.
static inline void must(int is_right) {
    if (!is_right) __builtin_trap();
}

static inline void *space(size_t size) {
    void *it = malloc(size);
    must(it != NULL);
    return it;
}

static inline uint64_t next_random(uint64_t *state) {
    *state ^= *state << 13;
    *state ^= *state >> 7;
    *state ^= *state << 17;
    return *state;
}

static inline void fill_random(uint8_t *bytes, size_t size, uint64_t state) {
    for (size_t i = 0; i < size; i++) bytes[i] = (uint8_t)(next_random(&state) >> 32);
}

// Words of a small vocabulary, of which the first come often.
static inline void fill_text(uint8_t *bytes, size_t size, uint64_t state) {
    static const char letters[] = "etaoinshrdlucmfw";
    size_t at = 0;
    while (at < size) {
        uint64_t random = next_random(&state);
        uint64_t word = (random & 255) * (random >> 8 & 255) >> 8;
        uint64_t letter = (word + 1) * 0x9e3779b97f4a7c15;
        for (size_t i = 0; i < 2 + (word & 7) && at < size; i++, letter >>= 4) bytes[at++] = letters[letter & 15];
        if (at < size) bytes[at++] = (random >> 16 & 15) == 0 ? '\n' : ' ';
    }
}

// FNV-1a, from the checksum of what came before.
static inline uint64_t sum_from(uint64_t sum, const void *bytes, size_t size) {
    for (size_t i = 0; i < size; i++) sum = (sum ^ ((const uint8_t *)bytes)[i]) * 0x100000001b3;
    return sum;
}

static inline uint64_t sum_of(const void *bytes, size_t size) {
    return sum_from(0xcbf29ce484222325, bytes, size);
}
