// What olm asks of its host, which has no more memory for it and copies nothing.
#include "driver.h"

__attribute__((export_name("a"))) int more_memory(uint32_t bytes) {
    (void)bytes;
    return 0;
}

__attribute__((export_name("b"))) int copied(uint32_t to, uint32_t from, uint32_t size) {
    (void)to, (void)from, (void)size;
    __builtin_trap();
}

uint64_t run(uint32_t n) {
    return n;
}
