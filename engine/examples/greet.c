// A guest that is given a name and gives back a greeting. Its host is greet.rs.
typedef unsigned u32;
typedef unsigned long long u64;

__attribute__((import_module("host"), import_name("log"))) void host_log(const char *text, u32 length);

extern char __heap_base;
static char *next = &__heap_base;

// Room for bytes in the guest's memory.
__attribute__((export_name("allocate"))) char *allocate(u32 length) {
    char *begin = next;
    next += length;
    return begin;
}

// The greeting of a name: a pointer to it, and its length in the upper half. Nobody has an empty name.
__attribute__((export_name("greet"))) u64 greet(const char *name, u32 length) {
    static const char hello[] = "Hello, ";
    if (!length) __builtin_trap();
    host_log(name, length);
    char *text = allocate(sizeof hello + length);
    char *end = text;
    for (u32 i = 0; i + 1 < sizeof hello; i++) *end++ = hello[i];
    for (u32 i = 0; i < length; i++) *end++ = name[i];
    *end++ = '!';
    return (u64)(end - text) << 32 | (u32)text;
}

// Never returns.
__attribute__((export_name("spin"))) void spin(void) {
    for (;;) __asm__ volatile("");
}
