/* The short names of wasmi_instructions.h, in what C and C++ have in common: each is its function's. With
   -DWASMI_CORE_NO_SHORT_NAMES there are none, so that this file can declare those of clang's wasm_simd128.h itself.
   It prints how many names it has. */
#ifdef WASMI_CORE_NO_SHORT_NAMES
#define OWN_NAMES(X) \
    X(v128_load) X(v128_load8_splat) X(v128_load16_splat) X(v128_load32_splat) X(v128_load64_splat) \
    X(v128_load32_zero) X(v128_load64_zero) X(v128_store)
#define DECLARED(name) static inline int wasm_##name(int value) { return value; }
OWN_NAMES(DECLARED)
#define wasm_i8x16_shuffle(value) (value)
#endif
#include "wasmi_inline.h"
#include <stdio.h>
#include <string.h>

#define TEXT_OF(word) #word
#define TEXT(word) TEXT_OF(word)

int main(void) {
    int names = 0, differing = 0;
#ifdef WASMI_CORE_NO_SHORT_NAMES
#define TRIED(name) names++, differing += wasm_##name(7) != 7;
    OWN_NAMES(TRIED)
    TRIED(i8x16_shuffle)
#else
#define TRIED(name) names++, differing += strcmp(TEXT(wasm_##name), "wasmi_" #name) != 0;
    WASMI_UNARY_FUNCTIONS(TRIED)
    WASMI_BINARY_FUNCTIONS(TRIED)
    WASMI_LOAD_FUNCTIONS(TRIED)
    WASMI_STORE_FUNCTIONS(TRIED)
    TRIED(i8x16_shuffle)
    TRIED(v128_store)
    differing += wasm_i32_sub(5, 3) != 2;
#endif
    printf("%d short names, %d differ\n", names, differing);
    return differing != 0;
}
