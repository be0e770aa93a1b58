// For wasm-interp, which runs exported functions without arguments.
#include "driver.h"

__attribute__((export_name("fixed"))) uint64_t fixed(void) {
    return run(ARGUMENT);
}
