/* Grows its memory page by page until it is refused, and writes to each new page's last byte. Its exit code is how
   many pages it has then: 2048. */
#include "edge.h"

enum { PAGE = 65536 };

EDGE_START void start(void) {
    uint32_t before;
    while ((before = __builtin_wasm_memory_grow(0, 1)) != UINT32_MAX) {
        *(volatile char *)((before + 1) * PAGE - 1) = 1;
    }
    wasi_proc_exit(__builtin_wasm_memory_size(0));
}
