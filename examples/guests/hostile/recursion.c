/* Calls itself deeper than the 2,048 calls that may be under way at once: a trap. */
#include "edge.h"

static volatile uint32_t level;

__attribute__((noinline)) static uint32_t deepen(uint32_t here) {
    uint32_t below;
    level = here;
    below = here == 1000000 ? 0 : deepen(here + 1);
    level = here; /* so that the call isn't the last thing, which a compiler would make a jump */
    return below + 1;
}

EDGE_START void start(void) {
    wasi_proc_exit(deepen(1));
}
