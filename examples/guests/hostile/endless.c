/* Takes the task to insert, and then loops for ever: its fuel ends it, and its end frees the task for the next guest.
   */
#include "edge.h"

EDGE_START void start(void) {
    edge_handle lookup;
    if (cache_transaction_lookup(EDGE_TEXT("key"), 0, NULL, &lookup) == EDGE_OK) {
        for (;;) {
        }
    }
}
