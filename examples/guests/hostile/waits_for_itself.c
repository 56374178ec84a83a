/* Looks up in a transaction what it was told to insert itself: it waits for its own insertion, for ever. */
#include "edge.h"

EDGE_START void start(void) {
    edge_handle first, second;
    if (cache_transaction_lookup(EDGE_TEXT("key"), 0, NULL, &first) == EDGE_OK) {
        cache_transaction_lookup(EDGE_TEXT("key"), 0, NULL, &second);
    }
}
