/* Traps with things in hand, by the path of its request: `/lookup` behind a transaction's lookup, `/insertion` behind
   its insertion, any other behind one write, so that the body is unfinished. */
#include "edge.h"

static char uri[8192];
static edge_write_options options;

/* The byte behind `http://h/`, of the one-letter host that the play file has. */
enum { FIRST = 9 };

EDGE_START void start(void) {
    edge_handle request, incoming, lookup, object;
    uint32_t length, written;
    options.max_age_ns = EDGE_SECOND;
    if (http_req_body_downstream_get(&request, &incoming) || http_req_uri_get(request, uri, sizeof uri, &length) ||
        cache_transaction_lookup(EDGE_TEXT("key"), 0, NULL, &lookup) || uri[FIRST] == 'l' ||
        cache_transaction_insert(lookup, 0, &options, &object) || uri[FIRST] == 'i' ||
        http_body_write(object, EDGE_TEXT("half"), EDGE_BACK, &written) || written == 4) {
        __builtin_trap();
    }
}
