/* Stale while it is revalidated: a page is fresh for ten seconds and usable for twenty more. The first who finds it
   stale answers with it at once, and then makes it anew; who comes meanwhile gets the old one too, and nobody waits.
   */
#include "edge.h"

static char uri[8192], page[] = "made at second 00000\n";
enum { DIGITS = 15, END = 20 };
static edge_write_options options;

/* The page tells the second at which it was made. */
static edge_status make_page(void) {
    uint64_t rest;
    if (wasi_clock_time_get(WASI_REALTIME, 0, &rest)) {
        return EDGE_ERROR;
    }
    rest /= EDGE_SECOND;
    for (uint32_t place = END; place > DIGITS; rest /= 10) {
        page[--place] = (char)('0' + rest % 10);
    }
    return EDGE_OK;
}

/* Makes the object that the transaction was told to insert. */
static edge_status renew(edge_handle lookup) {
    edge_handle object;
    uint32_t written;
    edge_status status = make_page();
    options.max_age_ns = 10 * EDGE_SECOND;
    options.stale_while_revalidate_ns = 20 * EDGE_SECOND;
    if (status == EDGE_OK) {
        status = cache_transaction_insert(lookup, EDGE_WRITE_STALE_WHILE_REVALIDATE_NS, &options, &object);
    }
    if (status == EDGE_OK) {
        status = http_body_write(object, EDGE_TEXT(page), EDGE_BACK, &written);
    }
    return status == EDGE_OK ? http_body_close(object) : status;
}

static void answer(edge_handle body, const char *from, uint32_t from_length) {
    edge_handle response;
    if (http_resp_new(&response) == EDGE_OK &&
        http_resp_header_insert(response, EDGE_TEXT("x-cache"), from, from_length) == EDGE_OK) {
        http_resp_send_downstream(response, body, 0);
    }
}

EDGE_START void start(void) {
    edge_handle request, incoming, lookup, body;
    uint32_t length, state, written;
    if (abi_init(1) || http_req_body_downstream_get(&request, &incoming) ||
        http_req_uri_get(request, uri, sizeof uri, &length) ||
        cache_transaction_lookup(uri, length, 0, NULL, &lookup) || cache_get_state(lookup, &state)) {
        return;
    }
    if (state & EDGE_USABLE) {
        if (cache_get_body(lookup, 0, NULL, &body) == EDGE_OK) {
            answer(body, state & EDGE_STALE ? "stale" : "fresh", 5);
        }
        if (state & EDGE_MUST_INSERT_OR_UPDATE) {
            renew(lookup); /* behind the answer: the client has it already */
        }
    } else if (renew(lookup) == EDGE_OK && http_body_new(&body) == EDGE_OK) {
        http_body_write(body, EDGE_TEXT(page), EDGE_BACK, &written);
        answer(body, EDGE_TEXT("made"));
    }
}
