/* A miss that is read while it is written: who makes the page gives each piece to the cache, reads it back, and
   passes it on to its own client; who comes later reads along, before the page is whole. */
#include "edge.h"

static const char *const pieces[] = {"one\n", "two\n", "three\n"};
static const uint32_t lengths[] = {4, 4, 6};
enum { PIECES = 3 };

static char uri[8192], buffer[64];
static edge_write_options options;

/* Answers with this body, and keeps it open where `streaming` is 1. */
static edge_status answer(edge_handle body, uint32_t streaming, const char *from, uint32_t from_length) {
    edge_handle response;
    edge_status status = http_resp_new(&response);
    if (status == EDGE_OK) {
        status = http_resp_header_insert(response, EDGE_TEXT("x-cache"), from, from_length);
    }
    return status == EDGE_OK ? http_resp_send_downstream(response, body, streaming) : status;
}

/* One piece: into the object, back out of it, and to the client. */
static edge_status pass(uint32_t piece, edge_handle object, edge_handle kept, edge_handle client) {
    uint32_t length, written;
    edge_status status = http_body_write(object, pieces[piece], lengths[piece], EDGE_BACK, &written);
    if (status == EDGE_OK) {
        status = http_body_read(kept, buffer, sizeof buffer, &length);
    }
    return status == EDGE_OK ? http_body_write(client, buffer, length, EDGE_BACK, &written) : status;
}

static void make(edge_handle lookup) {
    edge_handle object, back, kept, client;
    options.max_age_ns = 10 * EDGE_SECOND;
    if (cache_transaction_insert_and_stream_back(lookup, 0, &options, &object, &back) ||
        cache_get_body(back, 0, NULL, &kept) || http_body_new(&client) || answer(client, 1, EDGE_TEXT("made"))) {
        return;
    }
    for (uint32_t piece = 0; piece < PIECES; piece++) {
        if (pass(piece, object, kept, client)) {
            return; /* the end of this guest abandons the object, and cuts the answer */
        }
    }
    http_body_close(object);
    http_body_close(client);
}

EDGE_START void start(void) {
    edge_handle request, incoming, lookup, body;
    uint32_t length, state;
    if (abi_init(1) || http_req_body_downstream_get(&request, &incoming) ||
        http_req_uri_get(request, uri, sizeof uri, &length) ||
        cache_transaction_lookup(uri, length, 0, NULL, &lookup) || cache_get_state(lookup, &state)) {
        return;
    }
    if (state & EDGE_MUST_INSERT_OR_UPDATE) {
        make(lookup);
    } else if (cache_get_body(lookup, 0, NULL, &body) == EDGE_OK) {
        answer(body, 0, EDGE_TEXT("shared"));
    }
}
