/* Many want the same page at once: one guest makes it, the others wait for it. With the header x-fail the one that is
   to make it can't, and hands the task on. */
#include "edge.h"

static char uri[8192];
static edge_write_options options;

static void answer(uint32_t status, edge_handle body, const char *from, uint32_t from_length) {
    edge_handle response;
    if (http_resp_new(&response) || http_resp_status_set(response, status) ||
        http_resp_header_insert(response, EDGE_TEXT("x-cache"), from, from_length)) {
        return;
    }
    http_resp_send_downstream(response, body, 0);
}

static void answer_text(uint32_t status, const char *text, uint32_t length, const char *from, uint32_t from_length) {
    edge_handle body;
    uint32_t written;
    if (http_body_new(&body) || http_body_write(body, text, length, EDGE_BACK, &written)) {
        return;
    }
    answer(status, body, from, from_length);
}

static int fails(edge_handle request) {
    char value[8];
    uint32_t length;
    return http_req_header_value_get(request, EDGE_TEXT("x-fail"), value, sizeof value, &length) == EDGE_OK;
}

/* Makes the page, for the cache and for the client. */
static void make(edge_handle lookup) {
    edge_handle object;
    uint32_t written;
    options.max_age_ns = 10 * EDGE_SECOND;
    if (cache_transaction_insert(lookup, 0, &options, &object)) {
        return;
    }
    http_body_write(object, EDGE_TEXT("the page\n"), EDGE_BACK, &written);
    http_body_close(object);
    answer_text(200, EDGE_TEXT("the page\n"), EDGE_TEXT("made"));
}

EDGE_START void start(void) {
    edge_handle request, incoming, lookup, body;
    uint32_t length, state;
    if (abi_init(1) || http_req_body_downstream_get(&request, &incoming) ||
        http_req_uri_get(request, uri, sizeof uri, &length) ||
        cache_transaction_lookup(uri, length, 0, NULL, &lookup) || /* here the others wait */
        cache_get_state(lookup, &state)) {
        return;
    }
    if (!(state & EDGE_MUST_INSERT_OR_UPDATE)) {
        if (cache_get_body(lookup, 0, NULL, &body) == EDGE_OK) {
            answer(200, body, EDGE_TEXT("shared"));
        }
    } else if (fails(request)) {
        cache_transaction_cancel(lookup);
        answer_text(503, EDGE_TEXT("try again\n"), EDGE_TEXT("none"));
    } else {
        make(lookup);
    }
}
