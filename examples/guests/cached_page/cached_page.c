/* Pages of a config store, kept in the cache for ten seconds. The header x-cache says where a page came from. */
#include "edge.h"

static char uri[8192], page[4096], digits[20];
static edge_write_options options;

/* Where the path begins: behind `http://` and the host. */
static uint32_t path_of(uint32_t length) {
    uint32_t place = 0;
    while (place < length && uri[place] != ':') {
        place++;
    }
    place += 3;
    while (place < length && uri[place] != '/') {
        place++;
    }
    return place;
}

/* Sets the header `age`: whole seconds, in decimal. */
static edge_status set_age(edge_handle response, uint64_t nanoseconds) {
    uint64_t rest = nanoseconds / EDGE_SECOND;
    uint32_t at = sizeof digits;
    do {
        digits[--at] = (char)('0' + rest % 10);
        rest /= 10;
    } while (rest);
    return http_resp_header_insert(response, EDGE_TEXT("age"), digits + at, sizeof digits - at);
}

static void answer(uint32_t status, edge_handle body, const char *from, uint32_t from_length, uint64_t age) {
    edge_handle response;
    if (http_resp_new(&response) || http_resp_status_set(response, status) ||
        http_resp_header_insert(response, EDGE_TEXT("x-cache"), from, from_length) || set_age(response, age)) {
        return;
    }
    http_resp_send_downstream(response, body, 0);
}

/* Stores the page under its URI. A want of room or memory in the cache doesn't keep the client from its answer. */
static void store_page(uint32_t uri_length, uint32_t page_length) {
    edge_handle object;
    uint32_t written;
    options.max_age_ns = 10 * EDGE_SECOND;
    options.length = page_length;
    if (cache_insert(uri, uri_length, EDGE_WRITE_LENGTH, &options, &object) == EDGE_OK) {
        http_body_write(object, page, page_length, EDGE_BACK, &written);
        http_body_close(object);
    }
}

EDGE_START void start(void) {
    edge_handle request, incoming, lookup, store, body;
    uint32_t uri_length, page_length, path, state, written;
    uint64_t age;
    if (abi_init(1) || http_req_body_downstream_get(&request, &incoming) ||
        http_req_uri_get(request, uri, sizeof uri, &uri_length) ||
        cache_lookup(uri, uri_length, 0, NULL, &lookup) || cache_get_state(lookup, &state)) {
        return; /* without an answer: the client gets status 500 */
    }
    if (state & EDGE_USABLE) {
        if (cache_get_age_ns(lookup, &age) == EDGE_OK && cache_get_body(lookup, 0, NULL, &body) == EDGE_OK) {
            answer(200, body, EDGE_TEXT("hit"), age);
        }
        return;
    }
    path = path_of(uri_length);
    if (config_store_open(EDGE_TEXT("pages"), &store) || http_body_new(&body)) {
        return;
    }
    if (config_store_get(store, uri + path, uri_length - path, page, sizeof page, &page_length) != EDGE_OK) {
        answer(404, body, EDGE_TEXT("none"), 0);
        return;
    }
    store_page(uri_length, page_length);
    if (http_body_write(body, page, page_length, EDGE_BACK, &written) == EDGE_OK) {
        answer(200, body, EDGE_TEXT("miss"), 0);
    }
}
