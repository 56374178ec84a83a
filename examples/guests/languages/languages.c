/* A page in the language of its reader: made once for each language, kept for a minute, and purged in all of them at
   once for an editor who knows the secret. */
#include "edge.h"

static char uri[8192], method[8], language[64], page[4096], given[64], secret[64];
static edge_lookup_options lookup_options;
static edge_write_options options;

static int is_same(const char *left, uint32_t left_length, const char *right, uint32_t right_length) {
    uint32_t place = 0;
    while (place < left_length && place < right_length && left[place] == right[place]) {
        place++;
    }
    return place == left_length && place == right_length;
}

static void answer(uint32_t status, edge_handle body, const char *from, uint32_t from_length) {
    edge_handle response;
    if (http_resp_new(&response) == EDGE_OK && http_resp_status_set(response, status) == EDGE_OK &&
        http_resp_header_insert(response, EDGE_TEXT("x-cache"), from, from_length) == EDGE_OK) {
        http_resp_send_downstream(response, body, 0);
    }
}

static void answer_text(uint32_t status, const char *text, uint32_t length, const char *from, uint32_t from_length) {
    edge_handle body;
    uint32_t written;
    if (http_body_new(&body) == EDGE_OK && http_body_write(body, text, length, EDGE_BACK, &written) == EDGE_OK) {
        answer(status, body, from, from_length);
    }
}

/* The page in the language that the reader wants, by its first two letters, or in English. From here on the request
   says no more than these, so that all readers of a language are one variant. */
static edge_status choose_page(edge_handle request, uint32_t *length) {
    edge_handle pages;
    uint32_t wanted;
    edge_status status = dictionary_open(EDGE_TEXT("pages"), &pages);
    if (status != EDGE_OK) {
        return status;
    }
    if (http_req_header_value_get(request, EDGE_TEXT("accept-language"), language, sizeof language, &wanted) ||
        wanted < 2 || dictionary_get(pages, language, 2, page, sizeof page, length)) {
        language[0] = 'e';
        language[1] = 'n';
        status = dictionary_get(pages, language, 2, page, sizeof page, length);
    }
    return status == EDGE_OK ? http_req_header_insert(request, EDGE_TEXT("accept-language"), language, 2) : status;
}

/* Gives the page to the cache and to the client. */
static void make(edge_handle lookup, uint32_t length) {
    edge_handle object;
    uint32_t written;
    options.max_age_ns = 60 * EDGE_SECOND;
    options.vary_rule = "accept-language";
    options.vary_rule_length = 15;
    options.surrogate_keys = "pages";
    options.surrogate_keys_length = 5;
    if (cache_transaction_insert(lookup, EDGE_WRITE_VARY_RULE | EDGE_WRITE_SURROGATE_KEYS, &options, &object)) {
        return;
    }
    http_body_write(object, page, length, EDGE_BACK, &written);
    http_body_close(object);
    answer_text(200, page, length, EDGE_TEXT("made"));
}

static int is_editor(edge_handle request) {
    edge_handle store, found;
    uint32_t given_length, secret_length;
    return http_req_header_value_get(request, EDGE_TEXT("x-secret"), given, sizeof given, &given_length) == EDGE_OK &&
           secret_store_open(EDGE_TEXT("editors"), &store) == EDGE_OK &&
           secret_store_get(store, EDGE_TEXT("purge"), &found) == EDGE_OK &&
           secret_store_plaintext(found, secret, sizeof secret, &secret_length) == EDGE_OK &&
           is_same(given, given_length, secret, secret_length);
}

static void purge(edge_handle request) {
    edge_handle log;
    uint32_t written;
    int purged = is_editor(request) && purge_purge_surrogate_key(EDGE_TEXT("pages"), 0, NULL) == EDGE_OK;
    if (log_endpoint_get(EDGE_TEXT("purges"), &log) == EDGE_OK) {
        log_write(log, purged ? "purged" : "denied", 6, &written);
    }
    answer_text(purged ? 200 : 403, purged ? "purged\n" : "denied\n", 7, EDGE_TEXT("none"));
}

EDGE_START void start(void) {
    edge_handle request, incoming, lookup, body;
    uint32_t length, uri_length, state;
    if (abi_init(1) || http_req_body_downstream_get(&request, &incoming) ||
        http_req_uri_get(request, uri, sizeof uri, &uri_length) ||
        http_req_method_get(request, method, sizeof method, &length)) {
        return;
    }
    if (is_same(method, length, EDGE_TEXT("PURGE"))) {
        purge(request);
        return;
    }
    lookup_options.request_headers = request;
    if (choose_page(request, &length) ||
        cache_transaction_lookup(uri, uri_length, EDGE_LOOKUP_REQUEST_HEADERS, &lookup_options, &lookup) ||
        cache_get_state(lookup, &state)) {
        return;
    }
    if (state & EDGE_MUST_INSERT_OR_UPDATE) {
        make(lookup, length);
    } else if (cache_get_body(lookup, 0, NULL, &body) == EDGE_OK) {
        answer(200, body, EDGE_TEXT("shared"));
    }
}
