/* The calls of the edge interface for guests in C, C++ too: all that this host knows, in the order of docs/CALLS.md,
   which says what each is for. `.ci/calls` compares this file with the table that the proofs are about. A call's name
   is that of its module without `fastly_`, then its own; those of WASI begin with `wasi_`. Each answers a status.
   Where that isn't EDGE_OK, what the pointers name is unchanged, but for the length that a buffer would have needed,
   which comes with EDGE_BUFLEN. Lengths are in bytes, times in nanoseconds, and all numbers little-endian. A number
   of 2, 4 or 8 bytes stands at a place that its size divides, as the compiler places it. */
#ifndef EDGE_H
#define EDGE_H

#include <stddef.h>
#include <stdint.h>

#ifdef __cplusplus
extern "C" {
#define EDGE_SURE static_assert
#define EDGE_ALIGN alignof
#else
#define EDGE_SURE _Static_assert
#define EDGE_ALIGN _Alignof
#endif

#define EDGE_CALL(module, name) __attribute__((import_module(module), import_name(name)))

/* Before the definition of the function that the host starts: EDGE_START void start(void) { .. } */
#define EDGE_START __attribute__((export_name("_start")))

/* Two arguments: a text in quotes, and its length without the NUL. */
#define EDGE_TEXT(text) (text), (uint32_t)(sizeof(text) - 1)

#define EDGE_SECOND 1000000000ull

/* Handles count from 1, each kind by itself, and no number is given twice. A guest gets at most 65,536 of a kind. */
typedef uint32_t edge_handle;

typedef uint32_t edge_status;
enum {
    EDGE_OK = 0,
    EDGE_ERROR = 1,              /* what stands behind the call failed, as the body of an object that was abandoned */
    EDGE_INVAL = 2,              /* a place outside of the memory, or an argument or a moment that doesn't fit */
    EDGE_BADF = 3,               /* no such handle, or no store of this name */
    EDGE_BUFLEN = 4,             /* the buffer is too small; the length that is needed is told */
    EDGE_UNSUPPORTED = 5,
    EDGE_BADALIGN = 6,           /* a number's place isn't divisible by its size */
    EDGE_HTTPINVALID = 7,        /* a name, value, method or URI that HTTP doesn't have */
    EDGE_HTTPUSER = 8,           /* never answered here */
    EDGE_HTTPINCOMPLETE = 9,     /* the body is shorter than was declared */
    EDGE_NONE = 10,              /* there is none */
    EDGE_HTTPHEADTOOLARGE = 11,  /* never answered here */
    EDGE_HTTPINVALIDSTATUS = 12, /* not from 200 to 999 */
    EDGE_LIMITEXCEEDED = 13,     /* too long, or too many */
    EDGE_AGAIN = 14              /* never answered here */
};

/* HTTP/0.9, 1.0, 1.1, 2 and 3. */
enum { EDGE_HTTP_0_9 = 0, EDGE_HTTP_1_0 = 1, EDGE_HTTP_1_1 = 2, EDGE_HTTP_2 = 3, EDGE_HTTP_3 = 4 };

/* ---- the start ---- */

/* Says which version of the interface the guest was made for: 1. */
EDGE_CALL("fastly_abi", "init") edge_status abi_init(uint64_t version);

/* ---- bodies ----
   A body is held by the guest, or is that of a cache object under way, or that of an answer that is streamed. */

enum { EDGE_BACK = 0, EDGE_FRONT = 1 };

EDGE_CALL("fastly_http_body", "new") edge_status http_body_new(edge_handle *body);
/* Puts `from` at the end of `to`; the handle `from` is gone then. */
EDGE_CALL("fastly_http_body", "append") edge_status http_body_append(edge_handle to, edge_handle from);
/* Takes at most `room` and at most 65,536 bytes off the front of a held body; 0 at its end. May wait for a writer. */
EDGE_CALL("fastly_http_body", "read")
edge_status http_body_read(edge_handle body, void *buffer, uint32_t room, uint32_t *length);
/* Of an object or a streamed answer at most 65,536 bytes at once, and only at the back. `written`: how many were
   taken. */
EDGE_CALL("fastly_http_body", "write")
edge_status http_body_write(edge_handle body, const void *bytes, uint32_t length, uint32_t end, uint32_t *written);
/* The body is whole. A held one is dropped. */
EDGE_CALL("fastly_http_body", "close") edge_status http_body_close(edge_handle body);
/* The body will never be whole: readers are told so, and a client's answer is cut. */
EDGE_CALL("fastly_http_body", "abandon") edge_status http_body_abandon(edge_handle body);
EDGE_CALL("fastly_http_body", "known_length") edge_status http_body_known_length(edge_handle body, uint64_t *length);

/* ---- requests ----
   Lists: from the item numbered `cursor`, from 0, on as many as fit, each ended by NUL; `next` is the next item's
   number, or -1 where all were written; `length` is how many bytes were. */

EDGE_CALL("fastly_http_req", "new") edge_status http_req_new(edge_handle *request);
EDGE_CALL("fastly_http_req", "close") edge_status http_req_close(edge_handle request);
EDGE_CALL("fastly_http_req", "header_names_get")
edge_status http_req_header_names_get(edge_handle request, char *buffer, uint32_t room, uint32_t cursor, int64_t *next,
    uint32_t *length);
EDGE_CALL("fastly_http_req", "header_value_get")
edge_status http_req_header_value_get(edge_handle request, const char *name, uint32_t name_length, char *buffer,
    uint32_t room, uint32_t *length);
EDGE_CALL("fastly_http_req", "header_values_get")
edge_status http_req_header_values_get(edge_handle request, const char *name, uint32_t name_length, char *buffer,
    uint32_t room, uint32_t cursor, int64_t *next, uint32_t *length);
/* `values`: each ended by NUL. They replace all values of the header. */
EDGE_CALL("fastly_http_req", "header_values_set")
edge_status http_req_header_values_set(edge_handle request, const char *name, uint32_t name_length, const char *values,
    uint32_t values_length);
EDGE_CALL("fastly_http_req", "header_insert")
edge_status http_req_header_insert(edge_handle request, const char *name, uint32_t name_length, const char *value,
    uint32_t value_length);
EDGE_CALL("fastly_http_req", "header_append")
edge_status http_req_header_append(edge_handle request, const char *name, uint32_t name_length, const char *value,
    uint32_t value_length);
EDGE_CALL("fastly_http_req", "header_remove")
edge_status http_req_header_remove(edge_handle request, const char *name, uint32_t name_length);
EDGE_CALL("fastly_http_req", "version_get") edge_status http_req_version_get(edge_handle request, uint32_t *version);
EDGE_CALL("fastly_http_req", "version_set") edge_status http_req_version_set(edge_handle request, uint32_t version);
/* The request that the guest is to answer, and its body. Once. */
EDGE_CALL("fastly_http_req", "body_downstream_get")
edge_status http_req_body_downstream_get(edge_handle *request, edge_handle *body);
EDGE_CALL("fastly_http_req", "method_get")
edge_status http_req_method_get(edge_handle request, char *buffer, uint32_t room, uint32_t *length);
EDGE_CALL("fastly_http_req", "method_set")
edge_status http_req_method_set(edge_handle request, const char *method, uint32_t length);
/* A whole URI. Of the client's request: `http://`, its Host and its target, or its target alone where that is whole. */
EDGE_CALL("fastly_http_req", "uri_get")
edge_status http_req_uri_get(edge_handle request, char *buffer, uint32_t room, uint32_t *length);
EDGE_CALL("fastly_http_req", "uri_set")
edge_status http_req_uri_set(edge_handle request, const char *uri, uint32_t length);

/* ---- responses ---- */

/* A new response has the status 200 and the version 1.1. */
EDGE_CALL("fastly_http_resp", "new") edge_status http_resp_new(edge_handle *response);
EDGE_CALL("fastly_http_resp", "close") edge_status http_resp_close(edge_handle response);
EDGE_CALL("fastly_http_resp", "header_names_get")
edge_status http_resp_header_names_get(edge_handle response, char *buffer, uint32_t room, uint32_t cursor,
    int64_t *next, uint32_t *length);
EDGE_CALL("fastly_http_resp", "header_value_get")
edge_status http_resp_header_value_get(edge_handle response, const char *name, uint32_t name_length, char *buffer,
    uint32_t room, uint32_t *length);
EDGE_CALL("fastly_http_resp", "header_values_get")
edge_status http_resp_header_values_get(edge_handle response, const char *name, uint32_t name_length, char *buffer,
    uint32_t room, uint32_t cursor, int64_t *next, uint32_t *length);
EDGE_CALL("fastly_http_resp", "header_values_set")
edge_status http_resp_header_values_set(edge_handle response, const char *name, uint32_t name_length,
    const char *values, uint32_t values_length);
EDGE_CALL("fastly_http_resp", "header_insert")
edge_status http_resp_header_insert(edge_handle response, const char *name, uint32_t name_length, const char *value,
    uint32_t value_length);
EDGE_CALL("fastly_http_resp", "header_append")
edge_status http_resp_header_append(edge_handle response, const char *name, uint32_t name_length, const char *value,
    uint32_t value_length);
EDGE_CALL("fastly_http_resp", "header_remove")
edge_status http_resp_header_remove(edge_handle response, const char *name, uint32_t name_length);
EDGE_CALL("fastly_http_resp", "version_get") edge_status http_resp_version_get(edge_handle response, uint32_t *version);
EDGE_CALL("fastly_http_resp", "version_set") edge_status http_resp_version_set(edge_handle response, uint32_t version);
EDGE_CALL("fastly_http_resp", "status_get") edge_status http_resp_status_get(edge_handle response, uint16_t *status);
EDGE_CALL("fastly_http_resp", "status_set") edge_status http_resp_status_set(edge_handle response, uint32_t status);
/* Answers the client, once. With `streaming` 1 the body can be written further until it is closed; with 0 it is
   whole. */
EDGE_CALL("fastly_http_resp", "send_downstream")
edge_status http_resp_send_downstream(edge_handle response, edge_handle body, uint32_t streaming);

/* ---- stores of the settings, and logs ---- */

EDGE_CALL("fastly_dictionary", "open")
edge_status dictionary_open(const char *name, uint32_t length, edge_handle *dictionary);
EDGE_CALL("fastly_dictionary", "get")
edge_status dictionary_get(edge_handle dictionary, const char *key, uint32_t key_length, char *buffer, uint32_t room,
    uint32_t *length);
EDGE_CALL("fastly_config_store", "open")
edge_status config_store_open(const char *name, uint32_t length, edge_handle *store);
EDGE_CALL("fastly_config_store", "get")
edge_status config_store_get(edge_handle store, const char *key, uint32_t key_length, char *buffer, uint32_t room,
    uint32_t *length);
EDGE_CALL("fastly_secret_store", "open")
edge_status secret_store_open(const char *name, uint32_t length, edge_handle *store);
EDGE_CALL("fastly_secret_store", "get")
edge_status secret_store_get(edge_handle store, const char *key, uint32_t key_length, edge_handle *secret);
EDGE_CALL("fastly_secret_store", "plaintext")
edge_status secret_store_plaintext(edge_handle secret, char *buffer, uint32_t room, uint32_t *length);
/* The name has 1 to 256 bytes. */
EDGE_CALL("fastly_log", "endpoint_get")
edge_status log_endpoint_get(const char *name, uint32_t length, edge_handle *endpoint);
/* One line, of the first 65,536 bytes. */
EDGE_CALL("fastly_log", "write")
edge_status log_write(edge_handle endpoint, const char *line, uint32_t length, uint32_t *written);

/* ---- the cache ---- */

/* The state of a lookup. */
enum { EDGE_FOUND = 1, EDGE_USABLE = 2, EDGE_STALE = 4, EDGE_MUST_INSERT_OR_UPDATE = 8 };

/* Which options of a lookup are given. */
enum { EDGE_LOOKUP_REQUEST_HEADERS = 2 };

typedef struct {
    edge_handle request_headers; /* the request whose headers choose among variants */
} edge_lookup_options;

/* Which options of an insertion or update are given. What isn't given is 0, empty or absent. */
enum {
    EDGE_WRITE_REQUEST_HEADERS = 2,
    EDGE_WRITE_VARY_RULE = 4,
    EDGE_WRITE_INITIAL_AGE_NS = 8,
    EDGE_WRITE_STALE_WHILE_REVALIDATE_NS = 16,
    EDGE_WRITE_SURROGATE_KEYS = 32,
    EDGE_WRITE_LENGTH = 64,
    EDGE_WRITE_USER_METADATA = 128
};

typedef struct {
    uint64_t max_age_ns;                /* how long the object is fresh; always given */
    edge_handle request_headers;        /* the request that the object was made for */
    const char *vary_rule;              /* names of headers, separated by spaces: at most 32, of 64 bytes each */
    uint32_t vary_rule_length;
    uint64_t initial_age_ns;            /* how old it is already */
    uint64_t stale_while_revalidate_ns; /* how long it stays usable behind max_age_ns */
    const char *surrogate_keys;         /* separated by spaces: at most 16,384 bytes, each 1 to 1,024 */
    uint32_t surrogate_keys_length;
    uint64_t length;                    /* of its body, at most 67,108,864 */
    const void *user_metadata;          /* at most 65,536 bytes */
    uint32_t user_metadata_length;
} edge_write_options;

#define EDGE_AT(field, place) EDGE_SURE(offsetof(edge_write_options, field) == (place), "place of " #field)
EDGE_AT(max_age_ns, 0);
EDGE_AT(request_headers, 8);
EDGE_AT(vary_rule, 12);
EDGE_AT(vary_rule_length, 16);
EDGE_AT(initial_age_ns, 24);
EDGE_AT(stale_while_revalidate_ns, 32);
EDGE_AT(surrogate_keys, 40);
EDGE_AT(surrogate_keys_length, 44);
EDGE_AT(length, 48);
EDGE_AT(user_metadata, 56);
EDGE_AT(user_metadata_length, 60);
EDGE_SURE(sizeof(edge_write_options) == 64 && EDGE_ALIGN(edge_write_options) == 8, "size of the write options");
EDGE_SURE(sizeof(edge_lookup_options) == 4, "size of the lookup options");

/* Keys have 1 to 4,096 bytes. With the mask 0 the options of a lookup may be NULL. */
EDGE_CALL("fastly_cache", "lookup")
edge_status cache_lookup(const void *key, uint32_t length, uint32_t mask, const edge_lookup_options *options,
    edge_handle *lookup);
/* `body`: what is written to it is the object's, at once to be read by others, and whole where it is closed. */
EDGE_CALL("fastly_cache", "insert")
edge_status cache_insert(const void *key, uint32_t length, uint32_t mask, const edge_write_options *options,
    edge_handle *body);
/* Waits while another guest has what is missing to insert. */
EDGE_CALL("fastly_cache", "transaction_lookup")
edge_status cache_transaction_lookup(const void *key, uint32_t length, uint32_t mask,
    const edge_lookup_options *options, edge_handle *lookup);
EDGE_CALL("fastly_cache", "transaction_lookup_async")
edge_status cache_transaction_lookup_async(const void *key, uint32_t length, uint32_t mask,
    const edge_lookup_options *options, edge_handle *busy);
/* Waits, and takes the busy handle. */
EDGE_CALL("fastly_cache", "cache_busy_handle_wait")
edge_status cache_cache_busy_handle_wait(edge_handle busy, edge_handle *lookup);
EDGE_CALL("fastly_cache", "close_busy") edge_status cache_close_busy(edge_handle busy);
/* The next four want the handle of a transaction that was told to insert or update. */
EDGE_CALL("fastly_cache", "transaction_insert")
edge_status cache_transaction_insert(edge_handle lookup, uint32_t mask, const edge_write_options *options,
    edge_handle *body);
EDGE_CALL("fastly_cache", "transaction_insert_and_stream_back")
edge_status cache_transaction_insert_and_stream_back(edge_handle lookup, uint32_t mask,
    const edge_write_options *options, edge_handle *body, edge_handle *back);
EDGE_CALL("fastly_cache", "transaction_update")
edge_status cache_transaction_update(edge_handle lookup, uint32_t mask, const edge_write_options *options);
EDGE_CALL("fastly_cache", "transaction_cancel") edge_status cache_transaction_cancel(edge_handle lookup);
EDGE_CALL("fastly_cache", "close") edge_status cache_close(edge_handle lookup);
EDGE_CALL("fastly_cache", "get_state") edge_status cache_get_state(edge_handle lookup, uint32_t *state);
/* What was found, as it was at the lookup; EDGE_NONE where nothing was. */
EDGE_CALL("fastly_cache", "get_user_metadata")
edge_status cache_get_user_metadata(edge_handle lookup, void *buffer, uint32_t room, uint32_t *length);
EDGE_CALL("fastly_cache", "get_length") edge_status cache_get_length(edge_handle lookup, uint64_t *length);
EDGE_CALL("fastly_cache", "get_max_age_ns") edge_status cache_get_max_age_ns(edge_handle lookup, uint64_t *max_age);
EDGE_CALL("fastly_cache", "get_stale_while_revalidate_ns")
edge_status cache_get_stale_while_revalidate_ns(edge_handle lookup, uint64_t *stale);
EDGE_CALL("fastly_cache", "get_age_ns") edge_status cache_get_age_ns(edge_handle lookup, uint64_t *age);
/* The mask is 0, and the options aren't looked at. The body is held, and reading it may wait for its writer. */
EDGE_CALL("fastly_cache", "get_body")
edge_status cache_get_body(edge_handle lookup, uint32_t mask, const void *options, edge_handle *body);

/* For the mask of a purge: what is purged stays, and is no longer fresh. */
enum { EDGE_PURGE_SOFT = 1 };

/* The options aren't looked at. */
EDGE_CALL("fastly_purge", "purge_surrogate_key")
edge_status purge_purge_surrogate_key(const char *key, uint32_t length, uint32_t mask, void *options);

/* ---- WASI preview 1, as far as it goes here ---- */

typedef uint32_t wasi_errno;
enum { WASI_SUCCESS = 0, WASI_BADF = 8, WASI_INVAL = 28 };
enum { WASI_REALTIME = 0, WASI_MONOTONIC = 1 };

typedef struct {
    const void *bytes;
    uint32_t length;
} wasi_ciovec;

EDGE_CALL("wasi_snapshot_preview1", "proc_exit") __attribute__((noreturn)) void wasi_proc_exit(uint32_t code);
/* One line of a log, of all the parts joined: fd 1 is stdout, 2 is stderr. At most 65,536 bytes. */
EDGE_CALL("wasi_snapshot_preview1", "fd_write")
wasi_errno wasi_fd_write(uint32_t fd, const wasi_ciovec *parts, uint32_t count, uint32_t *written);
/* At most 65,536 bytes. */
EDGE_CALL("wasi_snapshot_preview1", "random_get") wasi_errno wasi_random_get(void *buffer, uint32_t length);
/* Nanoseconds; the precision is passed over. */
EDGE_CALL("wasi_snapshot_preview1", "clock_time_get")
wasi_errno wasi_clock_time_get(uint32_t id, uint64_t precision, uint64_t *time);
/* Environment and arguments are empty. */
EDGE_CALL("wasi_snapshot_preview1", "environ_sizes_get")
wasi_errno wasi_environ_sizes_get(uint32_t *count, uint32_t *length);
EDGE_CALL("wasi_snapshot_preview1", "args_sizes_get") wasi_errno wasi_args_sizes_get(uint32_t *count, uint32_t *length);
EDGE_CALL("wasi_snapshot_preview1", "environ_get") wasi_errno wasi_environ_get(void *places, void *texts);
EDGE_CALL("wasi_snapshot_preview1", "args_get") wasi_errno wasi_args_get(void *places, void *texts);

/* The calls that send requests to backends aren't here: this host doesn't have them yet. */

#ifdef __cplusplus
}
#endif

#endif
