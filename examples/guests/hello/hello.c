/* The smallest useful guest: an answer of status 200 with the body "hello\n". */
#include "edge.h"

EDGE_START void start(void) {
    edge_handle response, body;
    uint32_t written;
    if (abi_init(1) || http_resp_new(&response) || http_body_new(&body)) {
        return;
    }
    if (http_body_write(body, EDGE_TEXT("hello\n"), EDGE_BACK, &written) == EDGE_OK) {
        http_resp_send_downstream(response, body, 0);
    }
}
