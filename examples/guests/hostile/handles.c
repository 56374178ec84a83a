/* Makes bodies and drops them until there is no number left, since none is given twice. Its exit code is how many it
   got: 65536. Another status than EDGE_LIMITEXCEEDED exits with 0. */
#include "edge.h"

EDGE_START void start(void) {
    edge_handle body;
    edge_status status;
    uint32_t count = 0;
    while ((status = http_body_new(&body)) == EDGE_OK) {
        count++;
        http_body_close(body);
    }
    wasi_proc_exit(status == EDGE_LIMITEXCEEDED ? count : 0);
}
