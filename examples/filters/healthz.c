// Answers each request of its routes with 200 and `ok`, without the server: a route of the path /healthz has it as its one filter.
#define ROOM 4096
#include "proxy_wasm.h"

CALLBACK(proxy_on_request_headers) u32 proxy_on_request_headers(u32 context, u32 headers, u32 end) {
    begin();
    static const char body[] = "ok\n";
    proxy_send_local_response(200, 0, 0, body, sizeof body - 1, 0, 0, (u32)-1);
    return PAUSE;
}
