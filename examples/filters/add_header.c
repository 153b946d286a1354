// Adds a header to each request, and one to each response.
#define ROOM 4096
#include "proxy_wasm.h"

CALLBACK(proxy_on_request_headers) u32 proxy_on_request_headers(u32 context, u32 headers, u32 end) {
    begin();
    add_header(REQUEST_HEADERS, "x-filtered", "yes");
    return CONTINUE;
}

CALLBACK(proxy_on_response_headers) u32 proxy_on_response_headers(u32 context, u32 headers, u32 end) {
    begin();
    add_header(RESPONSE_HEADERS, "x-served-by", "wasmgate");
    return CONTINUE;
}
