// Reads the path of each request and the status of each response, adds a header to both, and lets them pass: what `bench/filters` measures.
// Compile as ../../examples/filters/build.sh does, with -I../../examples/filters.
#define ROOM 65536
#include "proxy_wasm.h"

static u32 touch(u32 map, const char *name) {
    begin();
    u8 *value = 0;
    u32 size = 0;
    proxy_get_header_map_value(map, name, length(name), &value, &size);
    add_header(map, "x-touched", "yes");
    return CONTINUE;
}

CALLBACK(proxy_on_request_headers) u32 proxy_on_request_headers(u32 context, u32 headers, u32 end) {
    return touch(REQUEST_HEADERS, ":path");
}

CALLBACK(proxy_on_response_headers) u32 proxy_on_response_headers(u32 context, u32 headers, u32 end) {
    return touch(RESPONSE_HEADERS, ":status");
}
