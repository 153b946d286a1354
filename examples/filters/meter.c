// Counts all requests of all workers in a metric, and tells each response how many there were by then.
#define ROOM 4096
#include "proxy_wasm.h"

// The id of the metric, which a worker has from its first Define on.
static u32 requests(void) {
    u32 id = 0;
    proxy_define_metric(COUNTER, "requests", 8, &id);
    return id;
}

CALLBACK(proxy_on_request_headers) u32 proxy_on_request_headers(u32 context, u32 headers, u32 end) {
    begin();
    proxy_increment_metric(requests(), 1);
    return CONTINUE;
}

CALLBACK(proxy_on_response_headers) u32 proxy_on_response_headers(u32 context, u32 headers, u32 end) {
    u8 digits[10];
    u64 sum = 0;
    begin();
    proxy_get_metric(requests(), &sum);
    u32 size = decimal((u32)sum, digits);
    proxy_add_header_map_value(RESPONSE_HEADERS, "x-requests", 10, digits, size);
    return CONTINUE;
}
