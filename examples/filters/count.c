// Counts all requests of all workers in shared data, by compare-and-swap, and tells each response its number.
#define ROOM 4096
#include "proxy_wasm.h"

// Draws the next number. Where another worker was faster it tries again.
static u32 next_number(void) {
    for (;;) {
        u8 *value = 0;
        u32 size = 0, cas = 0, count = 0;
        begin();
        if (proxy_get_shared_data("count", 5, &value, &size, &cas) == OK && size == sizeof count) {
            count = *(u32 *)value;
        }
        count++;
        if (proxy_set_shared_data("count", 5, &count, sizeof count, cas) != CAS_MISMATCH) {
            return count;
        }
    }
}

CALLBACK(proxy_on_response_headers) u32 proxy_on_response_headers(u32 context, u32 headers, u32 end) {
    u8 digits[10];
    u32 size = decimal(next_number(), digits);
    proxy_add_header_map_value(RESPONSE_HEADERS, "x-count", 7, digits, size);
    return CONTINUE;
}
