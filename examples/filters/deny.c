// Answers 403 where a request has no x-key header, or another one than the plug-in's configuration says. Without a
// configuration any key will do.
#define ROOM 131072
#include "proxy_wasm.h"

static u32 is_same(const u8 *a, u32 a_size, const u8 *b, u32 b_size) {
    if (a_size != b_size) {
        return 0;
    }
    for (u32 i = 0; i < a_size; i++) {
        if (a[i] != b[i]) {
            return 0;
        }
    }
    return 1;
}

// Whether the request may pass.
static u32 is_allowed(void) {
    u8 *key = 0, *wanted = 0;
    u32 key_size = 0, wanted_size = 0;
    if (proxy_get_header_map_value(REQUEST_HEADERS, "x-key", 5, &key, &key_size) != OK) {
        return 0;
    }
    proxy_get_buffer_bytes(PLUGIN_CONFIGURATION, 0, 65536, &wanted, &wanted_size);
    return wanted_size == 0 || is_same(key, key_size, wanted, wanted_size);
}

CALLBACK(proxy_on_request_headers) u32 proxy_on_request_headers(u32 context, u32 headers, u32 end) {
    begin();
    if (is_allowed()) {
        return CONTINUE;
    }
    static const char body[] = "a key is wanted\n";
    proxy_send_local_response(403, 0, 0, body, sizeof body - 1, 0, 0, (u32)-1);
    return PAUSE;
}
