// Makes one host call many times, as the plug-in's configuration says: `g N` reads a header N times, `s N` puts 1,024 bytes in place of those
// of a body N times, `m N` puts one byte in place of one in the middle of a whole body N times. What `bench/host_calls` measures.
// Compile as ../../examples/filters/build.sh does, with -I../../examples/filters.
#define ROOM 65536
#include "proxy_wasm.h"

static u8 piece[1024];

// The number of rounds, where the configuration begins with this letter.
static u32 rounds(u8 letter) {
    u8 *text = 0;
    u32 size = 0, n = 0;
    begin();
    if (proxy_get_buffer_bytes(PLUGIN_CONFIGURATION, 0, 100, &text, &size) != OK || size < 2 || text[0] != letter) {
        return 0;
    }
    for (u32 i = 2; i < size; i++) {
        n = 10 * n + (text[i] - '0');
    }
    return n;
}

CALLBACK(proxy_on_request_headers) u32 proxy_on_request_headers(u32 context, u32 headers, u32 end) {
    for (u32 n = rounds('g'); n > 0; n--) {
        u8 *value = 0;
        u32 size = 0;
        begin();
        proxy_get_header_map_value(REQUEST_HEADERS, "user-agent", 10, &value, &size);
    }
    return CONTINUE;
}

CALLBACK(proxy_on_request_body) u32 proxy_on_request_body(u32 context, u32 size, u32 end) {
    if (!end) {
        return PAUSE;
    }
    for (u32 n = rounds('s'); n > 0; n--) {
        proxy_set_buffer_bytes(REQUEST_BODY, 0, 1024, piece, 1024);
    }
    for (u32 n = rounds('m'); n > 0; n--) {
        proxy_set_buffer_bytes(REQUEST_BODY, size / 2, 1, piece, 1);
    }
    return CONTINUE;
}
