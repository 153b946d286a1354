// What the cases over sockets ask of a filter: random bytes, lines of the log, ticks, and that it dies.
#define ROOM 4096
#include "../../examples/filters/proxy_wasm.h"

__attribute__((import_module("wasi_snapshot_preview1"), import_name("random_get"))) extern u32 random_get(void *at, u32 size);

// The last byte of the path, which says what is asked.
static u8 asked(void) {
    u8 *path = 0;
    u32 size = 0;
    if (proxy_get_header_map_value(REQUEST_HEADERS, ":path", 5, &path, &size) != OK || size == 0) {
        return 0;
    }
    return path[size - 1];
}

// Answers with 16 random bytes, in hexadecimal digits.
static void answer_random(void) {
    static const char digits[] = "0123456789abcdef";
    static u8 random[16];
    static u8 text[32];
    random_get(random, sizeof random);
    for (u32 i = 0; i < sizeof random; i++) {
        text[2 * i] = digits[random[i] / 16];
        text[2 * i + 1] = digits[random[i] % 16];
    }
    proxy_send_local_response(200, 0, 0, text, sizeof text, 0, 0, (u32)-1);
}

// A tick takes longer than its period.
static u32 is_slow;

CALLBACK(proxy_on_configure) u32 proxy_on_configure(u32 context, u32 size) {
    begin();
    u8 *text = 0;
    u32 got = 0;
    if (proxy_get_buffer_bytes(PLUGIN_CONFIGURATION, 0, 16, &text, &got) == OK && got != 0) {
        is_slow = text[0] == 's';
        proxy_set_tick_period_milliseconds(is_slow ? 1 : 100);
    }
    return 1;
}

CALLBACK(proxy_on_tick) void proxy_on_tick(u32 context) {
    begin();
    if (is_slow) {
        for (volatile u32 n = 0; n < 500000; n++) {
        }
        return;
    }
    log_text(INFO, "a tick");
}

CALLBACK(proxy_on_request_headers) u32 proxy_on_request_headers(u32 context, u32 headers, u32 end) {
    begin();
    switch (asked()) {
    case 'r':
        answer_random();
        return PAUSE;
    case 'l':
        log_text(DEBUG, "below the level");
        log_text(WARN, "a line with \x01 and \xff");
        return CONTINUE;
    case 'd':
        __builtin_trap();
    default:
        return CONTINUE;
    }
}
