// What the cases over sockets ask of a filter that calls out: each request is held until the server answered a request for its path, without the first five
// bytes of it, and then answered with the body of that answer; with 503 where the callout failed, with 429 where there may be no further one, and with 501 where there are no callouts.
#define ROOM 1310720
#include "../../examples/filters/proxy_wasm.h"

// So many milliseconds a callout may take.
#define TIMEOUT 500

static void reply(u32 code, const void *text, u32 size) { proxy_send_local_response(code, 0, 0, text, size, 0, 0, (u32)-1); }

static void reply_text(u32 code, const char *text) { reply(code, text, length(text)); }

// Puts a number at a place of pairs.
static u8 *put_number(u8 *at, u32 number) {
    for (u32 i = 0; i < 4; i++) {
        *at++ = (u8)(number >> 8 * i);
    }
    return at;
}

// Puts bytes there, with a zero byte after them.
static u8 *put(u8 *at, const u8 *text, u32 size) {
    for (u32 i = 0; i < size; i++) {
        *at++ = text[i];
    }
    *at++ = 0;
    return at;
}

CALLBACK(proxy_on_request_headers) u32 proxy_on_request_headers(u32 context, u32 headers, u32 end) {
    static u8 pairs[1024];
    begin();
    u8 *path = 0;
    u32 size = 0;
    if (proxy_get_header_map_value(REQUEST_HEADERS, ":path", 5, &path, &size) != OK || size < 5 || size > 900) {
        reply_text(400, "no path");
        return PAUSE;
    }
    const char *names[] = {":method", ":path", ":authority"};
    const u8 *values[] = {(const u8 *)"GET", path + 5, (const u8 *)"a"};
    const u32 sizes[] = {3, size - 5, 1};
    u8 *at = put_number(pairs, 3);
    for (u32 i = 0; i < 3; i++) {
        at = put_number(put_number(at, length(names[i])), sizes[i]);
    }
    for (u32 i = 0; i < 3; i++) {
        at = put(put(at, (const u8 *)names[i], length(names[i])), values[i], sizes[i]);
    }
    u32 call = 0;
    switch (proxy_http_call("upstream", 8, pairs, (u32)(at - pairs), 0, 0, 0, 0, TIMEOUT, &call)) {
    case OK:
        break;
    case INTERNAL_FAILURE:
        reply_text(429, "full");
        break;
    case UNIMPLEMENTED:
        reply_text(501, "none");
        break;
    default:
        reply_text(400, "refused");
    }
    return PAUSE;
}

CALLBACK(proxy_on_http_call_response) void proxy_on_http_call_response(u32 context, u32 call, u32 headers, u32 size, u32 trailers) {
    begin();
    u8 *body = 0;
    u32 got = 0;
    if (headers == 0) {
        reply_text(503, "failed");
    } else if (size == 0 || proxy_get_buffer_bytes(CALL_BODY, 0, size, &body, &got) == OK) {
        reply(200, body, got);
    } else {
        reply_text(500, "no body");
    }
}
