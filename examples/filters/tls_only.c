// For connections that are streams of bytes: passes a connection whose first bytes are the first record of TLS, a handshake that begins with ClientHello,
// and closes every other one. Until then nothing of the client goes to the server, and nothing of the server to the client.
#define ROOM 4096
#include "proxy_wasm.h"

// A record's type, version and length, and the type of its handshake message (RFC 8446, sections 4 and 5.1).
#define HEAD 6

// Whether bytes may be the first of such a record.
static u32 is_tls(const u8 *bytes, u32 size) {
    u32 length = size < 5 ? 4 : bytes[3] << 8 | bytes[4];
    return (size < 1 || bytes[0] == 22) && (size < 2 || bytes[1] == 3) && (size < 3 || bytes[2] <= 4) && length >= 4 && length <= 16384 &&
           (size < HEAD || bytes[5] == 1);
}

// Whether the connection was passed. That is a property of its context.
static u32 is_passed(void) {
    u8 *yes;
    u32 size;
    return proxy_get_property("tls", 3, &yes, &size) == OK;
}

CALLBACK(proxy_on_downstream_data) u32 proxy_on_downstream_data(u32 context, u32 size, u32 end) {
    u8 *bytes;
    u32 count = 0;
    begin();
    if (is_passed()) {
        return CONTINUE;
    }
    if (proxy_get_buffer_bytes(DOWNSTREAM_DATA, 0, HEAD, &bytes, &count) != OK || !is_tls(bytes, count) || (count < HEAD && end)) {
        proxy_close_stream(DOWNSTREAM);
        return PAUSE;
    }
    if (count < HEAD) {
        return PAUSE;
    }
    proxy_set_property("tls", 3, "1", 1);
    proxy_continue_stream(UPSTREAM);
    return CONTINUE;
}

CALLBACK(proxy_on_upstream_data) u32 proxy_on_upstream_data(u32 context, u32 size, u32 end) {
    begin();
    return is_passed() ? CONTINUE : PAUSE;
}
