// Writes a line of the log for each exchange, at its end: the method, the path, the status, the length that the response tells, and the microseconds from
// the request's head to the end. What is not told is a dash.
#define ROOM 131072
#include "proxy_wasm.h"

// So much of a path is written.
#define MOST_PATH 1024

static u8 line[MOST_PATH + 256];
static u32 size;

static void put(const void *bytes, u32 count) {
    for (u32 i = 0; i < count && size < sizeof line; i++) {
        line[size++] = ((const u8 *)bytes)[i];
    }
}

// Puts a field of a map, so many bytes of it at most, and a space.
static void put_field(u32 map, const char *name, u32 most) {
    u8 *value = 0;
    u32 count = 0;
    if (proxy_get_header_map_value(map, name, length(name), &value, &count) == OK && count > 0) {
        put(value, count < most ? count : most);
    } else {
        put("-", 1);
    }
    put(" ", 1);
}

// The microseconds since the request's head came, which the context keeps as a property of its own.
static void put_time(void) {
    u64 now = 0;
    u8 *began = 0;
    u32 count = 0;
    if (proxy_get_property("began", 5, &began, &count) != OK || count != sizeof now ||
        proxy_get_current_time_nanoseconds(&now) != OK) {
        put("-", 1);
        return;
    }
    u8 digits[10];
    u64 took = (now - *(u64 *)began) / 1000;
    put(digits, decimal(took < 4294967295u ? (u32)took : 4294967295u, digits));
}

CALLBACK(proxy_on_request_headers) u32 proxy_on_request_headers(u32 context, u32 headers, u32 end) {
    begin();
    u64 now = 0;
    if (proxy_get_current_time_nanoseconds(&now) == OK) {
        proxy_set_property("began", 5, &now, sizeof now);
    }
    return CONTINUE;
}

CALLBACK(proxy_on_log) void proxy_on_log(u32 context) {
    begin();
    size = 0;
    put_field(REQUEST_HEADERS, ":method", 32);
    put_field(REQUEST_HEADERS, ":path", MOST_PATH);
    put_field(RESPONSE_HEADERS, ":status", 3);
    put_field(RESPONSE_HEADERS, "content-length", 20);
    put_time();
    proxy_log(INFO, line, size);
}
