// For connections that are streams of bytes: counts them and their bytes in metrics, and closes a connection whose peers sent more bytes than the plug-in's
// configuration says, as a decimal number. Without a configuration none is closed.
#define ROOM 4096
#include "proxy_wasm.h"

static void add(const char *metric, u32 count) {
    u32 id = 0;
    proxy_define_metric(COUNTER, metric, length(metric), &id);
    proxy_increment_metric(id, count);
}

// How many bytes the connection may still bring. It is a property of the connection's context, which is there where there is a limit.
static u32 set_left(u64 left) { return proxy_set_property("left", 4, &left, sizeof left); }

CALLBACK(proxy_on_new_connection) u32 proxy_on_new_connection(u32 context) {
    u8 *text;
    u32 size = 0;
    u64 limit = 0;
    begin();
    add("connections", 1);
    if (proxy_get_buffer_bytes(PLUGIN_CONFIGURATION, 0, 19, &text, &size) != OK || size == 0) {
        return CONTINUE;
    }
    for (u32 i = 0; i < size && text[i] >= '0' && text[i] <= '9'; i++) {
        limit = limit * 10 + (text[i] - '0');
    }
    set_left(limit);
    return CONTINUE;
}

// Bytes came. Those with which a connection brings too many are not passed on: the close comes before the answer.
static u32 came(const char *metric, u32 count) {
    u64 *left;
    u32 size;
    begin();
    add(metric, count);
    if (proxy_get_property("left", 4, (u8 **)&left, &size) != OK) {
        return CONTINUE;
    }
    if (count > *left) {
        add("closed", 1);
        proxy_close_stream(DOWNSTREAM);
        return PAUSE;
    }
    set_left(*left - count);
    return CONTINUE;
}

CALLBACK(proxy_on_downstream_data) u32 proxy_on_downstream_data(u32 context, u32 size, u32 end) { return came("bytes_from_clients", size); }

CALLBACK(proxy_on_upstream_data) u32 proxy_on_upstream_data(u32 context, u32 size, u32 end) { return came("bytes_from_servers", size); }
