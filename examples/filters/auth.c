// Asks the server, at /auth, whether a request may pass, and holds the request until it knows. A status from 200 to 299 lets it go on. Every other
// one is answered 403, and so is a call without an answer within a second, or one that cannot be made.
// What becomes of requests once this filter's VM has died is not decided here: that is `fail` in the configuration.
#define ROOM 196608
#include "proxy_wasm.h"

#define MILLISECONDS 1000

struct pair {
    const void *name;
    u32 name_size;
    const void *value;
    u32 value_size;
};

static u8 pairs[ROOM];
static u32 pairs_size;

static void put(const void *bytes, u32 size) {
    for (u32 i = 0; i < size && pairs_size < sizeof pairs; i++) {
        pairs[pairs_size++] = ((const u8 *)bytes)[i];
    }
}

// Pairs as the host reads them: how many, the sizes of each name and value, and then each name and value with a zero byte after it.
static void serialise(const struct pair *list, u32 count) {
    pairs_size = 0;
    put(&count, 4);
    for (u32 i = 0; i < count; i++) {
        put(&list[i].name_size, 4);
        put(&list[i].value_size, 4);
    }
    for (u32 i = 0; i < count; i++) {
        put(list[i].name, list[i].name_size);
        put("", 1);
        put(list[i].value, list[i].value_size);
        put("", 1);
    }
}

// Asks for this request, and answers whether a callback will have the outcome.
static u32 ask(void) {
    u8 *path = 0, *host = 0, *key = 0;
    u32 path_size = 0, host_size = 0, key_size = 0, call = 0;
    if (proxy_get_header_map_value(REQUEST_HEADERS, ":path", 5, &path, &path_size) != OK
        || proxy_get_header_map_value(REQUEST_HEADERS, ":authority", 10, &host, &host_size) != OK) {
        return 0;
    }
    u32 has_key = proxy_get_header_map_value(REQUEST_HEADERS, "authorization", 13, &key, &key_size) == OK;
    const struct pair list[] = {
        {":method", 7, "GET", 3},
        {":path", 5, "/auth", 5},
        {":authority", 10, host, host_size},
        {"x-path", 6, path, path_size},
        {"authorization", 13, key, key_size},
    };
    serialise(list, has_key ? 5 : 4);
    return proxy_http_call("upstream", 8, pairs, pairs_size, 0, 0, 0, 0, MILLISECONDS, &call) == OK;
}

static void refuse(void) { proxy_send_local_response(403, 0, 0, "forbidden\n", 10, 0, 0, (u32)-1); }

CALLBACK(proxy_on_request_headers) u32 proxy_on_request_headers(u32 context, u32 headers, u32 end) {
    begin();
    if (!ask()) {
        refuse();
    }
    return PAUSE;
}

// `headers` is 0 where no answer came. The context of the request that asked is the effective one.
CALLBACK(proxy_on_http_call_response)
void proxy_on_http_call_response(u32 context, u32 call, u32 headers, u32 body_size, u32 trailers) {
    begin();
    u8 *status = 0;
    u32 size = 0;
    if (headers > 0 && proxy_get_header_map_value(CALL_HEADERS, ":status", 7, &status, &size) == OK && size == 3 && status[0] == '2') {
        proxy_continue_stream(REQUEST);
    } else {
        refuse();
    }
}
