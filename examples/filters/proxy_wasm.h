// The calls, callbacks and numbers of the Proxy-Wasm profile that wasmgate's filters have, for C without a library.
// Compile for wasm32 with no library and no entry: see build.sh. docs/PROXY_WASM.md has each call's checks and answers.
#ifndef PROXY_WASM_H
#define PROXY_WASM_H

typedef unsigned char u8;
typedef unsigned int u32;
typedef unsigned long long u64;
typedef long long i64;

// What a host call answers.
enum status {
    OK = 0,
    NOT_FOUND = 1,
    BAD_ARGUMENT = 2,
    PARSE_FAILURE = 4,
    INVALID_MEMORY_ACCESS = 6,
    EMPTY = 7,
    CAS_MISMATCH = 8,
    INTERNAL_FAILURE = 10,
    UNIMPLEMENTED = 12
};

// What a callback of a stream answers.
enum action { CONTINUE = 0, PAUSE = 1 };

enum level { TRACE, DEBUG, INFO, WARN, ERROR, CRITICAL };
enum map { REQUEST_HEADERS, REQUEST_TRAILERS, RESPONSE_HEADERS, RESPONSE_TRAILERS, CALL_HEADERS = 6, CALL_TRAILERS = 7 };
enum buffer {
    REQUEST_BODY = 0,
    RESPONSE_BODY = 1,
    // Where connections are streams of bytes: what the client and what the server sent.
    DOWNSTREAM_DATA = 2,
    UPSTREAM_DATA = 3,
    CALL_BODY = 4,
    VM_CONFIGURATION = 6,
    PLUGIN_CONFIGURATION = 7
};
enum stream { REQUEST = 0, RESPONSE = 1, DOWNSTREAM = 2, UPSTREAM = 3 };
// Who ended a connection: what the callbacks of its close are given.
enum peer { BY_GATEWAY = 1, BY_PEER = 2 };
enum metric { COUNTER = 0, GAUGE = 1 };

#define HOST(name) __attribute__((import_module("env"), import_name(#name))) extern
#define CALLBACK(name) __attribute__((export_name(#name)))

HOST(proxy_log) u32 proxy_log(u32 level, const void *text, u32 size);
// The least level that is written.
HOST(proxy_get_log_level) u32 proxy_get_log_level(u32 *level);
HOST(proxy_get_current_time_nanoseconds) u32 proxy_get_current_time_nanoseconds(u64 *time);
HOST(proxy_set_tick_period_milliseconds) u32 proxy_set_tick_period_milliseconds(u32 period);
HOST(proxy_set_effective_context) u32 proxy_set_effective_context(u32 context);
HOST(proxy_done) u32 proxy_done(void);
HOST(proxy_get_buffer_bytes) u32 proxy_get_buffer_bytes(u32 buffer, u32 start, u32 most, u8 **bytes, u32 *size);
// How many bytes a buffer has, and 1 in `end` where the last of its body is among them.
HOST(proxy_get_buffer_status) u32 proxy_get_buffer_status(u32 buffer, u32 *size, u32 *end);
HOST(proxy_set_buffer_bytes) u32 proxy_set_buffer_bytes(u32 buffer, u32 start, u32 size, const void *bytes, u32 len);
HOST(proxy_get_header_map_value)
u32 proxy_get_header_map_value(u32 map, const void *key, u32 key_size, u8 **value, u32 *size);
HOST(proxy_add_header_map_value)
u32 proxy_add_header_map_value(u32 map, const void *key, u32 key_size, const void *value, u32 size);
HOST(proxy_replace_header_map_value)
u32 proxy_replace_header_map_value(u32 map, const void *key, u32 key_size, const void *value, u32 size);
HOST(proxy_remove_header_map_value) u32 proxy_remove_header_map_value(u32 map, const void *key, u32 key_size);
// How many bytes the pairs of a map take.
HOST(proxy_get_header_map_size) u32 proxy_get_header_map_size(u32 map, u32 *size);
// All fields of a map as pairs: a count, the sizes of each name and value, then each name and value with a zero byte behind it.
HOST(proxy_get_header_map_pairs) u32 proxy_get_header_map_pairs(u32 map, u8 **pairs, u32 *size);
// Puts pairs in place of all fields of a map.
HOST(proxy_set_header_map_pairs) u32 proxy_set_header_map_pairs(u32 map, const void *pairs, u32 size);
// A property by its path, whose parts have a zero byte between them.
HOST(proxy_get_property) u32 proxy_get_property(const void *path, u32 path_size, u8 **value, u32 *size);
HOST(proxy_set_property) u32 proxy_set_property(const void *path, u32 path_size, const void *value, u32 size);
HOST(proxy_continue_stream) u32 proxy_continue_stream(u32 stream);
HOST(proxy_close_stream) u32 proxy_close_stream(u32 stream);
HOST(proxy_send_local_response)
u32 proxy_send_local_response(u32 code, const void *details, u32 details_size, const void *body, u32 body_size,
                              const void *headers, u32 headers_size, u32 grpc_status);
// A request of the filter's own to the server, whose name is `upstream`. Among the fields are the pairs :method, :path and :authority. The outcome comes to
// proxy_on_http_call_response, on the context that is the effective one now.
HOST(proxy_http_call)
u32 proxy_http_call(const void *upstream, u32 upstream_size, const void *headers, u32 headers_size, const void *body, u32 body_size,
                    const void *trailers, u32 trailers_size, u32 timeout_milliseconds, u32 *call);
HOST(proxy_get_shared_data)
u32 proxy_get_shared_data(const void *key, u32 key_size, u8 **value, u32 *size, u32 *cas);
HOST(proxy_set_shared_data)
u32 proxy_set_shared_data(const void *key, u32 key_size, const void *value, u32 size, u32 cas);
HOST(proxy_register_shared_queue) u32 proxy_register_shared_queue(const void *name, u32 size, u32 *queue);
// The number of a queue that a VM registered, by the VM's name.
HOST(proxy_resolve_shared_queue)
u32 proxy_resolve_shared_queue(const void *vm, u32 vm_size, const void *name, u32 size, u32 *queue);
HOST(proxy_dequeue_shared_queue) u32 proxy_dequeue_shared_queue(u32 queue, u8 **item, u32 *size);
HOST(proxy_enqueue_shared_queue) u32 proxy_enqueue_shared_queue(u32 queue, const void *item, u32 size);
HOST(proxy_define_metric) u32 proxy_define_metric(u32 kind, const void *name, u32 size, u32 *metric);
HOST(proxy_increment_metric) u32 proxy_increment_metric(u32 metric, i64 by);
// A gauge's value; of a counter, BAD_ARGUMENT.
HOST(proxy_record_metric) u32 proxy_record_metric(u32 metric, i64 value);
HOST(proxy_get_metric) u32 proxy_get_metric(u32 metric, u64 *sum);

// The marker of the ABI, which each module exports.
CALLBACK(proxy_abi_version_0_2_1) void proxy_abi_version_0_2_1(void) {}

// Where the host puts what it hands over: memory of a fixed size that is given out anew in each callback. A filter calls
// `begin` first in each callback; what it kept of an earlier one is then gone.
#ifndef ROOM
#define ROOM 1114112
#endif
static u8 room[ROOM] __attribute__((aligned(8)));
static u32 used;

static void begin(void) { used = 0; }

CALLBACK(proxy_on_memory_allocate) void *proxy_on_memory_allocate(u32 size) {
    u32 rounded = (size + 7u) & ~7u;
    if (rounded < size || rounded > ROOM - used) {
        return 0;
    }
    void *at = room + used;
    used += rounded;
    return at;
}

// The length of a text that ends with a zero byte.
static u32 length(const char *text) {
    u32 n = 0;
    while (text[n]) {
        n++;
    }
    return n;
}

// The decimal digits of a number, in at most 10 bytes; how many there are.
static u32 decimal(u32 number, u8 *digits) {
    u8 reversed[10];
    u32 n = 0;
    do {
        reversed[n++] = '0' + number % 10;
        number /= 10;
    } while (number);
    for (u32 i = 0; i < n; i++) {
        digits[i] = reversed[n - 1 - i];
    }
    return n;
}

static u32 log_text(u32 level, const char *text) { return proxy_log(level, text, length(text)); }

static u32 add_header(u32 map, const char *name, const char *value) {
    return proxy_add_header_map_value(map, name, length(name), value, length(value));
}

#endif
