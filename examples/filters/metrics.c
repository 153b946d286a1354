// Counts the responses of all workers by the first digit of their status, and answers the path /metrics, without the server, with the counts in
// Prometheus' text form. It is a filter of each route that is to be counted, and of one of the path /metrics.
#define ROOM 131072
#include "proxy_wasm.h"

// The names of the metrics, a counter for each class of statuses from 1xx to 5xx.
static char names[5][14] = {"responses_1xx", "responses_2xx", "responses_3xx", "responses_4xx", "responses_5xx"};

// The id of a metric, which a worker has from its first Define on.
static u32 metric(u32 class) {
    u32 id = 0;
    proxy_define_metric(COUNTER, names[class], 13, &id);
    return id;
}

static u8 text[1024];
static u32 size;

static void put(const char *bytes, u32 count) {
    for (u32 i = 0; i < count && size < sizeof text; i++) {
        text[size++] = (u8)bytes[i];
    }
}

static void put_number(u64 number) {
    char reversed[20], digits[20];
    u32 n = 0;
    do {
        reversed[n++] = (char)('0' + number % 10);
        number /= 10;
    } while (number);
    for (u32 i = 0; i < n; i++) {
        digits[i] = reversed[n - 1 - i];
    }
    put(digits, n);
}

static void put_counts(void) {
    static const char head[] = "# HELP wasmgate_responses_total Responses by the class of their status.\n"
                               "# TYPE wasmgate_responses_total counter\n";
    size = 0;
    put(head, sizeof head - 1);
    for (u32 class = 0; class < 5; class++) {
        u64 sum = 0;
        proxy_get_metric(metric(class), &sum);
        put("wasmgate_responses_total{class=\"", 32);
        put(names[class] + 10, 3);
        put("\"} ", 3);
        put_number(sum);
        put("\n", 1);
    }
}

// Whether the request's path is /metrics, with or without a query.
static u32 is_asked(void) {
    static const char path[] = "/metrics";
    u8 *value = 0;
    u32 count = 0;
    if (proxy_get_header_map_value(REQUEST_HEADERS, ":path", 5, &value, &count) != OK || count < 8) {
        return 0;
    }
    for (u32 i = 0; i < 8; i++) {
        if (value[i] != (u8)path[i]) {
            return 0;
        }
    }
    return count == 8 || value[8] == '?';
}

CALLBACK(proxy_on_request_headers) u32 proxy_on_request_headers(u32 context, u32 headers, u32 end) {
    begin();
    if (!is_asked()) {
        return CONTINUE;
    }
    // One pair: its count, the sizes of the name and the value, and both with a zero byte behind each.
    static const u8 type[] = "\1\0\0\0\14\0\0\0\31\0\0\0content-type\0text/plain; version=0.0.4";
    put_counts();
    proxy_send_local_response(200, 0, 0, text, size, type, sizeof type, (u32)-1);
    return PAUSE;
}

CALLBACK(proxy_on_response_headers) u32 proxy_on_response_headers(u32 context, u32 headers, u32 end) {
    begin();
    u8 *status = 0;
    u32 count = 0;
    if (proxy_get_header_map_value(RESPONSE_HEADERS, ":status", 7, &status, &count) == OK && count == 3 && status[0] >= '1' && status[0] <= '5') {
        proxy_increment_metric(metric(status[0] - '1'), 1);
    }
    return CONTINUE;
}
