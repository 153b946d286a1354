// Answers each request from a queue: the request waits, its context's number is put into a shared queue, and the notice of
// that queue answers it. For one worker alone: all workers have the queue in common, and a context's number is one worker's.
#define ROOM 4096
#include "proxy_wasm.h"

static u32 queue;

CALLBACK(proxy_on_vm_start) u32 proxy_on_vm_start(u32 root, u32 size) {
    return proxy_register_shared_queue("waiting", 7, &queue) == OK;
}

CALLBACK(proxy_on_request_headers) u32 proxy_on_request_headers(u32 context, u32 headers, u32 end) {
    proxy_enqueue_shared_queue(queue, &context, sizeof context);
    return PAUSE;
}

CALLBACK(proxy_on_queue_ready) void proxy_on_queue_ready(u32 root, u32 ready) {
    begin();
    u8 *item = 0;
    u32 size = 0;
    if (proxy_dequeue_shared_queue(ready, &item, &size) != OK || size != sizeof(u32)) {
        return;
    }
    if (proxy_set_effective_context(*(u32 *)item) == OK) {
        static const char body[] = "your turn\n";
        proxy_send_local_response(200, 0, 0, body, sizeof body - 1, 0, 0, (u32)-1);
    }
}
