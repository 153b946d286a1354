// A filter that takes long for each piece of a request's body.
#define ROOM 4096
#include "../../examples/filters/proxy_wasm.h"

CALLBACK(proxy_on_request_body) u32 proxy_on_request_body(u32 context, u32 size, u32 end) {
    begin();
    for (volatile u32 n = 0; n < 50000; n++) {
    }
    return CONTINUE;
}
