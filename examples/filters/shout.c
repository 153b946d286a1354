// Holds a response's body to its end, and then writes its small letters as capitals.
#include "proxy_wasm.h"

CALLBACK(proxy_on_response_body) u32 proxy_on_response_body(u32 context, u32 size, u32 end) {
    begin();
    if (!end) {
        return PAUSE;
    }
    u8 *body = 0;
    u32 len = 0;
    if (proxy_get_buffer_bytes(RESPONSE_BODY, 0, size, &body, &len) == OK) {
        for (u32 i = 0; i < len; i++) {
            if (body[i] >= 'a' && body[i] <= 'z') {
                body[i] -= 'a' - 'A';
            }
        }
        proxy_set_buffer_bytes(RESPONSE_BODY, 0, size, body, len);
    }
    return CONTINUE;
}
