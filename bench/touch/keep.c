// Answers 0 to `proxy_on_done` and never calls `proxy_done`, so that each context of it stays: what `bench/waits` measures.
// Compile as ../../examples/filters/build.sh does, with -I../../examples/filters.
#define ROOM 65536
#include "proxy_wasm.h"

CALLBACK(proxy_on_done) u32 proxy_on_done(u32 context) {
    return 0;
}
