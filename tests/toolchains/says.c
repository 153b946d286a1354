// Prints a line for each request by the printf of wasi-libc: of integers alone, and of a float where FLOAT is defined.
#include <stdint.h>
#include <stdio.h>

#define CALLBACK(name) __attribute__((export_name(#name)))

CALLBACK(proxy_abi_version_0_2_1) void proxy_abi_version_0_2_1(void) {}

CALLBACK(proxy_on_request_headers) uint32_t proxy_on_request_headers(uint32_t context, uint32_t headers, uint32_t end) {
#ifdef FLOAT
    printf("%u headers, a third of them %.3f\n", headers, headers / 3.0);
#else
    printf("%u headers, end %d\n", headers, (int)end);
#endif
    fflush(stdout);
    return 0;
}
