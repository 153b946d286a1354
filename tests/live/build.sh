#!/bin/sh
# Compiles the filters of the cases over sockets to WebAssembly of the 1.0 feature set, by clang and lld.
cd "$(dirname "$0")" || exit 1
for name in teller busy caller; do
    clang --target=wasm32 -mcpu=mvp -O2 -nostdlib -ffreestanding -fno-builtin -Wall -Wno-unused-parameter -Wno-unused-function \
        -Wl,--no-entry -Wl,--strip-all -o "$name.wasm" "$name.c" || exit 1
done
