#!/bin/sh
# Compiles calls.c to the modules of the cases, by clang and lld (Debian's packages clang and lld). The two modules that hold their program
# take it from the case of the same name.
cd "$(dirname "$0")" || exit 1
build() {
    name=$1
    shift
    clang --target=wasm32 -mcpu=mvp -O2 -nostdlib -ffreestanding -fno-builtin -Wall -Wno-unused-parameter -Wno-unused-function \
        -Wl,--no-entry -Wl,--strip-all "$@" -o "$name.wasm" calls.c || exit 1
}
held() {
    python3 run.py program "cases/$1" | sed 's/\\/\\\\/g; s/"/\\"/g; s/.*/"&"/' >"$1.program.h"
    build "$@" -DPROGRAM="\"$1.program.h\""
    rm "$1.program.h"
}
build calls
build big -DBIG
build heads -DNO_BODIES
build streams -DSTREAMS
build big_streams -DSTREAMS -DBIG
held no_allocator -DNO_ALLOCATOR -DSTART
held initialize -DINITIALIZE
for source in *.s; do
    clang --target=wasm32 -mcpu=mvp -c -o "${source%.s}.o" "$source" && wasm-ld --no-entry --strip-all --export-dynamic -o "${source%.s}.wasm" "${source%.s}.o" || exit 1
    rm "${source%.s}.o"
done
for source in *.hex; do
    sed 's/#.*//' "$source" | python3 -c 'import sys; sys.stdout.buffer.write(bytes.fromhex(sys.stdin.read()))' >"${source%.hex}.wasm" || exit 1
done
