#!/bin/sh
# build.sh [--check]: makes soft.wasm of soft.c, or (--check) compares it with one made anew, byte for byte. Needs clang and wasm-ld
# (Debian: clang-14, lld-14; CLANG and WASM_LD name others). Made by Debian's clang 14.0.6. Another version may give other bytes of the
# same meaning. The compiler writes an object and the linker is called by itself, so that no wasm-opt on the PATH takes part.
# Ends with 0 where it is made or equal, 1 where it differs or fails, 2 where the words are of no form or a tool is missing.
here=$(CDPATH= cd -- "$(dirname -- "$0")" && pwd) || exit 1
clang=${CLANG:-clang-14}
linker=${WASM_LD:-wasm-ld}
case "$#$1" in
0 | 1--check) ;;
*)
    echo "build.sh [--check]" >&2
    exit 2
    ;;
esac
for tool in "$clang" "$linker"; do
    command -v "$tool" >/dev/null || {
        echo "soft: $tool is not on the PATH" >&2
        exit 2
    }
done
temp=$(mktemp -d) || exit 1
trap 'rm -rf "$temp"' EXIT
"$clang" --target=wasm32 -mcpu=mvp -O2 -ffreestanding -fno-ident -Wall -c "$here/soft.c" -o "$temp/soft.o" || exit 1
"$linker" --no-entry --strip-all -z stack-size=16 "$temp/soft.o" -o "$temp/soft.wasm" || exit 1
if [ "$1" = --check ]; then
    cmp "$temp/soft.wasm" "$here/soft.wasm" && echo "soft: soft.wasm is what soft.c makes"
else
    cp "$temp/soft.wasm" "$here/soft.wasm"
fi
