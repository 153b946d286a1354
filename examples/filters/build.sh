#!/bin/sh
# Compiles the filters of this folder, of rust and of cpp, each where its compiler is at hand; it says which are skipped, and installs nothing.
#
#     build.sh [FOLDER]      to FOLDER, FOLDER/rust and FOLDER/cpp, or to where the sources lie
#
# Those in C need clang ($CC names another one) and lld: Debian's packages of these names. What the others need is told in rust/build.sh and cpp/build.sh.
goal=.
[ $# -eq 0 ] || goal=$(mkdir -p "$1/rust" "$1/cpp" && cd "$1" && pwd) || exit 1
cd "$(dirname "$0")" || exit 1
cc=${CC:-clang}

if echo 'int f;' | "$cc" --target=wasm32 -nostdlib -Wl,--no-entry -x c -o /dev/null - 2>/dev/null; then
    for source in *.c; do
        "$cc" --target=wasm32 -mcpu=mvp -O2 -nostdlib -ffreestanding -fno-builtin -Wall -Wno-unused-parameter -Wno-unused-function \
            -Wl,--no-entry -Wl,--strip-all -o "$goal/${source%.c}.wasm" "$source" || exit 1
    done
    echo "c: $(ls *.c | wc -l) filters, by $("$cc" --version | head -n 1)"
else
    echo "c: skipped, since $cc does not compile for wasm32 (Debian: clang and lld)"
fi
if [ "$goal" = . ]; then
    rust/build.sh && cpp/build.sh
else
    rust/build.sh "$goal/rust" && cpp/build.sh "$goal/cpp"
fi
