#!/bin/sh
# Builds the programs of this folder for wasm32, by clang and lld (Debian's packages clang and lld), and writes into `table` what the
# functions give on this machine, for each line of `calls`. clang has sign extension, and copies and fills of memory, by default from
# version 20 on; older ones are told.
cd "$(dirname "$0")" || exit 1
for source in signs ranges records; do
    clang --target=wasm32 -msign-ext -mbulk-memory -O2 -nostdlib -Wall -fvisibility=hidden \
        -Wl,--no-entry -Wl,--export-dynamic -Wl,--strip-all -o "$source.wasm" "$source.c" || exit 1
done
temp=$(mktemp -d) || exit 1
trap 'rm -rf "$temp"' EXIT
{
    cat <<'C'
#include <stdio.h>
#include "signs.c"
#include "ranges.c"
#include "records.c"
static void word(u32 v) { printf("i32 %u\n", v); }
static void number(u64 v) { printf("i64 %llu\n", v); }
#define show(v) _Generic((v), i32: word, u32: word, i64: number, u64: number)(v)
int main(void) {
C
    while read -r source function arguments; do
        list=$(printf '%s' "$arguments" | sed 's/  */ull, /g')
        printf 'printf("%s %s %s|");\nshow(%s(%sull));\n' "$source" "$function" "$arguments" "$function" "$list"
    done <calls
    echo 'return 0; }'
} >"$temp/main.c"
clang -O1 -fno-strict-aliasing -Wno-constant-conversion -I . -o "$temp/native" "$temp/main.c" || exit 1
"$temp/native" >table
