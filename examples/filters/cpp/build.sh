#!/bin/sh
# Compiles the filters of this folder, and installs nothing.
#
#     cpp/build.sh [FOLDER]      to FOLDER, or to where the sources lie
#
# It needs clang++ ($CXX names another one) with the libraries for wasm32-wasi: Debian's packages clang, lld, wasi-libc, libc++-dev-wasm32 and
# libclang-rt-dev-wasm32. Where they are not at hand it says so and ends with status 0. std::unordered_map has floats, so each module goes through tools/fit,
# which answers the property plugin_root_id in it, too.
goal=.
[ $# -eq 0 ] || goal=$(mkdir -p "$1" && cd "$1" && pwd) || exit 1
cd "$(dirname "$0")" || exit 1
fit=${FIT:-../../../tools/fit}
cxx=${CXX:-clang++}
temp=$(mktemp -d) || exit 1
trap 'rm -rf "$temp"' EXIT

flags="--target=wasm32-wasi -mexec-model=reactor -std=c++17 -Os -fno-exceptions -fno-rtti"
echo '#include <unordered_map>
std::unordered_map<int, int> map;' >"$temp/empty.cc"
if ! "$cxx" $flags -o "$temp/empty.wasm" "$temp/empty.cc" 2>/dev/null; then
    echo "cpp: skipped, since $cxx does not compile for wasm32-wasi with libc++ (Debian: clang, lld, wasi-libc, libc++-dev-wasm32, libclang-rt-dev-wasm32)"
    exit 0
fi
for filter in headers ratelimit rewrite; do
    "$cxx" $flags -Wall -Wl,--strip-all -Wl,-z,stack-size=65536 -o "$temp/$filter.wasm" $filter.cc || exit 1
    "$fit" --quiet --root-id "" "$temp/$filter.wasm" "$goal/$filter.wasm" || exit 1
done
echo "cpp: 3 filters, by $("$cxx" --version | head -n 1)"
