#!/bin/sh
# Compiles the filters of this folder, and installs nothing.
#
#     rust/build.sh [FOLDER]      to FOLDER, or to where the sources lie
#
# It takes the first of $RUSTC, rustc on the PATH and /usr/bin/rustc that has the library std of wasm32-unknown-unknown: Debian's packages rustc and
# libstd-rust-dev-wasm32, or `rustup target add wasm32-unknown-unknown`. Where there is none it says so and ends with status 0. Modules that use newer
# features than the profile has, as those of Rust since 1.82 do, go through tools/fit.
goal=.
[ $# -eq 0 ] || goal=$(mkdir -p "$1" && cd "$1" && pwd) || exit 1
cd "$(dirname "$0")" || exit 1
fit=${FIT:-../../../tools/fit}
target=wasm32-unknown-unknown

for rustc in $RUSTC rustc /usr/bin/rustc; do
    library=$($rustc --print target-libdir --target $target 2>/dev/null) && ls "$library"/libstd-*.rlib >/dev/null 2>&1 && break
    rustc=
done
if [ -z "$rustc" ]; then
    echo "rust: skipped, since no rustc has the library of $target (Debian: rustc and libstd-rust-dev-wasm32)"
    exit 0
fi
temp=$(mktemp -d) || exit 1
trap 'rm -rf "$temp"' EXIT

# compile KIND OUT ARGUMENTS..: for the size, with one unit of code, and an end of the module where it panics.
compile() {
    kind=$1
    out=$2
    shift 2
    "$rustc" --edition 2021 --target $target --crate-type "$kind" -C opt-level=s -C codegen-units=1 -C panic=abort -o "$out" "$@"
}

compile rlib "$temp/libproxy_wasm.rlib" --crate-name proxy_wasm proxy_wasm.rs || exit 1
for filter in access_log headers ratelimit rewrite; do
    compile cdylib "$temp/$filter.wasm" -C lto -C strip=symbols -C link-arg=-zstack-size=65536 --extern proxy_wasm="$temp/libproxy_wasm.rlib" $filter.rs || exit 1
done
for filter in add_header auth deny tcp_meter tls_only; do
    compile cdylib "$temp/$filter.wasm" -C lto -C strip=symbols -C link-arg=-zstack-size=65536 $filter.rs || exit 1
done
version=$("$rustc" --version | sed 's/^rustc 1\.\([0-9]*\).*/\1/')
for module in "$temp"/*.wasm; do
    if [ "$version" -ge 82 ]; then
        "$fit" --quiet "$module" "$goal/$(basename "$module")" || exit 1
    else
        cp "$module" "$goal" || exit 1
    fi
done
echo "rust: 9 filters, by $("$rustc" --version)"
