#!/usr/bin/env bash
# Times the check of UTF-8 beside Rust's core, or compares the two.
#
#   tests/utf8/run.sh                       time them
#   tests/utf8/run.sh compare COUNT SEED    compare their answers
#
# It needs rustc, and crates/utf8_host/out/libutf8_host.a, which `rt lib --cpu x86-64` makes in crates/utf8_host: for any
# x86-64 processor, as rustc compiles the Rust.
set -eu
here=$(cd "$(dirname "$0")" && pwd)
build=$here/../../target/utf8
library=$here/../../crates/utf8_host/out
if [ ! -f "$library/libutf8_host.a" ]; then
    echo "no crates/utf8_host/out/libutf8_host.a: run 'rt lib --cpu x86-64' in crates/utf8_host first" >&2
    exit 2
fi
mkdir -p "$build"
rustc --edition 2021 -O --out-dir "$build" -L "native=$library" -l static=utf8_host "$here/bench.rs"
exec "$build/bench" "$@"
