#!/usr/bin/env bash
# Builds the oracle from this folder, srci.rs and libsrci.a, and runs it.
#
#   tests/oracle/run.sh PATH_TO_SRCI_RS COUNT SEED          compare reading, writing, listing, public copies, cards and sheets, one after the other: every boundary, then COUNT random payloads or tables, and sheets; then COUNT pairs of payloads
#   tests/oracle/run.sh PATH_TO_SRCI_RS bench               time reading against parse_srci, writing against write_payload, listing against parse_srci with Display, public copies against parse_srci with write_payload, cards against such a copy with its listing, making sheets against parse_srci with Strings, and reading sheets against split with write_payload
#   tests/oracle/run.sh PATH_TO_SRCI_RS rows COUNT SEED     print calls of reading with the answers that the Rust gives
#   tests/oracle/run.sh PATH_TO_SRCI_RS listings COUNT SEED print calls of listing with the answers that the Rust gives
#   tests/oracle/run.sh PATH_TO_SRCI_RS copies COUNT SEED   print calls of making public copies with the answers that the Rust gives
#   tests/oracle/run.sh PATH_TO_SRCI_RS cards COUNT SEED    print calls of making cards with the answers that the Rust gives
#
# It needs rustc, and for the first two crates/srci/out/libsrci.a, which `rt lib --cpu x86-64` makes in crates/srci: for
# any x86-64 processor, as rustc compiles the Rust.
set -eu
[ $# -ge 2 ] || { sed -n '4,9s/^# *//p' "$0" >&2; exit 2; }
here=$(cd "$(dirname "$0")" && pwd)
build=$here/../../target/oracle
library=$here/../../crates/srci/out
[ -f "$1" ] || { echo "no file $1" >&2; exit 2; }
mkdir -p "$build"
# chunks.rs names srci.rs by this link; the file itself is read where it stands, as it is
ln -sf "$(realpath "$1")" "$build/srci.rs"
shift
rust() { rustc --edition 2021 -O --out-dir "$build" "$@"; }
# srci.rs is not ours to lint
rust --cap-lints allow --crate-type rlib --crate-name chunks "$here/chunks.rs"
case $1 in
rows | listings | copies | cards)
    rust --crate-name rows --extern "chunks=$build/libchunks.rlib" "$here/rows.rs"
    exec "$build/rows" "$@"
    ;;
esac
if [ ! -f "$library/libsrci.a" ]; then
    echo "no crates/srci/out/libsrci.a: run 'rt lib --cpu x86-64' in crates/srci first" >&2
    exit 2
fi
rust --crate-type rlib --crate-name srci -L "native=$library" "$here/../../hosts/rust/src/lib.rs"
rust --crate-name oracle --extern "chunks=$build/libchunks.rlib" --extern "srci=$build/libsrci.rlib" -L "native=$library" "$here/main.rs"
exec "$build/oracle" "$@"
