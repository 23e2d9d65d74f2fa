#!/usr/bin/env bash
# Builds all that is used from a terminal, C, Rust and Python, and tests it.
#
#   hosts/test.sh
#
# It needs what build.sh needs, and python3. Where a test needs something else that is missing, as g++, cargo or root,
# it says so, and goes on without.
set -euo pipefail
cd "$(dirname "$0")/.."
out=build
calls=crates/replay/data/calls.txt
answers=crates/replay/stdout
export PYTHONPATH=$out/python:tests/programs PYTHONDONTWRITEBYTECODE=1
has() { "$1" --version > /dev/null 2>&1; }
title() { echo "== $*"; }
rust() { rustc --edition 2021 -O -D warnings -L "native=$out/lib" --extern "srci=$out/rust/libsrci.rlib" "$@"; }

title "build"
python3 hosts/tests/build.py
hosts/build.sh -D warnings
mkdir -p "$out/tests"

title "declarations"
python3 hosts/tables/spread.py --check
echo "ok: the tables of hosts/tables, where they are told"
python3 hosts/tests/declarations.py "$out/lib/libsrci.a"

title "C"
strict="-O2 -Wall -Wextra -Wpedantic -Wconversion -Wshadow -Werror -I$out/include"
c() { gcc -std=c99 $strict "$@"; }
for standard in c89 c99 c17; do
    gcc -std="$standard" $strict -fsyntax-only -x c "$out/include/srci.h"
    echo "ok: the header as $standard"
done
for standard in c++11 c++20; do
    if g++ -std="$standard" -fsyntax-only -x c++ /dev/null 2> /dev/null; then
        g++ -std="$standard" $strict -fsyntax-only -x c++ "$out/include/srci.h"
        echo "ok: the header as $standard"
    else
        echo "not tested: the header as $standard, since there is no g++ that knows it"
    fi
done
c hosts/tests/replay.c "$out/lib/libsrci.a" -o "$out/tests/replay_c"
for way in lent null; do
    "$out/tests/replay_c" "$way" < "$calls" | cmp - "$answers"
    echo "ok: $(wc -l < "$calls") stored calls, $way"
done
c hosts/tests/empty.c "$out/lib/libsrci.a" -o "$out/tests/empty"
python3 -c '
import sections as of, sys
empty = of.contents(b""), of.packed(b"", 2), of.names((b"", 5)), of.arguments((b"", b"")), of.unknown(7)
sys.stdout.buffer.write(of.payload(*empty))' | "$out/tests/empty"
echo "ok: NULL for what is empty"
c hosts/tests/rows.c "$out/lib/libsrci.a" -o "$out/tests/rows"
"$out/tests/rows" < crates/show_card/stdin
echo "ok: rows by their names"
# two files of one program that have the header, of which one uses nothing
echo '#include "srci.h"' > "$out/tests/no_use.c"
c hosts/tests/refusals.c "$out/tests/no_use.c" -o "$out/tests/refusals"
refusals() { tail -n +2 hosts/tables/refusals.tsv | cut -f 1-3; }
diff <("$out/tests/refusals") <(cat hosts/tables/version.txt hosts/tables/version.txt; refusals)
echo "ok: the version, and the text of each refusal"
c hosts/c/show_card.c "$out/lib/libsrci.a" -o "$out/tests/show_card"
"$out/tests/show_card" crates/show_card/stdin | cmp - crates/show_card/stdout
python3 -c '
import sections as of, sys
sys.stdout.buffer.write(of.payload(*[of.names()] * 65535))' > "$out/tests/longest_card"
"$out/tests/show_card" "$out/tests/longest_card" | cmp - <("$out/bin/srci" card "$out/tests/longest_card")
diff <("$out/tests/show_card" /dev/null 2>&1 || echo "status $?") \
    <(refusals | sed -n 's/^2\t\(.*\)\t\(.*\)/refused 2, \1: \2/p'; echo "status 1")
echo "ok: the example"

title "Rust"
rust hosts/tests/replay.rs -o "$out/tests/replay_rust"
for way in lent owned; do
    "$out/tests/replay_rust" "$way" < "$calls" | cmp - "$answers"
    echo "ok: $(wc -l < "$calls") stored calls, $way"
done
rust hosts/tests/facts.rs -o "$out/tests/facts_rust"
(ulimit -v 150000 && "$out/tests/facts_rust")
echo "ok: facts, names and first lines, under every bound"
rustdoc --test --edition 2021 --crate-name srci -L "native=$out/lib" --extern "srci=$out/rust/libsrci.rlib" \
    hosts/rust/src/lib.rs
if has cargo; then
    by_cargo() {
        CARGO_HOME=$out/cargo/home cargo "$@" --quiet --offline \
            --manifest-path hosts/rust/Cargo.toml --target-dir "$out/cargo"
    }
    by_cargo build
    echo "ok: the package by Cargo"
    SRCI_LIBRARY=/none by_cargo check 2> "$out/tests/cargo.log"
    RUSTDOCFLAGS="-D warnings" SRCI_LIBRARY=/none by_cargo doc --no-deps 2>> "$out/tests/cargo.log"
    echo "ok: the package and its pages by Cargo, without the archive"
else
    echo "not tested: the package by Cargo, since there is none"
fi

title "Python"
for way in lent owned; do
    python3 hosts/tests/replay.py "$way" < "$calls" | cmp - "$answers"
    echo "ok: $(wc -l < "$calls") stored calls, $way"
done
for test in module typed buffers facts; do
    python3 "hosts/tests/$test.py"
done
wheel=$(python3 hosts/python/backend.py "$out/tests")
python3 hosts/tests/wheel.py "$wheel"

title "README"
python3 hosts/tests/readme.py "$out"

title "packages"
python3 hosts/tests/package.py "$out"

title "the command"
python3 hosts/tests/command.py "$out/bin/srci"
python3 hosts/tests/usage.py "$out/bin/srci"
python3 hosts/tests/files.py "$out/bin/srci"
python3 hosts/tests/editing.py "$out/bin/srci"

echo "hosts: all passed"
