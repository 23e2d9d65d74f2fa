#!/usr/bin/env bash
# Proves the library and builds, in the folder build/, what is used from a terminal, C, Rust and Python.
#
#   hosts/build.sh [WORDS]
#
#   bin/srci                          the command
#   include/srci.h, lib/libsrci.*     for C, and for Rust's linker
#   rust/libsrci.rlib                 for Rust without Cargo
#   python/srci/                      the package, with its libsrci.so
#   share/                            the manual page and the completion for bash
#
# It needs the Rattle kit, gcc and rustc, to which the WORDS go. The proofs take some minutes the first time.
set -euo pipefail
# the lines above, for who asks
case ${1:-} in -h | --help) sed -n '2,/^[^#]/s/^#$\|^# //p' "$0" && exit ;; esac
unset CDPATH
cd "$(dirname "$0")/.."
out=build
log=$out/proofs.log
version=$(< hosts/tables/version.txt)

# ---- the tools

lacking() {
    printf 'hosts/build.sh: %s\n' "$@" >&2
    exit 2
}

# The first line of what a tool says when it is asked for its version.
told_by() {
    local told
    told=$("$@" 2>&1) && printf '%s\n' "${told%%$'\n'*}"
}

[ "$(uname -sm)" = "Linux x86_64" ] || lacking "this is $(uname -sm), and the library is compiled for Linux x86_64"
kit=$(told_by rt version) && [[ $kit == rattle* ]] || lacking \
    "it needs rt, the command of the Rattle kit; here is ${kit:-none that runs}." \
    "rt comes with the kit, a folder with bin/, rattle/ and toolchain/, from those who make Rattle." \
    "Put its bin/ on PATH; 'rt version' then prints the kit's name." \
    "Without it, use what hosts/package.sh has made where there is one."
gcc=$(told_by gcc --version) || lacking \
    "it needs gcc; here is none that runs." \
    "It comes with the system's packages."
rustc=$(told_by rustc --version) || rustc=
if ! [[ $rustc =~ ^rustc\ ([0-9]+)\.([0-9]+) ]] || ((BASH_REMATCH[1] == 1 && BASH_REMATCH[2] < 77)); then
    lacking \
        "it needs rustc 1.77 or newer; here is ${rustc:-none that runs}." \
        "It comes with rustup, and with the packages of newer systems."
fi
kit="$kit, from $(dirname "$(dirname "$(readlink -f "$(type -P rt)")")")"
printf '%s\n' "rt:    $kit" "gcc:   $gcc" "rustc: $rustc"

# ---- the library

not_proved() {
    # what is proved, and how much was read for it, tells nothing of what is not
    sed -E '/^(logic|statements|library|crate|axioms) |: proved$/d' "$log" | tail -n 20 >&2
    echo "the library is not proved; $log tells all" >&2
    exit 1
}

# Of the lines of `rt lib` on standard input, shows each crate that was proved now, with the seconds that it took. Of a
# crate that is as it was proved before there is no line.
show_proved() {
    local crates=1 proved=0 crate= began=0 name line
    for name in $(sed -n 's/^srci staticlib://p' crates.txt); do
        if [ -d "crates/$name" ]; then crates=$((crates + 1)); fi
    done
    while IFS= read -r line; do
        if [[ $line =~ ^rt:\ chose\ --jobs\ [0-9]+\ for\ ([a-z0-9_]+)$ ]]; then
            crate=${BASH_REMATCH[1]}
            began=$SECONDS
        elif [[ $crate && $line == "logic=proved "* ]]; then
            proved=$((proved + 1))
            printf '[%2d/%d] %s (%d s)\n' "$proved" "$crates" "$crate" "$((SECONDS - began))"
            # the last
            if [ "$crate" = srci ] && ((proved < crates)); then
                echo "$((crates - proved)) of $crates crates are as they were proved before"
            fi
        fi
    done
}

# the package holds what is here now, and nothing that was
rm -rf "$out/python"
mkdir -p "$out"/{bin,include,lib,rust,python/srci,share/man/man1,share/bash-completion/completions}
echo "proving the library .. (the first time it takes some minutes, with a line for each crate)"
# for any x86-64 processor: by default rt compiles for newer ones, and a library does not look where it runs
(cd crates/srci && rt lib --cpu x86-64) 2>&1 | tee "$log" | show_proved || not_proved

cp hosts/c/srci.h "$out/include/"
cp crates/srci/out/libsrci.a "$out/lib/"
cp hosts/python/srci/*.py hosts/python/srci/py.typed "$out/python/srci/"
shared() { gcc -shared -Wl,--whole-archive "$out/lib/libsrci.a" -Wl,--no-whole-archive "$@"; }
shared -o "$out/python/srci/libsrci.so"
rm -f "$out"/lib/libsrci.so*
# the first two numbers of a version change where callers must
soname=libsrci.so.${version%.*}
shared -Wl,-soname,"$soname" -o "$out/lib/libsrci.so.$version"
ln -s "libsrci.so.$version" "$out/lib/$soname"
ln -s "$soname" "$out/lib/libsrci.so"

# ---- Rust, and the command

echo "compiling the command .."
rust() { rustc --edition 2021 -O -L "native=$out/lib" "$@"; }
rust "$@" --crate-type rlib --crate-name srci --out-dir "$out/rust" hosts/rust/src/lib.rs
# with the C library in it, the command runs on every x86-64 Linux
alone="-C target-feature=+crt-static"
if ! gcc -static-pie -x c - -o "$out/alone" 2> /dev/null <<< 'int main(void) { return 0; }'; then
    alone=
    echo "the command will need the system's C library, since there is no static one here (libc.a) to put into it"
fi
rm -f "$out/alone"
rust "$@" $alone -C strip=symbols --crate-name srci_command --extern "srci=$out/rust/libsrci.rlib" \
    -o "$out/bin/srci" hosts/command/main.rs
"$out/bin/srci" --man-page > "$out/share/man/man1/srci.1"
"$out/bin/srci" --bash-completion > "$out/share/bash-completion/completions/srci"
echo "built: $out/bin/srci, and beside it what C, Rust and Python use"
