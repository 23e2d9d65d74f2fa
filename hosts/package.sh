#!/usr/bin/env bash
# Makes, from what hosts/build.sh built, what others use who have no kit: an archive with the command and the C library,
# and the wheel of the Python package.
#
#   hosts/package.sh [FOLDER]
#
#   FOLDER/srci-VERSION-x86_64-linux.tar.gz     unpacked anywhere, or copied over /usr/local; package.md tells how
#   FOLDER/srci-VERSION-*.whl                   for pip
#
# FOLDER is build/package where none is named. From the same files it makes the same bytes.
set -euo pipefail
fail() {
    echo "hosts/package.sh: $1" >&2
    exit 2
}

# the lines above, for who asks
case ${1:-} in
-h | --help) sed -n '2,/^[^#]/s/^#$\|^# //p' "$0" && exit ;;
-*) fail "FOLDER is no option" ;;
esac
[ $# -le 1 ] || fail "it takes one FOLDER"
python3 --version > /dev/null 2>&1 || fail "it needs python3"
unset CDPATH
root=$(cd "$(dirname "$0")/.." && pwd)
folder=${1:-$root/build/package}
case $folder in /*) ;; *) folder=$PWD/$folder ;; esac
cd "$root"
built=build
version=$(< hosts/tables/version.txt)
name=srci-$version-x86_64-linux

tree=$(mktemp -d)
trap 'rm -rf "$tree"' EXIT

# Puts a file at its place in the archive.
put() {
    local from=$1 to=$tree/$name/$2
    [ -e "$from" ] || fail "there is no $from, which hosts/build.sh builds"
    mkdir -p "$(dirname "$to")"
    cp -P "$from" "$to"
}

put "$built/bin/srci" bin/srci
put "$built/include/srci.h" include/srci.h
put "$built/lib/libsrci.a" lib/libsrci.a
for library in "libsrci.so.$version" "libsrci.so.${version%.*}" libsrci.so; do
    put "$built/lib/$library" "lib/$library"
done
put "$built/share/man/man1/srci.1" share/man/man1/srci.1
put "$built/share/bash-completion/completions/srci" share/bash-completion/completions/srci
put NOTICE share/doc/srci/NOTICE
put hosts/package.md share/doc/srci/README.md
# of what is linked into the command
rust=$(rustc --print sysroot 2> /dev/null || true)/share/doc/rust
for licence in "$rust"/{COPYRIGHT-library.html,licenses/{MIT,Apache-2.0}.txt} /usr/share/common-licenses/LGPL-2.1; do
    if [ -e "$licence" ]; then
        put "$licence" "share/doc/srci/licences/$(basename "$licence")"
    else
        echo "the archive lacks a licence that this system has no text of: $(basename "$licence")"
    fi
done

mkdir -p "$tree/$name/lib/pkgconfig"
cat > "$tree/$name/lib/pkgconfig/srci.pc" << END
prefix=\${pcfiledir}/../..
includedir=\${prefix}/include
libdir=\${prefix}/lib

Name: srci
Description: SRCI payloads of compiled shaders
Version: $version
Cflags: -I\${includedir}
Libs: -L\${libdir} -lsrci
END

mkdir -p "$folder"
# 1980 is where the times of a wheel begin
tar -C "$tree" --format=ustar --sort=name --mtime=@315532800 --owner=0 --group=0 --numeric-owner --mode=u=rwX,go=rX \
    -cf - "$name" | gzip -9n > "$folder/$name.tar.gz"
echo "made $folder/$name.tar.gz"
if LC_ALL=C readelf -l "$built/bin/srci" | grep INTERP > /dev/null; then
    echo "the command in it needs the C library of a system like this one"
fi
wheel=$(python3 hosts/python/backend.py "$folder")
echo "made $wheel"
