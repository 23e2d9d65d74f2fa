"""Makes the packages of hosts/package.sh from what was built, installs the archive in an empty root as its README says,
and uses there what is in it.

    package.py FOLDER

FOLDER is what hosts/build.sh built. What this machine cannot try is said, and passed over.
"""
import os
import pathlib
import re
import shutil
import subprocess
import sys
import tarfile
import tempfile

ROOT = pathlib.Path(__file__).resolve().parents[2]
BUILT = pathlib.Path(sys.argv[1]).resolve()
VERSION = (ROOT / "hosts/tables/version.txt").read_text().strip()
SONAME = f"libsrci.so.{VERSION.rsplit('.', 1)[0]}"
NAME = f"srci-{VERSION}-x86_64-linux"
PAYLOAD = ROOT / "crates/show_card/stdin"
CARD = (ROOT / "crates/show_card/stdout").read_bytes()
IN_ARCHIVE = {
    "bin/srci": 0o755,
    "include/srci.h": 0o644,
    "lib/libsrci.a": 0o644,
    f"lib/libsrci.so.{VERSION}": 0o755,
    "lib/pkgconfig/srci.pc": 0o644,
    "share/bash-completion/completions/srci": 0o644,
    "share/doc/srci/NOTICE": 0o644,
    "share/doc/srci/README.md": 0o644,
    "share/man/man1/srci.1": 0o644,
}
FILES = {f"{NAME}/{path}": mode for path, mode in IN_ARCHIVE.items()}
# those that this system has
LICENCES = {f"{NAME}/share/doc/srci/licences/{name}": 0o644
            for name in ("COPYRIGHT-library.html", "MIT.txt", "Apache-2.0.txt", "LGPL-2.1")}
LINKS = {f"{NAME}/lib/libsrci.so": SONAME, f"{NAME}/lib/{SONAME}": f"libsrci.so.{VERSION}"}
FOLDERS = {str(parent): 0o755 for path in FILES for parent in pathlib.Path(path).parents if parent.name}


def run(*words, **options):
    return subprocess.run(words, check=True, stdout=subprocess.PIPE, stdin=subprocess.DEVNULL, **options).stdout


def has(tool):
    return shutil.which(tool) is not None


def made(folder, umask):
    """The archive and the wheel, in bytes, made in a folder under this mask."""
    folder.mkdir()
    said = run("bash", "-c", 'umask "$0" && exec "$@"', umask, ROOT / "hosts/package.sh", folder, cwd=folder).decode()
    archive, wheel = map(pathlib.Path, re.findall(r"^made (.*)", said, re.M))
    assert archive == folder / f"{NAME}.tar.gz" and wheel.match(f"srci-{VERSION}-*.whl"), said
    assert {*folder.iterdir()} == {archive, wheel}, said
    return archive.read_bytes(), wheel.read_bytes()


def check_entries(archive):
    with tarfile.open(archive) as file:
        entries = {entry.name: entry for entry in file}
    names = [name.split("/") for name in entries]
    assert names == sorted(names), names
    found = {kind: {} for kind in (tarfile.DIRTYPE, tarfile.REGTYPE, tarfile.SYMTYPE)}
    for name, entry in entries.items():
        found[entry.type][name] = entry.linkname if entry.issym() else entry.mode
        assert (entry.uid, entry.gid, entry.uname, entry.gname, entry.mtime) == (0, 0, "", "", 315532800), name
    folders, files, links = found.values()
    licences = {name: files.pop(name) for name in {*files} & {*LICENCES}}
    if licences:
        folders.pop(f"{NAME}/share/doc/srci/licences")
    assert [folders, files, links] == [FOLDERS, FILES, LINKS], found
    tell("names, modes and owners in the archive")
    tell("licences of what is in the command", None if licences == LICENCES else "this system has not all texts")


def check_contents(root):
    """What is installed is what was built."""
    sources = {path: BUILT / path for path in IN_ARCHIVE if (BUILT / path).exists()}
    sources["share/doc/srci/NOTICE"] = ROOT / "NOTICE"
    sources["share/doc/srci/README.md"] = ROOT / "hosts/package.md"
    assert {*IN_ARCHIVE} - {*sources} == {"lib/pkgconfig/srci.pc"}
    for path, source in sources.items():
        assert (root / "usr/local" / path).read_bytes() == source.read_bytes(), path


def readme_commands():
    """What the README tells to type: to install, and to compile."""
    lines = re.findall(r"^    (.*)\n", (ROOT / "hosts/package.md").read_text(), re.M)
    return lines[:2], lines[2:]


def install(folder):
    """Types the README's lines to install, but for another root; the root."""
    root = folder / "root"
    (root / "usr/local").mkdir(parents=True)
    lines = [line.replace(" /usr/local/", f" {root}/usr/local/") for line in readme_commands()[0]]
    run("bash", "-ec", "\n".join(["ldconfig() { :; }", *lines]), cwd=folder)
    return root


def try_in_root(root):
    """Runs the command where there is nothing else; why not."""
    if b"INTERP" in run("readelf", "-lW", root / "usr/local/bin/srci"):
        return "the command needs this system's C library"
    chroot = shutil.which("chroot")
    if chroot is None or subprocess.run([chroot, "/", "true"], stderr=subprocess.DEVNULL, check=False).returncode:
        return "the root cannot be changed here"

    def in_root(*words):
        return run(chroot, root, "/usr/local/bin/srci", *words, env={})

    assert VERSION in in_root("--version").decode()
    shutil.copy(PAYLOAD, root / "payload")
    assert in_root("card", "/payload") == CARD
    in_root("public-copy", "/payload", "/copy")
    assert (root / "copy").read_bytes() == run(BUILT / "bin/srci", "public-copy", PAYLOAD, "-")
    return None


def compile_example(root, folder):
    """Types the README's lines to compile: the first program needs the shared library, the second does not."""
    shutil.copy(ROOT / "hosts/c/show_card.c", folder / "program.c")
    library = root / "usr/local/lib"
    paths = {**os.environ, "PKG_CONFIG_PATH": str(library / "pkgconfig")}
    assert run("pkg-config", "--modversion", "srci", env=paths).decode().strip() == VERSION
    dynamic = []
    for line in readme_commands()[1]:
        run("bash", "-ec", f"{line} -Wall -Wextra -Werror -o program", cwd=folder, env=paths)
        needed = re.findall(r"\(NEEDED\).*\[(.*)\]", run("readelf", "-dW", folder / "program").decode())
        dynamic.append(SONAME in needed)
        words = {**os.environ, "LD_LIBRARY_PATH": str(library)} if dynamic[-1] else os.environ
        assert run(folder / "program", PAYLOAD, env=words) == CARD
    assert dynamic == [True, False], dynamic


def check_soname(root):
    library = root / "usr/local/lib" / f"libsrci.so.{VERSION}"
    told = run("readelf", "-dW", library).decode()
    assert re.findall(r"\(SONAME\).*\[(.*)\]", told) == [SONAME], told
    assert re.findall(r"\(NEEDED\).*\[(.*)\]", told) == ["libc.so.6"], told
    symbols = re.findall(r" [A-Z] ([a-z]\w+)", run("nm", "-D", "--defined-only", library).decode())
    jobs = ["card", "from_sheet", "list", "public_copy", "read", "to_sheet", "write"]
    assert sorted(symbols) == [f"srci_{job}" for job in jobs], symbols


def check_page(page):
    """Renders the manual page without a warning; why not."""
    if has("groff"):
        words = ["groff", "-Kutf8", "-man", "-Tutf8", "-ww", page]
    elif has("man"):
        words = ["man", "--warnings", "-l", page]
    else:
        return "there is neither groff nor man"
    done = subprocess.run(words, capture_output=True, stdin=subprocess.DEVNULL, check=True)
    assert done.stderr == b"" and b"srci" in done.stdout, done
    return None


def check_completion(file):
    said = run("bash", "--norc", "-c", f"set -eu; source {file}; complete -p srci")
    assert b" srci" in said, said


def tell(what, missing=None):
    print(f"not tested: {what}, since {missing}" if missing else f"ok: {what}", flush=True)


def main(folder):
    first, second = made(folder / "first", "022"), made(folder / "second", "077")
    assert first[0] == second[0], "two archives differ"
    assert first[1] == second[1], "two wheels differ"
    assert first[0][4:8] == bytes(4), "the archive tells when it was made"
    tell("two makings are the same bytes")
    check_entries(folder / "first" / f"{NAME}.tar.gz")
    root = install(folder / "first")
    check_contents(root)
    tell("what is installed is what was built")
    tell("the command in an empty root", try_in_root(root))
    check_soname(root)
    tell("the shared library's name and functions")
    if has("pkg-config"):
        compile_example(root, folder)
        tell("the C example by pkg-config, shared and static")
    else:
        tell("the C example by pkg-config", "there is none")
    tell("the manual page", check_page(root / "usr/local/share/man/man1/srci.1"))
    check_completion(root / "usr/local/share/bash-completion/completions/srci")
    tell("the completion")


with tempfile.TemporaryDirectory() as temporary:
    main(pathlib.Path(temporary).resolve())
