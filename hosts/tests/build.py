"""Runs hosts/build.sh in a copy of what it reads, with tools that are made here in place of rt, gcc and rustc: what it
says of those that are missing or too old, what it shows while the library is proved, and how it links the command."""
import contextlib
import os
import pathlib
import re
import shutil
import subprocess
import tempfile
import threading

ROOT = pathlib.Path(__file__).resolve().parents[2]
VERSION = (ROOT / "hosts/tables/version.txt").read_text().strip()
BASH = shutil.which("bash")
# srci and the crates that it needs, by their list
NEEDED = (ROOT / "crates.txt").read_text().split("\nsrci staticlib:")[1].split("\n")[0].split()
CRATES = 1 + sum((ROOT / "crates" / name).is_dir() for name in NEEDED)


def tool(version, *lines, asked="--version"):
    """A tool that tells a version, and else runs these lines."""
    return "\n".join([f"if [ \"$*\" = {asked} ]; then printf '{version}\\nmore\\n'; exit; fi", *lines])


def kit(*lines):
    return tool("rattle-kit-9 logic 12", *lines, asked="version")


RT, GCC, RUSTC = kit(), tool("gcc (Made) 12.2.0"), tool("rustc 1.77.0 (aedd173a2)")

# How the archive is asked for.
ASKED = "[ \"$*\" = 'lib --cpu x86-64' ] && [ \"${PWD%/crates/srci}\" != \"$PWD\" ] || exit 9"
# Proves two crates, the second when a line is typed, and in two seconds; fails at the third when another is, and then
# tells more of what it has read than anyone wants.
FAILS = kit(
    ASKED,
    "echo 'rt: utf8: begins with what a check kept in crates/utf8'",
    "echo 'only=0 proved=0'",
    "echo 'logic=proved functions=7 sum=12'",
    "echo 'rt: chose --jobs 2 for wire'",
    "echo 'fn wire::read: proved'",
    "echo 'crate wire: modules loaded=1 checked=2'",
    "echo 'logic=proved functions=19 sum=12 native=nat'",
    "echo 'rt: chose --jobs 4 for section_reader'",
    "read -r line",
    "sleep 2",
    "echo 'logic=proved functions=0 sum=12'",
    "echo 'rt: chose --jobs 2 for parse'",
    "read -r line",
    "echo 'a goal is open' >&2",
    "echo 'fn parse::parse_srci: not proved'",
    "for name in 1 2 3 4 5 6 7 8 9 10 11; do",
    "    echo \"fn parse::well_$name: proved\"",
    "    echo \"library below_$name: modules loaded=1 checked=0\"",
    "done",
    "echo 'logic=not-proved'",
    "echo 'rt: the library parse did not build, so nothing above it was checked' >&2",
    "exit 1",
)
# Proves two crates, and makes the archive.
PROVES = kit(
    ASKED,
    "echo 'rt: chose --jobs 2 for card'",
    "echo 'logic=proved functions=8 sum=12'",
    "echo 'rt: chose --jobs 2 for srci'",
    "echo 'logic=proved functions=8 target=x86_64-unknown-linux-gnu sum=12'",
    "mkdir -p out && touch out/libsrci.a",
)
# Makes a file of its words, and a program that prints its own.
LINKS = tool(
    "rustc 1.77.0 (aedd173a2)",
    "echo \"$*\" >> rustc_words",
    "while [ $# -gt 1 ]; do",
    "    if [ \"$1\" = -o ]; then printf '#!/bin/sh\\necho \"$*\"\\n' > \"$2\" && chmod +x \"$2\"; fi",
    "    shift",
    "done",
)


def lay_out(folder, tools):
    shutil.copytree(ROOT / "hosts", folder / "hosts", ignore=shutil.ignore_patterns("__pycache__"))
    shutil.copy(ROOT / "crates.txt", folder)
    for crate in (ROOT / "crates").iterdir():
        (folder / "crates" / crate.name).mkdir(parents=True)
    (folder / "bin").mkdir()
    for name in ("rt", "gcc", "rustc"):
        program = folder / "bin" / name
        program.write_text(f"#!{BASH}\n{tools.get(name, 'exit 127')}\n")
        program.chmod(0o755)


@contextlib.contextmanager
def started(**tools):
    """build.sh with these tools; the others cannot be run."""
    with tempfile.TemporaryDirectory() as folder:
        folder = pathlib.Path(folder)
        lay_out(folder, tools)
        words = {**os.environ, "PATH": f"{folder}/bin:{os.environ['PATH']}"}
        streams = {"stdin": subprocess.PIPE, "stdout": subprocess.PIPE, "stderr": subprocess.PIPE, "text": True}
        run = subprocess.Popen([BASH, folder / "hosts/build.sh"], env=words, **streams)
        # a line that is waited for, and does not come, ends the test
        late = threading.Timer(60, run.kill)
        late.start()
        try:
            yield folder, run
        finally:
            late.cancel()
            run.kill()
            run.communicate()


def says(status, *said, **tools):
    """Expects an exit status and words on standard error; what is printed."""
    with started(**tools) as (folder, run):
        out, err = run.communicate()
    out = out.replace(os.path.realpath(folder), "FOLDER")
    assert run.returncode == status, f"{run.returncode}: {out} {err}"
    assert all(words in err for words in said), f"{err!r} does not say {said}"
    return out


def test_tools():
    lacks = ["hosts/build.sh: it needs rt", "kit, a folder with bin/, rattle/ and toolchain/", "Put its bin/ on PATH"]
    says(2, *lacks, "here is none", gcc=GCC, rustc=RUSTC)
    says(2, *lacks, "here is RT 4.4", rt="echo RT 4.4", gcc=GCC, rustc=RUSTC)
    says(2, "it needs gcc; here is none", "It comes with", rt=RT, rustc=RUSTC)
    needed = "it needs rustc 1.77 or newer; here is"
    says(2, f"{needed} none", "It comes with", rt=RT, gcc=GCC)
    says(2, f"{needed} rustc 1.76.9 (", rt=RT, gcc=GCC, rustc=tool("rustc 1.76.9 (07dca489a)"))
    for version in ("1.77.0", "1.100.1-nightly", "2.0.0"):
        out = says(1, "is not proved", rt=f"{RT}\nexit 1", gcc=GCC, rustc=tool(f"rustc {version}"))
        found = ["rt:    rattle-kit-9 logic 12, from FOLDER", "gcc:   gcc (Made) 12.2.0", f"rustc: rustc {version}"]
        assert out.splitlines()[:3] == found, out


def shows(line, place, crate, least):
    """Expects a line of a crate that was proved now, in so many seconds or more."""
    found = re.fullmatch(rf"\[ {place}/{CRATES}\] {crate} \((\d+) s\)\n?", line)
    assert found and int(found[1]) >= least, line


def test_proofs_are_shown_as_they_come():
    with started(rt=FAILS, gcc=GCC, rustc=RUSTC) as (folder, run):
        shown = [run.stdout.readline() for _ in range(5)]
        assert shown[3].startswith("proving the library"), shown
        shows(shown[4], 1, "wire", 0)
        run.stdin.write("\n")
        run.stdin.flush()
        shows(run.stdout.readline(), 2, "section_reader", 2)
        out, err = run.communicate("\n")
        log = (folder / "build/proofs.log").read_text()
    assert (run.returncode, out) == (1, ""), (run.returncode, out)
    last = "a goal is open\nfn parse::parse_srci: not proved\nlogic=not-proved\nrt: the library parse did not build"
    assert f"\n{last}" in err, err
    assert "build/proofs.log tells all" in err and "well_" not in err and "below_" not in err, err
    assert "fn wire::read: proved" in log and "fn parse::well_11: proved" in log and "library below_11:" in log


def test_crates_that_are_as_they_were():
    with started(rt=PROVES, gcc=GCC, rustc=LINKS) as (_, run):
        out, err = run.communicate()
    assert (run.returncode, err) == (0, ""), err
    first, last, left = out.splitlines()[4:7]
    shows(first, 1, "card", 0)
    shows(last, 2, "srci", 0)
    assert left == f"{CRATES - 2} of {CRATES} crates are as they were proved before", out


def test_the_command_with_and_without_a_static_c_library():
    without = tool("gcc (Made) 12.2.0", "case \"$*\" in *-static*) exit 1 ;; esac")
    for gcc, is_there in ((GCC, True), (without, False)):
        with started(rt=PROVES, gcc=gcc, rustc=LINKS) as (folder, run):
            out, err = run.communicate()
            assert (run.returncode, err) == (0, ""), err
            _, command = (folder / "rustc_words").read_text().splitlines()
            assert ("+crt-static" in command, "libc.a" in out) == (is_there, not is_there), (command, out)
            built = folder / "build"
            assert (built / "share/man/man1/srci.1").read_text() == "--man-page\n"
            assert (built / "share/bash-completion/completions/srci").read_text() == "--bash-completion\n"
            links = {path.name: os.readlink(path) for path in (built / "lib").iterdir() if path.is_symlink()}
        named = VERSION.rsplit(".", 1)[0]
        assert links == {"libsrci.so": f"libsrci.so.{named}", f"libsrci.so.{named}": f"libsrci.so.{VERSION}"}, links


for name, test in [*globals().items()]:
    if name.startswith("test_"):
        test()
        print(f"ok: {name[5:].replace('_', ' ')}", flush=True)
