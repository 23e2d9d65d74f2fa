"""Runs the command on files and streams that cannot be read, written or replaced, that are used by others at the same
time, and in calls that are interrupted.

    files.py SRCI
"""
import os
import pty
import random
import resource
import select
import signal
import socket
import stat
import subprocess
import time
import tty

import replacing
from calling import as_nobody, can_be_others, fails, prints, run, run_tests, start
from cases import SAMPLE
from people import OWNER
from replacing import COPY, RENAMED, put
from sections import arguments, names, payload, sheet, unknown

# of the sample
SHEET = sheet(names((b"a", 5)), arguments((b"E", b"main")))


def test_files_that_cannot_be_read(folder):
    fails(3, "cannot read", "card", folder / "none")
    fails(3, "cannot read", "card", folder)
    fails(3, "cannot read", "rename", folder / "none", "a", "b", "-")
    closed = folder / "closed"
    closed.write_bytes(SAMPLE)
    closed.chmod(0)
    fails(3, "cannot read", "card", closed, **as_nobody())


def test_an_output_that_exists(folder):
    file, out = folder / "payload", folder / "out"
    file.write_bytes(SAMPLE)
    out.write_bytes(b"old")
    out.chmod(0o640)
    lines = folder / "a.sheet"
    lines.write_bytes(SHEET)
    for words in (["public-copy", file], ["rename", file, "a", "b"], ["sheet", file], ["from-sheet", lines]):
        fails(3, "--force", *words, out)
        assert out.read_bytes() == b"old"
    if can_be_others():
        os.chown(out, OWNER.user, OWNER.group)
    owner = out.stat().st_uid
    prints("", "public-copy", file, out, "--force")
    assert out.read_bytes() == COPY and stat.S_IMODE(out.stat().st_mode) == 0o640 and out.stat().st_uid == owner
    prints("", "sheet", file, out, "--force")
    assert out.read_bytes() == SHEET and stat.S_IMODE(out.stat().st_mode) == 0o640 and out.stat().st_uid == owner
    prints("", "from-sheet", lines, out, "--force")
    assert out.read_bytes() == SAMPLE and stat.S_IMODE(out.stat().st_mode) == 0o640 and out.stat().st_uid == owner
    lines.unlink()
    link = folder / "link"
    link.symlink_to("out")
    out.write_bytes(b"old")
    fails(3, "--force", "public-copy", file, link)
    prints("", "public-copy", "--force", file, link)
    assert link.is_symlink() and out.read_bytes() == COPY
    nowhere = folder / "nowhere"
    nowhere.symlink_to("none")
    for force in ([], ["--force"]):
        fails(3, "a link to nothing", "public-copy", file, nowhere, *force)
    assert nowhere.is_symlink()
    pipe = folder / "pipe"
    os.mkfifo(pipe)
    for special in (pipe, folder, f"{folder}/", f"{folder}/.", f"{folder}/..", "/", "/dev/null"):
        fails(3, "no regular file", "public-copy", file, special, "--force")
        fails(3, "no regular file", "sheet", file, special, "--force")
    assert stat.S_ISFIFO(pipe.stat().st_mode) and stat.S_ISCHR(os.stat("/dev/null").st_mode)
    for none in ("none/out", "none/", "none/..", "out/", "out/none", "nowhere/", "nowhere/out", "n" * 256):
        fails(3, "cannot write", "public-copy", file, none, "--force", cwd=folder)
    fails(3, "no name of a file", "public-copy", file, "", "--force")
    # links that lead in a circle, and a long way
    for name, to in [("circle", "circle"), ("l0", "out"), *((f"l{n + 1}", f"l{n}") for n in range(40))]:
        (folder / name).symlink_to(to)
    prints("", "public-copy", file, folder / "l39", "--force")
    for name in ("circle", "circle/out", "l40"):
        fails(3, "links", "public-copy", file, folder / name, "--force")
    for name in ["circle", *(f"l{n}" for n in range(41))]:
        (folder / name).unlink()
    assert sorted(os.listdir(folder)) == ["link", "nowhere", "out", "payload", "pipe"]


def test_outputs_by_their_paths(folder):
    file, home = folder / "payload", folder / "home"
    file.write_bytes(SAMPLE)
    (home / "in it").mkdir(parents=True)
    (home / "link").symlink_to("in it//out")
    (home / "folder").symlink_to(home / "in it")
    out = home / "in it" / "out"
    out.parent.chmod(0o777)
    # it can be in a folder that the caller cannot list
    home.chmod(0o333)
    links = ["link", "folder/../link"]
    for path in ["in it/out", "./in it/../folder/out", out, *links]:
        for old in [b"old"] if path in links else [None, b"old"]:
            put(out, old)
            prints("", "public-copy", file, path, "--force", cwd=home, **as_nobody())
            assert out.read_bytes() == COPY
    home.chmod(0o755)
    assert all((home / link).is_symlink() for link in links)


def test_an_output_by_its_descriptor(folder):
    file, out = folder / "payload", folder / "out"
    file.write_bytes(SAMPLE)
    out.write_bytes(b"old")
    with open(out, "rb") as opened:
        number = opened.fileno()
        prints("", "public-copy", file, f"/dev/fd/{number}", "--force", pass_fds=[number])
        assert out.read_bytes() == COPY
        # the system tells the file that was replaced as "out (deleted)", which can be another file's name
        other = folder / "out (deleted)"
        for left in (["out", "payload"], ["out", "out (deleted)", "payload"]):
            fails(3, "cannot write", "public-copy", file, f"/dev/fd/{number}", "--force", pass_fds=[number])
            assert sorted(os.listdir(folder)) == left
            other.write_bytes(b"other")
        assert other.read_bytes() == b"other"


def test_an_output_by_the_descriptor_of_its_folder(folder):
    file, home, other = folder / "payload", folder / "home", folder / "home (deleted)"
    file.write_bytes(SAMPLE)
    home.mkdir()
    opened = os.open(home, os.O_RDONLY)
    out = f"/dev/fd/{opened}/out"
    for words in ([], ["--force"]):
        prints("", "public-copy", file, out, *words, pass_fds=[opened])
        assert (home / "out").read_bytes() == COPY
    (home / "out").unlink()
    home.rmdir()
    # which is how the system tells the folder that was removed
    other.mkdir()
    for words in ([], ["--force"]):
        fails(3, "cannot write", "public-copy", file, out, *words, pass_fds=[opened])
    assert os.listdir(other) == []
    os.close(opened)


def test_calls_at_once(folder):
    file, out = folder / "payload", folder / "out"
    file.write_bytes(SAMPLE)
    for _ in range(5):
        calls = [start("public-copy", file, out, stderr=subprocess.DEVNULL) for _ in range(40)]
        assert sorted(call.wait() for call in calls) == [0] + [3] * 39
        assert sorted(os.listdir(folder)) == ["out", "payload"]
        out.unlink()
    # none replaces what another has made since it looked
    for _ in range(5):
        calls = [start("public-copy", file, out, "--force", stderr=subprocess.DEVNULL) for _ in range(20)]
        statuses = [call.wait() for call in calls]
        assert 0 in statuses and {*statuses} <= {0, 3}
        assert sorted(os.listdir(folder)) == ["out", "payload"] and out.read_bytes() == COPY
        out.unlink()


def test_streams_that_cannot_be_used(folder):
    file = folder / "payload"
    file.write_bytes(SAMPLE)
    with open("/dev/full", "wb") as full:
        for status, words in [(1, ["check", "/dev/null"]), (2, ["card"]), (3, ["card", folder])]:
            assert run(*words, stderr=full)[2] == status
    with open("/dev/null", "rb") as read_only, open(folder / "out", "wb") as write_only:
        fails(3, "cannot write standard output", "card", file, stdout=read_only)
        fails(3, "cannot read standard input", "card", "-", stdin=write_only)


def closed(*streams):
    return {"preexec_fn": lambda: [os.close(stream) for stream in streams]}


def test_streams_that_are_closed(folder):
    file, out = folder / "payload", folder / "out"
    file.write_bytes(SAMPLE)
    for name in ("-", "/dev/stdin", "/dev/fd/0", "/proc/self/fd/0"):
        fails(3, "cannot read standard input: it is closed", "card", name, **closed(0))
    calls = [["--help"], ["rename", file, "a", "b", "-"], ["sheet", file], ["sheet", file, "-"]]
    calls += [["from-sheet", "/dev/null", "-"]]
    calls += [[command, file] for command in ("card", "facts", "list", "rows", "check")]
    calls += [["public-copy", file, name, "--force"] for name in ("-", "/dev/stdout", "/dev/fd/1", "/proc/self/fd/1")]
    for call in calls:
        fails(3, "cannot write standard output: it is closed", *call, **closed(1))
    for status, call in [(0, ["card", file]), (1, ["card", "/dev/null"]), (2, ["card"]), (3, ["card", folder])]:
        assert run(*call, **closed(2))[2] == status
    # what needs none of them
    assert run("public-copy", file, out, **closed(0, 1, 2))[2] == 0 and out.read_bytes() == COPY


def test_streams_by_their_names(folder):
    file, out = folder / "payload", folder / "out"
    file.write_bytes(SAMPLE)
    for name in ("/dev/stdout", "/dev/fd/1", "/proc/self/fd/1"):
        prints(COPY, "public-copy", file, name)
        prints(RENAMED, "rename", file, "a", "b", name)
        prints(SHEET, "sheet", file, name)
        with open(out, "wb") as stdout:
            stdout.write(b"before ")
            stdout.flush()
            assert run("public-copy", file, name, stdout=stdout)[2] == 0
        assert out.read_bytes() == b"before " + COPY
    for name in ("/dev/stdin", "/dev/fd/0", "/proc/self/fd/0"):
        prints("accepted\n", "check", name, data=SAMPLE)
        here, there = socket.socketpair()
        with here, there:
            here.sendall(SAMPLE)
            here.shutdown(socket.SHUT_WR)
            prints("accepted\n", "check", name, stdin=there)
    # other streams are files like others: a pipe cannot be replaced
    fails(3, "no regular file", "public-copy", file, "/dev/fd/0", "--force")


def test_a_terminal(folder):
    file = folder / "payload"
    file.write_bytes(SAMPLE)
    terminal, end = pty.openpty()
    tty.setraw(end)
    for words in (["public-copy", file, "-"], ["rename", file, "a", "b", "-"], ["public-copy", file, "/dev/stdout"],
                  ["from-sheet", "/dev/null", "-"]):
        fails(3, "terminal", *words, stdout=end)
        assert select.select([terminal], [], [], 0)[0] == []
    for shown, words in [(COPY, ["public-copy", file, "-"]), (RENAMED, ["rename", file, "a", "b", "/dev/stdout"])]:
        assert run(*words, "--force", stdout=end)[2] == 0 and os.read(terminal, 4096) == shown
    assert run("card", file, stdout=end)[2] == 0 and os.read(terminal, 4096).startswith(b"// Shader")
    assert run("sheet", file, stdout=end)[2] == 0 and os.read(terminal, 4096) == SHEET
    os.close(terminal)
    os.close(end)


def test_a_read_only_folder(folder):
    (folder / "payload").write_bytes(SAMPLE)
    closed = folder / "closed"
    closed.mkdir()
    (closed / "out").write_bytes(b"old")
    closed.chmod(0o555)
    for out in ("out", "new"):
        fails(3, "cannot write", "public-copy", folder / "payload", closed / out, "--force", **as_nobody())
        fails(3, "cannot write", "sheet", folder / "payload", closed / out, "--force", **as_nobody())
    assert os.listdir(closed) == ["out"] and (closed / "out").read_bytes() == b"old"


def large(folder):
    """A file whose public copy is 2 MB long, and the copy."""
    pairs = arguments(*[(b"E", b"main")] * 250_000)
    (folder / "payload").write_bytes(payload(pairs, unknown(3)))
    return folder / "payload", payload(pairs)


def limit_files():
    """From here on the signal SIGXFSZ comes when a file would pass 100,000 bytes, and no core is left."""
    resource.setrlimit(resource.RLIMIT_FSIZE, (100_000, 100_000))
    resource.setrlimit(resource.RLIMIT_CORE, (0, 0))


def test_a_full_disk(folder):
    file, _ = large(folder)
    with open("/dev/full", "wb") as full:
        fails(3, "cannot write standard output: No space left", "card", file, stdout=full)
        fails(3, "cannot write standard output: No space left", "rows", file, stdout=full)
        fails(3, "cannot write standard output: No space left", "public-copy", file, "-", stdout=full)
        fails(3, "cannot write standard output: No space left", "sheet", file, stdout=full)
        fails(3, "cannot write standard output: No space left", "--help", stdout=full)
    # Python has the signal ignored: so the write fails in the middle, as on a disk that fills up
    for old in (None, b"old"):
        out = folder / "out"
        if old:
            out.write_bytes(old)
        for command in ("public-copy", "sheet"):
            words = [command, file, out, "--force"]
            fails(3, "cannot write", *words, restore_signals=False, preexec_fn=limit_files)
            assert sorted(os.listdir(folder)) == (["out", "payload"] if old else ["payload"])
    assert out.read_bytes() == b"old"


def test_an_interrupted_write(folder):
    file, copy = large(folder)
    out = folder / "out"
    out.write_bytes(b"old")
    # the signal ends the command in the middle of the write
    _, _, status = run("public-copy", file, out, "--force", preexec_fn=limit_files)
    assert status == -signal.SIGXFSZ and out.read_bytes() == b"old"
    assert sorted(os.listdir(folder)) == ["out", "payload"]
    # killed at any time
    began = time.monotonic()
    prints("", "public-copy", file, folder / "whole")
    taken = time.monotonic() - began
    seen = set()
    for _ in range(40):
        out.write_bytes(b"old")
        call = start("public-copy", file, out, "--force")
        time.sleep(random.uniform(0, 1.5 * taken))
        call.kill()
        call.wait()
        seen.add(out.read_bytes())
        assert seen <= {b"old", copy}
    # and what they left behind does not stand in the way
    prints("", "public-copy", file, out, "--force")
    assert out.read_bytes() == copy


def test_a_sheet_is_written_whole_or_not_at_all(folder):
    file, out = folder / "payload", folder / "out"
    large(folder)
    for old in (None, b"old"):
        put(out, old)
        _, _, status = run("sheet", file, out, "--force", preexec_fn=limit_files)
        assert status == -signal.SIGXFSZ and sorted(os.listdir(folder)) == (["out", "payload"] if old else ["payload"])
    assert out.read_bytes() == b"old"
    # a refused payload leaves what is there
    file.write_bytes(SAMPLE[:-1])
    fails(1, "refused 2", "sheet", file, out, "--force")
    assert out.read_bytes() == b"old" and sorted(os.listdir(folder)) == ["out", "payload"]
    # in place of the payload itself, which is read before
    file.write_bytes(SAMPLE)
    fails(3, "--force", "sheet", file, file)
    prints("", "sheet", file, file, "--force")
    assert file.read_bytes() == SHEET


def test_a_sheets_payload_is_written_whole_or_not_at_all(folder):
    file, out, pairs = folder / "a.sheet", folder / "out", b"arguments\n" + b"pair\tE\tmain\n" * 250_000
    for old in (None, b"old"):
        put(out, old)
        file.write_bytes(pairs)
        _, _, status = run("from-sheet", file, out, "--force", preexec_fn=limit_files)
        assert status == -signal.SIGXFSZ and sorted(os.listdir(folder)) == ["a.sheet", "out"][: 2 if old else 1]
        # a refused sheet leaves what is there
        file.write_bytes(pairs[:-1])
        fails(1, f":{250_001}: refused 20", "from-sheet", file, out, "--force")
        assert sorted(os.listdir(folder)) == ["a.sheet", "out"][: 2 if old else 1]
    assert out.read_bytes() == b"old"
    # and one that is not there
    fails(3, "cannot read", "from-sheet", folder / "none", out, "--force")
    fails(3, "cannot read", "from-sheet", folder, out, "--force")


def test_a_reader_that_has_seen_enough(folder):
    file, _ = large(folder)
    call = start("rows", file, stdout=subprocess.PIPE, stderr=subprocess.PIPE)
    assert call.stdout.readline().startswith(b"tag\trow\t")
    call.stdout.close()
    assert call.stderr.read() == b"" and call.wait() == 3
    call = start("sheet", file, stdout=subprocess.PIPE, stderr=subprocess.PIPE)
    assert call.stdout.readline() == b"arguments\n"
    call.stdout.close()
    assert call.stderr.read() == b"" and call.wait() == 3


run_tests({**globals(), **vars(replacing)})
