"""Runs the command `edit` with editors that are small programs of the shell: what they change, leave and break, with a
terminal and without.

    editing.py SRCI
"""
import os
import pty
import resource
import shlex
import signal
import stat
import subprocess
import threading
import time

from calling import as_nobody, fails, path, prints, run, run_tests, start
from cases import SAMPLE
from sections import arguments, names, payload, sheet, unknown

# of the sample
PARTS = [names((b"a", 5)), arguments((b"E", b"main"))]
SHEET = sheet(*PARTS)
RENAMED = payload(names((b"b", 5)), PARTS[1])
# what an editor does: it renames the file, or puts a line there that is refused
RENAME = "sed -i 's/\\ta$/\\tb/' \"$1\""
BREAK = "sed -i 's/^pair/pear/' \"$1\""
BROKEN = SHEET.replace(b"pair", b"pear")
UNCHANGED = b"srci: nothing has changed, and nothing is written\n"
PATIENCE = 30  # seconds


def editor(folder, script):
    """The variables of a caller whose editor does this with the file that is its first argument."""
    program = folder / "editor"
    program.write_text(f"#!/bin/sh\n{script}\n")
    program.chmod(0o755)
    others = {name: value for name, value in os.environ.items() if name not in ("VISUAL", "EDITOR")}
    return {**others, "EDITOR": shlex.quote(str(program))}


def home_of(folder, data=SAMPLE, name="sky.srci"):
    """A folder with a payload in it, and nothing else."""
    home = folder / "home"
    home.mkdir(exist_ok=True)
    file = home / name
    file.write_bytes(data)
    return home, file


def test_a_sheet_that_is_changed(folder):
    home, file = home_of(folder)
    file.chmod(0o640)
    prints("", "edit", file, env=editor(folder, RENAME))
    assert file.read_bytes() == RENAMED and stat.S_IMODE(file.stat().st_mode) == 0o640
    assert os.listdir(home) == ["sky.srci"]
    # by lines of every kind
    parts = [unknown(9, b"abcd"), names((b"x\ty\\", 1)), arguments((b"T", b"ps_6_0"))]
    (folder / "new").write_bytes(sheet(*parts))
    prints("", "edit", "sky.srci", cwd=home, env=editor(folder, f'cat "{folder}/new" > "$1"'))
    assert file.read_bytes() == payload(*parts) and os.listdir(home) == ["sky.srci"]
    prints("", "edit", file, env=editor(folder, ': > "$1"'))
    assert file.read_bytes() == payload() and os.listdir(home) == ["sky.srci"]
    # an editor that writes a new file in place of the old one
    prints("", "edit", file, env=editor(folder, 'echo names > "$1.new" && mv "$1.new" "$1"'))
    assert file.read_bytes() == payload(names()) and os.listdir(home) == ["sky.srci"]


def test_the_sheet_in_the_editor(folder):
    home, file = home_of(folder)
    seen = folder / "seen"
    look = f'stat -c %a "$1" > {seen}; echo "$1" >> {seen}; cat "$1" >> {seen}'
    for name, words, told in [
        ("sky.srci", ["sky.srci"], "sky.sheet"),
        ("sky", ["sky"], "sky.sheet"),
        ("a.b.srci", [home / "a.b.srci"], f"{home}/a.b.sheet"),
        (".srci", [".srci"], ".srci.sheet"),
        ("a b'$(c).srci", ["a b'$(c).srci"], "a b'$(c).sheet"),
        # no editor takes these for an option or a command
        ("-x.srci", ["--", "-x.srci"], "./-x.sheet"),
        ("+x.srci", ["+x.srci"], "./+x.sheet"),
    ]:
        (home / name).write_bytes(SAMPLE)
        assert run("edit", *words, cwd=home, env=editor(folder, look)) == (b"", UNCHANGED, 0)
        assert seen.read_bytes() == f"600\n{told}\n".encode() + SHEET, name
    assert not [name for name in os.listdir(home) if name.endswith(".sheet")]
    # what is there already is not touched, and what is a link is not followed
    (home / "sky.sheet").write_bytes(b"mine")
    (home / "sky-2.sheet").symlink_to("none")
    assert run("edit", "sky.srci", cwd=home, env=editor(folder, look)) == (b"", UNCHANGED, 0)
    assert seen.read_bytes().split(b"\n")[1] == b"sky-3.sheet"
    assert (home / "sky.sheet").read_bytes() == b"mine" and (home / "sky-2.sheet").is_symlink()
    assert not (home / "none").exists() and not (home / "sky-3.sheet").exists()


def test_a_sheet_that_did_not_change(folder):
    home, file = home_of(folder)
    before = file.stat()
    # and one that is written as it was
    for script in ("true", 'cp "$1" "$1.new" && mv "$1.new" "$1"', f"{RENAME}; sed -i 's/\\tb$/\\ta/' \"$1\""):
        for words in ([file], [file, home / "out"]):
            assert run("edit", *words, env=editor(folder, script)) == (b"", UNCHANGED, 0)
            assert os.listdir(home) == ["sky.srci"]
    after = file.stat()
    assert (after.st_ino, after.st_mtime_ns) == (before.st_ino, before.st_mtime_ns) and file.read_bytes() == SAMPLE


def test_an_output_of_its_own(folder):
    home, file = home_of(folder)
    out, opened = home / "out", folder / "opened"
    script = f"touch {opened}; {RENAME}"
    prints("", "edit", file, out, env=editor(folder, script))
    assert out.read_bytes() == RENAMED and file.read_bytes() == SAMPLE and opened.exists()
    # what cannot be written is told before anybody edits
    opened.unlink()
    out.write_bytes(b"old")
    others = [("--force", out), ("--force", file), ("cannot write", home / "none" / "out"), ("no regular", home)]
    for why, other in others:
        fails(3, why, "edit", file, other, env=editor(folder, script))
    assert not opened.exists() and out.read_bytes() == b"old" and sorted(os.listdir(home)) == ["out", "sky.srci"]
    prints("", "edit", file, out, "--force", env=editor(folder, script))
    assert out.read_bytes() == RENAMED and opened.exists()
    prints("", "edit", file, file, "--force", env=editor(folder, script))
    assert file.read_bytes() == RENAMED and sorted(os.listdir(home)) == ["out", "sky.srci"]


def test_what_cannot_be_edited(folder):
    home, file = home_of(folder, SAMPLE[:-1])
    opened, pipe = folder / "opened", home / "pipe"
    given = editor(folder, f"touch {opened}")
    fails(1, "refused 2, ragged", "edit", file, env=given)
    file.write_bytes(b"DXBC" + bytes(28))
    fails(1, "is a shader container", "edit", file, env=given)
    fails(3, "cannot read", "edit", home / "none", env=given)
    os.mkfifo(pipe)
    for special in (home, pipe, "/dev/null"):
        fails(3, "no regular file", "edit", special, home / "out", env=given)
    file.write_bytes(SAMPLE)
    for words in (["-"], ["/dev/stdin"], ["-", home / "out"], [file, "-"], [file, "/dev/stdout"]):
        fails(2, "neither standard input nor standard output", "edit", *words, data=SAMPLE, env=given)
    assert not opened.exists() and sorted(os.listdir(home)) == ["pipe", "sky.srci"] and file.read_bytes() == SAMPLE


def test_a_read_only_folder(folder):
    home, file = home_of(folder)
    elsewhere = folder / "elsewhere"
    elsewhere.mkdir()
    elsewhere.chmod(0o777)
    home.chmod(0o555)
    given = editor(folder, f"touch {elsewhere}/opened")
    for out in ([], [elsewhere / "out"]):
        fails(3, f'cannot write "{home}/sky.sheet"', "edit", file, *out, env=given, **as_nobody())
    home.chmod(0o755)
    assert os.listdir(elsewhere) == [] and os.listdir(home) == ["sky.srci"]


def test_which_editor(folder):
    home, file = home_of(folder)
    seen = folder / "seen"
    given = editor(folder, f'printf "%s\\n" "$@" > {seen}')
    program = given.pop("EDITOR")
    for variables in ({}, {"EDITOR": ""}, {"VISUAL": " \t", "EDITOR": " "}):
        fails(2, "neither VISUAL nor EDITOR names an editor", "edit", file, env={**given, **variables})
    assert os.listdir(home) == ["sky.srci"]
    for variables, arguments_before in [
        ({"EDITOR": f"{program} --wait -n"}, ["--wait", "-n"]),
        ({"EDITOR": f"{program} 'two words'"}, ["two words"]),
        ({"VISUAL": f"{program} visual", "EDITOR": "false"}, ["visual"]),
        ({"VISUAL": "", "EDITOR": f"{program} second"}, ["second"]),
    ]:
        assert run("edit", file, env={**given, **variables}) == (b"", UNCHANGED, 0)
        assert seen.read_text().splitlines() == [*arguments_before, f"{home}/sky.sheet"]


def test_an_editor_that_fails(folder):
    home, file = home_of(folder)
    kept = home / "sky.sheet"
    # a shell may tell of a signal by a status
    for script, how in [("exit 1", {b"exit status: 1"}), ("exit 2", {b"exit status: 2"}),
                        ("kill -KILL $$", {b"exit status: 137", b"signal: 9 (SIGKILL)"})]:
        out, err, status = run("edit", file, env=editor(folder, script))
        assert (out, status) == (b"", 3) and b"kept" not in err, err
        assert any(b" failed: %s; nothing is written\n" % told in err for told in how), err
        assert os.listdir(home) == ["sky.srci"]
    # what somebody has written is not lost
    fails(3, f'the sheet is kept as "{kept}"', "edit", file, env=editor(folder, f"{RENAME}; exit 1"))
    assert file.read_bytes() == SAMPLE and kept.read_bytes() == sheet(names((b"b", 5)), PARTS[1])
    prints("", "from-sheet", kept, file, "--force")
    assert file.read_bytes() == RENAMED
    kept.unlink()
    # a sheet that is gone
    for script in ('rm "$1"', 'rm "$1"; exit 1'):
        out, err, status = run("edit", file, env=editor(folder, script))
        assert (out, status) == (b"", 3) and b"kept" not in err and os.listdir(home) == ["sky.srci"]
    # an editor that is none, of which the shell has its own word to say
    out, err, status = run("edit", file, env={**os.environ, "VISUAL": "no-such-editor -w"})
    assert (out, status) == (b"", 3) and b'srci: the editor "no-such-editor -w" failed: exit status: 127' in err
    assert os.listdir(home) == ["sky.srci"]


REFUSED = ":4: refused 20, bad line: A line of a sheet is malformed or misplaced.\n    pear\tE\tmain\n"


def test_a_refused_sheet_without_a_terminal(folder):
    home, file = home_of(folder)
    kept = home / "sky.sheet"
    out, err, status = run("edit", "sky.srci", cwd=home, env=editor(folder, BREAK))
    said = f"srci: sky.sheet{REFUSED}srci: the sheet is kept as \"sky.sheet\", for 'srci from-sheet'\n"
    assert (out, err.decode(), status) == (b"", said, 1)
    assert file.read_bytes() == SAMPLE and kept.read_bytes() == BROKEN and stat.S_IMODE(kept.stat().st_mode) == 0o600
    # a text's fault has its line, and what won't fit has none
    for number, line in [(11, r"name\t1\t\377\n"), (12, r"name\t1\t\000\n")]:
        kept.unlink()
        out, err, status = run("edit", file, env=editor(folder, f"printf 'names\\n{line}' > \"$1\""))
        assert (out, status) == (b"", 1) and f"srci: {kept}:2: refused {number}, ".encode() in err
        assert err.endswith(f"srci: the sheet is kept as \"{kept}\", for 'srci from-sheet'\n".encode())
    kept.unlink()
    fails(1, "refused 18, won't fit", "edit", file, env=editor(folder, 'yes names | head -n 65536 > "$1"'))
    assert kept.exists() and file.read_bytes() == SAMPLE and sorted(os.listdir(home)) == ["sky.sheet", "sky.srci"]


class Terminal:
    """The command at a terminal, for who types there."""

    def __init__(self, *words, **options):
        self.terminal, end = pty.openpty()
        self.call = start(*words, stdin=end, stdout=end, stderr=end, **options)
        os.close(end)
        self.shown = ""
        # a call that takes longer hangs
        self.late = threading.Timer(PATIENCE, self.call.kill)
        self.late.start()

    def shows_more(self):
        try:
            part = os.read(self.terminal, 65536)
        except OSError:
            return False  # the terminal is closed
        self.shown += part.decode().replace("\r\n", "\n")
        return True

    def shows(self, text):
        """Waits until this is shown, and passes over all up to its end."""
        while text not in self.shown:
            assert self.shows_more(), f"{text!r} is not shown, but {self.shown!r}"
        self.shown = self.shown[self.shown.index(text) + len(text) :]

    def types(self, keys):
        os.write(self.terminal, keys.encode())

    def ends(self, status):
        """What is shown to the end."""
        while self.shows_more():
            pass
        os.close(self.terminal)
        found = self.call.wait()
        self.late.cancel()
        assert found == status, f"{found}: {self.shown[-1000:]}"
        return self.shown


def test_a_refused_sheet_at_a_terminal(folder):
    home, file = home_of(folder)
    kept = home / "sky.sheet"
    question = "edit again? [Y/n] "
    # whoever says no, or leaves
    for keys in ("n\n", "N\n", "no\n", "\x04"):
        call = Terminal("edit", "sky.srci", cwd=home, env=editor(folder, BREAK))
        call.shows(f"srci: sky.sheet{REFUSED}{question}")
        call.types(keys)
        assert 'the sheet is kept as "sky.sheet"' in call.ends(1)
        assert file.read_bytes() == SAMPLE and kept.read_bytes() == BROKEN
        kept.unlink()
    # whoever edits again finds what he has written, as often as he likes
    mend = f"{BREAK}; test -e {folder}/twice && sed -i 's/^pear/pair/' \"$1\" && {RENAME}; touch {folder}/twice"
    for keys in ("y\n", "\n", "yes\n", "what?\nY\n"):
        (folder / "twice").unlink(missing_ok=True)
        call = Terminal("edit", "sky.srci", cwd=home, env=editor(folder, mend))
        call.shows(REFUSED + question)
        call.types(keys)
        assert "refused" not in call.ends(0)
        assert file.read_bytes() == RENAMED and os.listdir(home) == ["sky.srci"]
        file.write_bytes(SAMPLE)
    call = Terminal("edit", "sky.srci", cwd=home, env=editor(folder, f'{BREAK}; echo >> "$1"'))
    for _ in range(3):
        call.shows(REFUSED + question)
        call.types("y\n")
    call.shows(question)
    assert kept.read_bytes() == BROKEN + b"\n" * 4
    call.types("n\n")
    call.ends(1)
    # a sheet that is as it was in the end
    kept.unlink()
    undo = f"if grep -q pear \"$1\"; then sed -i 's/^pear/pair/' \"$1\"; else {BREAK}; fi"
    call = Terminal("edit", "sky.srci", cwd=home, env=editor(folder, undo))
    call.shows(question)
    call.types("\n")
    assert UNCHANGED.decode() in call.ends(0) and os.listdir(home) == ["sky.srci"]


def test_who_is_not_asked(folder):
    # where one of both is no terminal nobody can be asked
    home, file = home_of(folder)
    for streams in (["stdin"], ["stderr"], ["stdout"]):
        terminal, end = pty.openpty()
        options = {"stdin": subprocess.DEVNULL, **{stream: end for stream in streams}}
        _, _, status = run("edit", file, env=editor(folder, BREAK), **options)
        assert status == 1 and (home / "sky.sheet").read_bytes() == BROKEN
        (home / "sky.sheet").unlink()
        os.close(end)
        os.close(terminal)


def test_a_payload_that_has_changed_meanwhile(folder):
    home, file = home_of(folder)
    out, kept = home / "out", home / "sky.sheet"
    # others need not wait for an editor, and what they have written is not lost
    for words in ([file], [file, out], [file, file, "--force"]):
        file.write_bytes(SAMPLE)
        script = f"{RENAME}; timeout 5 {path()} rename {file} a other {file} --force"
        fails(3, "has changed since it was read", "edit", *words, env=editor(folder, script))
        assert file.read_bytes() == payload(names((b"other", 5)), PARTS[1]) and not out.exists()
        assert kept.read_bytes() == sheet(names((b"b", 5)), PARTS[1])
        kept.unlink()
    file.write_bytes(SAMPLE)
    fails(3, f'the sheet is kept as "{kept}"', "edit", file, env=editor(folder, f"{RENAME}; rm {file}"))
    assert os.listdir(home) == ["sky.sheet"]
    kept.unlink()
    # an OUT that came to be is not replaced
    file.write_bytes(SAMPLE)
    fails(3, "--force", "edit", file, out, env=editor(folder, f"{RENAME}; echo mine > {out}"))
    assert out.read_bytes() == b"mine\n" and kept.exists() and file.read_bytes() == SAMPLE


def test_two_editors_at_once(folder):
    home, file = home_of(folder)
    wait = f'{RENAME}; touch "$1.open"; while test -e "$1.open"; do sleep 0.01; done'
    first = start("edit", file, env=editor(folder, wait))
    wait_for(home / "sky.sheet.open")
    second = start("edit", file, env=editor(folder, wait), stderr=subprocess.PIPE)
    wait_for(home / "sky-2.sheet.open")
    (home / "sky.sheet.open").unlink()
    assert first.wait(PATIENCE) == 0 and file.read_bytes() == RENAMED
    (home / "sky-2.sheet.open").unlink()
    _, said = second.communicate(timeout=PATIENCE)
    assert second.returncode == 3 and b"has changed" in said and b"sky-2.sheet" in said
    assert sorted(os.listdir(home)) == ["sky-2.sheet", "sky.srci"]


def wait_for(path):
    end = time.monotonic() + PATIENCE
    while not path.exists():
        assert time.monotonic() < end, f"{path} does not come to be"
        time.sleep(0.01)


def with_keys():
    """Keys that send signals are heard, whatever the caller of this test does with them; and in a group of its own."""
    for key in (signal.SIGINT, signal.SIGQUIT):
        signal.signal(key, signal.SIG_DFL)
    os.setpgid(0, 0)


def test_keys_are_the_editors(folder):
    home, file = home_of(folder)
    is_open = home / "sky.sheet.open"
    wait = f"touch \"$1.open\"; while test -e \"$1.open\"; do sleep 0.01; done; {RENAME}"
    # an editor that has keys of its own goes on, and the command with it
    for key in (signal.SIGINT, signal.SIGQUIT):
        file.write_bytes(SAMPLE)
        call = start("edit", file, env=editor(folder, f"trap : INT QUIT; {wait}"), preexec_fn=with_keys)
        wait_for(is_open)
        call.send_signal(key)
        time.sleep(0.1)
        assert call.poll() is None
        is_open.unlink()
        assert call.wait(PATIENCE) == 0 and file.read_bytes() == RENAMED and os.listdir(home) == ["sky.srci"]
    # one that has none is ended by them, and the command tells so
    file.write_bytes(SAMPLE)
    options = {"preexec_fn": with_keys, "stderr": subprocess.PIPE}
    call = start("edit", file, env=editor(folder, wait), **options)
    wait_for(is_open)
    os.killpg(call.pid, signal.SIGINT)
    _, said = call.communicate(timeout=PATIENCE)
    assert call.returncode == 3 and b"failed: signal: 2" in said, said
    is_open.unlink()
    assert os.listdir(home) == ["sky.srci"] and file.read_bytes() == SAMPLE


def limit_files():
    """From here on no file can pass 100,000 bytes, as on a disk that fills up; and no core is left."""
    resource.setrlimit(resource.RLIMIT_FSIZE, (100_000, 100_000))
    resource.setrlimit(resource.RLIMIT_CORE, (0, 0))


def test_a_full_disk(folder):
    opened = folder / "opened"
    given = editor(folder, f"touch {opened}; {RENAME}")
    # a sheet that does not fit is not edited
    home, file = home_of(folder, payload(unknown(3, bytes(60_000))))
    options = {"env": given, "preexec_fn": limit_files}
    fails(3, f'cannot write "{home}/sky.sheet"', "edit", file, restore_signals=False, **options)
    assert os.listdir(home) == ["sky.srci"] and not opened.exists()
    # and of one that fits, whose payload does not, nothing is lost
    old, new = (payload(*[names(*[(name, 1)] * 2500)] * 3) for name in (b"a", b"b"))
    home, file = home_of(folder, old)
    kept = home / "sky.sheet"
    fails(3, f'the sheet is kept as "{kept}"', "edit", file, restore_signals=False, **options)
    kept.unlink()
    # with the signal or without, in the middle of the write
    for status, more in [(3, {"restore_signals": False}), (-signal.SIGXFSZ, {})]:
        assert run("edit", file, **options, **more)[2] == status
        assert file.read_bytes() == old and sorted(os.listdir(home)) == ["sky.sheet", "sky.srci"]
        prints(new, "from-sheet", kept, "-")
        kept.unlink()


def test_a_large_sheet(folder):
    pairs = [(b"", b"")] * 1_000_000
    home, file = home_of(folder, payload(arguments(*pairs)))
    prints("", "edit", file, env=editor(folder, 'printf "pair\\tE\\tmain\\n" >> "$1"'))
    assert file.read_bytes() == payload(arguments(*pairs, (b"E", b"main")))
    fails(1, f":{len(pairs) + 3}: refused 20", "edit", file, env=editor(folder, 'echo >> "$1"'))
    assert (home / "sky.sheet").stat().st_size > 6 * len(pairs)


run_tests(globals())
