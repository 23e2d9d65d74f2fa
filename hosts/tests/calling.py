"""Calls of the command, for the tests that run it: what it prints, what it says, and its exit status."""
import functools
import os
import pathlib
import shutil
import subprocess
import sys
import tempfile

NOBODY = 65534
_command = None


def path():
    """The command, for programs that call it themselves."""
    return _command


def start(*words, **options):
    return subprocess.Popen([_command, *words], **options)


def run(*words, data=b"", **options):
    """What is printed to each stream, and the exit status."""
    given = {} if "stdin" in options else {"input": data}
    options = {"stdout": subprocess.PIPE, "stderr": subprocess.PIPE, "timeout": 60, **given, **options}
    done = subprocess.run([_command, *words], **options)
    return done.stdout, done.stderr, done.returncode


def prints(text, *words, **options):
    text = text if isinstance(text, bytes) else text.encode()
    out, err, status = run(*words, **options)
    assert (out, err, status) == (text, b"", 0), f"{words}: {out[:300]!r}, {err[:300]!r}, {status}, not {text[:300]!r}"


def fails(status, said, *words, **options):
    """A call with this exit status, that prints nothing and says this among other things on standard error."""
    out, err, told = run(*words, **options)
    assert (out or b"", told) == (b"", status), f"{words}: {out!r:.300}, {told}, not {status}"
    assert err.startswith(b"srci: ") and said.encode() in err, f"{words}: {err!r} does not say {said!r}"
    assert b"panicked" not in err


@functools.lru_cache(None)
def can_be_others():
    """Whether this is root, who can be every user, as one in a container cannot always."""
    if os.geteuid() != 0:
        return False
    with tempfile.NamedTemporaryFile() as file:
        try:
            os.chown(file.name, NOBODY, NOBODY)
        except OSError:
            return False
    return True


class NotHere(Exception):
    """Why a test cannot run here."""


def as_nobody():
    """For a call of somebody who may not do everything, as root may."""
    if os.geteuid() != 0:
        return {}
    if not can_be_others():
        raise NotHere("root is the only user in this container")
    return {"user": NOBODY, "group": NOBODY}


def run_tests(tests):
    """Runs the functions of these whose names begin with `test_`, each with an empty folder. One that cannot run here
    answers why, or raises it."""
    global _command
    os.umask(0o022)
    with tempfile.TemporaryDirectory() as programs:
        # a copy that any user can reach, who may not reach the tree
        os.chmod(programs, 0o755)
        _command = shutil.copy(sys.argv[1], programs)
        for name, test in [*tests.items()]:
            if name.startswith("test_"):
                with tempfile.TemporaryDirectory() as folder:
                    os.chmod(folder, 0o755)
                    try:
                        why_not = test(pathlib.Path(folder))
                    except NotHere as reason:
                        why_not = reason
                what = name[5:].replace("_", " ")
                print(f"not tested: {what}, since {why_not}" if why_not else f"ok: {what}", flush=True)
