"""Calls of the command that stand still before each of their system calls, so that a test can look, or act, at each
moment: between two system calls nothing changes for others."""
import ctypes
import os
import signal
import subprocess
import threading

from calling import start

PATIENCE = 60  # seconds; a call that takes longer hangs

TRACE_ME, PEEK, POKE, NEXT_CALL, SET_OPTIONS = 0, 3, 6, 24, 0x4200
TELL_CALLS_FROM_SIGNALS, END_WITH_TRACER = 1, 1 << 20
# of x86-64: where a process's registers are that hold the answer of a system call, and which call it is
ANSWER, CALL = 80, 120
_libc = ctypes.CDLL(None, use_errno=True)
_libc.ptrace.argtypes = [ctypes.c_long, ctypes.c_long, ctypes.c_void_p, ctypes.c_void_p]
_libc.ptrace.restype = ctypes.c_long


def _ptrace(request, process, place=0, data=0):
    ctypes.set_errno(0)
    answer = _libc.ptrace(request, process, place, data)
    if ctypes.get_errno():
        raise OSError(ctypes.get_errno(), "ptrace")
    return answer


def step(act, *words, preexec_fn=lambda: None, **options):
    """Runs the command, calls `act` with its process number before each of its system calls, and answers its exit
    status. Where `act` answers a number, that is the system's answer, and the call is not made."""

    def before():
        preexec_fn()
        _ptrace(TRACE_ME, 0)

    call = start(*words, preexec_fn=before, **{"stderr": subprocess.DEVNULL, **options})
    late = threading.Timer(PATIENCE, call.kill)
    late.start()
    try:
        return _go_on(call, act)
    finally:
        late.cancel()


def _go_on(call, act):
    process = call.pid
    os.waitpid(process, 0)
    _ptrace(SET_OPTIONS, process, data=TELL_CALLS_FROM_SIGNALS | END_WITH_TRACER)
    enters, answer, passed_on = True, None, 0
    while True:
        _ptrace(NEXT_CALL, process, data=passed_on)
        _, status = os.waitpid(process, 0)
        if not os.WIFSTOPPED(status):
            call.returncode = os.waitstatus_to_exitcode(status)
            return call.returncode
        passed_on = os.WSTOPSIG(status)
        if passed_on == signal.SIGTRAP | 0x80:
            passed_on = 0
            if enters:
                answer = act(process)
            if answer is not None:
                _ptrace(POKE, process, *((CALL, -1) if enters else (ANSWER, answer)))
            enters = not enters


def call_of(process):
    """The number of the system call that a process is about to make."""
    return _ptrace(PEEK, process, CALL)


def answers(number, given, *words, **options):
    """Runs the command where a system call, by its number, is not made, but has the answers that are given, one after
    another: an error's is negative, and with None, or when there are no more, it is made. Answers its exit status."""
    given = iter(given)
    return step(lambda process: next(given, None) if call_of(process) == number else None, *words, **options)


def can_step():
    """Whether this system lets a process be traced."""
    try:
        return step(lambda _: None, "--help", stdout=subprocess.DEVNULL) == 0
    except (OSError, subprocess.SubprocessError):
        return False


def act_once(prepare, counts, act, *words, **options):
    """Runs the command once for each moment that `counts`, and acts there: in the first run at the first, in the next
    at the second. Yields the exit statuses, and ends with a run that has no such moment any more."""
    place, acted = 0, True
    while acted:
        seen, acted = 0, False

        def at_moment(process):
            nonlocal seen, acted
            if not acted and counts(process):
                seen += 1
                if seen > place:
                    act(process)
                    acted = True

        prepare()
        status = step(at_moment, *words, **options)
        if acted:
            yield status
        place += 1


def has_open(process, path):
    """Whether a process has the file or folder open that is at a path."""
    there = os.stat(path)
    files = (f"/proc/{process}/fd/{number}" for number in os.listdir(f"/proc/{process}/fd"))
    return any(os.path.samestat(os.stat(file), there) for file in files)
