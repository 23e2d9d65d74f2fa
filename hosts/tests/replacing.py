"""Tests of calls that put a file in place, which files.py runs: what others do at the same time, who can read the file,
and what signals leave. Most look, or act, at each moment that a call has.
"""
import errno
import fcntl
import itertools
import os
import pathlib
import resource
import signal
import stat
import subprocess
import tempfile
import time

from calling import NOBODY, can_be_others, fails, prints, start
from cases import SAMPLE
from moments import act_once, answers, call_of, can_step, has_open, step
from people import ACL, DEFAULT_ACL, MEMBER, NAMED, OUTSIDER, OWNER, OWNER_IN_TEAM, PEOPLE, ROOT, TEAM, USERS
from people import access, acl, acl_of, enter_container, has_acls, has_containers, readers
from sections import arguments, names, payload

# of the sample
COPY = payload(names((b"a", 1)), arguments((b"E", b"main")))
RENAMED = payload(names((b"b", 5)), arguments((b"E", b"main")))
# numbers of system calls on x86-64
MMAP, BRK, MREMAP, FLOCK, FCHMOD, FSETXATTR, FGETXATTR = 9, 12, 25, 73, 91, 190, 193
FREMOVEXATTR, RENAMEAT, LINKAT = 199, 264, 265
# why a test is not run
NOT_ROOT, NOT_TRACED = "this is not run as root, who can be all users", "processes cannot be traced here"


def sample_and_home(folder):
    """The sample in a file, and an empty folder."""
    file, home = folder / "payload", folder / "home"
    file.write_bytes(SAMPLE)
    home.mkdir()
    return file, home


def put(path, data):
    """Makes a file anew, or with None has none there."""
    path.unlink(missing_ok=True)
    if data is not None:
        path.write_bytes(data)


def temporaries(folder):
    return [name for name in os.listdir(folder) if name.startswith(".srci-")]


class Held:
    """A file that is locked, and a call that waits for it until it gives up."""

    def __init__(self):
        self.folder = tempfile.TemporaryDirectory()
        self.file = pathlib.Path(self.folder.name, "held")
        self.file.write_bytes(SAMPLE)
        self.open = open(self.file, "rb")
        fcntl.flock(self.open, fcntl.LOCK_EX)
        self.began = time.monotonic()
        words = ["rename", self.file, "a", "b", self.file, "--force"]
        self.call = start(*words, stdout=subprocess.PIPE, stderr=subprocess.PIPE)


held = None


def test_a_call_that_waits(folder):
    # it gives up while the other tests are run
    global held
    held = Held()
    file = folder / "payload"
    file.write_bytes(SAMPLE)
    with open(file, "rb") as other:
        fcntl.flock(other, fcntl.LOCK_EX)
        call = start("rename", file, "a", "b", file, "--force")
        time.sleep(0.5)
        assert call.poll() is None and file.read_bytes() == SAMPLE
        # what does not replace the file does not wait
        prints(COPY, "public-copy", file, "-")
        fails(3, "--force", "public-copy", file, file)
        fcntl.flock(other, fcntl.LOCK_UN)
        assert call.wait() == 0
    assert file.read_bytes() == RENAMED


def test_standard_input_that_is_waited_for(folder):
    file = folder / "payload"
    file.write_bytes(SAMPLE)
    call = start("rename", "-", "a", "b", file, "--force", stdin=subprocess.PIPE)
    time.sleep(0.3)
    # others need not wait with it
    prints("", "rename", file, "a", "c", file, "--force", timeout=5)
    call.communicate(SAMPLE)
    assert call.returncode == 0 and file.read_bytes() == RENAMED


def test_renames_in_place_at_once(folder):
    file, link = folder / "payload", folder / "link"
    link.symlink_to("payload")
    ways = itertools.cycle([(file, file), (file, link), (link, file)])
    old, new = ([b"%s %d" % (word, place) for place in range(30)] for word in (b"old", b"new"))
    file.write_bytes(payload(names(*[(name, 1) for name in old])))
    calls = [start("rename", way[0], *name, way[1], "--force") for name, way in zip(zip(old, new), ways)]
    assert [call.wait() for call in calls] == [0] * 30
    assert file.read_bytes() == payload(names(*[(name, 1) for name in new])) and link.is_symlink()


def test_a_file_that_is_replaced_before_it_is_locked(folder):
    if not can_step():
        return NOT_TRACED
    file, new = folder / "payload", folder / "new"
    file.write_bytes(SAMPLE)
    new.write_bytes(payload(names((b"a", 7))))

    def replace_before_lock(process):
        if call_of(process) == FLOCK and new.exists():
            new.replace(file)

    assert step(replace_before_lock, "rename", file, "a", "b", file, "--force") == 0
    assert file.read_bytes() == payload(names((b"b", 7)))


def test_files_are_read_when_they_are_locked(folder):
    if not can_step():
        return NOT_TRACED
    file = folder / "payload"

    def change_before_lock(process):
        if call_of(process) == FLOCK:
            file.write_bytes(payload(names((b"a", 7))))

    for job, made in [(["public-copy", file], names((b"a", 1))), (["rename", file, "a", "b"], names((b"b", 7)))]:
        file.write_bytes(SAMPLE)
        assert step(change_before_lock, *job, file, "--force") == 0
        assert file.read_bytes() == payload(made)


def test_a_file_that_is_put_there_meanwhile(folder):
    if not can_step():
        return NOT_TRACED
    file, home = sample_and_home(folder)
    out, new = home / "out", home / "new"

    def tries(old, act, *words):
        """Whether a file is put there, and whether it stays, in calls during which that is tried, each at another
        moment while there is a temporary file."""

        def prepare():
            new.write_bytes(b"new")
            put(out, old)

        for status in act_once(prepare, lambda _: temporaries(home), act, "public-copy", file, out, *words):
            assert out.read_bytes() == (b"new" if status else COPY) and status in (0, 3)
            yield not new.exists(), status == 3

    # what replaces the old file stays, unless it comes between the last look and the renaming
    tried = [*tries(b"old", lambda _: new.replace(out), "--force")]
    assert tried == sorted(tried, reverse=True) and tried[0] == (True, True) and 0 < tried.count((True, False)) < 5
    # what is there first stays
    for words in ([], ["--force"]):
        assert {*tries(None, lambda _: out.exists() or new.replace(out), *words)} == {(True, True), (False, False)}


def test_file_systems_that_know_less(folder):
    if not can_step():
        return NOT_TRACED
    file, home = sample_and_home(folder)
    out = home / "out"

    def bits_after(call, given):
        """The new file's permission bits, or the exit status of a call that did not replace it."""
        put(out, b"old")
        out.chmod(0o664)
        status = answers(call, given, "public-copy", file, out, "--force")
        assert out.read_bytes() == (b"old" if status else COPY) and os.listdir(home) == ["out"]
        return status or stat.S_IMODE(out.stat().st_mode)

    # no second names
    assert answers(LINKAT, [-errno.EPERM], "public-copy", file, out) == 0 and out.read_bytes() == COPY
    assert os.listdir(home) == ["out"]
    # no locks, no attributes
    for error in (errno.ENOLCK, errno.EOPNOTSUPP, errno.ENOSYS):
        assert bits_after(FLOCK, itertools.repeat(-error)) == 0o664
    # a lock that cannot be asked for, and a file that cannot be renamed
    assert bits_after(FLOCK, [-errno.EIO]) == bits_after(RENAMEAT, [-errno.EPERM]) == 3
    assert bits_after(FGETXATTR, itertools.repeat(-errno.EOPNOTSUPP)) == 0o664
    assert bits_after(FREMOVEXATTR, [-errno.EOPNOTSUPP]) == 0o664
    # an ACL of NFS's own, and one that cannot be looked at
    for given in ([0], [-errno.EIO], [None, -errno.EIO]):
        assert bits_after(FGETXATTR, given) == 0o600
    # an ACL of the folder's that cannot be removed, and bits that cannot be set
    assert bits_after(FREMOVEXATTR, [-errno.EPERM]) == bits_after(FCHMOD, [-errno.EPERM]) == 3


def test_memory_that_is_lacking_while_a_file_is_written(folder):
    if not can_step():
        return NOT_TRACED
    file, home = sample_and_home(folder)
    out = home / "out"
    out.write_bytes(b"old")

    def lacking(process):
        if temporaries(home):
            return {MMAP: -errno.ENOMEM, MREMAP: -errno.ENOMEM, BRK: 0}.get(call_of(process))
        return None

    # with no memory kept for later
    environment = {"MALLOC_TOP_PAD_": "0", "MALLOC_TRIM_THRESHOLD_": "0"}
    assert step(lacking, "public-copy", file, out, "--force", env=environment) == 3
    assert os.listdir(home) == ["out"] and out.read_bytes() == b"old"


def test_a_pipe_that_is_put_there_meanwhile(folder):
    if not can_step():
        return NOT_TRACED
    file, home = sample_and_home(folder)
    out = home / "out"

    def plant(_):
        out.unlink()
        os.mkfifo(out)

    words = ["public-copy", file, out, "--force"]
    tried = [*act_once(lambda: put(out, b"old"), lambda process: has_open(process, out), plant, *words)]
    # it is neither waited for nor replaced, unless it comes between the last look and the renaming
    assert {*tried} == {0, 3} and tried == sorted(tried, reverse=True), tried


def test_the_bits_of_a_new_file(folder):
    file, home = sample_and_home(folder)
    for mask, bits in [(0o027, 0o640), (0o077, 0o600), (0, 0o666)]:
        prints("", "public-copy", file, home / f"{mask:o}", umask=mask)
        assert stat.S_IMODE((home / f"{mask:o}").stat().st_mode) == bits


def test_a_file_system_that_locks_what_is_open_for_writing(folder):
    if not can_step():
        return NOT_TRACED
    file = folder / "payload"
    file.write_bytes(SAMPLE)
    asked = 0

    def answer(process):
        """As NFS does: a file that is open for reading gets none. The fourth time nobody else has it any more."""
        nonlocal asked
        if call_of(process) != FLOCK:
            return None
        asked += 1
        if asked == 4:
            fcntl.flock(other, fcntl.LOCK_UN)
        return -errno.EBADF if asked % 2 else None

    with open(file, "rb") as other:
        fcntl.flock(other, fcntl.LOCK_EX)
        assert step(answer, "rename", file, "a", "b", file, "--force") == 0
    assert asked == 4 and file.read_bytes() == RENAMED


def test_signals(folder):
    if not can_step():
        return NOT_TRACED
    file, home = sample_and_home(folder)
    out = home / "out"

    def is_open(process):
        return has_open(process, home)

    def is_written(process):
        return temporaries(home)

    def signalled(number, way, old, counts):
        """The exit statuses of calls that get a signal, each at another moment that counts, and what is there then."""

        def before():
            resource.setrlimit(resource.RLIMIT_CORE, (0, 0))
            signal.signal(number, way)

        def send(process):
            os.kill(process, number)

        words = ["public-copy", file, out, "--force"]
        for status in act_once(lambda: put(out, old), counts, send, *words, preexec_fn=before):
            assert not temporaries(home)
            yield status, out.read_bytes() if out.exists() else None

    for number, old in [(signal.SIGTERM, None), (signal.SIGINT, b"old")]:
        # one that comes last finds the call ended
        assert {*signalled(number, signal.SIG_DFL, old, is_open)} == {(-number, old), (-number, COPY), (0, COPY)}
    for number in (signal.SIGHUP, signal.SIGQUIT):
        assert {*signalled(number, signal.SIG_DFL, b"old", is_written)} == {(-number, b"old"), (-number, COPY)}
    for name in "USR1 USR2 ALRM XCPU XFSZ VTALRM PROF IO PWR".split():
        number = signal.Signals[f"SIG{name}"]
        assert next(signalled(number, signal.SIG_DFL, b"old", is_written)) == (-number, b"old"), name
    assert {*signalled(signal.SIGINT, signal.SIG_IGN, b"old", is_open)} == {(0, COPY)}


def rewrite(file, home, caller, owner, group, bits, rights=None):
    """Has a person replace a file of this owner, group, bits and ACL, and answers the new one's. Whoever else can read
    it, or what is written beside it, at any moment, could read the old one."""
    out = home / "out"
    put(out, b"old")
    os.chown(out, owner.user, group)
    if acl_of(out):
        os.removexattr(out, ACL)
    out.chmod(bits)
    if rights:
        os.setxattr(out, ACL, rights)
    could = readers(out)

    def look(_):
        for path in home.iterdir():
            gained = {person for person in readers(path) - could if person.user != caller.user}
            assert not gained, f"{caller} replaces {owner}, {group}, {bits:o} by {access(path)}: {gained} can read it"

    assert step(look, "public-copy", file, out, "--force", **caller.options()) == 0
    look(None)
    assert os.listdir(home) == ["out"] and out.read_bytes() == COPY
    return access(out)


def test_who_can_read_what_replaces_a_file(folder):
    if not can_be_others() or not can_step():
        return NOT_ROOT if not can_be_others() else NOT_TRACED
    file, home = sample_and_home(folder)
    # a team's folder, in which a file is replaced by a member whose own group is another
    os.chown(home, 0, TEAM)
    home.chmod(0o775)
    assert rewrite(file, home, MEMBER, OWNER, TEAM, 0o660) == (MEMBER.user, TEAM, 0o660, None)
    home.chmod(0o777)
    for caller, owner, group, bits, *new in [
        (ROOT, OWNER, TEAM, 0o664, OWNER, TEAM, 0o664),
        (ROOT, OWNER, TEAM, 0o040, OWNER, TEAM, 0o040),
        (ROOT, OWNER, TEAM, 0o7775, OWNER, TEAM, 0o775),
        (OWNER_IN_TEAM, OWNER, TEAM, 0o660, OWNER, TEAM, 0o660),
        (OUTSIDER, OUTSIDER, USERS, 0o606, OUTSIDER, USERS, 0o606),
        # the owner is not kept
        (MEMBER, OWNER, TEAM, 0o664, MEMBER, TEAM, 0o664),
        (MEMBER, OWNER, TEAM, 0o464, MEMBER, TEAM, 0o444),
        (MEMBER, OWNER, TEAM, 0o046, MEMBER, TEAM, 0o000),
        # the group is not kept
        (OUTSIDER, OUTSIDER, TEAM, 0o664, OUTSIDER, USERS, 0o604),
        (OUTSIDER, OUTSIDER, TEAM, 0o640, OUTSIDER, USERS, 0o600),
        (OUTSIDER, OUTSIDER, TEAM, 0o604, OUTSIDER, USERS, 0o600),
        # neither is
        (OUTSIDER, OWNER, TEAM, 0o666, OUTSIDER, USERS, 0o606),
        (OUTSIDER, OWNER, TEAM, 0o266, OUTSIDER, USERS, 0o202),
        # the caller cannot read the old file, and so not its ACL
        (MEMBER, OWNER, TEAM, 0o604, MEMBER, TEAM, 0o600),
        (MEMBER, OWNER, TEAM, 0o626, MEMBER, TEAM, 0o600),
    ]:
        told = rewrite(file, home, caller, owner, group, bits)
        assert told == (new[0].user, *new[1:], None), f"{caller}, {owner}, {group}, {bits:o}: {told}"
    for user, group, others in itertools.product((0, 4), repeat=3):
        for caller, owner in [(MEMBER, OWNER), (OUTSIDER, OWNER), (OUTSIDER, OUTSIDER)]:
            rewrite(file, home, caller, owner, TEAM, user << 6 | group << 3 | others)


def test_who_can_read_what_replaces_a_file_with_an_acl(folder):
    if not can_be_others() or not can_step():
        return NOT_ROOT if not can_be_others() else NOT_TRACED
    if not has_acls(folder):
        return "this file system has no ACLs"
    file, home = sample_and_home(folder)
    home.chmod(0o777)
    out = home / "out"
    for user, named, group, mask, others in [(6, 4, 4, 4, 0), (6, 0, 4, 4, 4), (6, 6, 0, 6, 0)]:
        rights = acl(user, named, group, mask, others)
        bits = user << 6 | mask << 3 | others
        for caller in (ROOT, OWNER_IN_TEAM):
            assert rewrite(file, home, caller, OWNER, TEAM, 0o600, rights) == (OWNER.user, TEAM, bits, rights)
        for caller, owner, new in [(MEMBER, OWNER, TEAM), (OUTSIDER, OUTSIDER, USERS), (OUTSIDER, OWNER, USERS)]:
            assert rewrite(file, home, caller, owner, TEAM, 0o600, rights) == (caller.user, new, 0o600, None)
        os.setxattr(out, ACL, rights)
        assert answers(FSETXATTR, [-errno.EIO], "public-copy", file, out, "--force") == 0
        assert access(out)[2:] == (0o600, None)
    # what the folder gives to new files it does not give to one that replaces another
    os.setxattr(home, DEFAULT_ACL, acl(7, 7, 7, 7, 7))
    for caller, owner in [(ROOT, OWNER), (MEMBER, MEMBER), (OWNER_IN_TEAM, OWNER)]:
        for bits in (0o660, 0o600, 0o664):
            assert rewrite(file, home, caller, owner, TEAM, bits) == (owner.user, TEAM, bits, None)
    prints("", "public-copy", file, home / "new")
    assert NAMED in readers(home / "new")


def test_who_can_read_what_replaces_a_file_from_a_container(folder):
    if not can_be_others() or not has_containers():
        return NOT_ROOT if not can_be_others() else "there are no user namespaces here"
    file, home = sample_and_home(folder)
    out = home / "out"
    # new files are of a group whose members could not read the old one; in the container both groups are 65534
    stranger = PEOPLE[5]
    os.chown(home, 0, stranger.group)
    home.chmod(0o2777)
    # the second has that number for the stranger, so that a file can be given to him
    for more in ({}, {65534: stranger}):
        users = {0: MEMBER.user, **{number: person.user for number, person in more.items()}}
        groups = {0: MEMBER.group, **{number: person.group for number, person in more.items()}}
        for bits in (0o660, 0o640, 0o644, 0o040, 0o600):
            put(out, b"old")
            os.chown(out, OWNER.user, TEAM)
            out.chmod(bits)
            could = readers(out)
            container = {"preexec_fn": lambda: enter_container(MEMBER, users, groups)}
            prints("", "public-copy", file, out, "--force", **container)
            gained = {person for person in readers(out) - could if person.user != MEMBER.user}
            assert not gained and out.read_bytes() == COPY, f"{bits:o}, {users}: {access(out)}, {gained}"
        # a stranger's link, in a folder of another stranger's
        put(out, None)
        put(folder / "aim", b"old")
        (folder / "aim").chmod(0o666)
        folder.chmod(0o777)
        out.symlink_to("../aim")
        os.lchown(out, stranger.user, stranger.group)
        os.chown(home, OWNER.user, stranger.group)
        fails(3, "link of another user's", "public-copy", file, out, "--force", **container)


def test_a_file_that_is_exchanged_for_a_moment(folder):
    if not can_step():
        return NOT_TRACED
    if not has_acls(folder):
        return "this file system has no ACLs"
    file, home = sample_and_home(folder)
    out, other, aside = home / "out", home / "other", home / "aside"
    # its permission bits alone would give its group what the ACL denies
    rights = acl(6, 4, 0, 4, 0)

    def prepare():
        put(other, b"other")
        put(out, b"old")
        os.setxattr(out, ACL, rights)

    def exchange(one, another):
        one.rename(aside)
        another.rename(one)
        aside.rename(another)

    # another file stands there during one system call, each time another
    for place in range(1, 1000):
        prepare()
        seen = 0

        def act(process):
            nonlocal seen
            if has_open(process, home):
                seen += 1
                if seen in (place, place + 1):
                    exchange(out, other)

        status = step(act, "public-copy", file, out, "--force")
        if seen <= place:
            break
        new = [path for path in (out, other) if path.read_bytes() == COPY]
        assert len(new) == (0 if status else 1) and not temporaries(home)
        assert all(acl_of(path) == rights for path in new), f"{place}: {[access(path) for path in new]}"
    assert 10 < place < 999


def test_links_of_others(folder):
    if not can_be_others():
        return NOT_ROOT
    file, home = sample_and_home(folder)
    aim, link, to_link = folder / "aim", home / "link", folder / "to link"
    to_link.symlink_to("home/link")
    way = home / "way"
    # 0o1777 is as /tmp: all may write, and nobody may remove what is another's
    for link_owner, home_owner, bits, follows in [
        (OWNER, ROOT, 0o1777, False),
        (OWNER, MEMBER, 0o1777, False),
        (OWNER, OWNER, 0o1777, True),
        (ROOT, OWNER, 0o1777, True),
        (OWNER, ROOT, 0o777, False),
        (OWNER, ROOT, 0o1775, True),
    ]:
        os.chown(home, home_owner.user, home_owner.group)
        home.chmod(bits)
        for planted, to in [(link, "../aim"), (way, "..")]:
            put(planted, None)
            planted.symlink_to(to)
            os.lchown(planted, link_owner.user, link_owner.group)
        # OUT, what OUT leads to, and a folder on the way
        for out in (link, to_link, way / "aim", way / "to link"):
            put(aim, b"old")
            if follows:
                prints("", "public-copy", file, out, "--force")
            else:
                fails(3, "link of another user's", "public-copy", file, out, "--force")
            assert aim.read_bytes() == (COPY if follows else b"old")
            assert link.is_symlink() and to_link.is_symlink() and way.is_symlink()


class Victim:
    """A file `out` in a folder of its own, that no result may replace."""

    def __init__(self, folder):
        self.folder, self.out = folder / "victim", folder / "victim" / "out"
        self.folder.mkdir()
        self.out.write_bytes(b"victim")
        self.out.chmod(0o666)
        self.before = self.out.stat()

    def is_intact(self):
        same = os.path.samestat(self.before, self.out.stat()) and self.out.read_bytes() == b"victim"
        return same and os.listdir(self.folder) == ["out"]


def test_links_that_are_planted(folder):
    if not can_step():
        return NOT_TRACED
    victim, (file, home) = Victim(folder), sample_and_home(folder)
    out, aside = home / "out", home / "aside"
    found = False

    def prepare(old):
        nonlocal found
        found = False
        put(aside, None)
        put(out, old)
        if old:
            out.chmod(0o600)

    def has_found(process):
        """Whether the call has, or had, the file open that OUT was at first."""
        nonlocal found
        found = found or has_open(process, out)
        return found

    def plant(_):
        if out.exists():
            out.rename(aside)
        out.symlink_to(victim.out)
        if can_be_others():
            os.lchown(out, NOBODY, NOBODY)

    def tries(old, counts):
        for status in act_once(lambda: prepare(old), counts, plant, "public-copy", file, out, "--force"):
            assert victim.is_intact() and not temporaries(home)
            files = [path for path in home.iterdir() if not path.is_symlink()]
            there = [path.read_bytes() for path in files]
            assert COPY in there if status == 0 else there == ([old] if old else [])
            # nor are the victim's permission bits taken
            assert not old or all(stat.S_IMODE(path.stat().st_mode) == 0o600 for path in files)
            yield status

    assert {*tries(b"old", has_found)} == {0, 3}
    # as in /tmp: a stranger's is not followed either where it is there before OUT is opened, or where OUT is new
    if can_be_others():
        home.chmod(0o1777)
        for old in (b"old", None):
            assert {*tries(old, lambda process: has_open(process, home))} == {0, 3}
    else:
        print(f"not tested: links that strangers plant, since {NOT_ROOT}")


def test_a_folder_that_is_turned_elsewhere(folder):
    if not can_step():
        return NOT_TRACED
    victim, (file, home), aside = Victim(folder), sample_and_home(folder), folder / "aside"

    def prepare():
        if aside.exists():
            home.unlink()
            aside.rename(home)
        put(home / "out", b"old")

    def turn(_):
        home.rename(aside)
        home.symlink_to(victim.folder)

    seen = set()
    words = ["public-copy", file, home / "out", "--force"]
    for status in act_once(prepare, lambda process: has_open(process, home), turn, *words):
        assert victim.is_intact() and not temporaries(aside)
        assert (aside / "out").read_bytes() == (b"old" if status else COPY)
        seen.add(status)
    assert seen == {0, 3}


def test_a_call_that_has_waited(folder):
    out, err = held.call.communicate(timeout=60)
    assert held.call.returncode == 3 and out == b"" and b"another process has locked it" in err
    assert time.monotonic() - held.began >= 10 and held.file.read_bytes() == SAMPLE
    assert os.listdir(held.folder.name) == ["held"]
    held.open.close()
    held.folder.cleanup()
