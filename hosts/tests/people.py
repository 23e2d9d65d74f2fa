"""Users and groups made up for the tests, what they can read, ACLs, and containers. Only root can be all of them."""
import ctypes
import errno
import os
import stat
import struct
from typing import NamedTuple, Tuple

TEAM, USERS = 60_001, 60_002
NEW_USERS = 0x10000000
ACL, DEFAULT_ACL = "system.posix_acl_access", "system.posix_acl_default"


class Person(NamedTuple):
    user: int
    group: int
    groups: Tuple[int, ...] = ()

    def options(self):
        """For a call that this person makes."""
        return {"user": self.user, "group": self.group, "extra_groups": list(self.groups)}


ROOT = Person(0, 0)
OWNER = Person(50_001, 60_011)
OWNER_IN_TEAM = Person(50_001, 60_011, (TEAM,))
MEMBER = Person(50_002, USERS, (TEAM,))
OUTSIDER = Person(50_003, USERS)
PEOPLE = [
    OWNER,
    OWNER_IN_TEAM,
    MEMBER,
    OUTSIDER,
    Person(50_004, 60_014, (TEAM,)),
    Person(50_005, 60_015, (USERS,)),
    Person(50_006, 60_016, (TEAM, USERS)),
    Person(50_007, 60_017),
]
NAMED = PEOPLE[-1]


def enter_container(person, users, groups):
    """Makes this process that of a person in a user namespace. Its maps tell which number in it stands for which outside;
    all others are shown as 65534."""
    go_on, ask = os.pipe()
    inside = os.getpid()
    # only who is outside may map others than himself
    outside = os.fork()
    if outside == 0:
        os.close(ask)
        if not os.read(go_on, 1):
            os._exit(1)  # the other could not enter
        for file, numbers in [("uid_map", users), ("gid_map", groups)]:
            with open(f"/proc/{inside}/{file}", "w") as lines:
                lines.write("".join(f"{number} {other} 1\n" for number, other in numbers.items()))
        os._exit(0)
    os.setgroups(person.groups)
    os.setgid(person.group)
    os.setuid(person.user)
    if ctypes.CDLL(None, use_errno=True).unshare(NEW_USERS):
        raise OSError(ctypes.get_errno(), "unshare")
    os.write(ask, b" ")
    assert os.waitpid(outside, 0)[1] == 0


def has_containers():
    """Whether a process can enter one here."""
    process = os.fork()
    if process == 0:
        try:
            enter_container(MEMBER, {0: MEMBER.user}, {0: MEMBER.group})
            os._exit(0)
        finally:
            os._exit(1)
    return os.waitpid(process, 0)[1] == 0


def access(path):
    """The owner, group, permission bits and ACL of a file."""
    state = os.lstat(path)
    return state.st_uid, state.st_gid, stat.S_IMODE(state.st_mode), acl_of(path)


_readers = {}


def readers(path):
    """Who can read a file, by trying. Those of one that is shared alike were found already."""
    shared = path.parent, access(path)
    if shared not in _readers:
        _readers[shared] = {person for person in PEOPLE if _can_read(person, path)}
    return _readers[shared]


def _can_read(person, path):
    process = os.fork()
    if process == 0:
        try:
            os.setgroups(person.groups)
            os.setgid(person.group)
            os.setuid(person.user)
            os.open(path, os.O_RDONLY)
            os._exit(0)
        finally:
            os._exit(1)
    return os.waitpid(process, 0)[1] == 0


def acl(owner, named, group, mask, others):
    """An ACL with these permission bits, in which `NAMED` is named."""
    nobody = 0xFFFFFFFF
    entries = [(1, owner, nobody), (2, named, NAMED.user), (4, group, nobody), (16, mask, nobody), (32, others, nobody)]
    return struct.pack("<I", 2) + b"".join(struct.pack("<HHI", *entry) for entry in entries)


def acl_of(path):
    try:
        return os.getxattr(path, ACL, follow_symlinks=False)
    except OSError as error:
        if error.errno in (errno.ENODATA, errno.ENOTSUP):
            return None
        raise


def has_acls(folder):
    """Whether files of this folder can have ACLs."""
    path = folder / "with an ACL"
    path.touch()
    try:
        os.setxattr(path, ACL, acl(6, 4, 4, 4, 0))
    except OSError:
        return False
    finally:
        path.unlink()
    return True
