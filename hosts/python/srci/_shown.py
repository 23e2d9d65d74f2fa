"""What may be shown of a payload, within a bound: facts, names, and the first lines of a card.

Facts and names are told from the bytes of the public copy, by the sizes and counts in its headers. A public copy is
well-formed and has no unknown sections, so nothing is checked here. No rows are made, of which there may be millions.
"""
import operator
import struct
import sys
from collections.abc import Iterator
from dataclasses import dataclass
from itertools import islice
from typing import TYPE_CHECKING, NamedTuple, Optional

from ._jobs import own_copy
from ._tables import Tag

if TYPE_CHECKING:
    from _typeshed import ReadableBuffer as Buffer

_MAIN_HEADER = 8  # bytes
_SECTION = struct.Struct("<IHH")  # size, flags, kind
_CONTENTS = struct.Struct("<IHHIII")  # header field, flags, compression, stored bytes, uncompressed bytes, count
_NAMES = struct.Struct("<IIH")  # flags, count, bytes of entries
_NAME = struct.Struct("<IIII")  # aligned size, flags, text size with its NUL, content size
_ARGUMENTS = struct.Struct("<III")  # flags, bytes of texts, count

_KIND_CONTENTS, _KIND_NAMES = 0, 1  # arguments are what is left


class Pair(NamedTuple):
    """An argument of the compiler: its name and its value."""

    name: str
    value: str


@dataclass(frozen=True)
class Section:
    """What a card may show of a section: what it is, how many files, names or pairs it counts, and these.

    `kind` is 'plain contents', 'packed contents', 'names' or 'arguments'. Of packed contents `count` is what they say
    themselves. `names` and `pairs` are fewer than `count` where some were left out.
    """

    kind: str
    count: int
    names: tuple[str, ...] = ()
    pairs: tuple[Pair, ...] = ()


class Facts(NamedTuple):
    """What a card may show of a payload: its sections; and how many sections, names and pairs were left out."""

    sections: tuple[Section, ...]
    left_out: int


class Names(NamedTuple):
    """The names of the files, and how many names were left out."""

    names: tuple[str, ...]
    left_out: int


class _Part(NamedTuple):
    """A section of a public copy: what it is, what it counts, and where its entries begin."""

    tag: Tag
    counted: int
    entries: int

    def lines(self) -> int:
        """How many facts it is: itself, and each of its names or pairs."""
        return 1 + self.counted if self.tag in (Tag.NAMES, Tag.ARGUMENTS) else 1


def facts(payload: "Buffer", most: Optional[int] = 1000) -> Facts:
    """Tells all that a card may show: sections, counts, names of files, argument pairs, in the payload's order.

    It tells at most `most` sections, names and pairs in all (None: every one), and how many were left out. So whatever
    was posted it takes some tenths of a second, and the bytes of the public copy beside what it tells. A text may be as
    long as the payload, and takes up to five times its bytes while it is decoded.

    >>> payload = write(b"", b"sky.hlsl", [Row(Tag.NAMES), Row(Tag.NAME, Side.EDIT, a=0, b=8, c=1)])
    >>> facts(payload)
    Facts(sections=(Section(kind='names', count=1, names=('sky.hlsl',), pairs=()),), left_out=0)
    >>> facts(payload, most=1)
    Facts(sections=(Section(kind='names', count=1, names=(), pairs=()),), left_out=1)
    """
    room = _room(most)
    copy = own_copy(payload)
    sections = []
    left_out = 0
    for part in _parts(copy):
        told = min(room, part.lines())
        if told:
            sections.append(_section(copy, part, told - 1))
        room -= told
        left_out += part.lines() - told
    return Facts(tuple(sections), left_out)


def names(payload: "Buffer", most: Optional[int] = 1000) -> Names:
    """Tells the names of the files: at most `most` (None: every one), and how many were left out.

    A name is a stranger's text of up to 65,515 bytes. It may have line breaks, characters that do not show or that turn
    a line around, and what a chat server takes for a mention or a link.

    >>> payload = write(b"", b"sky.hlsl", [Row(Tag.NAMES)] + 3 * [Row(Tag.NAME, Side.EDIT, a=0, b=8, c=1)])
    >>> names(payload, most=2)
    Names(names=('sky.hlsl', 'sky.hlsl'), left_out=1)
    """
    room = _room(most)
    copy = own_copy(payload)
    found: list[str] = []
    left_out = 0
    for part in _parts(copy):
        if part.tag == Tag.NAMES:
            told = min(room, part.counted)
            found += islice(_names(copy, part.entries), told)
            room -= told
            left_out += part.counted - told
    return Names(tuple(found), left_out)


def first_lines(text: str, most: int) -> str:
    r"""Cuts a text to at most `most` characters: to its first lines, and one that tells how many more there are.

    A text that is short enough stays as it is. Where not even the line that tells of the others fits, nothing is left.

    >>> first_lines("// a line\n" * 60, 50)
    '// a line\n// a line\n//   .. 58 more line(s)\n'
    """
    if len(text) <= _room(most):
        return text
    left_out = text.count("\n") + (not text.endswith("\n"))
    end = shown = 0
    last = ""
    # a line more never makes the whole shorter, even where the number loses a digit: so the first that fails ends it
    while left_out and end + len(_more(left_out)) <= most:
        shown, last = end, _more(left_out)
        end = text.find("\n", end) + 1
        left_out -= 1
    return text[:shown] + last


def _more(lines: int) -> str:
    return f"//   .. {lines} more line(s)\n"


def _room(most: Optional[int]) -> int:
    if most is None:
        return sys.maxsize
    # a fraction would do until a payload has more
    most = operator.index(most)
    if most < 0:
        raise ValueError(f"most is {most}, and cannot be negative")
    return most


def _parts(copy: bytearray) -> Iterator[_Part]:
    place = _MAIN_HEADER
    while place < len(copy):
        size, _, kind = _SECTION.unpack_from(copy, place)
        yield _part(copy, kind, place + _SECTION.size)
        place += size


def _part(copy: bytearray, kind: int, body: int) -> _Part:
    if kind == _KIND_CONTENTS:
        _, _, compression, _, _, count = _CONTENTS.unpack_from(copy, body)
        return _Part(Tag.PACKED_CONTENTS if compression else Tag.PLAIN_CONTENTS, count, body + _CONTENTS.size)
    if kind == _KIND_NAMES:
        _, count, _ = _NAMES.unpack_from(copy, body)
        return _Part(Tag.NAMES, count, body + _NAMES.size)
    _, _, count = _ARGUMENTS.unpack_from(copy, body)
    return _Part(Tag.ARGUMENTS, count, body + _ARGUMENTS.size)


def _section(copy: bytearray, part: _Part, most: int) -> Section:
    """A section with at most so many of its names or pairs."""
    kind = part.tag.name.replace("_", " ").lower()
    told = min(most, part.counted)
    if part.tag == Tag.NAMES:
        return Section(kind, part.counted, names=tuple(islice(_names(copy, part.entries), told)))
    if part.tag == Tag.ARGUMENTS:
        texts = _texts(copy, part.entries)
        return Section(kind, part.counted, pairs=tuple(islice(map(Pair, texts, texts), told)))
    return Section(kind, part.counted)


def _names(copy: bytearray, place: int) -> Iterator[str]:
    """The names from an entry on. Whoever asks knows how many there are."""
    while True:
        size, _, text, _ = _NAME.unpack_from(copy, place)
        start = place + _NAME.size
        yield _text(copy, start, start + text - 1)
        place += size


def _texts(copy: bytearray, place: int) -> Iterator[str]:
    """The texts from a place on, each up to its NUL. Whoever asks knows how many there are."""
    while True:
        end = copy.index(0, place)
        yield _text(copy, place, end)
        place = end + 1


def _text(copy: bytearray, start: int, end: int) -> str:
    # a slice of the bytes themselves would be a copy more
    return str(memoryview(copy)[start:end], "utf-8")
