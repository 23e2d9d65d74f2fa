"""The seven jobs of the library, each with an answer of the length that it needs."""
from array import array
from collections.abc import Iterable, Sequence
from typing import TYPE_CHECKING, Callable, TypeVar

from . import _calls
from ._refused import REFUSALS, Refused
from ._rows import Row, Rows

if TYPE_CHECKING:
    from _typeshed import ReadableBuffer as Buffer

_NO_ROWS, _NO_ROOM = (1 + REFUSALS.index(name) for name in ("no rows", "no room"))
_WIDTH = len(Row._fields)
_Stored = TypeVar("_Stored")


def card(payload: "Buffer") -> str:
    r"""Makes the card of a payload: the listing of its public copy.

    It counts sections, files and arguments, in ASCII. It has a line for each known section, and there may be 65,535:
    `first_lines` cuts it to what a chat server takes.

    >>> card(b"\x08\0\0\0\0\0\0\0")
    '// Shader Source Info: 0 section(s)\n'
    """
    return _output(lambda output: _calls.card(payload, output)).decode("ascii")


def listing(payload: "Buffer") -> str:
    r"""Lists a payload for its owner: the listing tells packed sizes and unknown sections, and a card does not.

    `srci.list` is another name of it.

    >>> listing(b"\x08\0\0\0\0\0\0\0")
    '// Shader Source Info: 0 section(s)\n'
    """
    return _output(lambda output: _calls.listing(payload, output)).decode("ascii")


def public_copy(payload: "Buffer") -> bytes:
    r"""Makes the public copy of a payload, from which nothing but the payload's public facts can be learnt.

    >>> public_copy(b"\x08\0\0\0\0\0\0\0")
    b'\x08\x00\x00\x00\x00\x00\x00\x00'
    """
    return bytes(own_copy(payload))


def own_copy(payload: "Buffer") -> bytearray:
    """The public copy as it was stored, which spares another copy of it."""
    return _output(lambda output: _calls.public_copy(payload, output))


def read(payload: "Buffer") -> Rows:
    r"""Reads a payload into its rows: all there is in it, and not its public facts alone.

    A row takes 28 bytes, so that 25 MB of empty pairs take 367 MB: `facts` and `names` need no rows.

    >>> read(b"\x08\0\0\0\0\0\0\0")
    <0 row(s)>
    """
    numbers, stored = _made(lambda table: _calls.read(payload, table), _NO_ROWS, _table)
    del numbers[_WIDTH * stored :]
    return Rows._of(numbers)


def write(payload: "Buffer", edit: "Buffer", rows: Iterable[Sequence[int]]) -> bytes:
    r"""Writes rows, whose texts and bytes lie in a payload and in an edit text, as a payload.

    >>> rows = [Row(Tag.NAMES), Row(Tag.NAME, Side.EDIT, a=0, b=8, c=1)]
    >>> payload = write(b"", b"sky.hlsl", rows)
    >>> [row.text(payload) for row in read(payload)]
    [None, 'sky.hlsl']
    """
    numbers = (rows if isinstance(rows, Rows) else Rows(rows))._numbers
    return bytes(_output(lambda output: _calls.write(payload, edit, numbers, output)))


def to_sheet(payload: "Buffer") -> bytes:
    r"""Makes the sheet of a payload, for a text editor: lines of UTF-8 that show everything in the payload.

    It shows packed and unknown bytes too: secrecy, which covers the public copy and the card, does not cover it. A line
    has a word and fields, parted by tabs:

    =========  ==============================================
    word       fields
    =========  ==============================================
    contents   header field
    content    text
    packed     header field, count, uncompressed bytes, bytes
    names      none
    name       content size, text
    arguments  none
    pair       name, value
    unknown    kind, bytes
    =========  ==============================================

    Numbers are decimal, bytes are pairs of hexadecimal digits, and in a text a backslash, a tab and a newline are
    written as a backslash followed by a backslash, t or n. The sheet is at most three and a half times as long as the
    payload. A file for it is opened with "wb": it is to stay as it is, byte for byte.

    >>> payload = write(b"", b"sky.hlsl", [Row(Tag.NAMES), Row(Tag.NAME, Side.EDIT, a=0, b=8, c=1)])
    >>> to_sheet(payload)
    b'names\nname\t1\tsky.hlsl\n'
    """
    return bytes(_output(lambda output: _calls.to_sheet(payload, output)))


def from_sheet(sheet: "Buffer") -> bytes:
    r"""Makes the payload of a sheet, whose lines are those of `to_sheet`: the payload's sheet is this one.

    A sheet is bytes, and a file of it is opened with "rb". Each line is closed by a newline, the last one too, and
    nothing is passed over: neither an empty line nor a carriage return. The first line at fault is refused, with its
    number from 1 as `second` where it is malformed or misplaced.

    >>> payload = from_sheet(b"names\nname\t1\tsky.hlsl\n")
    >>> to_sheet(payload)
    b'names\nname\t1\tsky.hlsl\n'
    >>> try:
    ...     from_sheet(b"arguments\nname\t1\tsky.hlsl\n")
    ... except Refused as refused:
    ...     print(refused)
    refused 20, bad line: A line of a sheet is malformed or misplaced. (line: 2)
    """
    return bytes(_output(lambda output: _calls.from_sheet(sheet, output)))


def _table(rows: int) -> "array[int]":
    return array("I", [0]) * (_WIDTH * rows)


def _made(
    job: Callable[[_Stored], tuple[int, int]], lacking: int, empty: Callable[[int], _Stored]
) -> tuple[_Stored, int]:
    """What a job stores in a buffer of the length that it needs, which the refusal of a shorter one tells."""
    buffer = empty(0)
    while True:
        number, second = job(buffer)
        if number == 0:
            return buffer, second
        if number != lacking:
            raise Refused(number, second)
        buffer = empty(second)


def _output(job: Callable[[bytearray], tuple[int, int]]) -> bytearray:
    output, stored = _made(job, _NO_ROOM, bytearray)
    del output[stored:]
    return output
