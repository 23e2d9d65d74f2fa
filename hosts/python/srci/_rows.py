"""The rows of a payload."""
import operator
from array import array
from collections.abc import Iterable, Iterator, Sequence
from enum import IntEnum
from typing import TYPE_CHECKING, NamedTuple, Optional, Union, overload

from ._tables import ROWS, Tag

if TYPE_CHECKING:
    from _typeshed import ReadableBuffer as Buffer


class Side(IntEnum):
    """Where a row's texts and bytes are."""

    PAYLOAD = 0
    EDIT = 1


class Row(NamedTuple):
    """A section of a payload, or an entry of the section before it: seven numbers."""

    tag: int
    side: int = 0
    a: int = 0
    b: int = 0
    c: int = 0
    d: int = 0
    e: int = 0

    def text(self, payload: "Buffer", edit: "Buffer" = b"") -> Optional[str]:
        """Tells the text of a content, of a name, or of a pair's name; None for other rows, and outside its side.

        It is UTF-8 in an accepted payload; of a row made by hand it may not be, which raises UnicodeDecodeError.
        """
        if self.tag in (Tag.CONTENT, Tag.NAME, Tag.PAIR):
            return _decoded(_part(self, payload, edit, self.a, self.b))
        return None

    def value(self, payload: "Buffer", edit: "Buffer" = b"") -> Optional[str]:
        """Tells the text of a pair's value; None for other rows, and outside its side."""
        if self.tag == Tag.PAIR:
            return _decoded(_part(self, payload, edit, self.c, self.d))
        return None

    def stored(self, payload: "Buffer", edit: "Buffer" = b"") -> Optional[memoryview]:
        """Lends the bytes of packed contents or of an unknown section; None for other rows, and outside its side."""
        if self.tag in (Tag.PACKED_CONTENTS, Tag.UNKNOWN):
            return _part(self, payload, edit, self.b, self.c)
        return None


Row.__doc__ = f"""{Row.__doc__}

{ROWS}
Numbers without a name are 0. Starts and lengths are of bytes in the row's side; a length leaves the terminator out.
"""

_WIDTH = len(Row._fields)


def _part(row: Row, payload: "Buffer", edit: "Buffer", start: int, length: int) -> Optional[memoryview]:
    if row.side not in (Side.PAYLOAD, Side.EDIT):
        return None
    side = memoryview(edit if row.side else payload).cast("B")
    is_inside = 0 <= start <= start + length <= len(side)
    return side[start : start + length] if is_inside else None


def _decoded(part: Optional[memoryview]) -> Optional[str]:
    return None if part is None else str(part, "utf-8")


class Rows(Sequence[Row]):
    """The rows of a payload, in its order. They do not change.

    A Row is made when it is asked for, since there may be 13 million. Rows are equal to other Rows, and to a list or a
    tuple, of the same rows. Like a list they have no hash.
    """

    def __init__(self, rows: Iterable[Sequence[int]] = ()) -> None:
        self._numbers = array("I")
        for row in rows:
            if len(row) != _WIDTH:
                raise TypeError(f"a row is {_WIDTH} numbers, not {len(row)}")
            self._numbers.extend(row)

    @classmethod
    def _of(cls, numbers: "array[int]") -> "Rows":
        """Takes over an array of whole rows, which nobody else may change from here on."""
        rows = cls()
        rows._numbers = numbers
        return rows

    def __len__(self) -> int:
        return len(self._numbers) // _WIDTH

    @overload
    def __getitem__(self, place: int) -> Row: ...

    @overload
    def __getitem__(self, place: slice) -> list[Row]: ...

    def __getitem__(self, place: Union[int, slice]) -> Union[Row, list[Row]]:
        if isinstance(place, slice):
            return [self[one] for one in range(len(self))[place]]
        at = range(len(self))[place] * _WIDTH
        return Row(*self._numbers[at : at + _WIDTH])

    def __iter__(self) -> Iterator[Row]:
        numbers = iter(self._numbers)
        return map(Row._make, zip(*[numbers] * _WIDTH))

    def __eq__(self, other: object) -> bool:
        if isinstance(other, Rows):
            return self._numbers == other._numbers
        if isinstance(other, (list, tuple)):
            return len(self) == len(other) and all(map(operator.eq, self, other))
        return NotImplemented

    def __repr__(self) -> str:
        return f"<{len(self)} row(s)>"
