"""The exception that a refused call raises."""
from ._tables import REFUSALS as _TABLE

# The names of the refusals, by their numbers from 1.
REFUSALS = tuple(name for name, _, _ in _TABLE)


class Refused(Exception):
    """A payload, or what was to be made one, rows or a sheet, got one of the refusals.

    >>> try:
    ...     card(b"not a payload")
    ... except Refused as refused:
    ...     print(refused.number, refused.name)
    ...     print(refused)
    2 ragged
    refused 2, ragged: The payload has fewer than 8 bytes, or a length that is no multiple of 4.

    `meaning` is that sentence. `second` is the line's number from 1 where a line of a sheet is at fault, and else 0: a
    refusal that tells a length is answered by this package itself.
    """

    def __init__(self, number: int, second: int = 0) -> None:
        if not 1 <= number <= len(_TABLE):
            raise ValueError(f"{number} is no refusal: they are numbered from 1 to {len(_TABLE)}")
        super().__init__(number, second)
        self.number = number
        self.name, self.meaning, _ = _TABLE[number - 1]
        self.second = second

    def __str__(self) -> str:
        _, _, second = _TABLE[self.number - 1]
        more = f" ({second}: {self.second})" if second else ""
        return f"refused {self.number}, {self.name}: {self.meaning}{more}"
