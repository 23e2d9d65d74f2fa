r"""SRCI payloads of compiled shaders, which carry source files and compiler arguments: what a bot may show of them.

    card(payload)                the card: a line for each known section, with what it counts
    first_lines(text, most)      a card cut to what a chat server takes
    names(payload, most=1000)    the names of the files
    facts(payload, most=1000)    all that a card may show: sections, counts, names, argument pairs
    public_copy(payload)         a payload that gives away these facts and nothing else
    listing(payload)             for the owner of a payload: the card, with packed sizes and unknown sections
    read(payload)                all that is in a payload, as rows
    write(payload, edit, rows)   a payload made of rows
    to_sheet(payload)            all that is in a payload, as lines for a text editor
    from_sheet(sheet)            a payload made of such lines

    >>> import srci
    >>> payload = bytes.fromhex(
    ...     "4c000000 0000 0200 28000000 0000 0100 00000000 01000000 1400 14000000 00000000 02000000 05000000"
    ...     "6100 0000 0000 1c000000 0000 0200 00000000 07000000 01000000 4500 6d61696e00 00")
    >>> print(srci.first_lines(srci.card(payload), 2000), end="")
    // Shader Source Info: 2 section(s)
    //   [0] SourceNames: 1 file(s)
    //   [1] Arguments: 1 pair(s)
    >>> names, left_out = srci.names(payload, most=20)
    >>> names, left_out
    (('a',), 0)

What strangers post is refused where it is no payload; all of these but write and from_sheet then raise Refused:

    >>> try:
    ...     shown = srci.card(b"GIF89a")
    ... except srci.Refused as refused:
    ...     shown = f"no card: {refused.name}"
    >>> shown
    'no card: ragged'

A card, names or facts of the longest payload, of 25 MB, take some tenths of a second. In asyncio, let a thread wait:

    card = await asyncio.to_thread(srci.card, payload)

A payload, an edit text or a sheet is any object with a buffer of contiguous bytes. It is not copied, and must not change
during a call: a job stores by what it has checked before. Where it is bytes, which cannot change, a call releases
Python's lock, and other threads go on. For anything else, as a bytearray, a memoryview or an mmap, it keeps the lock,
so that no other thread's Python code changes it; that keeps out neither what fills a buffer without the lock, as
readinto and recv_into do, nor another process, nor anything in a Python without that lock. Lend bytes, or a buffer that
is filled.

The seven jobs card, listing, public_copy, read, write, to_sheet and from_sheet are done by libsrci, whose every function
is proved: whatever bytes and rows come, each call ends, stays inside its buffers, and answers what its definition gives.
This package finds the sizes that a job needs, puts names to the numbers, and tells facts from the public copy. It is
tested, and not itself proved.
"""
from . import _tables
from ._jobs import card, from_sheet, listing, public_copy, read, to_sheet, write
from ._refused import REFUSALS, Refused
from ._rows import Row, Rows, Side
from ._shown import Facts, Names, Pair, Section, facts, first_lines, names
from ._tables import Tag

# Not `list`, which would hide Python's own.
__all__ = [
    "Facts",
    "LIMIT",
    "Names",
    "Pair",
    "REFUSALS",
    "Refused",
    "Row",
    "Rows",
    "Section",
    "Side",
    "Tag",
    "card",
    "facts",
    "first_lines",
    "from_sheet",
    "listing",
    "names",
    "public_copy",
    "read",
    "to_sheet",
    "write",
]
__version__ = _tables.VERSION

LIMIT = 26_214_400  # bytes of the longest payload

list = listing  # as the library names it

# Users find the classes here, and so do a traceback, a page of help and a pickle.
for _class in (Facts, Names, Pair, Refused, Row, Rows, Section, Side, Tag):
    _class.__module__ = __name__
del _class
