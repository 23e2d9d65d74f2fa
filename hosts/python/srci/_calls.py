"""The entry points of libsrci.so, declared for Python here alone, and calls of them on lent buffers.

Each function here returns the call's two numbers: 0 and the rows or bytes stored, or the refusal's number and its
second number. A payload, an edit text, a sheet, rows and an output are any objects with a buffer: bytes, bytearray,
memoryview, mmap, array. They are lent as they are, and never copied.

Python's lock is released where payload, edit text and sheet are bytes, which nobody can change. So rows and an output
must be the caller's own: nobody else may write to them during a call.
"""
from __future__ import annotations

import ctypes
import pathlib
from collections.abc import Callable
from typing import TYPE_CHECKING, Any, NamedTuple

if TYPE_CHECKING:
    from _typeshed import ReadableBuffer as Buffer

_PATH = pathlib.Path(__file__).with_name("libsrci.so")
if not _PATH.exists():
    raise ImportError(f"{_PATH} is not there: hosts/build.sh builds the package, with it, in build/python")

# The same library, by calls that keep Python's lock and by calls that release it.
_KEEPING = ctypes.PyDLL(str(_PATH))
_RELEASING = ctypes.CDLL(str(_PATH))

# A slice passes as a pointer and a length in elements.
_SLICE: list[Any] = [ctypes.c_void_p, ctypes.c_size_t]
_SECOND: list[Any] = [ctypes.POINTER(ctypes.c_uint32)]


class _Entry:
    """An entry point, declared once for both ways to call it."""

    def __init__(self, name: str, slices: int) -> None:
        self.argtypes = _SLICE * slices + _SECOND
        self.restype = ctypes.c_uint32
        self.keeping = self._declared(_KEEPING, name)
        self.releasing = self._declared(_RELEASING, name)

    def _declared(self, library: ctypes.CDLL, name: str) -> Callable[..., int]:
        entry = library[name]
        entry.argtypes = self.argtypes
        entry.restype = self.restype
        return entry

    def reading(self, *lent: Buffer) -> Callable[..., int]:
        """How to call it on what is lent to be read. A subclass of bytes may have a buffer that changes."""
        return self.releasing if all(type(owner) is bytes for owner in lent) else self.keeping


_srci_read = _Entry("srci_read", 2)  # payload, rows
_srci_write = _Entry("srci_write", 4)  # payload, edit, rows, output
_srci_list = _Entry("srci_list", 2)  # payload, output
_srci_public_copy = _Entry("srci_public_copy", 2)  # payload, output
_srci_card = _Entry("srci_card", 2)  # payload, output
_srci_to_sheet = _Entry("srci_to_sheet", 2)  # payload, output
_srci_from_sheet = _Entry("srci_from_sheet", 2)  # sheet, output


class _Buffer(ctypes.Structure):
    """Py_buffer, as Python's C interface has it."""

    _fields_ = [
        ("buf", ctypes.c_void_p),
        ("obj", ctypes.c_void_p),
        ("len", ctypes.c_ssize_t),
        ("itemsize", ctypes.c_ssize_t),
        ("readonly", ctypes.c_int),
        ("ndim", ctypes.c_int),
        ("format", ctypes.c_char_p),
        ("shape", ctypes.c_void_p),
        ("strides", ctypes.c_void_p),
        ("suboffsets", ctypes.c_void_p),
        ("internal", ctypes.c_void_p),
    ]


_SIMPLE, _WRITABLE = 0, 1
# in brackets, for functions of one's own: those after a dot are one for the whole process, and others declare them too
_get_buffer = ctypes.pythonapi["PyObject_GetBuffer"]
_get_buffer.argtypes = [ctypes.py_object, ctypes.POINTER(_Buffer), ctypes.c_int]
_release_buffer = ctypes.pythonapi["PyBuffer_Release"]
_release_buffer.argtypes = [ctypes.POINTER(_Buffer)]
_release_buffer.restype = None

# What a pointer leads to whose buffer has no bytes and may have no place either.
_NOTHING = ctypes.c_uint32()


class _Slice(NamedTuple):
    """What is lent for a slice: an object, how its buffer is asked for, and the bytes of an element."""

    owner: Buffer
    flags: int
    size: int


def _bytes(owner: Buffer) -> _Slice:
    return _Slice(owner, _SIMPLE, 1)


def _output(owner: Buffer) -> _Slice:
    return _Slice(owner, _WRITABLE, 1)


def _call(entry: Callable[..., int], *slices: _Slice) -> tuple[int, int]:
    second = ctypes.c_uint32()
    words: list[int] = []
    # all before the first is filled, so that whatever interrupts a call gives back each that is
    views = [_Buffer() for _ in slices]
    give_back = map(_release_buffer, views)  # does nothing to one that was not filled
    try:
        for view, (owner, flags, size) in zip(views, slices):
            _get_buffer(owner, view, flags)
            words += view.buf or ctypes.addressof(_NOTHING), view.len // size
        number = entry(*words, second)
    finally:
        list(give_back)  # at once: nothing interrupts between two of them
    return number, second.value


def read(payload: Buffer, rows: Buffer) -> tuple[int, int]:
    """Reads a payload into an array of unsigned 32-bit numbers."""
    return _call(_srci_read.reading(payload), _bytes(payload), _Slice(rows, _WRITABLE, 4))


def write(payload: Buffer, edit: Buffer, rows: Buffer, output: Buffer) -> tuple[int, int]:
    """Writes the rows in such an array, whose texts lie in a payload and an edit text."""
    slices = (_bytes(payload), _bytes(edit), _Slice(rows, _SIMPLE, 4), _output(output))
    return _call(_srci_write.reading(payload, edit), *slices)


def listing(payload: Buffer, output: Buffer) -> tuple[int, int]:
    """Stores the listing of a payload."""
    return _call(_srci_list.reading(payload), _bytes(payload), _output(output))


def public_copy(payload: Buffer, output: Buffer) -> tuple[int, int]:
    """Stores the public copy of a payload."""
    return _call(_srci_public_copy.reading(payload), _bytes(payload), _output(output))


def card(payload: Buffer, output: Buffer) -> tuple[int, int]:
    """Stores the card of a payload."""
    return _call(_srci_card.reading(payload), _bytes(payload), _output(output))


def to_sheet(payload: Buffer, output: Buffer) -> tuple[int, int]:
    """Stores the sheet of a payload."""
    return _call(_srci_to_sheet.reading(payload), _bytes(payload), _output(output))


def from_sheet(sheet: Buffer, output: Buffer) -> tuple[int, int]:
    """Stores the payload of a sheet."""
    return _call(_srci_from_sheet.reading(sheet), _bytes(sheet), _output(output))
