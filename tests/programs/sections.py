"""Sections of a payload, each with what the listing, the card and the sheet say of it: worked out from what a section
is made of, and never from its bytes."""
import struct
from typing import Callable, Iterable, NamedTuple, Optional


class Section(NamedTuple):
    data: bytes
    listed: str  # its line after the place in brackets
    on_card: Optional[str]  # the same on the card, which has no line of an unknown section
    on_sheet: Callable[[], Iterable[bytes]]  # its lines, which are many: they are made when they are asked for


def padded(data):
    return data + bytes(-len(data) % 4)


def section(kind, body):
    """The bytes of a section."""
    data = padded(bytes(8) + body)
    return struct.pack("<IHH", len(data), 0, kind) + data[8:]


def entry(fields, text):
    """An entry of names or contents, whose fields after the flags are the text's size and these."""
    size = 12 + 4 * len(fields)
    data = padded(bytes(size) + text + b"\0")
    return struct.pack(f"<III{len(fields)}I", len(data), 0, len(text) + 1, *fields) + data[size:]


def on_sheet(*fields):
    """A line of a sheet: its word, and numbers, bytes and texts as they stand there."""
    return b"\t".join(b"%d" % field if isinstance(field, int) else field for field in fields) + b"\n"


def escaped(text):
    # backslashes first: the other escapes bring more of them
    return text.replace(b"\\", b"\\\\").replace(b"\t", b"\\t").replace(b"\n", b"\\n")


def contents(*texts, field=0):
    stored = b"".join(entry([], text) for text in texts)
    head = struct.pack("<IHHIII", field, 0, 0, len(stored), len(stored), len(texts))
    line = f"SourceContents: {len(texts)} uncompressed file(s)"

    def lines():
        yield on_sheet(b"contents", field)
        yield from (on_sheet(b"content", escaped(text)) for text in texts)

    return Section(section(0, head + stored), line, line, lines)


def packed(stored, count, unpacked=900, field=0):
    head = struct.pack("<IHHIII", field, 0, 1, len(stored), unpacked, count)
    listed, on_card = (f"SourceContents: {count} zlib file(s), {size} bytes" for size in (len(stored), 0))

    def lines():
        yield on_sheet(b"packed", field, count, unpacked, stored.hex().encode())

    return Section(section(0, head + stored), listed, on_card, lines)


def names(*files):
    """Names with the sizes of their contents."""
    stored = b"".join(entry([size], name) for name, size in files)
    head = struct.pack("<IIH", 0, len(files), len(stored))
    line = f"SourceNames: {len(files)} file(s)"

    def lines():
        yield on_sheet(b"names")
        yield from (on_sheet(b"name", size, escaped(name)) for name, size in files)

    return Section(section(1, head + stored), line, line, lines)


def arguments(*pairs):
    stored = b"".join(name + b"\0" + value + b"\0" for name, value in pairs)
    head = struct.pack("<III", 0, len(stored), len(pairs))
    line = f"Arguments: {len(pairs)} pair(s)"

    def lines():
        yield on_sheet(b"arguments")
        yield from (on_sheet(b"pair", escaped(name), escaped(value)) for name, value in pairs)

    return Section(section(2, head + stored), line, line, lines)


def unknown(kind, body=b""):
    assert kind >= 3 and len(body) % 4 == 0

    def lines():
        yield on_sheet(b"unknown", kind, body.hex().encode())

    return Section(section(kind, body), f"Unknown(0x{kind:04X}): {len(body)} bytes", None, lines)


def payload(*sections):
    data = b"".join(section.data for section in sections)
    return struct.pack("<IHH", 8 + len(data), 0, len(sections)) + data


def lines(said):
    """The heading, and a line for each of these."""
    numbered = [f"//   [{place}] {line}" for place, line in enumerate(said)]
    return "".join(line + "\n" for line in [f"// Shader Source Info: {len(said)} section(s)", *numbered])


def listing(*sections):
    return lines([section.listed for section in sections])


def card(*sections):
    return lines([section.on_card for section in sections if section.on_card is not None])


def sheet(*sections):
    return b"".join(line for section in sections for line in section.on_sheet())
