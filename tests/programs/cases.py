#!/usr/bin/env python3
"""The inputs of the programs list_payload and show_card, and what document 01 says that each prints for them; run.sh
says how to call it.

Refusal 1 is of payloads over 26,214,400 bytes. The programs read none that long, so that no case has it.
"""
import pathlib
import struct
import subprocess
import sys
import threading
import time
import zlib
from bisect import bisect_right
from typing import NamedTuple

from sections import arguments, card, contents, entry, listing, names, packed, payload, section, unknown

MOST = 65536
PAUSE = 0.02  # seconds between pieces that trickle


class Case(NamedTuple):
    name: str
    data: bytes
    printed: dict  # by program


def shown(name, *sections):
    """A payload of these sections, which each program prints in its way."""
    return Case(name, payload(*sections), {"list_payload": listing(*sections), "show_card": card(*sections)})


def both(name, data, text):
    """An input of which both programs print the same."""
    return Case(name, data, {"list_payload": text, "show_card": text})


def refused(number, name, data):
    return both(f"refused {number}: {name}", data, f"// refused {number}\n")


def longer(name, data):
    return both(name, data, "// longer than 65536 bytes\n")


def changed(data, at, form, value):
    """The bytes with the number at a place changed."""
    number = struct.pack("<" + form, value)
    return data[:at] + number + data[at + len(number) :]


def whole(*bodies):
    """A payload of sections that are bytes alone."""
    return struct.pack("<IHH", 8 + sum(map(len, bodies)), 0, len(bodies)) + b"".join(bodies)


# document 01's sample, byte by byte
SAMPLE = bytes.fromhex(
    "4c000000 0000 0200"
    "28000000 0000 0100 00000000 01000000 1400"
    "14000000 00000000 02000000 05000000 6100 0000 0000"
    "1c000000 0000 0200 00000000 07000000 01000000 4500 6d61696e00 00"
)
SAMPLE_PRINTED = """\
// Shader Source Info: 2 section(s)
//   [0] SourceNames: 1 file(s)
//   [1] Arguments: 1 pair(s)
"""

# what a card leaves out, and what it keeps: packed contents, an unknown section, two names
FILES = entry([], b"float4 main() : SV_Target { return sky(); }\n") + entry([], b"float4 sky() { return 0.5; }\n")
STREAM = zlib.compress(FILES, 9)
SHOWN = [
    packed(STREAM, 2, len(FILES)),
    unknown(7, b"made by Mira"),
    names((b"sky.hlsl", 45), (b"light.hlsli", 30)),
    arguments((b"E", b"main"), (b"T", b"ps_6_0")),
]
SHOWN_LISTING = """\
// Shader Source Info: 4 section(s)
//   [0] SourceContents: 2 zlib file(s), 75 bytes
//   [1] Unknown(0x0007): 12 bytes
//   [2] SourceNames: 2 file(s)
//   [3] Arguments: 2 pair(s)
"""
SHOWN_CARD = """\
// Shader Source Info: 3 section(s)
//   [0] SourceContents: 2 zlib file(s), 0 bytes
//   [1] SourceNames: 2 file(s)
//   [2] Arguments: 2 pair(s)
"""


def one_line(said):
    """What is printed of one section."""
    return f"// Shader Source Info: 1 section(s)\n//   [0] {said}\n"


def line_cases():
    """Each kind of line, by hand."""
    nothing = "// Shader Source Info: 0 section(s)\n"
    yield both("the sample", SAMPLE, SAMPLE_PRINTED)
    yield Case("the payload of README", payload(*SHOWN), {"list_payload": SHOWN_LISTING, "show_card": SHOWN_CARD})
    yield both("no sections", payload(), nothing)
    for name, part, said in [
        ("no contents", contents(), "SourceContents: 0 uncompressed file(s)"),
        ("two contents", contents(b"", b"ab"), "SourceContents: 2 uncompressed file(s)"),
        ("ten contents", contents(*[b"x"] * 10), "SourceContents: 10 uncompressed file(s)"),
        ("packed, no bytes, count 5", packed(b"", 5), "SourceContents: 5 zlib file(s), 0 bytes"),
        ("no names", names(), "SourceNames: 0 file(s)"),
        ("a name that is EF BF BF", names((b"\xef\xbf\xbf", 0)), "SourceNames: 1 file(s)"),
        ("a hundred names", names(*[(b"n", 2**32 - 1)] * 100), "SourceNames: 100 file(s)"),
        ("no pairs", arguments(), "Arguments: 0 pair(s)"),
        ("three empty pairs", arguments(*[(b"", b"")] * 3), "Arguments: 3 pair(s)"),
    ]:
        yield both(name, payload(part), one_line(said))
    for name, part, said, on_card in [
        ("the largest count", packed(b"abc", 2**32 - 1), "4294967295 zlib file(s), 3", "4294967295 zlib file(s), 0"),
        ("1,000 bytes", packed(b"\xff" * 1000, 0), "0 zlib file(s), 1000", "0 zlib file(s), 0"),
    ]:
        texts = (one_line(f"SourceContents: {counted} bytes") for counted in (said, on_card))
        yield Case(f"packed, {name}", payload(part), dict(zip(("list_payload", "show_card"), texts)))
    for name, part, said in [
        ("the least kind", unknown(3), "Unknown(0x0003): 0 bytes"),
        ("letters in its kind", unknown(0xABCD, bytes(12)), "Unknown(0xABCD): 12 bytes"),
        ("the largest kind", unknown(0xFFFF, b"\x01" * 100), "Unknown(0xFFFF): 100 bytes"),
    ]:
        yield Case(f"unknown, {name}", payload(part), {"list_payload": one_line(said), "show_card": nothing})
    every = 3 * [contents(b"a"), names((b"a", 2)), arguments((b"E", b"main")), packed(b"z", 7), unknown(16, b"1234")]
    yield shown("fifteen sections of every kind", *every)


def refusal_cases():
    """Every refusal from 2 to 15, each for every reason that the table of refusals gives."""
    bare = bytes.fromhex("0800000000000000")
    one_name = payload(names((b"ab", 1)))  # the entry at 26, its text at 42, its padding at 45
    one_content = payload(contents(b"ab"))  # the entry at 36, its text at 48, its padding at 51
    one_pair = payload(arguments((b"ab", b"c")))  # the pair at 28, the padding at 33
    stream = payload(packed(b"abcde", 1))  # the bytes at 36, the padding at 41
    empty = payload(unknown(3))
    for number, name, data in [
        (2, "empty input", b""),
        (2, "one byte", b"\x08"),
        (2, "7 bytes", bare[:7]),
        (2, "9 bytes", bare + b"\0"),
        (2, "a byte less than the sample", SAMPLE[:-1]),
        (3, "eight zeros", bytes(8)),
        (3, "the length too large", changed(SAMPLE, 0, "I", 80)),
        (3, "flags", changed(SAMPLE, 4, "H", 1)),
        (4, "no bytes left for a section", changed(bare, 6, "H", 1)),
        (4, "a section of 4 bytes", changed(empty, 8, "I", 4)),
        (4, "a section of 46 bytes", changed(SAMPLE, 8, "I", 46)),
        (4, "a section past the end", changed(SAMPLE, 48, "I", 32)),
        (5, "section flags", changed(SAMPLE, 12, "H", 1)),
        (5, "flags of an unknown section", changed(empty, 12, "H", 0x8000)),
        (5, "flags of names", changed(one_name, 16, "I", 1)),
        (5, "flags of arguments", changed(one_pair, 16, "I", 256)),
        (5, "flags of contents", changed(one_content, 20, "H", 1)),
        (5, "flags of a name", changed(one_name, 30, "I", 1)),
        (5, "flags of a content", changed(one_content, 40, "I", 1)),
        (6, "names without a header", whole(section(1, bytes(8)))),
        (6, "arguments without a header", whole(section(2, bytes(8)))),
        (6, "contents without a header", whole(section(0, bytes(16)))),
        (6, "a name more than there are", changed(one_name, 20, "I", 2)),
        (6, "a content more than there are", changed(one_content, 32, "I", 2)),
        (7, "entry bytes of names too few", changed(one_name, 24, "H", 4)),
        (7, "pair bytes too many", changed(one_pair, 20, "I", 9)),
        (7, "stored bytes too many", changed(stream, 24, "I", 2**32 - 1)),
        (8, "after names", changed(one_name, len(one_name) - 1, "B", 1)),
        (8, "after pairs", changed(one_pair, 33, "B", 1)),
        (8, "after a stream", changed(stream, 41, "B", 1)),
        (8, "after a name", changed(one_name, 45, "B", 1)),
        (8, "after a content", changed(one_content, 51, "B", 1)),
        (9, "a name of size 0", changed(one_name, 34, "I", 0)),
        (9, "a content of size 0", changed(one_content, 44, "I", 0)),
        (9, "the aligned size of a name", changed(one_name, 26, "I", 24)),
        (9, "a content past its bytes", changed(changed(one_content, 36, "I", 20), 44, "I", 5)),
        (10, "a name", changed(one_name, 44, "B", 65)),
        (10, "a content", changed(one_content, 50, "B", 65)),
        (10, "a pair's name", changed(changed(one_pair, 30, "B", 65), 32, "B", 65)),
        (10, "a pair's value", changed(one_pair, 32, "B", 65)),
        (11, "a name of C0 80", changed(one_name, 42, "H", 0x80C0)),
        (11, "a name of ED A0 80", payload(names((b"\xed\xa0\x80", 0)))),
        (11, "a name of F4 90 80 80", payload(names((b"\xf4\x90\x80\x80", 0)))),
        (11, "a content of FF", payload(contents(b"\xff"))),
        (11, "a pair's name of 80", payload(arguments((b"\x80", b"")))),
        (11, "a pair's value of C2", payload(arguments((b"", b"\xc2")))),
        (12, "a name of a, NUL, b", payload(names((b"a\0b", 0)))),
        (12, "a content of NUL", payload(contents(b"\0"))),
        (13, "four zeros after the sample", changed(SAMPLE + bytes(4), 0, "I", 80)),
        (13, "a section more than the count", changed(SAMPLE, 6, "H", 1)),
        (13, "a name more than the count", changed(one_name, 20, "I", 0)),
        (13, "a content more than the count", changed(one_content, 32, "I", 0)),
        (13, "a pair more than the count", changed(one_pair, 24, "I", 0)),
        (14, "compression 2", changed(one_content, 22, "H", 2)),
        (14, "compression 65,535", changed(stream, 22, "H", 65535)),
        (15, "plain, uncompressed bytes one off", changed(one_content, 28, "I", 17)),
    ]:
        yield refused(number, name, data)


def long_text(least, one_more, text, length):
    """Sections of two kinds, the second with a line that is a byte longer, of which a program prints so many bytes."""
    count = bisect_right(range(MOST), length, key=lambda count: len(text(*[least] * count))) - 1
    more = length - len(text(*[least] * count))
    sections = [one_more] * more + [least] * (count - more)
    assert len(text(*sections)) == length and len(payload(*sections)) <= MOST
    return sections


def long_listing(length):
    return long_text(unknown(3), unknown(3, bytes(12)), listing, length)


def long_card(length):
    return long_text(names(), arguments(*[(b"", b"")] * 1000), card, length)


def size_cases():
    """The two sides of 65,536 bytes, of the listing, of the card, and of the input."""
    for length in [MOST - 1, MOST, MOST + 1, MOST + 2]:
        for what, sections in [("listing", long_listing(length)), ("card", long_card(length))]:
            case = shown(f"a {what} of {length} bytes", *sections)
            yield case._replace(printed={program: fitting(text) for program, text in case.printed.items()})
    most = [unknown(0xFFFF)] * ((MOST - 8) // 8)
    yield Case(
        "as many sections as 65536 bytes hold",
        payload(*most),
        {"list_payload": "// refused 19\n", "show_card": card(*most)},
    )
    yield refused(13, "before 19: a section more than the count", changed(payload(*most), 6, "H", len(most) - 1))
    for name, part in [
        ("unknown", unknown(9, bytes(MOST - 16))),
        ("packed", packed(b"\x01" * (MOST - 36), 3)),
        ("a content", contents(b"a" * (MOST - 49))),
        ("pairs", arguments(*[(b"", b"")] * ((MOST - 28) // 2))),
    ]:
        data = payload(part)
        assert len(data) == MOST
        yield shown(f"65536 bytes: {name}", part)
        yield longer(f"65537 bytes: {name}, and a byte", data + b"\0")
    largest = payload(contents(b"a" * (MOST - 49)))
    yield refused(3, "65536 zeros", bytes(MOST))
    yield refused(10, "65536 bytes, the last text open", largest[:-1] + b"a")
    yield refused(12, "65536 bytes, the last byte of the last text NUL", largest[:-2] + b"\0\0")
    yield refused(2, "65535 bytes", largest[:-1])
    yield longer("65537 zeros", bytes(MOST + 1))
    yield longer("65540 bytes, a payload", payload(unknown(9, bytes(MOST - 12))))
    yield longer("a million bytes, a payload", payload(unknown(9, bytes(999984))))
    yield longer("30 million bytes, past the limit of payloads", bytes(30_000_000))


def fitting(text):
    return text if len(text) <= MOST else "// refused 19\n"


def feed(pipe, pieces, pause):
    try:
        with pipe:
            for piece in pieces:
                time.sleep(pause)
                pipe.write(piece)
                pipe.flush()
            time.sleep(pause)
    except BrokenPipeError:
        pass  # the program reads no more than it needs


def printed(program, pieces, pause):
    """What the program prints for pieces that come through a pipe, and its exit status."""
    run = subprocess.Popen([program], stdin=subprocess.PIPE, stdout=subprocess.PIPE, stderr=subprocess.STDOUT)
    feeder = threading.Thread(target=feed, args=(run.stdin, pieces, pause))
    feeder.start()
    late = threading.Timer(60, run.kill)
    late.start()
    output = run.stdout.read()
    feeder.join()
    status = run.wait()
    late.cancel()
    return output, status


def cut(data, size):
    return [data[at : at + size] for at in range(0, len(data), size)]


def trickle_cases():
    """Input that comes in small pieces, with pauses: each case with how it is cut."""
    large = contents(b"a" * (MOST - 49))
    sample = both("the sample", SAMPLE, SAMPLE_PRINTED)
    yield sample, "byte by byte", cut(SAMPLE, 1)
    yield sample, "7 bytes at a time", cut(SAMPLE, 7)
    yield sample, "its last byte late", [SAMPLE[:-1], SAMPLE[-1:]]
    yield refused(2, "nothing", b""), "late", []
    yield refused(2, "7 bytes", bytes(7)), "byte by byte", cut(bytes(7), 1)
    case = shown("65536 bytes", large)
    yield case, "5,000 at a time", cut(case.data, 5000)
    yield case, "the last one late", [case.data[:-1], case.data[-1:]]
    yield longer("65537 bytes", case.data + b"\0"), "the last one late", [case.data, b"\0"]
    yield longer("100,000 bytes", bytes(100_000)), "9,000 at a time", cut(bytes(100_000), 9000)
    case = shown("a listing of 65536 bytes", *long_listing(MOST))
    yield case, "1,000 bytes at a time", cut(case.data, 1000)


def main(programs):
    cases = [(case, "whole", [case.data], 0) for make in (line_cases, refusal_cases, size_cases) for case in make()]
    cases += [(case, how, pieces, PAUSE) for case, how, pieces in trickle_cases()]
    failed = 0
    for program in programs:
        for case, how, pieces, pause in cases:
            output, status = printed(program, pieces, pause)
            expected = case.printed[program.name]
            what = f"{program.name}: {case.name}, {how}"
            if (output, status) == (expected.encode(), 0):
                print(f"ok: {what}")
            else:
                failed += 1
                print(f"FAILED: {what}: status {status}, {len(output)} bytes: {output[:200]!r}, not {expected[:200]!r}")
    print(f"{len(programs) * len(cases) - failed} passed, {failed} failed")
    return 1 if failed else 0


def stored(crate):
    """What a program is given and is expected to print in its crate."""
    return (crate / "stdin").read_bytes(), (crate / "stdout").read_text()


if __name__ == "__main__":
    crates = pathlib.Path(__file__).resolve().parents[2] / "crates"
    assert stored(crates / "list_payload") == (SAMPLE, SAMPLE_PRINTED)
    assert stored(crates / "show_card") == (payload(*SHOWN), SHOWN_CARD)
    sys.exit(main([pathlib.Path(program).absolute() for program in sys.argv[1:]]))
