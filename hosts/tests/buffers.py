"""The Python package on buffers of every kind, and on payloads at the limit; Python's lock; refusals and rows."""
import asyncio
import contextlib
import copy
import mmap
import pickle
import sys
import tempfile
import threading
import time
import tracemalloc
from array import array

import srci
from sections import arguments, card, contents, listing, names, packed, payload, sheet, unknown
from srci import _calls
from trying import most_pairs, raises, run_tests

PARTS = [packed(b"closed", 2), unknown(7, b"abcd"), names((b"sky.hlsl", 5)), arguments((b"E", b"main"))]
PAYLOAD = payload(*PARTS)


def test_every_buffer():
    with tempfile.TemporaryFile() as file:
        file.write(PAYLOAD)
        file.flush()
        with mmap.mmap(file.fileno(), 0, access=mmap.ACCESS_READ) as mapped:
            expect_jobs(mapped)
    words = array("I", PAYLOAD)
    for buffer in (PAYLOAD, bytearray(PAYLOAD), memoryview(PAYLOAD), memoryview(b"abc" + PAYLOAD)[3:], words):
        expect_jobs(buffer)


def test_every_buffer_of_a_sheet():
    whole = sheet(*PARTS)
    with tempfile.TemporaryFile() as file:
        file.write(whole)
        file.flush()
        with mmap.mmap(file.fileno(), 0, access=mmap.ACCESS_READ) as mapped:
            assert srci.from_sheet(mapped) == PAYLOAD
    for buffer in (whole, bytearray(whole), memoryview(whole), memoryview(b"abc" + whole)[3:], array("B", whole)):
        assert srci.from_sheet(buffer) == PAYLOAD


def expect_jobs(buffer):
    assert srci.list(buffer) == listing(*PARTS)
    assert srci.card(buffer) == card(*PARTS)
    copy = payload(packed(b"", 2, 0), names((b"sky.hlsl", 1)), arguments((b"E", b"main")))
    assert srci.public_copy(buffer) == copy
    assert srci.to_sheet(buffer) == sheet(*PARTS)
    rows = srci.read(buffer)
    assert srci.write(buffer, b"", rows) == PAYLOAD
    assert [row.text(buffer) for row in rows] == [None, None, None, "sky.hlsl", None, "E"]
    assert [row.value(buffer) for row in rows] == [None] * 5 + ["main"]
    assert [row.stored(buffer) for row in rows] == [b"closed", b"abcd"] + [None] * 4


def test_not_a_buffer():
    jobs = srci.read, srci.listing, srci.public_copy, srci.card, srci.facts, srci.names, srci.to_sheet, srci.from_sheet
    for job in jobs:
        raises(TypeError, job, "a text")
        raises(BufferError, job, memoryview(PAYLOAD)[::2])


def test_a_lent_bytearray_can_be_resized_afterwards():
    buffer = bytearray(PAYLOAD)
    srci.card(buffer)
    buffer += b"more"
    assert raises(srci.Refused, srci.card, buffer).number == 3
    buffer.clear()
    assert raises(srci.Refused, srci.card, buffer).number == 2


def test_an_interrupted_call_gives_its_buffer_back():
    def interrupted(*given):
        get_buffer(*given)
        raise KeyboardInterrupt

    buffer = bytearray(PAYLOAD)
    get_buffer, _calls._get_buffer = _calls._get_buffer, interrupted
    try:
        raises(KeyboardInterrupt, srci.card, buffer)
    finally:
        _calls._get_buffer = get_buffer
    buffer += b"more"


PAIRS = payload(arguments(*[(b"", b"")] * 1_000_000))
SHEET = b"arguments\n" + b"pair\t\t\n" * 1_000_000
PATIENCE = 30  # seconds


class Changing(bytes):
    """A subclass of bytes, which may have a buffer that changes."""


@contextlib.contextmanager
def lock_is_given_alone():
    """Here no thread takes Python's lock from another that does not give it."""
    interval = sys.getswitchinterval()
    sys.setswitchinterval(1000)
    try:
        yield
    finally:
        sys.setswitchinterval(interval)


@contextlib.contextmanager
def other_thread():
    """How often another thread has had its turn, as a function; it has one only where this thread gives the lock."""
    turns = 0
    is_over = False

    def count():
        nonlocal turns
        while not is_over:
            turns += 1
            time.sleep(0.0001)

    thread = threading.Thread(target=count, daemon=True)
    with lock_is_given_alone():
        thread.start()
        while turns < 3:
            time.sleep(0.001)
        yield lambda: turns
    is_over = True
    thread.join()


def turns_taken(turns, call):
    """How many turns another has while this call is made, again and again until there are some."""
    before, end = turns(), time.monotonic() + PATIENCE
    while turns() - before < 3 and time.monotonic() < end:
        call()
    return turns() - before


def test_a_call_on_bytes_releases_pythons_lock():
    rows = srci.read(PAIRS)
    for call in (
        lambda: srci.card(PAIRS),
        lambda: srci.listing(PAIRS),
        lambda: srci.public_copy(PAIRS),
        lambda: srci.to_sheet(PAIRS),
        lambda: srci.from_sheet(SHEET),
        lambda: srci.facts(PAIRS),
        lambda: srci.read(PAIRS),
        lambda: srci.write(PAIRS, b"", rows),
    ):
        with other_thread() as turns:
            assert turns_taken(turns, call) >= 3


def test_a_call_on_what_may_change_keeps_pythons_lock():
    rows = srci.read(PAIRS)
    lent = bytearray(PAIRS)
    for call in (
        lambda: srci.card(lent),
        lambda: srci.listing(memoryview(lent)),
        lambda: srci.public_copy(memoryview(PAIRS)),
        lambda: srci.to_sheet(lent),
        lambda: srci.from_sheet(memoryview(SHEET)),
        lambda: srci.facts(lent),
        lambda: srci.read(Changing(PAIRS)),
        lambda: srci.write(lent, b"", rows),
        lambda: srci.write(PAIRS, bytearray(), rows),
    ):
        with other_thread() as turns:
            before = turns()
            for _ in range(3):
                call()
            assert turns() == before


def test_asyncio_stays_awake_with_to_thread():
    async def watched(job):
        turns = 0
        calling = asyncio.create_task(asyncio.to_thread(turns_taken, lambda: turns, lambda: job(PAIRS)))
        while not calling.done():
            await asyncio.sleep(0.0001)
            turns += 1
        return await calling

    for job in (srci.card, srci.names):
        with lock_is_given_alone():
            assert asyncio.run(watched(job)) >= 3


def test_refused():
    refused = raises(srci.Refused, srci.read, PAYLOAD[:-1])
    meaning = "The payload has fewer than 8 bytes, or a length that is no multiple of 4."
    for one in (refused, pickle.loads(pickle.dumps(refused)), copy.copy(refused)):
        assert (one.number, one.name, one.meaning, one.second) == (2, "ragged", meaning, 0)
        assert str(one) == f"refused 2, ragged: {meaning}"
    assert (srci.Refused(16, 5).second, srci.Refused(number=19).name) == (5, "no room")
    for number in (0, 21, -1, 2**32):
        raises(ValueError, srci.Refused, number)
    assert len(srci.REFUSALS) == 20
    for number, name in enumerate(srci.REFUSALS, 1):
        assert str(srci.Refused(number)).startswith(f"refused {number}, {name}: ")
    assert str(srci.Refused(19, 5)) == "refused 19, no room: The output is too short. (bytes needed: 5)"
    assert str(srci.Refused(20, 5)) == "refused 20, bad line: A line of a sheet is malformed or misplaced. (line: 5)"


# What a sheet escapes, at the ends of texts and alone, and what it leaves as it is.
ODD = [b"", b"\\", b"\t", b"\n", b"\\t\\n", b"\n\t\\a b\\\t\n", b"a\r\nb\r"]
ODD += ["\x01\x7f\x85\u202e\u2028é\U0001f600".encode()]


def odd_parts():
    return [
        contents(*ODD, field=2**32 - 1),
        packed(bytes(range(256)), 2**32 - 1, 2**32 - 1, field=7),
        names(*[(text, 10**place) for place, text in enumerate(ODD)]),
        arguments(*zip(ODD, reversed(ODD))),
        unknown(3),
        unknown(0xFFFF, bytes(range(255, -1, -1))),
        packed(b"", 0, 0),
        contents(),
        names(),
        arguments(),
    ]


def test_sheets():
    parts = odd_parts()
    assert srci.to_sheet(payload(*parts)) == sheet(*parts)
    for part in parts:
        assert srci.to_sheet(payload(part)) == sheet(part)
    assert srci.to_sheet(payload()) == b""


def test_payloads_of_sheets():
    parts = odd_parts()
    assert srci.from_sheet(sheet(*parts)) == payload(*parts)
    for part in parts:
        assert srci.from_sheet(sheet(part)) == payload(part)
    assert srci.from_sheet(b"") == payload()


def test_an_output_for_a_sheet():
    whole = sheet(*PARTS)
    for lent in range(len(whole) + 3):
        output = bytearray(b"\xa5" * (len(whole) + 8))
        number, second = _calls.to_sheet(PAYLOAD, memoryview(output)[:lent])
        assert (number, second) == (0 if lent >= len(whole) else 19, len(whole))
        stored = whole if number == 0 else b""
        assert output == stored + b"\xa5" * (len(output) - len(stored))
    assert _calls.to_sheet(payload(), bytearray()) == (0, 0)


def test_an_output_for_a_sheets_payload():
    given = sheet(*PARTS)
    for lent in range(len(PAYLOAD) + 3):
        output = bytearray(b"\xa5" * (len(PAYLOAD) + 8))
        number, second = _calls.from_sheet(given, memoryview(output)[:lent])
        assert (number, second) == (0 if lent >= len(PAYLOAD) else 19, len(PAYLOAD))
        stored = PAYLOAD if number == 0 else b""
        assert output == stored + b"\xa5" * (len(output) - len(stored))
    output = bytearray(b"\xa5" * 100)
    assert _calls.from_sheet(given[:-1], output) == (20, given.count(b"\n"))
    assert output == b"\xa5" * 100


# Lines at fault behind two that are not.
FAULTY = [
    (20, 3, b"\n"),
    (20, 3, b"pair\tT\tps_6_0"),
    (20, 3, b"name\t1\ta\n"),
    (20, 3, b"pair\tT\n"),
    (20, 3, b"names\r\n"),
    (20, 3, b"names\t\n"),
    (20, 3, b"contents\t01\n"),
    (20, 3, b"contents\t4294967296\n"),
    (20, 3, b"packed\t0\t1\t2\tFF\n"),
    (20, 3, b"unknown\t2\t\n"),
    (20, 3, b"unknown\t3\t0000\n"),
    (20, 3, b"pair\t\\x\t\n"),
    (20, 4, b"names\nname\t1\n"),
    (11, 0, b"pair\tT\t\xff\nmalformed\n"),
    (12, 0, b"pair\t\0\tps_6_0\nmalformed\n"),
    (18, 0, b"names\nname\t1\t" + b"n" * 65_516 + b"\n"),
    (18, 0, b"names\n" * 65_535),
]


def test_refused_lines():
    before = sheet(arguments((b"E", b"main")))
    for number, second, line in FAULTY:
        refused = raises(srci.Refused, srci.from_sheet, before + line)
        assert (refused.number, refused.second) == (number, second), line[:80]
    assert str(raises(srci.Refused, srci.from_sheet, b"\n")).endswith("(line: 1)")


def test_refused_sheets():
    for number, given in [(2, b""), (3, bytes(8)), (2, PAYLOAD[:-1]), (11, payload(names((b"\xff", 1))))]:
        refused = raises(srci.Refused, srci.to_sheet, given)
        assert (refused.number, refused.second) == (number, 0)


def test_equal_rows():
    rows = srci.read(PAYLOAD)
    others = srci.read(PAYLOAD[:8] + PAYLOAD[8:])
    assert rows == others and not rows != others and rows is not others
    assert rows == srci.Rows(rows) == pickle.loads(pickle.dumps(rows))
    for same in ([*rows], (*rows,), [tuple(row) for row in rows]):
        assert rows == same and same == rows and not rows != same
    changed = [*rows[:-1], rows[-1]._replace(d=3)]
    longer = [*rows, rows[-1]]
    for other in (changed, longer, [*rows[:-1]], [*rows[:-1], None], [*rows[:-1], "a"], []):
        assert rows != other and other != rows and rows != tuple(other)
    for other in (srci.Rows(changed), srci.Rows(longer), srci.Rows(), None, 6, "rows", b"", {}):
        assert rows != other and other != rows
    assert srci.Rows() == [] and srci.Rows() != "" and srci.Rows() != b""
    assert [*rows] == [rows[place] for place in range(len(rows))] and [*reversed(rows)] == [*rows][::-1]
    raises(TypeError, hash, rows)


def test_rows_are_compared_by_their_numbers():
    class Still(srci.Rows):
        def __iter__(self):
            raise AssertionError("a row was made")

        __getitem__ = __iter__

    still = Still([*srci.read(PAYLOAD)])
    assert still == Still([*srci.read(PAYLOAD)]) and still == srci.read(PAYLOAD) and still != Still()


def test_rows():
    rows = srci.read(PAYLOAD)
    assert len(rows) == 6 and rows[-1] == rows[5] and rows[1:3] == [rows[1], rows[2]]
    assert rows[0] == (srci.Tag.PACKED_CONTENTS, srci.Side.PAYLOAD, 0, 36, 6, 2, 900)
    raises(IndexError, lambda: rows[6])
    assert srci.write(PAYLOAD, b"", list(rows)) == PAYLOAD
    renamed = [row._replace(side=1, a=2, b=3) if row.tag == srci.Tag.NAME else row for row in rows]
    expected = [*PARTS[:2], names((b"new", 5)), PARTS[3]]
    assert srci.write(PAYLOAD, b"a new", renamed) == payload(*expected)
    assert renamed[3].text(PAYLOAD, b"a new") == "new"
    assert renamed[3].text(PAYLOAD, b"a ne") is None
    assert raises(srci.Refused, srci.write, PAYLOAD, b"a ne", renamed).number == 17
    for row in (srci.Row(6, 2, 0, 1), srci.Row(6, 0, -2, 1), srci.Row(6, 0, 1, -1), srci.Row(6, 0, len(PAYLOAD), 1)):
        assert row.text(PAYLOAD, PAYLOAD) is None
    raises(UnicodeDecodeError, srci.Row(6, 1, 0, 1).text, b"", b"\xff")
    raises(TypeError, srci.write, b"", b"", [(2, 0)])
    raises(OverflowError, srci.write, b"", b"", [(2**32, 0, 0, 0, 0, 0, 0)])


def test_the_limit():
    whole = payload(contents(b"a" * 26_214_351))
    assert len(whole) == srci.LIMIT
    tracemalloc.start()
    assert srci.card(memoryview(whole)) == card(contents(b""))
    _, peak = tracemalloc.get_traced_memory()
    tracemalloc.stop()
    assert peak < 100_000, f"{peak} bytes: a payload was copied"
    assert len(srci.public_copy(whole)) == 52
    assert srci.to_sheet(whole) == sheet(contents(b"a" * 26_214_351))
    assert srci.write(whole, b"", srci.read(whole)) == whole
    assert raises(srci.Refused, srci.card, whole + b"a").number == 1


def test_the_most_rows():
    whole, pairs = most_pairs()
    rows = srci.read(whole)
    assert len(rows) == 1 + pairs and rows[-1] == (7, 0, srci.LIMIT - 2, 0, srci.LIMIT - 1, 0, 0)


def test_the_longest_sheet():
    whole, pairs = most_pairs()
    assert srci.to_sheet(whole) == b"arguments\n" + b"pair\t\t\n" * pairs
    raises(srci.Refused, srci.to_sheet, whole + b"a")


def test_the_payload_of_the_longest_sheet():
    whole, pairs = most_pairs()
    longest = b"arguments\n" + b"pair\t\t\n" * pairs
    assert srci.from_sheet(longest) == whole
    assert raises(srci.Refused, srci.from_sheet, longest + b"pair\t\t\n").number == 18
    refused = raises(srci.Refused, srci.from_sheet, longest + b"pair\t\n")
    assert (refused.number, refused.second) == (20, pairs + 2)


run_tests(globals())
