"""Replays the stored calls of crates/replay through the Python package. Standard input is its data/calls.txt, and what
is printed must be its stdout; crates/replay/src/main.rt says what a line of each is.

With the argument `lent` each call is made on lent buffers, and keeps Python's lock, since they may change. With `owned`
it is made by the functions that allocate, on bytes, and so releases the lock; the answer is what a lent buffer of the
stored length would get.
"""
import sys
from array import array

import srci
from srci import _calls

NUMBERS, BYTES = 128, 512
UNTOUCHED, UNTOUCHED_BYTE = 0xA5A5A5A5, 0xA5
WIDTH = 7
JOBS = {
    "list": _calls.listing,
    "public_copy": _calls.public_copy,
    "card": _calls.card,
    "to_sheet": _calls.to_sheet,
    "from_sheet": _calls.from_sheet,
}


def print_table(number, second, table):
    stored = second * WIDTH if number == 0 else 0
    print(number, second, table[stored:].count(UNTOUCHED), *table[:stored])


def print_output(number, second, output):
    stored = second if number == 0 else 0
    print(number, second, output[stored:].count(UNTOUCHED_BYTE), output[:stored].hex())


def replay_lent(job, lent, payload, edit, rows):
    payload, edit = bytearray(payload), bytearray(edit)
    table, output = array("I", [UNTOUCHED]) * NUMBERS, bytearray([UNTOUCHED_BYTE]) * BYTES
    if job == "read":
        print_table(*_calls.read(payload, memoryview(table)[:lent]), table)
    elif job == "write":
        print_output(*_calls.write(payload, edit, array("I", rows), memoryview(output)[:lent]), output)
    else:
        print_output(*JOBS[job](payload, memoryview(output)[:lent]), output)


def replay_owned(job, lent, payload, edit, rows):
    try:
        if job == "read":
            made = [number for row in srci.read(payload) for number in row]
        elif job == "write":
            # the last row has too few numbers where the table is not of whole rows
            made = srci.write(payload, edit, [rows[at : at + WIDTH] for at in range(0, len(rows), WIDTH)])
        else:
            made = getattr(srci, job)(payload)
        number = 0
    except srci.Refused as refused:
        made, number, second = b"", refused.number, refused.second
    except TypeError:
        assert len(rows) % WIDTH
        made, number, second = b"", 17, 0
    if job == "read":
        if number == 0:
            second = len(made) // WIDTH
            number, made = (0, made) if second <= lent // WIDTH else (16, [])
        print_table(number, second, [*made] + [UNTOUCHED] * (NUMBERS - len(made)))
    else:
        made = made.encode("ascii") if isinstance(made, str) else made
        if number == 0:
            second = len(made)
            number, made = (0, made) if second <= lent else (19, b"")
        print_output(number, second, made + bytes([UNTOUCHED_BYTE]) * (BYTES - len(made)))


def main(replay):
    for line in sys.stdin:
        job, lent, payload, edit, rows, *_ = [*line.rstrip("\n").split(" "), "-", "-"]
        payload, edit = (bytes.fromhex(digits.replace("-", "")) for digits in (payload, edit))
        rows = [int(number) for number in rows.replace("-", "").split(",") if number]
        replay(job, int(lent), payload, edit, rows)


main({"lent": replay_lent, "owned": replay_owned}[sys.argv[1]])
