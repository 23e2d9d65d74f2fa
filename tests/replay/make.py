#!/usr/bin/env python3
r"""Writes the calls and the expected answers of the program replay.

    mkdir -p target
    tests/oracle/run.sh PATH_TO_SRCI_RS rows 300 1 > target/rows.tsv
    tests/oracle/run.sh PATH_TO_SRCI_RS listings 100 2 > target/listings.tsv
    tests/oracle/run.sh PATH_TO_SRCI_RS copies 100 3 > target/copies.tsv
    tests/oracle/run.sh PATH_TO_SRCI_RS cards 60 4 > target/cards.tsv
    tests/replay/make.py read READ read tests/replay/samples.tsv read target/rows.tsv write WRITE \
        list LIST list tests/replay/list_samples.tsv list target/listings.tsv \
        public_copy COPY public_copy target/copies.tsv card REFUSED card target/cards.tsv \
        to_sheet TO_SHEET from_sheet FROM_SHEET

The arguments are jobs, each with a list of its calls. READ, WRITE, LIST and COPY are the lists of an
independent model of document 01; they are not in this repository. REFUSED has, for each refusal from 2 to 15,
the first three calls of COPY that get it: a refused payload has no public copy, and so no card. TO_SHEET and FROM_SHEET
are the lists of a model of request (a) of document 02.

A list has a call to a line, its fields parted by tabs; '-' is empty, bytes are hex, and lists have commas. A
line that begins with '#' is passed over. Of reading: the payload, how many numbers are lent, the number,
the second number, and the numbers of the stored rows. Of writing: the payload, the edit text, the table's
numbers, how many bytes are lent, the number, the second number, and the stored bytes. Of listing, of making public copies,
cards and sheets, and of making payloads of sheets: the payload or the sheet, how many bytes are lent, the number, the
second number, and the stored bytes.
"""
import pathlib
import sys

NUMBERS = 128  # the table of the program has so many numbers
BYTES = 512  # and its output so many bytes
LONGEST = 4096  # and it takes payloads, sheets and edit texts of so many bytes
SIZE = 524288  # and a file of calls of so many bytes


def listed(word):
    return [] if word == "-" else word.split(",")


def read(payload, lent, number, second, rows):
    payload = payload.replace("-", "")
    stored = listed(rows)
    assert int(lent) <= NUMBERS and len(payload) <= 2 * LONGEST
    return [lent, payload], [number, second, str(NUMBERS - len(stored)), *stored]


def write(payload, edit, rows, lent, number, second, stored):
    stored = stored.replace("-", "")
    assert int(lent) <= BYTES and len(listed(rows)) <= NUMBERS
    assert len(payload) <= 2 * LONGEST and len(edit) <= 2 * LONGEST
    return [lent, payload, edit, rows], [number, second, str(BYTES - len(stored) // 2), stored]


def made(given, lent, number, second, stored):
    given, stored = given.replace("-", ""), stored.replace("-", "")
    assert int(lent) <= BYTES and len(given) <= 2 * LONGEST
    return [lent, given], [number, second, str(BYTES - len(stored) // 2), stored]


JOBS = {"read": read, "write": write, "list": made, "public_copy": made, "card": made, "to_sheet": made, "from_sheet": made}


def main(words):
    calls, answers = [], []
    for job, path in zip(words[::2], words[1::2], strict=True):
        for line in pathlib.Path(path).read_text().splitlines():
            if line.startswith("#"):
                continue
            given, answer = JOBS[job](*line.split("\t"))
            calls.append(" ".join([job, *given]) + "\n")
            answers.append(" ".join(answer) + "\n")
    text = "".join(calls)
    assert len(text) <= SIZE
    crate = pathlib.Path(__file__).resolve().parents[2] / "crates" / "replay"
    (crate / "data").mkdir(exist_ok=True)
    (crate / "data" / "calls.txt").write_text(text)
    (crate / "stdout").write_text("".join(answers))


main(sys.argv[1:])
