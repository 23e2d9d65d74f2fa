"""Runs the command as users do, and compares what it prints, stores and returns.

    command.py SRCI

What is expected is worked out apart from the library: by tests/programs from what a payload is made of, by hand, or
from the stored calls of crates/replay.
"""
import json
import os
import pathlib
import random
import re
import resource
import struct

from calling import fails, prints, run, run_tests
from cases import SAMPLE, line_cases, refusal_cases
from sections import arguments, card, contents, listing, names, packed, payload, sheet, unknown
from srci import LIMIT, REFUSALS, Refused

ROOT = pathlib.Path(__file__).resolve().parents[2]

# What the sentence of each refusal must say, by the specification's table.
MEANINGS = {
    1: "more than 26,214,400 bytes",
    2: "fewer than 8 bytes, or a length that is no multiple of 4",
    3: "main header",
    4: "A section's size is missing, under 8, no multiple of 4, or past the end",
    5: "Flags of a section, of its body or of an entry are set",
    6: "header of a section's body or of an entry does not fit",
    7: "section's size is not what",
    8: "padding byte is not zero",
    9: "text has size 0, its aligned size is wrong, or it runs past",
    10: "NUL that ends a text is missing",
    11: "not UTF-8 as RFC 3629",
    12: "NUL inside",
    13: "left after the last section or entry",
    14: "neither 0 (plain) nor 1 (packed)",
    15: "uncompressed size that is not that of their stored bytes",
    16: "table of rows is too short",
    17: "row breaks a rule of rows, or the table has a part of a row",
    18: "over 65,535 sections, 65,535 bytes of names in one, or 26,214,400 bytes",
    19: "output is too short",
    20: "line of a sheet is malformed or misplaced",
}


def is_refused(number, *words, place="", **options):
    fails(1, f"{place}: refused {number}, {REFUSALS[number - 1]}: ", *words, **options)
    fails(1, MEANINGS[number], *words, **options)


def stored_calls(job):
    calls = (ROOT / "crates/replay/data/calls.txt").read_text().splitlines()
    answers = (ROOT / "crates/replay/stdout").read_text().splitlines()
    for call, answer in zip(calls, answers):
        if call.startswith(f"{job} "):
            number, second, _, *stored = answer.split(" ")
            yield bytes.fromhex(call.split(" ")[2]), int(number), int(second), bytes.fromhex("".join(stored))


def test_the_sample(folder):
    prints((ROOT / "crates/show_card/stdout").read_text(), "--sample", cwd=folder)


def test_cards_and_listings(folder):
    file = folder / "payload"
    for case in line_cases():
        file.write_bytes(case.data)
        prints(case.printed["show_card"], "card", file)
        prints(case.printed["list_payload"], "list", file)
        prints(case.printed["show_card"], "card", "-", data=case.data)
        prints("accepted\n", "check", file)


def test_refused_payloads(folder):
    file, out = folder / "payload", folder / "out"
    for case in refusal_cases():
        number = int(case.printed["show_card"].split()[2])
        file.write_bytes(case.data)
        for command in (["check"], ["card"], ["facts"], ["facts", "--json"], ["list"], ["rows"], ["rows", "--json"]):
            is_refused(number, *command, file)
        is_refused(number, "public-copy", file, out)
        is_refused(number, "rename", file, "a", "b", out)
        is_refused(number, "sheet", file)
        is_refused(number, "sheet", file, out)
    is_refused(2, "check", "-")
    assert os.listdir(folder) == ["payload"]


# Of the cases of refusals, those whose fault is not in the first section.
AFTER = {
    "a section past the end": "section 1, at byte 48",
    "four zeros after the sample": "after the last section, at byte 76",
    "a section more than the count": "after the last section, at byte 48",
}


def moved(place, number, bytes):
    """A place behind so many more sections, of so many bytes."""
    place = re.sub(r"(?<=section )\d+", lambda found: str(int(found[0]) + number), place)
    return re.sub(r"(?<=byte )\d+", lambda found: str(int(found[0]) + bytes), place)


def test_places_of_refusals(folder):
    before = names((b"sky.hlsl", 45)).data + unknown(7, b"made by Mira").data
    for case in refusal_cases():
        number = int(case.printed["show_card"].split()[2])
        _, said, _ = run("check", "-", data=case.data)
        if number < 4:
            assert said.endswith(b".\n"), said
            continue
        name = case.name.split(": ", 1)[-1]
        place = AFTER.get(name, "section 0, at byte 8")
        assert said.endswith(f" ({place})\n".encode()), f"{case.name}: {said}, not {place}"
        assert run("sheet", "-", data=case.data)[1] == said
        length, flags, count = struct.unpack_from("<IHH", case.data)
        data = struct.pack("<IHH", length + len(before), flags, count + 2) + before + case.data[8:]
        place = moved(place, 2, len(before))
        _, said, _ = run("card", "-", data=data)
        assert said.endswith(f" ({place})\n".encode()), f"{case.name}: {said}, not {place}"


def test_the_place_is_the_first(folder):
    unpadded = arguments((b"E", b"main")).data[:-1] + b"\1"
    data = struct.pack("<IHH", 8 + 2 * len(unpadded) + 40, 0, 3) + names((b"a", 5)).data + 2 * unpadded
    fails(1, "(section 1, at byte 48)", "check", "-", data=data)


def test_meanings(folder):
    assert [*MEANINGS] == [*range(1, len(REFUSALS) + 1)]
    for number, words in MEANINGS.items():
        assert words in Refused(number).meaning
    assert str(Refused(16, 5)).endswith("(rows needed: 5)") and str(Refused(19, 5)).endswith("(bytes needed: 5)")
    assert str(Refused(20, 5)).endswith("(line: 5)")


def test_containers(folder):
    # the least container: a digest, versions 1 and 0, its size, and no parts
    for number, data in [(3, b"DXBC" + bytes(16) + struct.pack("<HHII", 1, 0, 32, 0)), (2, b"DXBC" + bytes(27))]:
        for words in (["card", "-"], ["public-copy", "-", "-"], ["rename", "-", "a", "b", "-"], ["sheet", "-"]):
            is_refused(number, *words, data=data)
            fails(1, "is a shader container; the payload is its part SRCI", *words, data=data)
    _, said, _ = run("card", "-", data=b"DXBD" + bytes(28))
    assert b"container" not in said


UNSEEN = "a\tb\nc\\d\r\x1b[2J\x7f\x85\u202e\u200b\U000e0041\u2028é\U0001f600\""
UNSEEN_FIELD = "a\\tb\\nc\\\\d\\r\\u{1b}[2J\\u{7f}\\u{85}\\u{202e}\\u{200b}\\u{e0041}\\u{2028}é\U0001f600\""


def test_facts(folder):
    sections = [
        packed(b"closed", 2**32 - 1),
        unknown(9, b"none of this"),
        names((b"sky.hlsl", 77), (UNSEEN.encode(), 3)),
        contents(b"secret", b""),
        arguments((b"E", b"main"), (b"", b"")),
        names(),
    ]
    table = [
        "section\tfact\tcount\tname\tvalue",
        "0\tpacked contents\t4294967295\t\t",
        "1\tnames\t2\t\t",
        "1\tname\t\tsky.hlsl\t",
        f"1\tname\t\t{UNSEEN_FIELD}\t",
        "2\tplain contents\t2\t\t",
        "3\targuments\t2\t\t",
        "3\tpair\t\tE\tmain",
        "3\tpair\t\t\t",
        "4\tnames\t0\t\t",
    ]
    prints("".join(line + "\n" for line in table), "facts", "-", data=payload(*sections))
    out, err, status = run("facts", "--json", "-", data=payload(*sections))
    assert (err, status) == (b"", 0)
    assert json.loads(out) == [
        {"section": "packed contents", "count": 2**32 - 1},
        {"section": "names", "count": 2, "names": ["sky.hlsl", UNSEEN]},
        {"section": "plain contents", "count": 2},
        {"section": "arguments", "count": 2, "pairs": [{"name": "E", "value": "main"}, {"name": "", "value": ""}]},
        {"section": "names", "count": 0, "names": []},
    ]
    assert not {"\x1b", "\x7f", "\x85", "\u202e", "\u200b", "\U000e0041", "\u2028"} & set(out.decode())
    prints("section\tfact\tcount\tname\tvalue\n", "facts", "-", data=payload())
    prints("[\n]\n", "facts", "-", "--json", data=payload(unknown(3)))


def test_characters_that_do_not_show(folder):
    # controls, separators of lines, annotations, the blank of Braille, and Unicode's Default_Ignorable_Code_Point
    ranges = """1-1f 7f-9f ad 34f 61c 115f-1160 17b4-17b5 180b-180f 200b-200f 2028-2029 202a-202e 2060-206f 2800 3164
        fe00-fe0f feff ffa0 fff0-fff8 fff9-fffb 1bca0-1bca3 1d173-1d17a e0000-e0fff"""
    ends = [[int(end, 16) for end in ends.split("-")] for ends in ranges.split()]
    unseen = {c for end in ends for c in range(end[0], end[-1] + 1)}
    beside = {c for end in ends for c in (end[0] - 1, end[-1] + 1)} - unseen - {0}
    written = {ord("\t"): "\\t", ord("\n"): "\\n", ord("\r"): "\\r", ord("\\"): "\\\\"}
    characters = sorted(unseen | beside | {ord("\\"), ord('"'), ord("é"), 0x1F600})
    data = payload(arguments(*[(chr(c).encode(), b"") for c in characters]))
    out, _, _ = run("facts", "-", data=data)
    shown = [written.get(c, f"\\u{{{c:x}}}" if c in unseen else chr(c)) for c in characters]
    assert [line.split("\t")[3] for line in out.decode().split("\n")[2:-1]] == shown
    out, _, _ = run("facts", "--json", "-", data=data)
    assert [pair["name"] for pair in json.loads(out)[0]["pairs"]] == [chr(c) for c in characters]
    assert not {chr(c) for c in unseen - {ord("\n")}} & set(out.decode())


def test_rows(folder):
    table = [
        "tag\trow\tside\tA\tB\tC\tD\tE\ttext\tvalue",
        "2\tnames\t0\t0\t0\t0\t0\t0\t\t",
        "6\tname\t0\t42\t1\t5\t0\t0\ta\t",
        "3\targuments\t0\t0\t0\t0\t0\t0\t\t",
        "7\tpair\t0\t68\t1\t70\t4\t0\tE\tmain",
    ]
    prints("".join(line + "\n" for line in table), "rows", "-", data=SAMPLE)
    fields = ["tag", "row", "side", "a", "b", "c", "d", "e", "text", "value"]
    rows = json.loads(run("rows", "-", "--json", data=SAMPLE)[0])
    words = [[int(word) if word.isdigit() else word for word in line.split("\t")] for line in table[1:]]
    expected = [dict(zip(fields, line)) for line in words]
    assert rows == [{field: value for field, value in row.items() if value != ""} for row in expected]
    others = [contents(UNSEEN.encode()), packed(b"\xff\xfe", 1, 5), unknown(9, b"\xff\xfe\xfd\xfc")]
    table = [
        "0\tplain contents\t0\t0\t0\t0\t0\t0\t\t",
        f"5\tcontent\t0\t48\t{len(UNSEEN.encode())}\t0\t0\t0\t{UNSEEN_FIELD}\t",
        f"1\tpacked contents\t0\t0\t{8 + len(others[0].data) + 28}\t2\t1\t5\t\t",
        f"4\tunknown\t0\t9\t{8 + len(others[0].data) + len(others[1].data) + 8}\t4\t0\t0\t\t",
    ]
    out, _, _ = run("rows", "-", data=payload(*others))
    assert out.decode().split("\n")[1:] == [*table, ""]
    assert json.loads(run("rows", "--json", "-", data=payload(*others))[0])[1]["text"] == UNSEEN


def test_public_copies(folder):
    file, out = folder / "payload", folder / "out"
    tried = 0
    for data, number, _, copy in stored_calls("public_copy"):
        if number == 0:
            file.write_bytes(data)
            prints("", "public-copy", file, out, "--force")
            assert out.read_bytes() == copy
            prints(copy, "public-copy", "-", "-", data=data)
            tried += 1
    assert tried > 50


def test_stored_sheets(folder):
    file, out = folder / "payload", folder / "out"
    accepted = refused = 0
    for data, number, _, lines in stored_calls("to_sheet"):
        file.write_bytes(data)
        if number == 0:
            prints(lines, "sheet", file)
            prints("", "sheet", file, out, "--force")
            assert out.read_bytes() == lines
            prints(data, "from-sheet", out, "-")
            accepted += 1
        elif number != 19:  # which the command answers itself
            is_refused(number, "sheet", file)
            refused += 1
    assert accepted > 10 and refused > 50


def test_stored_payloads_of_sheets(folder):
    file, out = folder / "a.sheet", folder / "out"
    accepted = refused = 0
    for data, number, second, made in stored_calls("from_sheet"):
        file.write_bytes(data)
        if number == 0:
            prints(made, "from-sheet", file, "-")
            prints("", "from-sheet", file, out, "--force")
            assert out.read_bytes() == made
            prints(data, "sheet", out)
            accepted += 1
        elif number != 19:  # which the command answers itself
            is_refused(number, "from-sheet", file, folder / "none", place=f"a.sheet:{second}" if number == 20 else "")
            refused += 1
    assert accepted > 10 and refused > 50
    assert sorted(os.listdir(folder)) == ["a.sheet", "out"]


PARTS_OF_EVERY_KIND = [
    contents(UNSEEN.encode(), b"", b"\\n\n\\\\", field=2**32 - 1),
    packed(b"\xff\x00closed", 2**32 - 1, 0, field=1),
    unknown(0xFFFF, bytes(range(256))),
    names((UNSEEN.encode(), 0), (b"sky.hlsl", 2**32 - 1)),
    arguments((b"E", b"main"), (b"\t", b"\n"), (b"", b"")),
    unknown(3),
    names(),
]


def test_sheets(folder):
    parts = PARTS_OF_EVERY_KIND
    file, out = folder / "payload", folder / "out"
    file.write_bytes(payload(*parts))
    prints(sheet(*parts), "sheet", file)
    prints(sheet(*parts), "sheet", "-", data=payload(*parts))
    for words in ([file, "-"], [file, "/dev/stdout"], ["-", "-", "--force"]):
        prints(sheet(*parts), "sheet", *words, data=payload(*parts))
    prints("", "sheet", file, out)
    assert out.read_bytes() == sheet(*parts)
    prints("names\nname\t5\ta\narguments\npair\tE\tmain\n", "sheet", "-", data=SAMPLE)
    # no sections, no lines: the file is there all the same
    prints("", "sheet", "-", data=payload())
    prints("", "sheet", "-", out, "--force", data=payload())
    assert out.read_bytes() == b""
    for case in line_cases():
        # a line for each row, which have a header line
        lines, rows = (run(command, "-", data=case.data)[0].count(b"\n") for command in ("sheet", "rows"))
        assert lines == rows - 1


def test_payloads_of_sheets(folder):
    parts = PARTS_OF_EVERY_KIND
    file, out = folder / "a.sheet", folder / "out"
    file.write_bytes(sheet(*parts))
    for words in ([file, "-"], [file, "/dev/stdout"], ["-", "-"], ["/dev/stdin", "-", "--force"]):
        prints(payload(*parts), "from-sheet", *words, data=sheet(*parts))
    prints("", "from-sheet", file, out)
    assert out.read_bytes() == payload(*parts)
    fails(3, "--force", "from-sheet", file, out)
    # no lines, no sections
    prints("", "from-sheet", "/dev/null", out, "--force")
    assert out.read_bytes() == payload()
    # in place of the sheet itself, which is read before
    prints("", "from-sheet", file, file, "--force")
    assert file.read_bytes() == payload(*parts)
    for case in line_cases():
        prints(case.data, "from-sheet", "-", "-", data=run("sheet", "-", data=case.data)[0])


def said_of(*lines, file="-", **options):
    """What is said of a sheet whose last line is at fault."""
    out, err, status = run("from-sheet", file, "-", data=b"".join(lines), **options)
    assert (out, status) == (b"", 1)
    return err.decode()


def test_lines_of_refusals(folder):
    bad = "refused 20, bad line: A line of a sheet is malformed or misplaced.\n"
    before = sheet(names((b"a", 5)))
    assert said_of(before, b"pair\tE\tmain\n") == f"srci: standard input:3: {bad}    pair\tE\tmain\n"
    assert said_of(before, b"\n", b"names\n") == f"srci: standard input:3: {bad}    (it is empty)\n"
    assert said_of(before, b"names") == f"srci: standard input:3: {bad}    names (no newline closes it)\n"
    # a text at fault has a line as well, whatever stands after it
    after = b"name\t1\t\0\nname\t1\t\xff\n"
    for number, line, shown in [(11, b"name\t1\t\xc3\xa9\xff", "name\t1\té\ufffd"),
                                (12, b"name\t1\ta\0b", "name\t1\ta\\u{0}b")]:
        told = said_of(before, b"names\n", line, b"\n", after)
        assert told.startswith(f"srci: standard input:4: refused {number}, {REFUSALS[number - 1]}: ")
        assert told.endswith(f"\n    {shown}\n")
    assert said_of(before, b"arguments\npair\ta\0b\t\xff\n").startswith("srci: standard input:4: refused 12, ")
    # by the file's name as it was given, which editors and terminals open at the line
    for name, told in [("sky.sheet", "sky.sheet"), ("a\x1b\n.sheet", "a\\u{1b}\\n.sheet"), (b"\xff", '"\\\\xFF"')]:
        pathlib.Path(os.fsdecode(os.path.join(os.fsencode(folder), os.fsencode(name)))).write_bytes(before * 5 + b"x\n")
        assert said_of(file=name, cwd=folder) == f"srci: {told}:11: {bad}    x\n"
    # what does not show in a line, or is no text, does nothing to a terminal; what the sheet escapes stays
    line = "name\t5\ta\\\\b\\t\x1b[2J\r\x7f\u202eé\U0001f600"
    shown = "name\t5\ta\\\\b\\t\\u{1b}[2J\\u{d}\\u{7f}\\u{202e}é\U0001f600"
    assert said_of(line.encode() + b"\n") == f"srci: standard input:1: {bad}    {shown}\n"
    assert said_of(b"\xff\x00a\n") == f"srci: standard input:1: {bad}    \ufffd\\u{{0}}a\n"
    # and the beginning of a long one is enough
    for letter in ("a", "é", "\U0001f600"):
        for count in (160, 161, 1_000_000):
            shown = letter * 160 + (" .." if count > 160 else "")
            assert said_of(letter.encode() * count + b"\n") == f"srci: standard input:1: {bad}    {shown}\n"
    # what is for all lines names the file
    long = b"name\t1\t" + b"n" * 65_516 + b"\n"
    assert said_of(before, long).startswith(f"srci: standard input: refused 18, {REFUSALS[17]}: ")


def test_rename(folder):
    def made(name):
        first = names((name, 5), (b"other.hlsl", 7), (name, 9))
        around = [packed(b"closed", 3), unknown(0xFFFF, b"old!"), contents(b"old")]
        return payload(*around, first, arguments((b"old", b"old")), names(), names((name, 2**32 - 1)))

    file, out = folder / "payload", folder / "out"
    file.write_bytes(made(b"old"))
    for new in ["a", "a longer name.hlsl", "новое имя", "-", "old"]:
        prints("", "rename", file, "old", new, out, "--force")
        assert out.read_bytes() == made(new.encode())
    prints(made(b"--force"), "rename", "--", file, "old", "--force", "-")
    none = folder / "none"
    fails(1, 'no file is named "ol"', "rename", file, "ol", "new", none)
    fails(1, 'no file is named "OLD"', "rename", file, "OLD", "new", none)
    fails(1, "no file is named", "rename", file, b"\xff", "new", none)
    is_refused(11, "rename", file, "old", b"\xff", none)
    # two files would become one, or a file nameless, unless that is said
    fails(1, 'a file is named "other.hlsl" already', "rename", file, "old", "other.hlsl", none)
    fails(1, 'a file is named "old" already', "rename", file, "other.hlsl", "old", none)
    fails(1, "already", "rename", file, "old", "other.hlsl", out, "--force")
    nameless = payload(names((b"old", 1), (b"", 1)))
    fails(1, 'a file is named "" already', "rename", "-", "old", "", none, "--empty", data=nameless)
    fails(2, "NEW is empty", "rename", file, "old", "", none)
    fails(2, "NEW is empty", "rename", file, "old", "", none, "--merge")
    assert not none.exists()
    prints(made(b"other.hlsl"), "rename", "--merge", file, "old", "other.hlsl", "-")
    prints(made(b""), "rename", file, "old", "", "-", "--empty")
    prints("", "rename", file, "old", "in place", file, "--force")
    assert file.read_bytes() == made(b"in place")
    one = payload(names((b"old", 1)))
    prints(payload(names((b"n" * 65_515, 1))), "rename", "-", "old", "n" * 65_515, "-", data=one)
    is_refused(18, "rename", "-", "old", "n" * 65_516, "-", data=one)


def test_rename_among_others(folder):
    choose = random.Random(22)

    def some():
        """A section, with `None` where a file is renamed."""
        texts = [choose.choice([None, b"", b"a", b"sky.hlsl", "имя".encode()]) for _ in range(choose.randrange(5))]
        kind = choose.choice([contents, arguments, packed, unknown, names, names, names])
        files = [(text, choose.getrandbits(32)) for text in texts]
        return lambda name: {
            contents: lambda: contents(*[text or b"" for text in texts]),
            arguments: lambda: arguments(*[(text or b"old", b"old") for text in texts]),
            packed: lambda: packed(b"old"[: len(texts)], 2),
            unknown: lambda: unknown(9, b"old!" * len(texts)),
            names: lambda: names(*[(name if text is None else text, size) for text, size in files]),
        }[kind]()

    tried = 0
    for _ in range(150):
        sections = [some() for _ in range(choose.randrange(8))]
        new = choose.choice([b"n", b"newer name", b"n" * 1000])
        before, after = (payload(*[section(name) for section in sections]) for name in (b"old", new))
        if before != after:
            prints(after, "rename", "-", "old", new, "-", data=before)
            tried += 1
    assert tried > 50


def limit_memory():
    resource.setrlimit(resource.RLIMIT_AS, (150 << 20, 150 << 20))


def test_memory(folder):
    pairs, old = (LIMIT - 28 - 40) // 2, names((b"old", 1))
    file = folder / "payload"
    file.write_bytes(payload(arguments(*[(b"", b"")] * pairs), old))
    with open("/dev/null", "wb") as null:
        for words in (["facts", file], ["facts", file, "--json"], ["public-copy", file, "-"]):
            assert run(*words, stdout=null, preexec_fn=limit_memory)[1:] == (b"", 0)
        for command in ("card", "list", "check"):
            assert run(command, file, stdout=null, preexec_fn=limit_memory)[1:] == (b"", 0)
    # 92 MB beside the payload's 25
    prints("", "sheet", file, folder / "sheet", preexec_fn=limit_memory)
    assert (folder / "sheet").read_bytes() == b"arguments\n" + b"pair\t\t\n" * pairs + sheet(old)
    prints("", "from-sheet", folder / "sheet", folder / "back", preexec_fn=limit_memory)
    assert (folder / "back").read_bytes() == file.read_bytes()
    new = payload(arguments(*[(b"", b"")] * pairs), names((b"new", 1)))
    prints("", "rename", file, "old", "new", folder / "out", preexec_fn=limit_memory)
    assert (folder / "out").read_bytes() == new
    # 13 million rows are 367 MB
    fails(3, "not enough memory", "rows", file, preexec_fn=limit_memory)
    # and what is refused at its end
    with file.open("r+b") as data:
        data.seek(-1, os.SEEK_END)
        data.write(b"\1")
    place = f"(section 1, at byte {LIMIT - 40})"
    for command in ("check", "facts", "rows", "sheet"):
        fails(1, place, command, file, preexec_fn=limit_memory)


def test_the_limit(folder):
    part = contents(b"a" * 26_214_351)
    file, out = folder / "payload", folder / "out"
    file.write_bytes(payload(part))
    assert file.stat().st_size == LIMIT
    prints("accepted\n", "check", file)
    prints(card(part), "card", file)
    prints(listing(part), "list", "-", data=file.read_bytes())
    prints("", "public-copy", file, out)
    assert out.read_bytes() == payload(contents(b""))
    prints("", "sheet", file, folder / "sheet")
    assert (folder / "sheet").read_bytes() == sheet(part)
    prints("", "from-sheet", folder / "sheet", out, "--force")
    assert out.read_bytes() == payload(part)
    assert len(run("rows", file)[0]) > 26_214_351
    with file.open("ab") as more:
        more.write(b"\0")
    is_refused(1, "card", file)
    is_refused(1, "sheet", file)
    is_refused(1, "check", "-", data=file.read_bytes())
    with open("/dev/zero", "rb") as endless:
        is_refused(1, "check", "-", stdin=endless)
    # a sheet is refused by its lines, and only then for its length
    pairs = (LIMIT - 28) // 2
    longest = b"arguments\n" + b"pair\t\t\n" * pairs
    assert len(longest) == LIMIT * 7 // 2 - 88
    for number, place, more in [(18, "", b"pair\t\t\n"), (20, f"input:{pairs + 2}", b"pair\t\n"),
                                (18, "", b"pair\t\t\n" * 20), (20, f"input:{pairs + 2}", b"pair\t\n" * 20),
                                (18, "", b"pair\t\t" + b"a" * 100 + b"\n")]:
        is_refused(number, "from-sheet", "-", out, "--force", data=longest + more, place=place)
    with open("/dev/zero", "rb") as endless:
        is_refused(18, "from-sheet", "-", out, "--force", stdin=endless)
    # a name at the limit, so that what is written is as long as it may be
    names_and_rest = payload(names((b"old", 1)), unknown(3, b"u" * (LIMIT - 8 - 40 - 8)))
    assert len(names_and_rest) == LIMIT
    file.write_bytes(names_and_rest)
    prints("", "rename", file, "old", "new", out, "--force")
    assert out.read_bytes() == names_and_rest.replace(b"old\0", b"new\0", 1)
    is_refused(18, "rename", file, "old", "newer", out, "--force")
    assert out.read_bytes()[42:46] == b"new\0"


run_tests(globals())
