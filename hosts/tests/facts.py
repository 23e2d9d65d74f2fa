"""Python's facts, names and first lines: what they tell, and that they stay within their bounds whatever was posted.

What is expected is worked out from what a payload is made of; the rows of its public copy must tell the same.
"""
import random
import sys
import tracemalloc

import srci
from cases import line_cases, refusal_cases
from sections import arguments, card, contents, names, packed, payload, unknown
from srci import Facts, Names, Pair, Section, Tag
from trying import most_pairs, raises, repeated, run_tests

# What a section of these texts is, and what may be told of it: nothing of an unknown one.
SECTIONS = [
    (packed(b"closed", 2**32 - 1), Section("packed contents", 2**32 - 1)),
    (unknown(9, b"none of this"), None),
    (names((b"sky.hlsl", 77), ("новое имя\n".encode(), 3)), Section("names", 2, names=("sky.hlsl", "новое имя\n"))),
    (contents(b"secret", b""), Section("plain contents", 2)),
    (arguments((b"E", b"main"), (b"", b"")), Section("arguments", 2, pairs=(Pair("E", "main"), Pair("", "")))),
    (names(), Section("names", 0)),
    (arguments(), Section("arguments", 0)),
    (names((b"last", 1)), Section("names", 1, names=("last",))),
]
WHOLE = payload(*[data for data, _ in SECTIONS])
TOLD = tuple(told for _, told in SECTIONS if told)


def cut(sections, most):
    """The first of these sections, names and pairs, and how many are left out."""
    shown = []
    for section in sections:
        if most > 0:
            told = Section(section.kind, section.count, section.names[: most - 1], section.pairs[: most - 1])
            shown.append(told)
        most -= 1 + len(section.names) + len(section.pairs)
    return Facts(tuple(shown), max(0, -most))


def expect(data, sections):
    """The facts of a payload, all of them and up to every bound, and its names."""
    assert srci.facts(data, most=None) == Facts(tuple(sections), 0)
    all_names = tuple(name for section in sections for name in section.names)
    assert srci.names(data, most=None) == Names(all_names, 0)
    lines = sum(1 + len(section.names) + len(section.pairs) for section in sections)
    for most in range(lines + 2):
        assert srci.facts(data, most) == cut(sections, most), f"{most} of {sections}"
        assert srci.names(data, most) == (all_names[:most], max(0, len(all_names) - most)), f"{most} of {all_names}"


def told_by_rows(data):
    """The same from the rows of the public copy."""
    copy = srci.public_copy(data)
    sections = []
    for row in srci.read(copy):
        if row.tag < Tag.CONTENT:
            kind = Tag(row.tag).name.replace("_", " ").lower()
            sections.append(Section(kind, row.d if row.tag == Tag.PACKED_CONTENTS else 0))
            continue
        last = sections[-1]
        added_names = (row.text(copy),) if row.tag == Tag.NAME else ()
        added_pairs = (Pair(row.text(copy), row.value(copy)),) if row.tag == Tag.PAIR else ()
        sections[-1] = Section(last.kind, last.count + 1, last.names + added_names, last.pairs + added_pairs)
    return sections


def random_section(dice):
    """A section, and what may be told of it."""

    def text():
        return "".join(dice.choice("ab.é€\U0001f600\n") for _ in range(dice.choice([0, 0, 1, 2, 3, 4, 5, 9])))

    def several(make):
        return [make() for _ in range(dice.choice([0, 1, 2, 3, 7]))]

    kind = dice.randrange(5)
    if kind == 0:
        texts = several(text)
        return contents(*[text.encode() for text in texts]), Section("plain contents", len(texts))
    if kind == 1:
        count = dice.choice([0, 1, 5, 2**32 - 1])
        return packed(text().encode(), count), Section("packed contents", count)
    if kind == 2:
        files = several(text)
        told = Section("names", len(files), names=tuple(files))
        return names(*[(name.encode(), dice.randrange(2**32)) for name in files]), told
    if kind == 3:
        pairs = several(lambda: Pair(text(), text()))
        told = Section("arguments", len(pairs), pairs=tuple(pairs))
        return arguments(*[(name.encode(), value.encode()) for name, value in pairs]), told
    return unknown(dice.randrange(3, 2**16), bytes(4 * dice.randrange(4))), None


def test_facts():
    expect(WHOLE, TOLD)
    expect(payload(), ())
    expect(payload(unknown(3)), ())
    for buffer in (bytearray(WHOLE), memoryview(WHOLE)):
        assert srci.facts(buffer).sections == TOLD
    sections, left_out = srci.facts(WHOLE, most=3)
    assert (sections, left_out) == ((TOLD[0], Section("names", 2, names=("sky.hlsl",))), 9)
    found, left_out = srci.names(WHOLE, most=2)
    assert (found, left_out) == (("sky.hlsl", "новое имя\n"), 1)


def test_facts_of_random_payloads():
    dice = random.Random(22)
    for _ in range(200):
        made = [random_section(dice) for _ in range(dice.randrange(7))]
        data = payload(*[section for section, _ in made])
        told = [told for _, told in made if told]
        expect(data, told)
        assert told_by_rows(data) == told


def test_facts_of_the_cases_of_the_programs():
    for case in line_cases():
        assert srci.facts(case.data).sections == tuple(told_by_rows(case.data)), case.name
    for case in refusal_cases():
        number = int(case.printed["show_card"].split()[2])
        for job in (srci.facts, srci.names):
            assert raises(srci.Refused, job, case.data).number == number, case.name


def test_bounds_that_are_not_given():
    data = payload(*[names(*[(b"a", 1)] * 600)] * 2)
    assert srci.names(data) == srci.names(data, 1000) and srci.names(data).left_out == 200
    assert srci.facts(data) == srci.facts(data, 1000) and srci.facts(data).left_out == 202


def test_bounds_are_numbers_from_0():
    for job in (srci.facts, srci.names, srci.first_lines):
        data = "" if job is srci.first_lines else WHOLE
        raises(ValueError, job, data, -1)
        # nor fractions, which would do until a payload has more
        for most in (1.0, 1e9, "1"):
            raises(TypeError, job, data, most)
    assert srci.first_lines("", 0) == ""


def steps(job, *given):
    """What a job answers, how many lines of Python it runs, and how many bytes it holds at once."""
    ran = 0

    def trace(frame, event, argument):
        nonlocal ran
        ran += event == "line"
        return trace

    tracemalloc.start()
    sys.settrace(trace)
    try:
        answer = job(*given)
    finally:
        sys.settrace(None)
        _, most = tracemalloc.get_traced_memory()
        tracemalloc.stop()
    return answer, ran, most


def test_bounds_at_the_limit():
    pairs, count = most_pairs()
    told = Section("arguments", count, pairs=(Pair("", ""),) * 99)
    expect_bounded(pairs, Facts((told,), count - 99), Names((), 0), 2000)

    part = names(*[(b"", 1)] * 3276)
    count = (srci.LIMIT - 8) // len(part.data)
    files = repeated(part, count)
    told = Section("names", 3276, names=("",) * 99)
    expect_bounded(files, Facts((told,), count * 3277 - 100), Names(("",) * 100, count * 3276 - 100), 20_000)

    part = contents(*[b""] * 11)
    count = 65_535
    sections = repeated(part, count)
    told = Facts((Section("plain contents", 11),) * 100, count - 100)
    expect_bounded(sections, told, Names((), 0), 40 * count)


def expect_bounded(data, facts, names, most_steps):
    for job, expected in ((srci.facts, facts), (srci.names, names)):
        answer, ran, held = steps(job, data, 100)
        assert answer == expected, f"{answer}, not {expected}"
        assert ran < most_steps, f"{job.__name__}: {ran} lines of Python were run"
        # the public copy is held, and little beside it
        assert held < len(data) + 200_000, f"{job.__name__}: {held} bytes were held"


def test_a_text_as_long_as_the_payload():
    # a last character that makes Python keep four bytes for each of the others
    value = "a" * (srci.LIMIT - 40) + "\U0001f600"
    data = payload(arguments((b"", value.encode())))
    told, ran, held = steps(srci.facts, data, 2)
    assert told == Facts((Section("arguments", 1, pairs=(Pair("", value),)),), 0) and ran < 2000
    # the public copy, and the text five times
    assert held < 6 * len(data) + 200_000, f"{held} bytes were held"


def first_lines(text, most):
    """The definition: of all that fits, what has the most lines of the text."""
    lines = text.splitlines(keepends=True)
    cuts = ["".join(lines[:end]) + f"//   .. {len(lines) - end} more line(s)\n" for end in range(len(lines))]
    return max([cut for cut in ["", *cuts, text] if len(cut) <= most], key=lambda cut: (cut == text, cut.count("\n")))


def test_first_lines():
    dice = random.Random(3)
    texts = ["", "\n", "a", "a" * 50, "\n" * 120, "a\n" * 101, "a\nb", card(*[names()] * 12)]
    texts += ["\n".join("b" * dice.randrange(30) for _ in range(dice.randrange(13))) for _ in range(60)]
    for text in texts:
        for most in range(len(text) + 3):
            found = srci.first_lines(text, most)
            assert len(found) <= most and found == first_lines(text, most), f"{text!r}, {most}: {found!r}"


def test_first_lines_of_cards():
    # a line of 37 characters, ten of 32 and fifty of 33
    sixty = srci.card(payload(*[names()] * 60))
    assert len(sixty) == 2007
    assert srci.first_lines(sixty, 2000) == sixty[: 2007 - 33] + "//   .. 1 more line(s)\n"
    # a line of 40, ten of 32 and as many of 33 as fit before the last one of 27
    longest = srci.card(repeated(names(), 65_535))
    shown, ran, _ = steps(srci.first_lines, longest, 2000)
    assert shown == longest[: 40 + 10 * 32 + 48 * 33] + f"//   .. {65_536 - 59} more line(s)\n"
    assert ran < 1000, f"{ran} lines of Python were run"


run_tests(globals())
