#!/usr/bin/env python3
"""Respells the repository's own definitions and lemmas: snake case for words, camel case for types and modules.

usage: tools/respell.py      at the top of the repository, once, after the kit's own respelling script

A word in lower camel case becomes snake case wherever it stands in a contract, a definition, a proof or a must-fail edit, and in the
pages that name it: bytesOf-add -> bytes_of-add, fromSheetAnswer -> from_sheet_answer. A lemma that would then have the name of a
definition gets `_lem` first. Functions and types of src/ are not touched, for none of them is in lower camel case.
"""

import glob
import re

# Lemmas whose names would fall together with the respelled name of a definition.
LEMMAS = ["closed_parts", "in_order", "is_digit", "pair_line", "pairs_end", "part_end", "same_tag"]
# A name of the library's that the kit's script leaves within a longer one.
OLDER = {"getD": "get_or"}

TOKEN = re.compile(r"[^\s(){}.;,:@\"`«»\[\]\\/|·*'!?=<>+&]+")
PIECE = re.compile(r"[a-z][A-Za-z0-9]*")
CAMEL = re.compile(r"(?<=[a-z0-9])([A-Z])(?=[a-z])")


def snake(piece):
    if piece in OLDER:
        return OLDER[piece]
    if PIECE.fullmatch(piece):
        return CAMEL.sub(lambda m: "_" + m.group(1).lower(), piece)
    return piece


def respelled(word):
    return "-".join(snake(piece) for piece in word.split("-"))


def turned(text, turn):
    return TOKEN.sub(lambda m: turn(m.group(0)), text)


def rewrite(path, turn):
    with open(path, encoding="utf-8", newline="") as f:
        old = f.read()
    new = turned(old, turn)
    if new != old:
        with open(path, "w", encoding="utf-8", newline="") as f:
            f.write(new)


def main():
    proofs = sorted(glob.glob("crates/**/*.antt", recursive=True))
    for path in proofs:
        rewrite(path, lambda word: word + "_lem" if word in LEMMAS else word)
        rewrite(path, respelled)
    words = set()
    for path in proofs:
        with open(path, encoding="utf-8") as f:
            words |= set(TOKEN.findall(f.read()))
    others = glob.glob("crates/**/*.rt", recursive=True) + glob.glob("crates/*/must-fail/*.edit")
    # what has happened keeps the names that things had then
    pages = [page for page in glob.glob("docs/*.md") + glob.glob("*.md") + glob.glob("crates/*.md") if page != "docs/CHANGES.md"]
    for path in sorted(others + pages):
        rewrite(path, lambda word: respelled(word) if respelled(word) in words else word)


main()
