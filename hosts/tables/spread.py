"""Writes the version, the refusals and the rows of this folder into the header, the packages and the page that tell
them.

    spread.py            writes them
    spread.py --check    fails where a file tells something else

A file has its part between a line that names it, `[tables: NAME]`, and a line `[tables: end]`; two files are made
whole.
"""
import csv
import pathlib
import re
import sys

TABLES = pathlib.Path(__file__).resolve().parent
HOSTS = TABLES.parent


def table(name, first):
    """The rows of a table, whose numbers go on from the first: they are told by their place in most files."""
    with open(TABLES / name, newline="") as file:
        rows = [*csv.reader(file, delimiter="\t", quoting=csv.QUOTE_NONE)][1:]
    assert [row[0] for row in rows] == [str(number) for number in range(first, first + len(rows))], name
    return rows


VERSION = (TABLES / "version.txt").read_text().strip()
REFUSALS = table("refusals.tsv", 1)  # number, name, meaning, second number
ROWS = [(tag, row, numbers) for tag, row, *numbers in table("rows.tsv", 0)]
LETTERS = "ABCDE"


def constant(name):
    return name.replace("'", "").replace("-", "").replace(" ", "_").upper()


def variant(name):
    """A refusal or a row as Rust and Rattle name it."""
    return "".join(word.capitalize() for word in constant(name).split("_"))


def quoted(text):
    assert '"' not in text and "\\" not in text
    return f'"{text}"'


def block(lines, indent=""):
    return "".join(f"{indent}{line}\n" for line in lines)


def told(numbers, letters):
    """What the numbers of a row are, each after its letter."""
    return ", ".join(f"{letter} {number}" for letter, number in zip(letters, numbers) if number) or "none"


def refusals():
    """The refusals, each as a tuple of Rust or Python."""
    return [f"({', '.join(map(quoted, told))})," for _, *told in REFUSALS]


# ---- C


def c_version():
    parts = zip(("MAJOR", "MINOR", "PATCH"), VERSION.split("."))
    numbers = [f"#define SRCI_VERSION_{name} {number}" for name, number in parts]
    return block([f"#define SRCI_VERSION {quoted(VERSION)}", *numbers])


def c_enum(name, members):
    # no comma after the last, which old compilers refuse
    return f"enum {name} {{\n" + ",\n".join(members) + "\n};\n"


def c_refusals():
    members = []
    for number, name, meaning, second in REFUSALS:
        more = f" The second number: {second}." if second else ""
        members.append(f"    /* {meaning}{more} */\n    SRCI_{constant(name)} = {number}")
    return c_enum("srci_refusal", members)


def c_texts(what, column):
    texts = ",\n".join(" " * 8 + quoted(refusal[column]) for refusal in REFUSALS)
    return f"""\
SRCI_INLINE const char *srci_refusal_{what}(uint32_t number)
{{
    static const char *const texts[] = {{
{texts}
    }};
    return number - 1 < sizeof texts / sizeof *texts ? texts[number - 1] : NULL;
}}
"""


def c_tags():
    return c_enum("srci_tag", [f"    SRCI_TAG_{constant(row)} = {tag}" for tag, row, _ in ROWS])


def c_numbers():
    members = ["    SRCI_TAG = 0", "    SRCI_SIDE = 1"]
    for _, row, numbers in ROWS:
        kind, gap = constant(row.split()[0]), "\n"
        for place, number in enumerate(numbers, 2):
            if number:
                members.append(f"{gap}    SRCI_{kind}_{constant(number.replace(' bytes', ''))} = {place}")
                gap = ""
    return c_enum("srci_number", members)


# ---- Rust


def rust_refusals():
    lines = []
    for _, name, meaning, second in REFUSALS:
        more = f" It tells the {second}." if second else ""
        if second.endswith(" needed"):
            # which the functions that allocate ask for themselves
            more = f" It tells the {second}; only [`crate::lent`] answers it."
        lines += [f"/// {meaning}{more}", f"{variant(name)}{'(u32)' if second else ''},"]
    return block(lines, "    ")


def rust_order():
    return block([f"Refusal::{variant(name)}{'(0)' if second else ''}," for _, name, _, second in REFUSALS], "    ")


def rust_rows():
    letters = [f"`{letter.lower()}`" for letter in LETTERS]
    return block(f"/// {line}" for line in page_table(["tag", "row", "numbers"], "|---|---|---|", row_cells(letters)))


def rust_tags():
    return block([f"pub const {constant(row)}: u32 = {tag};" for tag, row, _ in ROWS], "    ")


def rust_tables():
    rows = [f"({quoted(row)}, [{', '.join(map(quoted, numbers))}])," for _, row, numbers in ROWS]
    return f"""\
//! The version, the refusals and the rows, as hosts/tables has them; its `spread.py` writes this file.

/// The version of this package.
pub const VERSION: &str = {quoted(VERSION)};

/// The name of each refusal, what it means and what its second number is, by the numbers from 1.
#[rustfmt::skip]
pub(crate) const REFUSALS: [(&str, &str, &str); {len(REFUSALS)}] = [
{block(refusals(), "    ")}];

/// What a row is called, by its tag, and what its numbers A to E are; those that have no name are 0.
#[rustfmt::skip]
pub const ROWS: [(&str, [&str; {len(LETTERS)}]); {len(ROWS)}] = [
{block(rows, "    ")}];
"""


# ---- Python


def python_tables():
    tags = [f"{constant(row)} = {tag}" for tag, row, _ in ROWS]
    page = [f"{tag:4}  {row:15}  {numbers}" for tag, row, numbers in row_cells(LETTERS.lower())]
    rule = f"{'=' * 4}  {'=' * 15}  {'=' * max(len(line) - 23 for line in page)}"
    page = [rule, f"{'tag':4}  {'row':15}  numbers", rule, *page, rule]
    return f'''\
"""The version, the refusals and the rows, as hosts/tables has them; its spread.py writes this file."""
from enum import IntEnum
from typing import Final

VERSION: Final = {quoted(VERSION)}

# The name of each refusal, what it means and what its second number is, by the numbers from 1.
REFUSALS: Final = (
{block(refusals(), "    ")})


class Tag(IntEnum):
    """What a row is."""

{block(tags, "    ")}

# What the numbers of a row are, by its tag.
ROWS: Final = """\\
{block(page)}"""
'''


# ---- pages


def row_cells(letters):
    return [(tag, row, told(numbers, letters)) for tag, row, numbers in ROWS]


def page_table(titles, rule, cells):
    """Lines of a table in Markdown."""
    first, *rest = (f"| {' | '.join(line)} |" for line in [titles, *cells])
    return [first, rule, *rest]


def page_refusals():
    cells = [(number, name, meaning, second or "0") for number, name, meaning, second in REFUSALS]
    return block(page_table(["number", "name", "meaning", "second number"], "|--:|---|---|---|", cells))


def page_rows():
    return block(page_table(["tag", "row", "numbers"], "|--:|---|---|", row_cells(LETTERS)))


def package_version():
    return f"version = {quoted(VERSION)}\n"


WHOLE = {"rust/src/tables.rs": rust_tables, "python/srci/_tables.py": python_tables}
PARTS = {
    "c/srci.h": {
        "version": c_version,
        "refusals": c_refusals,
        "names of refusals": lambda: c_texts("name", 1),
        "meanings of refusals": lambda: c_texts("meaning", 2),
        "tags": c_tags,
        "numbers": c_numbers,
    },
    "rust/src/refusal.rs": {"refusals": rust_refusals, "order": rust_order},
    "rust/src/row.rs": {"rows": rust_rows, "tags": rust_tags},
    "rust/Cargo.toml": {"version": package_version},
    "python/pyproject.toml": {"version": package_version},
    "README.md": {"refusals": page_refusals, "rows": page_rows},
}


def spread(path):
    """What a file shall be."""
    if path in WHOLE:
        return WHOLE[path]()
    text = (HOSTS / path).read_text()
    for name, part in PARTS[path].items():
        found = rf"(\[tables: {name}\].*\n)(?:.*\n)*?(?=.*\[tables: end\])"
        text, count = re.subn(found, lambda match: match[1] + part(), text)
        assert count == 1, f"{path} has {count} parts {name!r}"
    return text


def is_told(path):
    file = HOSTS / path
    return file.exists() and file.read_text() == spread(path)


def main(words):
    if words not in ([], ["--check"]):
        sys.exit("usage: spread.py [--check]")
    wrong = [path for path in (*WHOLE, *PARTS) if not is_told(path)]
    if words and wrong:
        sys.exit(f"hosts/tables/spread.py would change {', '.join(wrong)}")
    for path in wrong:
        (HOSTS / path).write_text(spread(path))


if __name__ == "__main__":
    main(sys.argv[1:])
