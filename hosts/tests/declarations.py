"""Compares with the Rattle source what the hosts declare: the entry points in C, Rust and Python, and the archive's;
the limit and the width of a row; and the refusals and rows of hosts/tables, which spread.py writes where they are told.
Looks in the Rust package for what its users need where more refusals come.

    declarations.py ARCHIVE

Nothing else compares them: a wrong declaration links.
"""
import ctypes
import pathlib
import re
import subprocess
import sys

import srci
from srci import _calls

ROOT = pathlib.Path(__file__).resolve().parents[2]
ARCHIVE = sys.argv[1]
sys.path.insert(0, str(ROOT / "hosts/tables"))
import spread  # noqa: E402

# What each parameter of the Rattle source is for a host: the type in C, in Rust and in Python.
LENGTH = ("size_t ", "usize", ctypes.c_size_t)
ADDRESS = ctypes.c_void_p
PASSED = {
    "&[u8]": ("const uint8_t *", "*const u8", ADDRESS),
    "&mut [u8]": ("uint8_t *", "*mut u8", ADDRESS),
    "&[u32]": ("const uint32_t *", "*const u32", ADDRESS),
    "&mut [u32]": ("uint32_t *", "*mut u32", ADDRESS),
    "&mut u32": ("uint32_t *", "*mut u32", ctypes.POINTER(ctypes.c_uint32)),
}


def text(path):
    return (ROOT / path).read_text()


def functions(pattern, source):
    """Names of functions, each with its parameters in a list."""
    found = re.findall(pattern, source)
    return {name: [" ".join(word.split()) for word in words.split(",") if word.strip()] for name, words in found}


def passed(parameters):
    """A host's parameters, from those of the Rattle source."""
    for parameter in parameters:
        name, kind = parameter.split(": ")
        kind = kind.replace("'a ", "")
        yield name, PASSED[kind]
        if "[" in kind:
            yield f"{name}_length", LENGTH


def same(what, found, expected):
    assert found == expected, f"{what}: {found}, not {expected}"
    print(f"ok: {what}: {len(found)}")


def told_by(*words):
    return subprocess.run([*words, ARCHIVE], capture_output=True, text=True, check=True).stdout


def symbols(option, kind):
    return sorted(re.findall(rf" {kind} (\w+)", told_by("nm", option)))


# Instructions that not every x86-64 processor has.
LATER = "|".join([
    r"(?:addsub|hadd|hsub)p[sd]|lddqu|mov(?:d|sh|sl)dup",  # SSE3
    r"pabs[bdw]|ph(?:add|sub)s?[dw]|psign[bdw]|pmaddubsw|pmulhrsw|pshufb|palignr",  # SSSE3
    r"p?blend\w+|dpp[sd]|(?:extract|insert)ps|p(?:extr|insr)[bdq]|pm(?:ax|in)(?:sb|sd|ud|uw)|pmov[sz]x\w+",  # SSE4
    r"movntdqa|mpsadbw|packusdw|pcmp(?:eq|gt)q|phminposuw|pmul(?:dq|ld)|ptest|round[ps][sd]|pcmp[ei]str[im]|crc32\w?",
    r"v\w+|popcnt|lzcnt|andn|bextr|bls\w+|bzhi|mulx|pdep|pext|rorx|s[ah][lr]x|movbe\w?|cmpxchg16b",  # AVX, and others
])


# ---- entry points

exported = r'#\[unsafe\(no_mangle\)\]\npub extern "C" fn (\w+)(?:<\'a>)?\(([^)]*)\) -> u32'
rattle = functions(exported, text("crates/srci/src/lib.rt"))
entries = {name: list(passed(parameters)) for name, parameters in rattle.items()}
assert len(entries) == 7

header = re.sub(r"/\*.*?\*/", "", text("hosts/c/srci.h"), flags=re.S)
in_c = {name: [c + name for name, (c, _, _) in words] for name, words in entries.items()}
same("declared in C", functions(r"uint32_t (srci_\w+)\(([^)]*)\);", header), in_c)

in_rust = {name: [f"{name}: {rust}" for name, (_, rust, _) in words] for name, words in entries.items()}
same("declared in Rust", functions(r"pub fn (srci_\w+)\(([^)]*)\) -> u32;", text("hosts/rust/src/sys.rs")), in_rust)

in_python = {name: [python for _, (_, _, python) in words] for name, words in entries.items()}
declared = {name[1:]: entry for name, entry in vars(_calls).items() if name.startswith("_srci_")}
for way in ("keeping", "releasing"):
    found = {name: getattr(entry, way) for name, entry in declared.items()}
    same(f"declared in Python, {way} the lock", {name: entry.argtypes for name, entry in found.items()}, in_python)
    assert all(entry.__name__ == name and entry.restype is ctypes.c_uint32 for name, entry in found.items())

assert symbols("--defined-only", "[A-Z]") == symbols("--defined-only", "T"), "the archive has more than functions"
same("in the archive", symbols("--defined-only", "T"), sorted(entries))
same("what the archive needs", symbols("--undefined-only", "U"), ["memcpy", "memset"])
instructions = re.findall(r"^ +[0-9a-f]+:\t(\w+)", told_by("objdump", "-d", "--no-show-raw-insn"), re.M)
assert len(instructions) > 1000
same("instructions that some processors lack", sorted({word for word in instructions if re.fullmatch(LATER, word)}), [])

# ---- numbers

source = text("crates/layout/src/refusal.rt")
declared = re.findall(r"^    (\w+)(\(u32\))?,", re.search(r"pub enum Refusal {(.*?)\n}", source, re.S)[1], re.M)
numbers = dict(re.findall(r"Refusal::(\w+)(?:\(_\))? => (\d+),", source))
expected = [(numbers[name], name, bool(second)) for name, second in declared]
found = [(number, spread.variant(name), bool(second)) for number, name, _, second in spread.REFUSALS]
same("refusals, and which have a second number", found, expected)

tags = [(spread.variant(row), tag) for tag, row, _ in spread.ROWS]
source = text("crates/table/src/tag.rt")
# a tag's number is its place among the variants
variants = re.findall(r"^    (\w+),", re.search(r"pub enum Tag {(.*?)\n}", source, re.S)[1], re.M)
same("tags", tags, [(name, str(number)) for number, name in enumerate(variants)])
same("tags read", tags, [(name, tag) for tag, name in re.findall(r"(\d+) => Some\(Tag::(\w+)\),", source)])

made = re.findall(
    r"Row {\s+tag: Tag::(\w+)\.to_u32\(\),\s+(?:side: 0,\s+)?((?:[a-e]: [^,]+,\s+)*)(?:\.\.Row::ZERO\s+)?}", text("crates/table/src/row.rt")
)
used = {dict(tags)[name]: re.findall(r"([a-e]): ", told) for name, told in made}
found = {tag: [letter for letter, number in zip("abcde", numbers) if number] for tag, _, numbers in spread.ROWS}
same("which numbers a row has", found, used)


def told(path, pattern):
    return re.search(pattern, text(path))[1].replace("_", "")


limit = told("crates/layout/src/lib.rt", r"PAYLOAD_LIMIT: usize = ([\d_]+);")
in_c = told("hosts/c/srci.h", r"#define SRCI_LIMIT (\d+)")
in_rust = told("hosts/rust/src/lib.rs", r"LIMIT: usize = ([\d_]+)")
same("the limit in C, Rust and Python", [in_c, in_rust, str(srci.LIMIT)], [limit] * 3)

width = told("crates/table/src/row.rt", r"WIDTH: usize = (\d+);")
in_c = told("hosts/c/srci.h", r"#define SRCI_ROW_WIDTH (\d+)")
in_rust = told("hosts/rust/src/row.rs", r"WIDTH: usize = (\d+)")
same("the width of a row in C and Rust", [in_c, in_rust], [width] * 2)

# ---- Rust

for path, kind in [("refusal", "enum Refusal"), ("facts", "struct Section<'a>")]:
    assert f"\n#[non_exhaustive]\npub {kind} {{" in text(f"hosts/rust/src/{path}.rs"), kind
sources = "".join(text(f"hosts/rust/src/{name}.rs") for name in ("lib", "lent", "facts"))
answering = re.findall(r"((?:^///.*\n)*)^pub fn (\w+)\([^)]*\) -> Result", sources, re.M)
same("tell their errors", [name for told, name in answering if "/// # Errors\n" in told], [name for _, name in answering])
assert len(answering) == 16
