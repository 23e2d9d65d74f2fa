"""Runs the examples of README.md in Python, C and Rust, each of which shows the card of a stored payload, and compares
what README.md and hosts/README.md say is printed.

    readme.py FOLDER

FOLDER is what hosts/build.sh built. An example of Python is run as it stands; around the others stand the lines that
every program has.
"""
import os
import pathlib
import re
import subprocess
import sys
import tempfile
import textwrap

import srci
from sections import names, payload

ROOT = pathlib.Path(__file__).resolve().parents[2]
BUILT = pathlib.Path(sys.argv[1]).resolve()
PAYLOAD = ROOT / "crates/show_card/stdin"
CARD = (ROOT / "crates/show_card/stdout").read_text()

C = """\
#include <stdio.h>
%s
int main(void)
{
    static uint8_t payload[SRCI_LIMIT];
    size_t length = fread(payload, 1, sizeof payload, stdin);
%s
    return 0;
}
"""
RUST = """\
fn main() -> Result<(), Box<dyn std::error::Error>> {
%s
    Ok(())
}
"""


def examples(path, language):
    return re.findall(rf"```{language}\n(.*?)```", (ROOT / path).read_text(), re.S)


def example(language):
    """The one example of README.md in a language."""
    [found] = examples("README.md", language)
    return found


def indented(lines):
    return textwrap.indent(lines, "    ")


def built(name, text, compiler, *words):
    source = BUILT / "tests" / name
    source.write_text(text)
    program = source.with_suffix("")
    subprocess.run([*compiler, source, "-o", program, *words], check=True)
    return program


def shown(data, *words):
    """What an example prints, which finds by itself what it uses."""
    alone = {name: value for name, value in os.environ.items() if name != "PYTHONPATH"}
    done = subprocess.run(words, input=data, stdout=subprocess.PIPE, cwd=ROOT, env=alone, check=True)
    return done.stdout.decode()


def expect_card(language, *words):
    card = shown(PAYLOAD.read_bytes(), *words)
    assert card == CARD, f"{language}: {card!r}"
    print(f"ok: the example in {language}")


expect_card("Python", sys.executable, "-c", example("python"))

includes, rest = re.match(r"((?:#include .*\n)+)((?:.*\n)*)", example("c")).groups()
archive = BUILT / "lib/libsrci.a"
words = ["gcc", "-std=c99", "-Wall", "-Wextra", "-Werror"]
program = built("readme_c.c", C % (includes, indented(rest)), words, archive, f"-I{BUILT}/include")
expect_card("C", program)
longest = payload(*[names()] * 65_535)
assert shown(longest, program) == srci.card(longest)

library = BUILT / "rust/libsrci.rlib"
link = ["--extern", f"srci={library}", "-L", f"native={BUILT}/lib"]
program = built("readme_rust.rs", RUST % indented(example("rust")), ["rustc", "--edition", "2021"], *link)
expect_card("Rust", program)

text = (ROOT / "README.md").read_text()
assert "hosts/build.sh && build/bin/srci --sample\n" in text and indented(CARD) in text
assert subprocess.run([BUILT / "bin/srci", "--sample"], capture_output=True, text=True, check=True).stdout == CARD
print("ok: the card in README.md")

facts = subprocess.run([BUILT / "bin/srci", "facts", PAYLOAD], capture_output=True, text=True, check=True).stdout
shown = [" ".join(line.split()) for line in (ROOT / "hosts/README.md").read_text().splitlines()]
first = shown.index("section fact count name value")
facts = [" ".join(line.split()) for line in facts.splitlines()]
assert shown[first : first + len(facts)] == facts, f"{facts}, not {shown[first:]}"
print("ok: the facts in hosts/README.md")

sheet = subprocess.run(
    [BUILT / "bin/srci", "sheet", ROOT / "crates/list_payload/stdin"], capture_output=True, text=True, check=True
).stdout
assert f"\n\n{indented(sheet)}\n" in (ROOT / "hosts/README.md").read_text()
print("ok: the sheet in hosts/README.md")

with tempfile.TemporaryDirectory() as folder:
    pathlib.Path(folder, "sky.sheet").write_text("names\n" * 11 + "name\tsky.hlsl\n")
    words = [BUILT / "bin/srci", "from-sheet", "sky.sheet", "-"]
    refused = subprocess.run(words, capture_output=True, text=True, cwd=folder)
assert refused.returncode == 1 and f"{indented(refused.stderr)}\n" in (ROOT / "hosts/README.md").read_text()
print("ok: the refused line in hosts/README.md")

told, shown = examples("hosts/README.md", "python")
said = {"srci": srci, "payload": PAYLOAD.read_bytes()}
exec(told, said)
exec(shown, said)
assert (said["names"], said["pairs"]) == (("sky.hlsl", "light.hlsli"), [("E", "main"), ("T", "ps_6_0")])
assert (said["left_out"], said["more"], said["card"]) == (0, 0, CARD)
said["payload"] = b""
exec(shown, said)
assert said["card"].startswith("no card: refused 2, ragged: ")
print("ok: the examples in hosts/README.md")

# what README.md says of long cards
sections = [names()] * 60
told = f"60 empty sections of names, in a payload of {len(payload(*sections)):,} bytes, make a card of over 2,000"
assert told in " ".join(text.split()) and len(srci.card(payload(*sections))) > 2000
assert f"65,535 of them one of {len(srci.card(longest)) / 1e6:.1f} MB" in " ".join(text.split())
print("ok: the lengths of cards in README.md")
