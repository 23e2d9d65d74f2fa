"""Runs the command with words of every kind, on several files and at a terminal, and looks at what it says of itself:
help, the manual's page, and what bash completes.

    usage.py SRCI
"""
import json
import os
import pathlib
import pty
import re
import resource
import shutil
import subprocess

from calling import fails, prints, run, run_tests, start
from cases import SAMPLE, SAMPLE_PRINTED
from sections import arguments, names, payload, sheet
from srci import REFUSALS, Refused, __version__

COMMANDS = {
    "card": "FILE.. [--named]",
    "facts": "FILE.. [--json] [--named]",
    "list": "FILE.. [--named]",
    "rows": "FILE.. [--json] [--named]",
    "public-copy": "FILE OUT [--force]",
    "rename": "FILE OLD NEW OUT [--force] [--merge] [--empty]",
    "sheet": "FILE [OUT] [--force]",
    "from-sheet": "SHEET OUT [--force]",
    "edit": "FILE [OUT] [--force]",
    "check": "FILE.. [--named]",
}
GENERAL = ["--help", "--version", "--sample", "--man-page", "--bash-completion"]


def printed(*words):
    out, err, status = run(*words)
    assert (err, status) == (b"", 0)
    return out.decode()


def test_help(folder):
    whole = printed("--help")
    assert whole == printed("help") == printed("-h") == printed("help", "help") == printed("help", "--version")
    assert len(whole.splitlines()) <= 24
    assert max(len(line) for line in whole.splitlines()) <= 100
    for option in GENERAL:
        assert f"  {option} " in whole
    for command, operands in COMMANDS.items():
        assert f"  {command} {operands.split(' [--')[0]} " in whole
        own = printed(command, "--help")
        assert own.startswith(f"usage: srci {command} {operands}\n")
        assert own == printed("help", command) == printed(command, "-h") == printed(command, "-", "--help")
        assert max(len(line) for line in own.splitlines()) <= 102
        for option in re.findall(r"\[(--\w+)\]", operands):
            assert f"\n  {option} " in own


def test_version(folder):
    prints(f"srci {__version__}\n", "--version")
    prints(f"srci {__version__}\n", "-V")


def test_wrong_words(folder):
    for command, operands in COMMANDS.items():
        usage = f"usage: srci {command} {operands}"
        count = len(operands.split(" [")[0].split())
        most = len(operands.split(" [--")[0].split())
        fails(2, usage, command)
        fails(2, usage, command, *["-"] * (count - 1))
        if not operands.startswith("FILE.."):
            fails(2, usage, command, *["-"] * (most + 1))
        fails(2, usage, command, "--no-such-option", *["-"] * count)
    for said, words in [("card takes at least 1 operand(s), not 0", ["card"]), ("rename takes 4", ["rename"]),
                        ("sheet takes 1 to 2 operand(s), not 3", ["sheet", "a", "b", "c"])]:
        fails(2, said, *words)
    for words in ([""], ["-"], ["--json"], ["-x"], ["help", "x"], ["help", "card", "x"]):
        fails(2, "usage: ", *words)
    for option in GENERAL[1:]:
        fails(2, "usage: ", option, "x")
    fails(2, "usage: ", "card", "--json", "-")
    fails(2, "usage: ", "public-copy", "-", "-", "--json")
    fails(2, "usage: ", "sheet", "-", "--named")
    # an empty variable in a script is no card
    fails(2, "\nusage: srci COMMAND ..", cwd=folder)


def test_words_that_are_mistyped(folder):
    for word, meant in [("crad", "card"), ("lst", "list"), ("public_copy", "public-copy"), ("Check", "check"),
                        ("--verison", "--version"), ("hepl", "help"), ("shet", "sheet"),
                        ("from_sheet", "from-sheet"), ("eidt", "edit")]:
        fails(2, f"did you mean '{meant}'?", word, "-")
    fails(2, "did you mean '--force'?", "rename", "--froce", "-", "a", "b", "-")
    fails(2, "a word after -- is no option", "rename", "-", "a", "-name.hlsl", "-")
    for words in (["nothing", "-"], ["x", "-"], ["public", "-"], ["rows", "--x", "-"], ["r" * 100_000]):
        assert b"mean" not in run(*words)[1]


def several(folder):
    """Three files, of which the second is refused and the third is not there; and one more."""
    first, last = folder / "a\tb", folder / "last.srci"
    first.write_bytes(SAMPLE)
    (folder / "refused").write_bytes(b"")
    last.write_bytes(payload(names((b"sky.hlsl", 1))))
    return [first, folder / "refused", folder / "none", last]


def test_several_files(folder):
    files = several(folder)
    first, last = f"{folder}/a\\tb", f"{folder}/last.srci"
    heading = "// Shader Source Info: 1 section(s)\n//   [0] SourceNames: 1 file(s)\n"
    cards = f"==> {first} <==\n{SAMPLE_PRINTED}==> {last} <==\n{heading}"
    facts = ["file\tsection\tfact\tcount\tname\tvalue", f"{first}\t0\tnames\t1\t\t", f"{first}\t0\tname\t\ta\t",
             f"{first}\t1\targuments\t1\t\t", f"{first}\t1\tpair\t\tE\tmain",
             f"{last}\t0\tnames\t1\t\t", f"{last}\t0\tname\t\tsky.hlsl\t"]
    expected = {
        "check": f"{first}: accepted\n{last}: accepted\n",
        "card": cards,
        "list": cards,
        "facts": "".join(line + "\n" for line in facts),
    }
    for command, text in expected.items():
        out, err, status = run(command, *files)
        assert (out.decode(), status) == (text, 3), out
        said = err.decode().splitlines()
        assert len(said) == 2 and "refused 2, ragged" in said[0] and "cannot read" in said[1]
        for places, expected_status in [((0, 1), 1), ((0, 3), 0), ((2, 1), 3), ((1, 2, 0), 3)]:
            assert run(command, *[files[place] for place in places])[2] == expected_status
    out, _, _ = run("rows", *files)
    lines = out.decode().splitlines()
    assert lines[0].startswith("file\ttag\t")
    assert [line.split("\t")[0] for line in lines[1:]] == [first] * 4 + [last] * 2
    for command in ("facts", "rows"):
        out, _, status = run(command, "--json", *files)
        assert status == 3
        one = [json.loads(run(command, "--json", file)[0]) for file in (files[0], files[3])]
        found = [json.loads(line) for line in out.decode().splitlines()]
        assert found == [{"file": str(files[0]), command: one[0]}, {"file": str(files[3]), command: one[1]}]


def test_one_file_with_its_name(folder):
    file, odd = folder / "payload", os.fsencode(folder) + b"/\xff"
    file.write_bytes(payload())
    pathlib.Path(os.fsdecode(odd)).write_bytes(payload())
    nothing = "// Shader Source Info: 0 section(s)\n"
    prints(f"{file}: accepted\n", "check", "--named", file)
    prints(f"==> {file} <==\n{nothing}", "card", file, "--named")
    prints(f"file\tsection\tfact\tcount\tname\tvalue\n", "facts", "--named", file)
    assert json.loads(run("facts", "--json", "--named", file)[0]) == {"file": str(file), "facts": []}
    # each has a name of its own
    prints(f'"{folder}/\\\\xFF": accepted\nstandard input: accepted\n', "check", odd, "-", data=payload())
    assert json.loads(run("rows", "--json", "--named", odd)[0]) == {"file": f'"{folder}/\\xFF"', "rows": []}


def test_several_files_into_a_full_disk(folder):
    with open("/dev/full", "wb") as full:
        out, err, status = run("check", *[several(folder)[0]] * 3, stdout=full)
    assert status == 3 and err.count(b"cannot write") == 1


def at_a_terminal(*words, expected=0, **options):
    """What the command prints to a terminal, whose line ends are two characters, before it ends with a status."""
    terminal, end = pty.openpty()
    call = start(*words, stdin=subprocess.DEVNULL, stdout=end, stderr=subprocess.DEVNULL, **options)
    os.close(end)
    out = bytearray()
    try:
        while part := os.read(terminal, 65536):
            out += part
    except OSError:
        pass  # the terminal is closed
    os.close(terminal)
    assert call.wait(60) == expected
    return out.decode().replace("\r\n", "\n")


def test_columns_at_a_terminal(folder):
    file = folder / "payload"
    files, pairs = names((b"sky.hlsl", 1), ("имя".encode(), 1)), arguments((b"E", b"main"), (b"longer", b""))
    file.write_bytes(payload(files, pairs))
    assert at_a_terminal("facts", file) == """\
section  fact       count  name      value
0        names      2
0        name              sky.hlsl
0        name              имя
1        arguments  2
1        pair              E         main
1        pair              longer
"""
    rows = at_a_terminal("rows", file).splitlines()
    assert rows[0].split() == "tag row side A B C D E text value".split()
    texts = [line[rows[0].index("text") :].strip() for line in rows[1:]]
    assert texts == ["", "sky.hlsl", "имя", "", "E         main", "longer"]
    # a text that is longer than a column stands in the way of its own line alone
    file.write_bytes(payload(arguments((b"n" * 300, b"a"), (b"E", b"main"))))
    lines = at_a_terminal("facts", file).splitlines()
    assert max(map(len, lines[:2] + lines[3:])) < 100 and lines[2].split()[-1] == "a"
    # as many lines as are looked at together, and more
    file.write_bytes(payload(arguments(*[(b"E", b"main")] * 2000)))
    lines = at_a_terminal("facts", file).splitlines()
    assert lines[2:] == [lines[2]] * 2000 and lines[2].split() == ["0", "pair", "E", "main"]


def test_a_sheet_at_a_terminal(folder):
    file = folder / "payload"
    shown = names((b"sky.hlsl", 1), ("имя \\ \t\n".encode(), 1)), arguments((b"E", b"main"))
    file.write_bytes(payload(*shown))
    assert at_a_terminal("sheet", file) == at_a_terminal("sheet", file, "-") == sheet(*shown).decode()
    assert at_a_terminal("sheet", "/dev/null", expected=1) == ""
    # what would move the cursor, hide or turn a line is for who asks for it
    for text in ("a\rb", "\x1b[2J", "\x7f", "\u202e", "\u200b"):
        file.write_bytes(payload(names((text.encode(), 1))))
        assert at_a_terminal("sheet", file, expected=3) == ""
        assert text in at_a_terminal("sheet", file, "--force")
        prints(sheet(names((text.encode(), 1))), "sheet", file)


def test_columns_of_several_files(folder):
    files = folder / "a", folder / "b"
    for file, name in zip(files, (b"sky.hlsl", b"a longer name.hlsl")):
        file.write_bytes(payload(names((name, 1))))
    lines = at_a_terminal("facts", *files).splitlines()
    # behind a space: the files' own names are before
    starts = [[line.index(word) for line, word in zip(lines, words)] for words in (
        [" section", " 0", " 0", " 0", " 0"], [" fact", " names", " name ", " names", " name "])]
    assert len(lines) == 5 and all(len({*column}) == 1 for column in starts), lines


def test_gaps_between_columns(folder):
    file = folder / "payload"
    wide = b"n" * 40

    def shown(*pairs):
        file.write_bytes(payload(arguments(*pairs)))
        return at_a_terminal("facts", file).splitlines()[2:]

    # each of these would look like two fields, or more
    lone = shown((wide, b""), (b"T", b"ps_6_0"))[1]
    for text in (b"T" + b" " * 41 + b"ps_6_0", "T\u3000\u3000ps_6_0".encode(), b"T" + 100 * "\u00a0".encode() + b"ps_6_0"):
        [_, line] = shown((wide, b""), (text, b""))
        assert line != lone and len(re.split(r"\s{2,}", line)) == 3 and "\\u{" in line, line
    lines = shown((b" a", b"b "), (b"a b", b"a  b"), (b" ", b""))
    assert [re.split(r" {2,}", line)[2:] for line in lines] == [
        ["\\u{20}a", "b\\u{20}"], ["a b", "a\\u{20}\\u{20}b"], ["\\u{20}"]]
    # and into a pipe nothing is escaped that parts no fields
    out, _, _ = run("facts", file)
    assert out.decode().splitlines()[2:] == ["0\tpair\t\t a\tb ", "0\tpair\t\ta b\ta  b", "0\tpair\t\t \t"]


def limit_memory():
    resource.setrlimit(resource.RLIMIT_AS, (40 << 20, 40 << 20))


def test_memory_at_a_terminal(folder):
    file = folder / "payload"
    # neither a long field, which is five times as long with its escapes, nor many lines are kept
    for pairs, least in [([(b"", b"\x01" * 4_000_000)], 20_000_000), ([(b"n" * 20, b"v" * 20)] * 100_000, 5_000_000)]:
        file.write_bytes(payload(arguments(*pairs)))
        assert len(at_a_terminal("facts", file, preexec_fn=limit_memory)) > least


def test_what_is_said_of_secrecy(folder):
    for command, what in [("sheet", "the sheet"), ("edit", "it")]:
        words = " ".join(printed("help", command).split())
        assert f"does not cover {what}: it shows everything that the payload holds, packed and unknown bytes too" in words


def completed(script, *words):
    """What bash completes the last word to."""
    ask = f'''
        source "$1"; shift
        complete -p srci | grep -q -e "-o default" || exit 1
        COMP_WORDS=(srci "$@"); COMP_CWORD=$#
        _srci
        printf "%s\\n" "${{COMPREPLY[@]}}"
    '''
    done = subprocess.run(["bash", "-c", ask, "bash", script, *words], capture_output=True, text=True, check=True)
    assert done.stderr == ""
    return done.stdout.split()


def test_completion(folder):
    script = folder / "completion"
    script.write_text(printed("--bash-completion"))
    assert completed(script, "") == [*COMMANDS, "help", *GENERAL]
    assert completed(script, "r") == ["rows", "rename"] and completed(script, "--v") == ["--version"]
    assert completed(script, "help", "ca") == ["card"]
    for command, operands in COMMANDS.items():
        assert completed(script, command, "--") == [*re.findall(r"\[(--\w+)\]", operands), "--help"]
        assert completed(script, command, "") == []  # files, which bash completes by itself


def test_the_manual_page(folder):
    page = folder / "srci.1"
    page.write_text(printed("--man-page"))
    assert __version__ in page.read_text()
    if shutil.which("groff") is None:
        print("not tested: how the manual's page looks, since there is no groff")
        return
    # no word is broken at the end of a line
    shown = ["groff", "-man", "-Tutf8", "-P-cbou", "-ww", "-rHY=0", page]
    done = subprocess.run(shown, capture_output=True, text=True, check=True)
    assert done.stderr == "", done.stderr
    words = " ".join(done.stdout.replace("\u2019", "'").split())
    for command in COMMANDS:
        for paragraph in printed("help", command).split("\n\n"):
            paragraph = re.sub(r"^(usage|Does|Exit status):", "", paragraph)
            assert " ".join(paragraph.split()) in words, f"{command}: {paragraph}"
    for number, name in enumerate(REFUSALS, 1):
        assert f"{number}, {name} {Refused(number).meaning}" in words, name


run_tests(globals())
