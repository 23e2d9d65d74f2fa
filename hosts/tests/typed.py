"""The annotations of the Python package: that none is missing or names what is not there; and, where mypy is there,
that it takes the package, and this file with what it uses of the package.

    typed.py
"""
import ast
import contextlib
import inspect
import os
import pathlib
import subprocess
import sys
import tempfile
import typing
from array import array
from collections.abc import Iterable, Iterator

import srci

PACKAGE = pathlib.Path(srci.__file__).parent


def shown(payload: bytes) -> str:
    """A message, by every function that a bot may use."""
    try:
        card: str = srci.first_lines(srci.card(payload), 2000)
        listing: str = srci.listing(memoryview(payload))
        names, left_out = srci.names(bytearray(payload), most=20)
        facts = srci.facts(array("B", payload), most=None)
        copy: bytes = srci.public_copy(payload)
        sheet: bytes = srci.to_sheet(bytearray(payload))
        back: bytes = srci.from_sheet(memoryview(sheet))
        rows: srci.Rows = srci.read(copy)
        written: bytes = srci.write(copy, b"", [row._replace(side=srci.Side.PAYLOAD) for row in rows])
    except srci.Refused as refused:
        return f"{refused.number + refused.second}, " + refused.name + refused.meaning
    told = [section.kind + "".join(section.names) for section in facts.sections if section.count > facts.left_out]
    pairs = [pair.name + pair.value for section in facts.sections for pair in section.pairs]
    texts: list[typing.Optional[str]] = [row.text(copy) for row in rows[1:] if row.tag == srci.Tag.NAME]
    made = f"{left_out}{texts}{written!r}{sheet!r}{back!r}"
    return card + srci.list(payload) + listing + " ".join([*names, *told, *pairs]) + made


def mistakes() -> None:
    """What mypy must find fault with: a comment that excuses nothing is a fault to it."""
    srci.card("a text")  # type: ignore[arg-type]
    srci.facts(b"", most="all")  # type: ignore[arg-type]
    srci.to_sheet(b"").encode()  # type: ignore[attr-defined]
    srci.from_sheet("names\n")  # type: ignore[arg-type]
    srci.read(b"")[0].text(b"").upper()  # type: ignore[union-attr]


def functions(tree: ast.AST) -> Iterator[ast.FunctionDef]:
    return (node for node in ast.walk(tree) if isinstance(node, ast.FunctionDef))


def lacking(function: ast.FunctionDef) -> list[str]:
    """The parameters of a function that have no annotation, and the word return where that has none."""
    given = function.args
    parameters = [*given.posonlyargs, *given.args, *given.kwonlyargs, *filter(None, (given.vararg, given.kwarg))]
    named = [one.arg for one in parameters if one.annotation is None and one.arg not in ("self", "cls")]
    return named + ["return"] * (function.returns is None)


def expect_annotations() -> None:
    seen = 0
    for file in PACKAGE.glob("*.py"):
        for function in functions(ast.parse(file.read_text(), feature_version=(3, 9))):
            assert not lacking(function), f"{file.name}: {function.name} has no annotation of {lacking(function)}"
            seen += 1
    assert seen > 40, f"{seen} functions"


def expect_known_names() -> None:
    known = {**vars(srci), "Buffer": object}
    seen = 0
    for name in srci.__all__:
        thing = getattr(srci, name)
        members: Iterable[object] = vars(thing).values() if inspect.isclass(thing) else [thing]
        for member in filter(inspect.isfunction, members):
            hints = typing.get_type_hints(member, localns=known)
            if pathlib.Path(member.__code__.co_filename).parent == PACKAGE:
                assert {*inspect.signature(member).parameters} - {"self"} == {*hints} - {"return"}, member
                seen += 1
    assert seen > 15, f"{seen} functions"


def expect_mypy_to_pass() -> None:
    with tempfile.TemporaryDirectory() as cache:
        words = ["--strict", f"--cache-dir={cache}", str(PACKAGE), str(pathlib.Path(__file__).resolve())]
        subprocess.run([*mypy(), *words], check=True, env={**os.environ, "MYPYPATH": str(PACKAGE.parent)})


def mypy() -> list[str]:
    """How mypy is called; nothing where there is none."""
    for command in ([sys.executable, "-m", "mypy"], ["mypy"]):
        with contextlib.suppress(FileNotFoundError):
            if subprocess.run([*command, "--version"], capture_output=True).returncode == 0:
                return command
    return []


def main() -> None:
    sample = pathlib.Path(__file__).resolve().parents[2] / "crates/show_card/stdin"
    assert "sky.hlsl light.hlsli packed contents" in shown(sample.read_bytes())
    assert shown(b"").startswith("2, ragged")
    expect_annotations()
    print("ok: every function has annotations")
    expect_known_names()
    print("ok: annotations name what is there")
    assert (PACKAGE / "py.typed").exists()
    if mypy():
        expect_mypy_to_pass()
        print("ok: mypy --strict")
    else:
        print("not tested: the annotations by mypy, since there is none")


main()
