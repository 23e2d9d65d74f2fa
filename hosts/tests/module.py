"""The Python package as its users find it: its examples, its page of help, and a place below another package."""
import csv
import doctest
import importlib
import inspect
import pathlib
import pkgutil
import pydoc
import shutil
import subprocess
import sys
import tempfile

import srci
from trying import run_tests

ROOT = pathlib.Path(__file__).resolve().parents[2]
PACKAGE = pathlib.Path(srci.__file__).parent
VERSION = (ROOT / "hosts/tables/version.txt").read_text().strip()
PUBLIC = {name: getattr(srci, name) for name in srci.__all__}
FUNCTIONS = {name: thing for name, thing in PUBLIC.items() if inspect.isfunction(thing)}
CLASSES = {name: thing for name, thing in PUBLIC.items() if inspect.isclass(thing)}


def modules():
    parts = [part.name for part in pkgutil.iter_modules(srci.__path__) if part.name != "libsrci"]
    return [srci, *(importlib.import_module(f"srci.{part}") for part in parts)]


def test_the_examples_of_the_documentation():
    failed, tried = map(sum, zip(*[doctest.testmod(module, extraglobs=PUBLIC) for module in modules()]))
    assert failed == 0 and tried > 15, f"{failed} of {tried} failed"
    shown = [thing for thing in (srci, *FUNCTIONS.values(), srci.Refused) if ">>>" not in inspect.getdoc(thing)]
    assert not shown, f"no example: {shown}"


def test_what_is_public():
    assert srci.__version__ == VERSION
    assert srci.list is srci.listing and "list" not in srci.__all__
    names = {}
    exec("from srci import *", names)
    assert {*names} - {"__builtins__"} == {*srci.__all__}
    assert sorted(srci.__all__) == srci.__all__
    others = {name for name in vars(srci) if not name.startswith("_")} - {*srci.__all__, "list"}
    assert not others, f"not in __all__: {others}"


def test_the_page_of_help():
    page = pydoc.render_doc(srci, renderer=pydoc.plaintext)
    head, functions = page.split("\nFUNCTIONS\n")
    for name, function in FUNCTIONS.items():
        first, *_ = inspect.getdoc(function).split("\n")
        assert f"\n    {name}(" in f"\n{functions}"
        assert f"        {first}\n" in functions
        assert first[0].isupper() and first[-1] == ".", f"{name}: {first}"
        assert f"\n        {name}(" in head, f"{name} is not told at the head"
    for name, thing in CLASSES.items():
        assert f"    class {name}(" in head and thing.__module__ == "srci"
    with open(ROOT / "hosts/tables/rows.tsv", newline="") as file:
        for tag, row, *_ in [*csv.reader(file, delimiter="\t")][1:]:
            assert f" |  {tag}     {row}" in head, f"the page does not tell row {tag}"
    assert f"\nVERSION\n    {VERSION}\n" in page
    # what a named tuple has of its own begins with an underscore too
    own = {"_asdict", "_replace", "_make", "_fields", "_field_defaults"}
    for thing in CLASSES.values():
        named = {name for name in vars(thing) if name.startswith("_") and not name.startswith("__")}
        assert not (named - own and hasattr(thing, "_fields")), f"{thing} shows {named - own}"


def alone(*words, folder):
    """What a program of Python prints, with nothing on its path."""
    done = subprocess.run([sys.executable, "-I", "-B", *words], cwd=folder, stdout=subprocess.PIPE, check=True)
    return done.stdout.decode()


def test_below_another_package():
    program = """
import pickle, sys
sys.path.insert(0, "")
import bot.srci
with open(sys.argv[1], "rb") as file:
    print(bot.srci.card(file.read()), end="")
try:
    bot.srci.read(b"")
except bot.srci.Refused as refused:
    assert type(pickle.loads(pickle.dumps(refused))) is bot.srci.Refused
assert "srci" not in sys.modules
"""
    with tempfile.TemporaryDirectory() as folder:
        shutil.copytree(PACKAGE, pathlib.Path(folder, "bot", "srci"))
        pathlib.Path(folder, "bot", "__init__.py").touch()
        card = alone("-c", program, ROOT / "crates/show_card/stdin", folder=folder)
    assert card == (ROOT / "crates/show_card/stdout").read_text()


def test_beside_others():
    # a copy below another package, and code that declares Python's own functions for itself
    program = """
import ctypes, sys
sys.path.insert(0, "")
class Other(ctypes.Structure):
    _fields_ = [("all", ctypes.c_char * 200)]
import srci, bot.srci
declared = ctypes.pythonapi.PyObject_GetBuffer
declared.argtypes = [ctypes.py_object, ctypes.POINTER(Other), ctypes.c_int]
ctypes.pythonapi.PyBuffer_Release.argtypes = [ctypes.POINTER(Other)]
with open(sys.argv[1], "rb") as file:
    payload = file.read()
assert srci.card(payload) == bot.srci.card(payload)
other = Other()
assert declared(payload, ctypes.byref(other), 0) == 0
ctypes.pythonapi.PyBuffer_Release(ctypes.byref(other))
print(srci.card(payload), end="")
"""
    with tempfile.TemporaryDirectory() as folder:
        for place in ("srci", "bot/srci"):
            shutil.copytree(PACKAGE, pathlib.Path(folder, place))
        card = alone("-c", program, ROOT / "crates/show_card/stdin", folder=folder)
    assert card == (ROOT / "crates/show_card/stdout").read_text()


def test_without_documentation():
    program = f"import sys; sys.path.insert(0, {str(PACKAGE.parent)!r}); import srci; print(srci.read.__doc__)"
    assert alone("-OO", "-c", program, folder="/") == "None\n"


def test_without_its_library():
    with tempfile.TemporaryDirectory() as folder:
        shutil.copytree(PACKAGE, pathlib.Path(folder, "srci"), ignore=shutil.ignore_patterns("*.so"))
        program = "import sys; sys.path.insert(0, '')\ntry: import srci\nexcept ImportError as error: print(error)"
        assert "libsrci.so is not there: hosts/build.sh" in alone("-c", program, folder=folder)


run_tests(globals())
