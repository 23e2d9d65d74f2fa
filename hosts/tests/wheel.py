"""A wheel of the Python package: what is in it, and that it installs into an empty virtual environment and works there.

    wheel.py WHEEL
"""
import base64
import email
import hashlib
import importlib.util
import pathlib
import re
import shutil
import subprocess
import sys
import tempfile
import zipfile

ROOT = pathlib.Path(__file__).resolve().parents[2]
SOURCES = ROOT / "hosts/python"
BUILT = ROOT / "build/python/srci"
VERSION = (ROOT / "hosts/tables/version.txt").read_text().strip()
WHEEL = pathlib.Path(sys.argv[1]).resolve()
INFO = f"srci-{VERSION}.dist-info"

with zipfile.ZipFile(WHEEL) as archive:
    ENTRIES = archive.infolist()
    FILES = {entry.filename: archive.read(entry) for entry in ENTRIES}


def python(*words, **options):
    """A call of this Python that takes nothing from the tree or the user, and leaves nothing there."""
    options = {"stdout": subprocess.PIPE, "stderr": subprocess.PIPE, "text": True, **options}
    return subprocess.run([sys.executable, "-I", "-B", *words], **options)


def made_again(folder):
    done = python(SOURCES / "backend.py", folder, check=True)
    assert done.stdout == f"{folder / WHEEL.name}\n", done.stdout
    return (folder / WHEEL.name).read_bytes()


def has(module):
    return importlib.util.find_spec(module) is not None


def test_what_is_packed(folder):
    expected = {f"srci/{file.name}": file.read_bytes() for file in (SOURCES / "srci").glob("*.py")}
    expected["srci/py.typed"] = (SOURCES / "srci/py.typed").read_bytes()
    expected["srci/libsrci.so"] = (BUILT / "libsrci.so").read_bytes()
    assert len(expected) > 5
    expected[f"{INFO}/licenses/NOTICE"] = (ROOT / "NOTICE").read_bytes()
    made = {f"{INFO}/{name}" for name in ("METADATA", "WHEEL", "RECORD")}
    assert {path: data for path, data in FILES.items() if path not in made} == expected
    assert FILES.keys() - expected.keys() == made and len(ENTRIES) == len(FILES)


def test_the_record(folder):
    lines = []
    for path, data in FILES.items():
        digest = base64.urlsafe_b64encode(hashlib.sha256(data).digest()).decode().rstrip("=")
        lines.append(f"{path},sha256={digest},{len(data)}" if path != f"{INFO}/RECORD" else f"{path},,")
    assert sorted(FILES[f"{INFO}/RECORD"].decode().splitlines()) == sorted(lines)


def test_the_metadata(folder):
    told = email.message_from_bytes(FILES[f"{INFO}/METADATA"])
    named = [told[name] for name in ("Name", "Version", "Requires-Python", "License-Expression", "License-File")]
    assert named == ["srci", VERSION, ">=3.9", "MIT", "NOTICE"], named
    assert "Requires-Dist" not in told
    if not has("tomllib"):
        print("not tested: the metadata beside pyproject.toml, since this Python has no tomllib")
        return
    import tomllib

    project = tomllib.loads((SOURCES / "pyproject.toml").read_text())["project"]
    assert project.pop("dependencies") == [] and project.pop("classifiers") == told.get_all("Classifier")
    fields = {"requires-python": "Requires-Python", "description": "Summary", "license": "License-Expression"}
    assert project == {name: told[fields.get(name, name)] for name in project}


def test_the_tag(folder):
    told = email.message_from_bytes(FILES[f"{INFO}/WHEEL"])
    assert WHEEL.name == f"srci-{VERSION}-{told['Tag']}.whl" and told["Root-Is-Purelib"] == "false"
    if not shutil.which("readelf"):
        print("not tested: the tag beside what the library needs, since there is no readelf")
        return
    (folder / "libsrci.so").write_bytes(FILES["srci/libsrci.so"])
    words = ["readelf", "--wide", "--version-info", "--dynamic", "--file-header", folder / "libsrci.so"]
    needs = subprocess.run(words, stdout=subprocess.PIPE, text=True, check=True).stdout
    assert re.findall(r"Shared library: \[(.*)\]", needs) == ["libc.so.6"] and "X86-64" in needs
    newest = max(int(minor) for minor in re.findall(r"Name: GLIBC_2\.(\d+)", needs))
    assert told["Tag"] == f"py3-none-manylinux_2_{max(newest, 17)}_x86_64", (told["Tag"], newest)


def test_the_same_bytes_at_any_time(folder):
    assert {entry.date_time for entry in ENTRIES} == {(1980, 1, 1, 0, 0, 0)}
    assert {entry.external_attr >> 16 for entry in ENTRIES} == {0o100644}
    assert made_again(folder / "new" / "folder") == WHEEL.read_bytes()


def test_without_the_library(folder):
    shutil.copytree(SOURCES, folder / "hosts/python")
    done = python(folder / "hosts/python/backend.py", folder)
    assert done.returncode == 1 and "libsrci.so is not there: hosts/build.sh builds it\n" in done.stderr, done.stderr
    assert not [*folder.glob("*.whl")]


def test_the_package_by_pip(folder):
    if not has("pip"):
        print("not tested: the package by pip, since there is none")
        return
    quietly = ["--quiet", "--disable-pip-version-check", "--no-input"]
    words = ["-m", "pip", "wheel", *quietly, "--no-index", "--no-deps", "--wheel-dir", folder, SOURCES]
    python(*words, stderr=None, env={"PYTHONDONTWRITEBYTECODE": "1"}, check=True)
    assert [path.name for path in folder.iterdir()] == [WHEEL.name]
    assert (folder / WHEEL.name).read_bytes() == WHEEL.read_bytes()


PROGRAM = """
import srci, sys
from importlib.metadata import version
assert srci.__version__ == version("srci") == sys.argv[1]
assert srci.__file__.startswith(sys.prefix), srci.__file__
with open(sys.argv[2], "rb") as file:
    print(srci.card(file.read()), end="")
"""


def test_an_empty_virtual_environment(folder):
    if not (has("venv") and has("ensurepip")):
        print("not tested: the wheel in a virtual environment, since this Python cannot make one")
        return
    place = folder / "venv"
    python("-m", "venv", place, stderr=None, check=True)
    inside = [place / "bin/python", "-I"]
    words = ["-m", "pip", "install", "--quiet", "--disable-pip-version-check", "--no-index", "--no-deps", WHEEL]
    subprocess.run([*inside, *words], check=True, cwd=folder, stdout=subprocess.DEVNULL)
    words = ["-c", PROGRAM, VERSION, ROOT / "crates/show_card/stdin"]
    done = subprocess.run([*inside, *words], check=True, cwd=folder, stdout=subprocess.PIPE, text=True)
    assert done.stdout == (ROOT / "crates/show_card/stdout").read_text(), done.stdout
    assert subprocess.run([*inside, "-m", "pip", "check"], cwd=folder, stdout=subprocess.DEVNULL).returncode == 0


def main():
    for name, test in [*globals().items()]:
        if name.startswith("test_"):
            with tempfile.TemporaryDirectory() as folder:
                test(pathlib.Path(folder))
            print(f"ok: {name[5:].replace('_', ' ')}", flush=True)


main()
