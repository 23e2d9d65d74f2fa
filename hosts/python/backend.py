"""Makes a wheel of the package: by pip and its like, or by hand.

    backend.py FOLDER

It packs the package that hosts/build.sh built, and prints the wheel's path. Its bytes depend on what is packed alone,
and not on when or where. build_wheel is what PEP 517 asks of a backend.
"""
import ast
import base64
import hashlib
import pathlib
import re
import sys
import zipfile

HERE = pathlib.Path(__file__).resolve().parent
ROOT = HERE.parents[1]
BUILT = ROOT / "build/python"
LIBRARY = BUILT / "srci/libsrci.so"
NOTICE = ROOT / "NOTICE"

# The oldest C library that a tag of PEP 600 is used for here: 2.17 is of 2012.
OLDEST = 17


class UnsupportedOperation(Exception):
    """What PEP 517 wants raised where there is no source distribution."""


def build_wheel(wheel_directory, config_settings=None, metadata_directory=None):
    """Makes the wheel in a folder, and returns its name."""
    project = read_project()
    stem = f"{project['name']}-{project['version']}"
    tag = f"py3-none-{platform()}"
    files = {**packed(project["name"]), **described(project, f"{stem}.dist-info", tag)}
    record = f"{stem}.dist-info/RECORD"
    files[record] = ("".join(recorded(*file) for file in files.items()) + f"{record},,\n").encode()
    wheel = f"{stem}-{tag}.whl"
    with zipfile.ZipFile(pathlib.Path(wheel_directory, wheel), "w", zipfile.ZIP_DEFLATED) as archive:
        for path, data in files.items():
            entry = zipfile.ZipInfo(path)  # of 1980, always
            entry.compress_type = zipfile.ZIP_DEFLATED
            entry.create_system = 3  # Unix, whose permissions follow
            entry.external_attr = 0o100644 << 16
            archive.writestr(entry, data)
    return wheel


def build_sdist(sdist_directory, config_settings=None):
    raise UnsupportedOperation("the library is built by hosts/build.sh from proved sources: there is a wheel alone")


def read_project():
    """The table [project] of pyproject.toml, whose values are written as Python writes them too."""
    text = (HERE / "pyproject.toml").read_text()
    table = re.search(r"^\[project\]\n(.*?)(?=^\[|\Z)", text, re.M | re.S)[1]
    values = re.findall(r"^([\w-]+) = (\[\n[^\]]*\]|[^\n]*)$", table, re.M)
    return {name: ast.literal_eval(value) for name, value in values}


def platform():
    """The oldest platform that the library runs on, by the versions of the C library that it names."""
    if not LIBRARY.exists():
        raise FileNotFoundError(f"{LIBRARY} is not there: hosts/build.sh builds it")
    named = re.findall(rb"GLIBC_2\.(\d+)", LIBRARY.read_bytes())
    if not named:
        raise RuntimeError(f"{LIBRARY} was not built with glibc, and there is no tag for others here")
    return f"manylinux_2_{max([OLDEST, *map(int, named)])}_x86_64"


def packed(package):
    """What is installed, by its path in the wheel."""
    sources = [*sorted((BUILT / package).glob("*.py")), BUILT / package / "py.typed", LIBRARY]
    return {f"{package}/{source.name}": source.read_bytes() for source in sources}


def described(project, folder, tag):
    """What installers read, by its path in the wheel."""
    metadata = [
        ("Metadata-Version", "2.4"),
        ("Name", project["name"]),
        ("Version", project["version"]),
        ("Summary", project["description"]),
        ("License-Expression", project["license"]),
        ("License-File", NOTICE.name),
        ("Requires-Python", project["requires-python"]),
        *(("Requires-Dist", needed) for needed in project["dependencies"]),
        *(("Classifier", classifier) for classifier in project["classifiers"]),
    ]
    wheel = [("Wheel-Version", "1.0"), ("Generator", "srci"), ("Root-Is-Purelib", "false"), ("Tag", tag)]
    return {
        f"{folder}/METADATA": fields(metadata),
        f"{folder}/WHEEL": fields(wheel),
        f"{folder}/licenses/{NOTICE.name}": NOTICE.read_bytes(),
    }


def fields(named):
    return "".join(f"{name}: {value}\n" for name, value in named).encode()


def recorded(path, data):
    """A file's line in RECORD."""
    digest = base64.urlsafe_b64encode(hashlib.sha256(data).digest()).rstrip(b"=").decode()
    return f"{path},sha256={digest},{len(data)}\n"


def main(folder):
    folder = pathlib.Path(folder)
    folder.mkdir(parents=True, exist_ok=True)
    try:
        print(folder / build_wheel(folder))
    except (FileNotFoundError, RuntimeError) as error:
        sys.exit(str(error))


if __name__ == "__main__":
    if len(sys.argv) != 2:
        sys.exit("usage: backend.py FOLDER")
    main(sys.argv[1])
