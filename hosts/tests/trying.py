"""What the tests of the Python package share: errors that are raised, large payloads, and a run of a file's tests."""
import struct

from srci import LIMIT


def raises(error, job, *given):
    try:
        job(*given)
    except error as raised:
        return raised
    raise AssertionError(f"{job.__name__} raises no {error.__name__}")


def repeated(section, count):
    """A payload of a section many times over."""
    return struct.pack("<IHH", 8 + count * len(section.data), 0, count) + count * section.data


def most_pairs():
    """The longest payload of empty pairs, and how many they are."""
    count = (LIMIT - 28) // 2
    return struct.pack("<IHHIHHIII", LIMIT, 0, 1, LIMIT - 8, 0, 2, 0, 2 * count, count) + bytes(2 * count), count


def run_tests(tests):
    """Runs the functions of these whose names begin with `test_`."""
    for name, test in [*tests.items()]:
        if name.startswith("test_"):
            test()
            print(f"ok: {name[5:].replace('_', ' ')}", flush=True)
