"""Calls each function of the installed shared library through ctypes, as main.c does. main.py VERSION, as in 1.0.0."""

import ctypes
import sys

CARD = bytes([1, 0, 0, 0, 2, 1, 0, 0, 3, 0, 1, 0, 0x0C, 0, 2, 1, 0x57, 0x4C])
LOG = bytes([0, 0, 3, 0])


def answer(*names):
    """A struct of 32-bit numbers."""
    fields = [(name, ctypes.c_uint32) for name in names]
    return type("Answer", (ctypes.Structure,), {"_fields_": fields})


def declare(name, result, *arguments):
    function = getattr(library, name)
    function.restype = result
    function.argtypes = arguments
    return function


def numbers(result):
    return [getattr(result, name) for name, _ in result._fields_]


library = ctypes.CDLL("libairpistil.so.1")
some_bytes = (ctypes.c_char_p, ctypes.c_size_t)
version = declare("airpistil_version", ctypes.c_uint32)
check = declare("airpistil_check", answer("number", "place", "nodes", "depth", "lifelines"), *some_bytes)
note = declare("airpistil_note", ctypes.c_size_t, *some_bytes)
judge = declare("airpistil_judge", answer("number", "place", "steps", "places"), *some_bytes, *some_bytes,
                ctypes.c_uint32, ctypes.POINTER(ctypes.c_uint32), ctypes.c_size_t)
cut = declare("airpistil_cut", answer("number", "place", "length"), *some_bytes, ctypes.c_uint32, *some_bytes)
room = (ctypes.c_uint32 * 16384)()

major, minor, patch = map(int, sys.argv[1].split("."))
assert version() == major * 10000 + minor * 100 + patch
assert numbers(check(CARD, len(CARD))) == [0, 0, 3, 2, 2]
assert numbers(judge(CARD, len(CARD), LOG, len(LOG), 1000000, room, len(room))) == [20, 2, 2, 6]
assert numbers(judge(CARD, len(CARD), None, 0, 1000000, room, len(room))) == [21, 0, 0, 3]
assert numbers(cut(None, 0, 0, None, 0)) == [1, 0, 0]
assert note(None, 0) == 0
