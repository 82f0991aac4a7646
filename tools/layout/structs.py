"""Holds the structs of the Python package against what the library is made with: on standard input a line for each field, which layout.awk writes: struct, its size, field, type, place."""

import ctypes
import runpy
import sys

here = {
    name: value
    for name, value in runpy.run_path("bindings/python/laddertick/_structs.py").items()
    if isinstance(value, type) and issubclass(value, ctypes.Structure) and "_fields_" in vars(value)
}
due = {}
for line in sys.stdin:
    struct, size, field, kind, place = line.split()
    due.setdefault((struct, int(size)), []).append((field, kind, int(place)))


def kind_of(kind):
    """A struct by its name, a number by the name that it has wherever this runs: c_size_t is c_ulong."""
    return next((name for name in ("c_uint8", "c_int32", "c_uint32", "c_size_t", "c_double") if getattr(ctypes, name) is kind), kind.__name__)


found = {
    (name, ctypes.sizeof(struct)): [(field, kind_of(kind), getattr(struct, field).offset) for field, kind in struct._fields_] for name, struct in here.items()
}
wrong = sorted({*found, *due} - {one for one in found if found[one] == due.get(one)})
for name, size in wrong:
    print(f"layout: {name} of Python: {found.get((name, size), 'none')} of {size} bytes, and not {due.get((name, size), 'none')}")
print(f"layout: {len(due)} structs of Python, {sum(map(len, due.values()))} fields: {'some are wrong' if wrong or not due else 'names, types and places as they are'}")
sys.exit(1 if wrong or not due else 0)
