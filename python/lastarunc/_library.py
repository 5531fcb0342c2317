"""The shared library: where it lies, the structs of the header and its functions. It is loaded by the first call."""
from __future__ import annotations

import ctypes
import functools
import os
import platform
import sys
from typing import Any, Iterable

MISSING = -(2**31)
MOST_POINTS = 65536
MOST_BYTES = 1048576
ABSENT = -1


class Unavailable(OSError):
    """The library cannot be used: this machine is not x86-64 Linux, or the library is not where it should be."""

    __module__ = "lastarunc"


def _struct(fields: str, kind: Any = ctypes.c_int64) -> Any:
    """A struct whose fields are all of one kind."""
    return type("Struct", (ctypes.Structure,), {"_fields_": [(field, kind) for field in fields.split()]})


_REFUSAL = "refused place line column "
_TABLE = "points first last first_exact last_exact firsty_exact "

# The structs of the header, by its names.
STRUCTS = {
    "table": _struct(_REFUSAL + "points"),
    "text": _struct("refused length first_exact last_exact firsty_exact"),
    "file": _struct(_REFUSAL + _TABLE),
    "record": _struct(_REFUSAL + "from to"),
    "block": _struct("from to start end"),
    "blocks": _struct(_REFUSAL + "compound blocks"),
    "shown": _struct("on_page from to"),
    "profile": _struct(_REFUSAL + _TABLE + "on_page"),
    "progress": _struct("at seen files points missing sum"),
    "report": _struct(_REFUSAL + "ended points missing lowest highest sum faintest"),
    "decimal": _struct("mantissa exponent"),
}
STRUCTS["scales"] = _struct("xfactor yfactor firstx lastx firsty", STRUCTS["decimal"])

# The functions of the header and their arguments: i and u are 64-bit numbers, z a size, p a pointer.
FUNCTIONS = {
    "read_table": "iizpzpzp",
    "read_plain": "iizpzpzp",
    "write_table": "iizpzpzp",
    "write_form": "uiizpzpzp",
    "text_length": "uiizpzp",
    "read_file": "pzpzp",
    "write_file": "pzzppzpzp",
    "file_length": "pzzppzp",
    "find_record": "pzpzp",
    "find_blocks": "pzpzp",
    "read_block": "pzppzp",
    "find_in_block": "pzppzp",
    "read_profile": "pzpzpzpp",
    "next_report": "pzpzpp",
    "detab_table": "pz",
    "detab_file": "pz",
}
_KINDS = {"i": ctypes.c_int64, "u": ctypes.c_uint64, "z": ctypes.c_size_t, "p": ctypes.c_void_p}


def _path() -> str:
    """Where the library lies: where LASTARUNC_LIBRARY says, beside this module, or where the repository builds it."""
    here = os.path.dirname(os.path.abspath(__file__))
    named = os.environ.get("LASTARUNC_LIBRARY")
    built = os.path.normpath(os.path.join(here, "../../target/packaging/liblastarunc.so"))
    paths = [named] if named else [os.path.join(here, "liblastarunc.so"), built]
    for path in paths:
        if os.path.exists(path):
            return path
    raise Unavailable(f"there is no library at {' or '.join(paths)}: ./install PREFIX, or packaging/build, makes it")


def _need_machine() -> None:
    """Says so if this machine cannot run the library."""
    system, machine = platform.system(), platform.machine()
    if system != "Linux" or machine != "x86_64" or sys.maxsize < 2**32:
        python = "" if sys.maxsize > 2**32 else ", with a Python of 32 bits"
        raise Unavailable(
            f"the library of lastarunc is x86-64 Linux code, and this machine is {machine} {system}{python}: "
            "use an x86-64 Python here (in an emulator, if need be), or an x86-64 Linux machine"
        )


@functools.lru_cache(maxsize=None)
def library() -> Any:
    """The library, loaded once."""
    _need_machine()
    path = _path()
    try:
        loaded = ctypes.CDLL(path)
    except OSError as error:
        raise Unavailable(f"the library at {path} cannot be loaded: {error}") from error
    for name, kinds in FUNCTIONS.items():
        function = getattr(loaded, "lastarunc_" + name)
        function.argtypes = [_KINDS[kind] for kind in kinds]
        function.restype = None if name == "detab_table" else ctypes.c_int64
    return loaded


def call(name: str, answer: str, *words: Any) -> Any:
    """Calls a function of the header; the struct, of this name, that it has filled as its answer."""
    filled = STRUCTS[answer]()
    getattr(library(), "lastarunc_" + name)(*words, ctypes.byref(filled))
    return filled


def room_for(count: int) -> Any:
    """Memory for ordinates."""
    return (ctypes.c_int32 * count)()


def array_of(ordinates: Iterable[int]) -> Any:
    """Memory with these ordinates."""
    listed = tuple(ordinates)
    return (ctypes.c_int32 * len(listed))(*listed)
