"""The shared library: where it is, and what its fifteen entries take."""
import ctypes
import os
from ctypes import POINTER, c_size_t, c_uint32, c_uint64, c_void_p
from pathlib import Path
from typing import List

# With other numbers in its name a library may have other entries.
NAME = "libmarks.so.0.7"

_LENT = (c_void_p, c_size_t)  # an address, and how many elements of the buffer stand there
_ANSWER = (POINTER(c_uint64),)
_ENTRIES = {
    "marks_build": 2 * _LENT + _ANSWER,
    "marks_save": 3 * _LENT + _ANSWER,
    "marks_save_checked": 3 * _LENT + _ANSWER,
    "marks_load": 3 * _LENT + 2 * _ANSWER,
    "marks_search": 4 * _LENT + 2 * _ANSWER,
    "marks_turbo": 4 * _LENT + 2 * _ANSWER,
    "marks_search_file": 5 * _LENT + 3 * _ANSWER,
    "marks_failure_build": 2 * _LENT + _ANSWER,
    "marks_failure_search": 4 * _LENT + 3 * _ANSWER,
    "marks_storacle_build": 2 * _LENT + _ANSWER,
    "marks_compact_build": 3 * _LENT + _ANSWER,
    "marks_compact_search": 5 * _LENT + 2 * _ANSWER,
    "marks_salvage": 4 * _LENT + _ANSWER,
    "marks_open": 2 * _LENT,
    "marks_take": 3 * _LENT + _ANSWER,
}


def _places() -> List[str]:
    """What MARKS_LIBRARY names and nothing else; where it is unset, what lies beside this module, then what the system has."""
    named = os.environ.get("MARKS_LIBRARY")
    if named:
        return [os.path.abspath(named)]
    return [*sorted(map(str, Path(__file__).resolve().parent.glob("libmarks.so*"))), NAME]


def _declared(library: ctypes.CDLL) -> ctypes.CDLL:
    for name, takes in _ENTRIES.items():
        entry = getattr(library, name)
        entry.argtypes, entry.restype = takes, c_uint32
    return library


def _loaded() -> ctypes.CDLL:
    troubles = []
    for place in _places():
        try:
            return _declared(ctypes.CDLL(place))
        except (OSError, AttributeError) as trouble:
            troubles.append(str(trouble))
    raise ImportError(f"marks needs its shared library and cannot load it ({'; '.join(troubles)}). Install marks from its wheel, which "
                      f"brings the library; or install {NAME} where the system looks for libraries; or set MARKS_LIBRARY to its path.")


LIBRARY = _loaded()
