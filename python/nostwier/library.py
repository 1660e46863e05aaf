"""The shared library: where it is found, and its eight functions."""

import ctypes
import ctypes.util
import os
from pathlib import Path

VERSION = "1.4.0"  # NOSTWIER_VERSION of nostwier.h
VARIABLE = "NOSTWIER_LIBRARY"
SONAME = "libnostwier.so.1"
BUILD_TREE = Path(__file__).resolve().parents[2] / "target" / "lib" / SONAME


class LibraryMissing(Exception):
    """The shared library was not found, or it is another one."""


class ResultRecord(ctypes.Structure):
    _fields_ = [
        ("refusal", ctypes.c_uint32), ("place", ctypes.c_uint32),
        ("cost", ctypes.c_int64), ("bound", ctypes.c_int64), ("gap", ctypes.c_int64),
    ]


class AnswerRecord(ctypes.Structure):
    _fields_ = [("refusal", ctypes.c_uint32), ("place", ctypes.c_uint32)]


class CountRecord(ctypes.Structure):
    _fields_ = [("refusal", ctypes.c_uint32), ("count", ctypes.c_uint32)]


_BYTES = [ctypes.c_char_p, ctypes.c_size_t]
_LENT_BYTES = [ctypes.POINTER(ctypes.c_uint8), ctypes.c_size_t]
_NUMBERS = [ctypes.POINTER(ctypes.c_int64), ctypes.c_size_t]

FUNCTIONS = {
    "nostwier_check_case": (_BYTES, ctypes.c_uint32),
    "nostwier_check_certificate": (_BYTES + _BYTES, ResultRecord),
    "nostwier_prices": (_BYTES + _BYTES + _NUMBERS, AnswerRecord),
    "nostwier_charges": (_BYTES + _BYTES + _NUMBERS, AnswerRecord),
    "nostwier_read_case": (_BYTES + _NUMBERS, CountRecord),
    "nostwier_read_certificate": (_BYTES + _NUMBERS, CountRecord),
    "nostwier_write_case": (_NUMBERS + _LENT_BYTES, CountRecord),
    "nostwier_write_certificate": (_NUMBERS + _LENT_BYTES, CountRecord),
}


def candidates():
    """Where the library is looked for, in order: the environment alone if it names one, else the build tree and the system."""
    named = os.environ.get(VARIABLE)
    if named:
        yield named
        return
    if BUILD_TREE.exists():
        yield str(BUILD_TREE)
    yield SONAME
    found = ctypes.util.find_library("nostwier")
    if found and found != SONAME:
        yield found


def load():
    """Opens the library. What is found first must be it: nothing is passed over silently but a path that is not there."""
    tried = []
    for path in candidates():
        try:
            library = ctypes.CDLL(path)
        except OSError as error:
            tried.append(f"{path} ({error})")
            continue
        for name, (arguments, answer) in FUNCTIONS.items():
            try:
                function = getattr(library, name)
            except AttributeError:
                raise LibraryMissing(
                    f"{path} has no function {name}: it is another library, or an older one. Build it anew by 'make lib', or "
                    f"name the right one in the environment's {VARIABLE}."
                ) from None
            function.argtypes, function.restype = arguments, answer
        return library
    raise LibraryMissing(
        f"the library {SONAME} was not found; tried {', '.join(tried)}. Build it by 'make lib', install it by 'make install', or "
        f"name it in the environment's {VARIABLE}."
    )


_loaded = None


def function(name):
    """A function of the library, which is opened at the first call."""
    global _loaded
    if _loaded is None:
        _loaded = load()
    return getattr(_loaded, name)
