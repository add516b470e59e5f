"""The shared library: where it is, the structures of its header amihunk.h, and those of its calls that this module makes.

A structure is named as in the header, without `amihunk_`, and has the same fields; the header says what each is.
"""
from __future__ import annotations

import ctypes
import os
from ctypes import POINTER, c_bool, c_char_p, c_size_t, c_uint, c_uint32, c_uint64, c_void_p

VERSION = "0.1.0"

# Where the library may be, from the folder of this package: in it, beside it, or in the `lib` of what it was installed below.
FOLDERS = (".", "..", "../../lib", "../../../lib", "../../../../lib")
NAMES = ("libamihunk.so.0", "libamihunk.so")


class Bytes(ctypes.Structure):
    _fields_ = [("bytes", c_void_p), ("size", c_uint64)]


class Memory(ctypes.Structure):
    _fields_ = [("allocate", c_void_p), ("resize", c_void_p), ("release", c_void_p), ("context", c_void_p)]


class Answer(ctypes.Structure):
    _fields_ = [
        ("place", c_uint64),
        ("input", c_uint64),
        ("unit", c_uint64),
        ("hunk", c_uint64),
        ("other", c_uint64),
        ("status", c_uint32),
        ("reason", c_uint32),
        ("number", c_uint32),
    ]


class Loader(ctypes.Structure):
    _fields_ = [("session", c_void_p), ("memory", Memory)]


class Hunk(ctypes.Structure):
    _fields_ = [("bytes", c_void_p), ("size", c_uint64), ("base", c_uint32)]


class Table(ctypes.Structure):
    _fields_ = [("hunks", c_uint64), ("size", c_uint32), ("memory", c_uint32)]


class Place(ctypes.Structure):
    _fields_ = [("bytes", c_void_p), ("base", c_uint32)]


class Linker(ctypes.Structure):
    _fields_ = [("session", c_void_p), ("memory", Memory)]


class Options(ctypes.Structure):
    _fields_ = [("strip", c_bool), ("short_form", c_bool), ("trim", c_bool), ("keep", c_bool), ("key", c_uint64 * 2)]


class Undefined(ctypes.Structure):
    _fields_ = [("name", Bytes), ("input", c_uint64), ("unit", c_uint64), ("hunk", c_uint64), ("references", c_uint64)]


class File(ctypes.Structure):
    _fields_ = [("session", c_void_p), ("memory", Memory)]


class Contents(ctypes.Structure):
    _fields_ = [("units", c_uint64), ("kind", c_uint32)]


class Unit(ctypes.Structure):
    _fields_ = [("name", Bytes), ("hunks", c_uint64)]


class FileHunk(ctypes.Structure):
    _fields_ = [
        ("name", Bytes),
        ("stored", Bytes),
        ("sites", c_uint64),
        ("symbols", c_uint64),
        ("definitions", c_uint64),
        ("references", c_uint64),
        ("debug_blocks", c_uint64),
        ("size", c_uint32),
        ("kind", c_uint32),
        ("memory", c_uint32),
    ]


class Site(ctypes.Structure):
    _fields_ = [("offset", c_uint32), ("kind", c_uint32), ("target", c_uint32)]


class Symbol(ctypes.Structure):
    _fields_ = [("name", Bytes), ("value", c_uint32)]


class Definition(ctypes.Structure):
    _fields_ = [("name", Bytes), ("value", c_uint32), ("absolute", c_uint32)]


class Debug(ctypes.Structure):
    _fields_ = [("longwords", c_void_p), ("size", c_uint64)]


class Difference(ctypes.Structure):
    _fields_ = [
        ("hunk", c_uint64),
        ("offset", c_uint64),
        ("first", c_uint64),
        ("second", c_uint64),
        ("kind", c_uint32),
    ]


# A call returns the first of its types, and takes the others. What points to bytes or to longwords is a `c_void_p`.
STATUS = c_uint
LOADER, LINKER, FILE, ANSWER = POINTER(Loader), POINTER(Linker), POINTER(File), POINTER(Answer)
CALLS = {
    "amihunk_from_malloc": (Memory,),
    "amihunk_check_places": (STATUS, c_void_p, c_size_t, c_void_p, c_size_t, ANSWER),
    "amihunk_loader_open": (STATUS, LOADER, Memory, c_void_p, c_size_t),
    "amihunk_loader_begin": (STATUS, LOADER, Memory),
    "amihunk_loader_feed_header": (STATUS, LOADER, c_void_p, c_size_t, POINTER(c_size_t), ANSWER),
    "amihunk_loader_table": (STATUS, LOADER, c_size_t, POINTER(Table)),
    "amihunk_loader_place": (STATUS, LOADER, c_void_p, c_size_t, ANSWER),
    "amihunk_loader_place_into": (STATUS, LOADER, POINTER(Place), c_size_t, ANSWER),
    "amihunk_loader_feed": (STATUS, LOADER, c_void_p, c_size_t, ANSWER),
    "amihunk_loader_finish": (STATUS, LOADER, ANSWER),
    "amihunk_loader_hunk_count": (c_size_t, LOADER),
    "amihunk_loader_get_hunk": (STATUS, LOADER, c_size_t, POINTER(Hunk)),
    "amihunk_loader_line": (c_size_t, LOADER, c_char_p, c_void_p, c_size_t),
    "amihunk_loader_close": (None, LOADER),
    "amihunk_linker_open": (STATUS, LINKER, Memory, Options),
    "amihunk_linker_feed": (STATUS, LINKER, c_void_p, c_size_t, ANSWER),
    "amihunk_linker_end_input": (STATUS, LINKER, ANSWER),
    "amihunk_linker_finish": (STATUS, LINKER, ANSWER),
    "amihunk_linker_get_file": (STATUS, LINKER, POINTER(Bytes)),
    "amihunk_linker_name": (c_size_t, LINKER, c_void_p, c_size_t),
    "amihunk_linker_line": (c_size_t, LINKER, c_char_p, c_void_p, c_size_t),
    "amihunk_linker_get_undefined": (STATUS, LINKER, c_size_t, POINTER(Undefined)),
    "amihunk_linker_map": (c_size_t, LINKER, POINTER(c_char_p), c_size_t, c_void_p, c_size_t),
    "amihunk_linker_close": (None, LINKER),
    "amihunk_file_open": (STATUS, FILE, Memory),
    "amihunk_file_feed": (STATUS, FILE, c_void_p, c_size_t, ANSWER),
    "amihunk_file_finish": (STATUS, FILE, ANSWER),
    "amihunk_file_get_contents": (STATUS, FILE, POINTER(Contents)),
    "amihunk_file_get_unit": (STATUS, FILE, c_size_t, POINTER(Unit)),
    "amihunk_file_get_hunk": (STATUS, FILE, c_size_t, c_size_t, POINTER(FileHunk)),
    "amihunk_file_get_site": (STATUS, FILE, c_size_t, c_size_t, c_size_t, POINTER(Site)),
    "amihunk_file_get_symbol": (STATUS, FILE, c_size_t, c_size_t, c_size_t, POINTER(Symbol)),
    "amihunk_file_get_definition": (STATUS, FILE, c_size_t, c_size_t, c_size_t, POINTER(Definition)),
    "amihunk_file_get_reference": (STATUS, FILE, c_size_t, c_size_t, c_size_t, POINTER(Bytes)),
    "amihunk_file_get_debug": (STATUS, FILE, c_size_t, c_size_t, c_size_t, POINTER(Debug)),
    "amihunk_file_compare": (STATUS, FILE, FILE, c_bool, POINTER(Difference)),
    "amihunk_file_line": (c_size_t, FILE, c_char_p, c_void_p, c_size_t),
    "amihunk_file_close": (None, FILE),
}


def library_path() -> str:
    """The library that AMIHUNK_LIBRARY names; else one in the folders above; else a name that the system looks for."""
    if given := os.environ.get("AMIHUNK_LIBRARY"):
        return given
    package = os.path.dirname(os.path.abspath(__file__))
    for folder in FOLDERS:
        for name in NAMES:
            path = os.path.normpath(os.path.join(package, folder, name))
            if os.path.exists(path):
                return path
    return NAMES[0]


def opened(path: str) -> ctypes.CDLL:
    """The library at a path, if it is of the version of this module."""
    try:
        library = ctypes.CDLL(path)
        library.amihunk_version.restype = c_char_p
        version = library.amihunk_version().decode()
    except (OSError, AttributeError) as error:
        raise ImportError(f"the library of amihunk cannot be used: {error}") from error
    if version != VERSION:
        raise ImportError(f"the library of amihunk, {path}, has version {version}, and the module amihunk has version {VERSION}")
    for name, (returned, *taken) in CALLS.items():
        call = getattr(library, name)
        call.restype, call.argtypes = returned, taken
    return library


C = opened(library_path())
