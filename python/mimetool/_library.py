"""The shared library: where it is found, and its calls as mimetool.h declares them."""

import ctypes
import ctypes.util
import os
import struct
from ctypes import POINTER, c_bool, c_char, c_char_p, c_int, c_size_t, c_uint32, c_void_p
from typing import Tuple

# The version of the library that this module was written for. Another one fits if its first number is the same.
WRITTEN_FOR = "1.1.0"
VARIABLE = "MIMETOOL_LIBRARY"
BESIDE = os.path.join(os.path.dirname(os.path.abspath(__file__)), "libmimetool.so")
INSTALLED = "libmimetool.so.1"

MEMORY = 2


class Room(ctypes.Structure):
    """Where the library puts what it answers: a mimetool_view, a mimetool_place, a mimetool_session *, and a listing with its
    length. A slice of a pointer to c_char is a copy in one go."""

    _fields_ = [("bytes", POINTER(c_char)), ("size", c_size_t), ("edit", c_size_t), ("number", c_size_t), ("session", c_void_p),
                ("listing", POINTER(c_char)), ("count", c_size_t)]


class Answer(ctypes.Structure):
    """mimetool_bytes."""

    _fields_ = [("bytes", POINTER(c_char)), ("size", c_size_t)]


class Place(ctypes.Structure):
    """mimetool_place."""

    _fields_ = [("edit", c_size_t), ("number", c_size_t)]


class Edit(ctypes.Structure):
    """mimetool_edit. A c_char_p takes a bytes object without a copy, keeps it alive, and may hold zeros: the sizes count."""

    _fields_ = [("kind", c_int), ("path", c_char_p), ("depth", c_size_t), ("name", c_char_p), ("name_size", c_size_t),
                ("number", c_uint32), ("top", c_bool), ("text", c_char_p), ("text_size", c_size_t)]


class Field(ctypes.Structure):
    """mimetool_field."""

    _fields_ = [("text", c_char_p), ("size", c_size_t)]


class Part(ctypes.Structure):
    """mimetool_part."""

    _fields_ = [("type", c_char_p), ("name", c_char_p), ("content", c_char_p), ("size", c_size_t), ("base64", c_bool)]


class Forward(ctypes.Structure):
    """mimetool_forward."""

    _fields_ = [("text", c_char_p), ("size", c_size_t), ("shown", c_bool)]


class Draft(ctypes.Structure):
    """mimetool_draft."""

    _fields_ = [("fields", POINTER(Field)), ("field_count", c_size_t), ("parts", POINTER(Part)), ("part_count", c_size_t),
                ("messages", POINTER(Forward)), ("message_count", c_size_t), ("subtype", c_char_p), ("charset", c_char_p),
                ("boundary", c_char_p), ("crlf", c_bool)]


# mimetool_read: what is raised by one is lost, and it counts as failed then.
READ = ctypes.CFUNCTYPE(c_int, c_void_p, c_void_p, c_size_t, POINTER(c_size_t))

# mimetool_section: path, depth, kind, encoding, type, start, body, end, field_lines, body_lines.
SECTION = struct.Struct("PNIIPNNNNN")
SECTION_SIZE = SECTION.size

# All pointers to sessions, mailboxes, answers, views and sections are plain addresses here. The calls that are most frequent have no
# types of arguments: those are given as parameters that are made once (byref, address, size), in half the time.
SIGNATURES = {
    "mimetool_reason": (c_char_p, [c_int]),
    "mimetool_version": (c_char_p, []),
    "mimetool_free": (None, [c_void_p]),
    "mimetool_start": (c_int, None),
    "mimetool_load": (c_int, [c_void_p, c_char_p, c_size_t, c_char_p, c_size_t, c_void_p]),
    "mimetool_close": (None, [c_void_p]),
    "mimetool_view_text": (c_int, None),
    "mimetool_view_journal": (c_int, [c_void_p, c_void_p]),
    "mimetool_undo": (c_int, [c_void_p]),
    "mimetool_redo": (c_int, [c_void_p]),
    "mimetool_counts": (c_int, [c_void_p, c_void_p, c_void_p]),
    "mimetool_view_sections": (c_int, None),
    "mimetool_view_content": (c_int, None),
    "mimetool_view_name": (c_int, None),
    "mimetool_add_field": (c_int, None),
    "mimetool_group": (c_int, [c_void_p, c_void_p, c_size_t, c_void_p]),
    "mimetool_check": (c_int, [c_void_p, c_void_p, c_void_p]),
    "mimetool_open_mailbox": (c_int, [c_void_p, c_int, READ, c_void_p]),
    "mimetool_close_mailbox": (None, [c_void_p]),
    "mimetool_next_message": (c_int, [c_void_p, c_void_p]),
    "mimetool_fits": (c_bool, [c_int, c_char_p, c_size_t, c_char_p, c_size_t]),
    "mimetool_build": (c_int, [c_void_p, c_void_p, c_void_p]),
}


def opened(path: str, why: str) -> ctypes.CDLL:
    """The library at a path, which has to be there."""
    try:
        return ctypes.CDLL(path)
    except OSError as error:
        raise ImportError(f"the library of mimetool can't be loaded from {path} ({why}): {error}") from error


def found() -> Tuple[ctypes.CDLL, str]:
    """The library, and the path or name that it was found by."""
    if os.path.exists(BESIDE):
        return opened(BESIDE, "it lies beside the module"), BESIDE
    named = os.environ.get(VARIABLE)
    if named:
        return opened(named, f"{VARIABLE} names it"), named
    try:
        return ctypes.CDLL(INSTALLED), INSTALLED
    except OSError:
        pass
    other = ctypes.util.find_library("mimetool")
    if other:
        return opened(other, "the system names it"), other
    raise ImportError(f"the library of mimetool isn't there: install it, so that the loader finds {INSTALLED}; or set {VARIABLE}"
                      f" to the path of libmimetool.so; or copy that file to {os.path.dirname(BESIDE)}")


def loaded() -> ctypes.CDLL:
    """The library with the types of its calls, if it is of a version that fits."""
    library, place = found()
    for name, (answer, arguments) in SIGNATURES.items():
        try:
            call = getattr(library, name)
        except AttributeError as error:
            raise ImportError(f"{place} is no library of mimetool: it has no {name}") from error
        call.restype, call.argtypes = answer, arguments
    version: str = library.mimetool_version().decode()
    if version.split(".")[0] != WRITTEN_FOR.split(".")[0]:
        raise ImportError(f"{place} is version {version} of mimetool, and this module needs version {WRITTEN_FOR.split('.')[0]}")
    return library


library = loaded()

# The size of a number of a path, and the largest one.
NUMBER = 4
MOST = 0xFFFFFFFF
# An address and a size as a parameter of a call.
address, size = c_void_p.from_param, c_size_t.from_param
# A path has at most 101 numbers.
DEPTHS = [size(depth) for depth in range(102)]
PACKS = [struct.Struct(f"{depth}I").pack for depth in range(102)]
UNPACKS = [struct.Struct(f"{depth}I").unpack for depth in range(102)]
NUMBERS_AT = [(c_uint32 * depth).from_address for depth in range(102)]
