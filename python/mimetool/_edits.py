"""Edits as values, and what edits are given in the form that the library takes."""

import dataclasses
import enum
import operator
import struct
from typing import Sequence, Tuple, Union

from ._library import DEPTHS, MOST, PACKS, size

Path = Sequence[int]
Text = Union[bytes, str]


class EditKind(enum.IntEnum):
    """The nine edits, numbered as in mimetool.h."""

    ADD_FIELD = 0
    REMOVE_FIELD = 1
    RENAME_FIELD = 2
    SET_FIELD = 3
    SET_BODY = 4
    SET_SECTION = 5
    INSERT_PART = 6
    REMOVE_PART = 7
    WRAP = 8


ADD_FIELD, REMOVE_FIELD, RENAME_FIELD, SET_FIELD, SET_BODY, SET_SECTION, INSERT_PART, REMOVE_PART, WRAP = EditKind


def bytes_of(text: Text) -> bytes:
    """A text as bytes; a str in UTF-8."""
    if type(text) is bytes:
        return text
    if isinstance(text, str):
        return text.encode()
    if isinstance(text, (bytes, bytearray, memoryview)):
        return bytes(text)
    raise TypeError(f"a text is bytes or str, not {type(text).__name__}")


def counted(number: int, beyond: int) -> int:
    """A number that is counted; `beyond` stands for all that the library has no room for."""
    if operator.index(number) < 0:
        raise ValueError(f"a number that is counted can't be {number}")
    return number if number <= MOST else beyond


def packed(path: Path) -> Tuple[bytes, object]:
    """The numbers of a path one after another, and how many there are, as the library takes them."""
    depth = len(path)
    try:
        return PACKS[depth](*path), DEPTHS[depth]
    except (IndexError, struct.error):
        # No section has the number 0, so a path that holds it leads nowhere, as one with a larger number does.
        return struct.pack(f"{depth}I", *[counted(number, 0) for number in path]), size(depth)


def data_of(data: bytes) -> bytes:
    """A message or a journal as bytes."""
    if isinstance(data, str):
        raise TypeError("a message and a journal are bytes, not str")
    return bytes_of(data)


def ending_of(text: bytes) -> bytes:
    """The ending of a text's first line; LF where it has none."""
    end = text.find(b"\n")
    return b"\r\n" if end > 0 and text[end - 1] == 13 else b"\n"


@dataclasses.dataclass(frozen=True)
class Edit:
    """An edit that isn't made yet, for `Session.group` and `Session.check`.

    Its class methods take the same as the methods of `Session`.

    >>> from mimetool import Edit
    >>> Edit.rename_field((1,), "Subject", "Old-Subject").text
    b'Old-Subject'
    """

    kind: EditKind
    path: Tuple[int, ...]
    name: bytes = b""
    number: int = 0
    top: bool = False
    text: bytes = b""

    @classmethod
    def add_field(cls, path: Path, field: Text, top: bool = False) -> "Edit":
        """Puts a field after the others of the section, or before them."""
        return cls(ADD_FIELD, tuple(path), top=top, text=bytes_of(field))

    @classmethod
    def remove_field(cls, path: Path, name: Text, number: int = 1) -> "Edit":
        """Removes the number-th field of the name."""
        return cls(REMOVE_FIELD, tuple(path), bytes_of(name), number)

    @classmethod
    def rename_field(cls, path: Path, name: Text, to: Text, number: int = 1) -> "Edit":
        """Gives the number-th field of the name another one."""
        return cls(RENAME_FIELD, tuple(path), bytes_of(name), number, text=bytes_of(to))

    @classmethod
    def set_field(cls, path: Path, name: Text, field: Text, number: int = 1) -> "Edit":
        """Replaces the number-th field of the name."""
        return cls(SET_FIELD, tuple(path), bytes_of(name), number, text=bytes_of(field))

    @classmethod
    def set_body(cls, path: Path, body: Text) -> "Edit":
        """Replaces the body of a leaf, as it stands."""
        return cls(SET_BODY, tuple(path), text=bytes_of(body))

    @classmethod
    def set_section(cls, path: Path, entity: Text) -> "Edit":
        """Replaces the section, fields and body."""
        return cls(SET_SECTION, tuple(path), text=bytes_of(entity))

    @classmethod
    def insert_part(cls, path: Path, after: int, entity: Text) -> "Edit":
        """Puts a part into a multipart, after so many others."""
        return cls(INSERT_PART, tuple(path), number=after, text=bytes_of(entity))

    @classmethod
    def remove_part(cls, path: Path) -> "Edit":
        """Removes a part of a multipart, with its delimiter."""
        return cls(REMOVE_PART, tuple(path))

    @classmethod
    def wrap(cls, path: Path, subtype: Text, boundary: Text) -> "Edit":
        """Makes the section the one part of a multipart."""
        return cls(WRAP, tuple(path), bytes_of(subtype), text=bytes_of(boundary))


def look_at(edit: Edit) -> None:
    """Refuses what is no edit."""
    if not isinstance(edit, Edit):
        raise TypeError(f"an edit is made by the class methods of Edit, and is no {type(edit).__name__}")
