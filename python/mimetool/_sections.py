"""Sections as the library lists them."""

import enum
from ctypes import c_char_p
from typing import List, NamedTuple, Tuple

from ._library import NUMBERS_AT, SECTION, UNPACKS


class Kind(enum.Enum):
    """What a section is. The values are the words of `mimetool sections`."""

    LEAF = "leaf"
    MULTIPART = "multi"
    MESSAGE = "message"


class Encoding(enum.Enum):
    """How the content of a section is encoded. IDENTITY is 7bit, 8bit, binary or none, and OTHER can't be decoded."""

    IDENTITY = "identity"
    QUOTED_PRINTABLE = "quoted-printable"
    BASE64 = "base64"
    OTHER = "other"


KINDS, ENCODINGS = tuple(Kind), tuple(Encoding)
# A tuple is made by this in half the time that a call of its class takes.
_new = tuple.__new__


class Section(NamedTuple):
    """A section as it was when it was listed.

    `start`, `body` and `end` are offsets in bytes: of its first field, of its body and of what follows it. `field_lines` and
    `body_lines` say how many lines its fields and its body have.
    """

    path: Tuple[int, ...]
    kind: Kind
    type: str
    encoding: Encoding
    start: int
    body: int
    end: int
    field_lines: int
    body_lines: int


def sections_in(rows: bytes) -> List[Section]:
    """The sections whose rows these are: each a mimetool_section, whose pointers lead to what the library still holds."""
    return [_new(Section, (UNPACKS[depth](NUMBERS_AT[depth](path)), KINDS[kind], c_char_p(media).value.decode(), ENCODINGS[encoding],
                           start, body, end, field_lines, body_lines))
            for path, depth, kind, encoding, media, start, body, end, field_lines, body_lines in SECTION.iter_unpack(rows)]
