"""Messages that are built of fields, parts and other messages."""

import secrets
from ctypes import addressof, byref
from typing import Iterable, List, NamedTuple, Optional, Union

from . import _library
from ._edits import Text, bytes_of, data_of
from ._errors import build_error
from ._library import library


class Part(NamedTuple):
    """A part of a message that is to be built.

    type: its media type, such as "image/png"; no multipart and no message
    content: bytes, or a str, which is taken as UTF-8
    name: the name of a file, which is attached then; without one the part is shown
    base64: whether the content goes as base64, or as quoted-printable; by default a text goes as the latter, all else as the former
    """

    type: Text
    content: Text
    name: Optional[Text] = None
    base64: Optional[bool] = None


class Forward(NamedTuple):
    """A message that becomes a part, byte for byte, but for a From-line at its start. It is attached, or shown where inline is set."""

    message: bytes
    inline: bool = False


def word(text: Text) -> bytes:
    """A text that ends at a NUL in C. Where it holds one, another byte stands there that is never valid either."""
    return bytes_of(text).replace(b"\0", b"\1")


def is_text(media: bytes) -> bool:
    return media.lower().startswith(b"text/")


def c_field(field: Text) -> _library.Field:
    text = bytes_of(field)
    return _library.Field(text, len(text))


def c_part(part: Part) -> _library.Part:
    media, content = word(part.type), bytes_of(part.content)
    name = None if part.name is None else bytes_of(part.name)
    if name is not None and b"\0" in name:
        raise ValueError("the name of a part can't hold a NUL")
    base64 = not is_text(media) if part.base64 is None else part.base64
    return _library.Part(media, name, content, len(content), base64)


def c_forward(message: Union[Forward, bytes]) -> _library.Forward:
    given = message if isinstance(message, Forward) else Forward(message)
    text = data_of(given.message)
    return _library.Forward(text, len(text), given.inline)


def build(fields: Iterable[Text], parts: Iterable[Part], *, messages: Iterable[Union[Forward, bytes]] = (), subtype: Text = "mixed",
          charset: Optional[Text] = None, boundary: Optional[Text] = None, eol: bytes = b"\n") -> bytes:
    r"""A multipart of fields, parts and forwarded messages.

    fields: each a text that is one field, with or without a line ending at its end; MIME-Version and Content-.. are made
    messages: those that are forwarded, after the parts; bytes are a `Forward` that is attached
    charset: that of the parts text/.. (a content that is given as a str is in utf-8)
    boundary: a random one, unless it is given
    eol: the ending of the lines that are made, LF or CR LF; those of contents and messages stay as they are

    >>> message = build(["From: a@example.org", "Subject: hi"], [Part("text/plain", "Hello\n"), Part("image/png", b"\x89PNG", "a.png")],
    ...                 charset="utf-8", boundary="b")
    >>> print(message.decode())
    From: a@example.org
    Subject: hi
    MIME-Version: 1.0
    Content-Type: multipart/mixed; boundary="b"
    <BLANKLINE>
    --b
    Content-Type: text/plain; charset=utf-8
    Content-Transfer-Encoding: quoted-printable
    <BLANKLINE>
    Hello
    <BLANKLINE>
    --b
    Content-Type: image/png; name="a.png"
    Content-Disposition: attachment; filename="a.png"
    Content-Transfer-Encoding: base64
    <BLANKLINE>
    iVBORw==
    --b--
    <BLANKLINE>

    Where it is refused, item and index of the error say what it is about:

    >>> build(["Subject: hi"], [Part("text/plain", "Hello\n"), Part("picture", b"")])
    Traceback (most recent call last):
    mimetool.BadType: Part 1, counted from 0, is refused: its media type isn't valid.
    """
    ending = bytes_of(eol)
    if ending not in (b"\n", b"\r\n"):
        raise ValueError("lines end with LF or CR LF")
    made: List[_library.Field] = [c_field(field) for field in fields]
    attached: List[_library.Part] = [c_part(part) for part in parts]
    forwarded: List[_library.Forward] = [c_forward(message) for message in messages]
    draft = _library.Draft(
        (_library.Field * len(made))(*made), len(made), (_library.Part * len(attached))(*attached), len(attached),
        (_library.Forward * len(forwarded))(*forwarded), len(forwarded), word(subtype), None if charset is None else word(charset),
        word("=_" + secrets.token_hex(12) if boundary is None else boundary), ending == b"\r\n")
    answer, place = _library.Answer(), _library.Place()
    status = library.mimetool_build(addressof(draft), byref(answer), byref(place))
    if status:
        raise build_error(status, place.edit)
    try:
        return answer.bytes[:answer.size]
    finally:
        library.mimetool_free(byref(answer))
