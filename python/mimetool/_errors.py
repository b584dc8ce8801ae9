"""The reasons for which the library refuses a call, a class for each."""

from typing import Dict, Type

from ._library import MEMORY, library


class MimetoolError(Exception):
    """A call that was refused. It changed nothing.

    status: the number of the reason in mimetool.h
    reason: its name, such as "HoldsBoundary"
    edit: which edit of a group was refused, counted from 0
    number: what the reason says of a number; 0 if it says nothing
    item: "field", "part" or "message" where one of these is why `build` was refused, or ""
    index: which one it is, counted from 0
    """

    _says = "the library refused the call: {reason}"

    def __init__(self, status: int, reason: str, edit: int = 0, number: int = 0, item: str = "") -> None:
        super().__init__(status, reason, edit, number, item)
        self.status, self.reason, self.edit, self.number, self.item = status, reason, edit, number, item

    @property
    def index(self) -> int:
        return self.edit

    def __str__(self) -> str:
        says = self._says.format(reason=self.reason, number=self.number)
        which = ""
        if self.item:
            which = f"{self.item} {self.edit}, counted from 0, is refused: "
        elif self.edit:
            which = f"edit {self.edit} of the group, counted from 0, is refused: "
        sentence = f"{which}{says}."
        return sentence[0].upper() + sentence[1:]


class NoName(MimetoolError):
    """`Session.name` answers None instead."""

    _says = "the fields of the section say no name"


class NoSuchSection(MimetoolError):
    """See `Session.sections` for the paths that there are."""

    _says = "there is no section at the path"


class NotMultipart(MimetoolError):
    """Wrap the section first; then it takes parts."""

    _says = "the section isn't a multipart, so it takes no part"


class NotLeaf(MimetoolError):
    """Set the section, not its body."""

    _says = "the section isn't a leaf, so its body can't be set"


class NotPart(MimetoolError):
    """Only parts of multiparts can be removed."""

    _says = "the section isn't a part of a multipart, so it can't be removed"


class NoSuchField(MimetoolError):
    """Fields are counted from 1, among those of the same name."""

    _says = "the section has no such field"


class BadPlace(MimetoolError):
    """`after` is at most the number of parts that there are."""

    _says = "the multipart has fewer parts than are to come before the new one"


class BadField(MimetoolError):
    """A field is a name, a colon, a value and the ending of each of its lines."""

    _says = "the text isn't exactly one field"


class BadName(MimetoolError):
    """A name is one or more bytes 33 to 126 other than the colon (RFC 5322, 2.2)."""

    _says = "the new name isn't the name of a field"


class BadBoundary(MimetoolError):
    """A boundary is 1 to 70 digits, letters, spaces or '()+_,-./:=? and doesn't end in a space (RFC 2046, 5.1.1)."""

    _says = "the boundary isn't valid"


class BadSubtype(MimetoolError):
    """A subtype is a token (RFC 2045, 5.1)."""

    _says = "the subtype isn't valid"


class OpenLine(MimetoolError):
    """Put the field at the top, or end the last line first."""

    _says = "a line without an ending would come before another line"


class HoldsBoundary(MimetoolError):
    """`number` is the length of that multipart's path. Write another line, or take another boundary.

    With `build`, a line of a message begins with two hyphens and the boundary; `number` is 0.
    """

    _says = "a line would be a delimiter of a multipart around it, whose path has the length {number}"

    def __str__(self) -> str:
        if self.number:
            return super().__str__()
        return f"Message {self.index}, counted from 0, is refused: one of its lines begins as a delimiter of the new multipart does."


class Recut(MimetoolError):
    """docs/FORMATS.md lists the causes, and what to do about each."""

    _says = "the message would be read in another way"


class NothingToUndo(MimetoolError):
    """All steps are undone, or there are none."""

    _says = "there is no step to undo"


class NothingToRedo(MimetoolError):
    """An edit drops the steps that were undone before it."""

    _says = "there is no step to redo"


class JournalSyntax(MimetoolError):
    """`number` is the offset in bytes."""

    _says = "the journal isn't valid from byte {number} on"


class JournalOther(MimetoolError):
    """A journal is loaded with the message as it was when the journal was saved."""

    _says = "the journal belongs to another message"


class JournalMismatch(MimetoolError):
    """`number` says which step, counted from 1."""

    _says = "step {number} of the journal doesn't fit the message"


class BadBase64(MimetoolError):
    """The section's fields say base64, and its body isn't that."""

    _says = "the content isn't valid base64"


class UnknownEncoding(MimetoolError):
    """Only the transfer encodings of RFC 2045 can be decoded."""

    _says = "the transfer encoding is unknown, so the content can't be decoded"


class BadType(MimetoolError):
    """A part has a media type of at most 100 bytes (RFC 2045, 5.1), which is no multipart and no message."""

    _says = "its media type isn't valid"


class BadPartName(MimetoolError):
    """A name is 1 to 255 bytes of UTF-8; one in printable ASCII has at most 100, no quote and no backslash."""

    _says = "its name can't be written"


class BadCharset(MimetoolError):
    """A charset is a token (RFC 2045, 5.1)."""

    _says = "the charset isn't valid"


NO_NAME = 5
BY_STATUS: Dict[int, Type[MimetoolError]] = {
    NO_NAME: NoName, 10: NoSuchSection, 11: NotMultipart, 12: NotLeaf, 13: NotPart, 14: NoSuchField, 15: BadPlace, 16: BadField,
    17: BadName, 18: BadBoundary, 19: BadSubtype, 20: OpenLine, 21: HoldsBoundary, 22: Recut, 23: NothingToUndo, 24: NothingToRedo,
    30: JournalSyntax, 31: JournalOther, 32: JournalMismatch, 40: BadBase64, 41: UnknownEncoding,
    50: BadType, 51: BadPartName, 52: BadCharset,
}


# Which item of a draft a reason against it is about.
ITEMS = {BadField: "field", BadType: "part", BadPartName: "part", HoldsBoundary: "message"}


def error(status: int, edit: int = 0, number: int = 0) -> Exception:
    """What to raise for a status."""
    if status == MEMORY:
        return MemoryError("memory ran out; nothing has changed")
    reason = library.mimetool_reason(status).decode()
    return BY_STATUS.get(status, MimetoolError)(status, reason, edit, number)


def build_error(status: int, index: int) -> Exception:
    """What to raise for a status against a message that is to be built."""
    made = error(status, index)
    if isinstance(made, MimetoolError):
        return type(made)(status, made.reason, index, 0, ITEMS.get(type(made), ""))
    return made
