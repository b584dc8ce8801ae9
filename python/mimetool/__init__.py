r"""Internet messages with MIME, edited so that what an edit doesn't name stays as it is, byte for byte.

>>> message = b"From: a@example.org\r\nSubject: hi\r\n\r\nHello\r\n"
>>> with Session(message) as s:
...     s.add_field((1,), "X-Seen: yes")
...     s.rename_field((1,), "Subject", "Old-Subject")
...     print(s.text())
...     s.undo()
...     s.undo()
...     print(s.text() == message)
b'From: a@example.org\r\nOld-Subject: hi\r\nX-Seen: yes\r\n\r\nHello\r\n'
True

A section is named by its path: numbers counted from 1, of which the first is 1, the message itself. So `(1, 2)` is its second
part. A text is given as bytes, or as a str, which is taken as UTF-8.

A call that is refused raises a `MimetoolError`, of the class of the reason, and changes nothing:

>>> with Session(message) as s:
...     s.remove_part((1,))
Traceback (most recent call last):
mimetool.NotPart: The section isn't a part of a multipart, so it can't be removed.
"""

from . import _library
from ._building import Forward, Part, build
from ._edits import Edit, EditKind
from ._errors import (BY_STATUS, BadBase64, BadBoundary, BadCharset, BadField, BadName, BadPartName, BadPlace, BadSubtype, BadType,
                      HoldsBoundary, JournalMismatch, JournalOther, JournalSyntax, MimetoolError, NoName, NoSuchField, NoSuchSection,
                      NotLeaf, NotMultipart, NotPart, NothingToRedo, NothingToUndo, OpenLine, Recut, UnknownEncoding)
from ._library import library
from ._mailboxes import FromLines, Mailbox, filter_mailbox
from ._sections import Encoding, Kind, Section
from ._session import Session

__all__ = [
    "BadBase64", "BadBoundary", "BadCharset", "BadField", "BadName", "BadPartName", "BadPlace", "BadSubtype", "BadType", "Edit",
    "EditKind", "Encoding", "Forward", "FromLines", "HoldsBoundary", "JournalMismatch", "JournalOther", "JournalSyntax", "Kind",
    "Mailbox", "MimetoolError", "NoName", "NoSuchField", "NoSuchSection", "NotLeaf", "NotMultipart", "NotPart", "NothingToRedo",
    "NothingToUndo", "OpenLine", "Part", "Recut", "Section", "Session", "UnknownEncoding", "build", "filter_mailbox",
    "library_version",
]
__version__ = _library.WRITTEN_FOR


def library_version() -> str:
    """The version of the library that is used.

    >>> library_version().split(".")[0]
    '1'
    """
    version: bytes = library.mimetool_version()
    return version.decode()


for _shown in (Edit, EditKind, Encoding, Forward, FromLines, Kind, Mailbox, MimetoolError, Part, Section, Session, build,
               filter_mailbox, *BY_STATUS.values()):
    _shown.__module__ = __name__
