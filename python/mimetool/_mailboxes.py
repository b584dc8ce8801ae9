"""Mailboxes: their messages one after another, and filters over them."""

import enum
import io
import os
from ctypes import addressof, c_void_p, memmove
from threading import RLock
from types import TracebackType
from typing import Any, BinaryIO, Callable, NoReturn, Optional, Tuple, Type, Union

from ._edits import data_of
from ._errors import Recut, error
from ._library import READ, Answer, library
from ._session import Session

Source = Union[bytes, str, "os.PathLike[str]", BinaryIO]
Visit = Callable[[Session, int], Optional[object]]
NO_MESSAGE, RECUT, READ_FAILED = 7, 22, 60
FAILED = 1


class FromLines(enum.Enum):
    """Which From-lines begin messages, where they follow an empty line. The values are the words of `--mbox`."""

    ANY = "any"
    DATE = "date"
    FIELD = "field"


FROM_LINES = tuple(FromLines)


def opened(source: Source) -> Tuple[Any, bool]:
    """A source as a file, and whether it was opened here."""
    if isinstance(source, (bytes, bytearray, memoryview)):
        return io.BytesIO(source), True
    if isinstance(source, (str, os.PathLike)):
        return open(source, "rb", buffering=0), True
    if not hasattr(source, "read"):
        raise TypeError(f"a mailbox is bytes, a path or a binary file, not {type(source).__name__}")
    return source, False


class Reader:
    """Gives the library what it reads of a file, and keeps what is raised meanwhile."""

    def __init__(self, file: Any) -> None:
        # A file that has read1 gives what there is, and doesn't wait for a whole chunk.
        self._read: Callable[[int], bytes] = getattr(file, "read1", None) or file.read
        self._raised: Optional[BaseException] = None

    def fill(self, _context: None, buffer: int, size: int, got: Any) -> int:
        """A mimetool_read."""
        try:
            data = self._read(size)
            if data is None:
                raise BlockingIOError("the source has no bytes yet")
            data = data_of(data)
            if len(data) > size:
                raise ValueError(f"the source gave {len(data)} bytes where {size} were asked for")
            memmove(buffer, data, len(data))
            got[0] = len(data)
            return 0
        except BaseException as raised:
            self._raised = raised
            return FAILED

    def fail(self) -> NoReturn:
        """Raises what was raised while the library was reading."""
        raised, self._raised = self._raised, None
        try:
            raise raised or RuntimeError("reading was interrupted; the call may be made again")
        finally:
            # So that its traceback, which has this frame, holds no cycle.
            del raised


class Mailbox:
    r"""The messages of a mailbox, as bytes, one after another.

    The source is the mailbox itself, as bytes, or its path, or a binary file, which is read in chunks of 64 KB or less and isn't
    closed. No more than a message and two chunks are kept. Joined, the messages are the mailbox, byte for byte: each has its
    From-line, and the empty line before the next one.

    What reading raises comes out of the loop. No byte is lost then: the next call of `next` goes on. It is a context manager that
    closes itself. Threads may share a mailbox: each message goes to one of them.

    >>> box = b"From a\nSubject: one\n\n1\n\nFrom b\nSubject: two\n\n2\n"
    >>> with Mailbox(box) as mailbox:
    ...     for message in mailbox:
    ...         print(message)
    b'From a\nSubject: one\n\n1\n\n'
    b'From b\nSubject: two\n\n2\n'

    A sentence may begin with From. A mailbox whose writer didn't quote it is cut at those that end with a date, or at those that a
    field follows:

    >>> list(Mailbox(b"From a\nA: b\n\nHello.\n\nFrom here on it rains.\n", from_lines=FromLines.FIELD))
    [b'From a\nA: b\n\nHello.\n\nFrom here on it rains.\n']
    """

    _handle: Optional[int] = None

    def __init__(self, source: Source, from_lines: Union[FromLines, str] = FromLines.ANY) -> None:
        """Opens a mailbox. from_lines may also be the value of a FromLines, such as "date"."""
        number = FROM_LINES.index(FromLines(from_lines))
        self._lock, self._is_busy, self._answer = RLock(), False, Answer()
        self._file, self._is_own = opened(source)
        self._reader = Reader(self._file)
        self._callback = READ(self._reader.fill)
        handle = c_void_p()
        status = library.mimetool_open_mailbox(addressof(handle), number, self._callback, None)
        if status:
            self._close_file()
            raise error(status)
        self._handle = handle.value

    def _close_file(self) -> None:
        if self._is_own:
            self._file.close()

    def close(self) -> None:
        """Frees what the mailbox holds, and closes its file where it was given a path. A later `next` raises ValueError."""
        with self._lock:
            if self._is_busy:
                raise ValueError("the mailbox is being read")
            handle, self._handle = self._handle, None
            if handle is not None:
                library.mimetool_close_mailbox(handle)
                self._close_file()

    def __del__(self) -> None:
        if self._handle is not None:
            self.close()

    def __enter__(self) -> "Mailbox":
        if self._handle is None:
            raise ValueError("the mailbox is closed")
        return self

    def __exit__(self, kind: Optional[Type[BaseException]], value: Optional[BaseException],
                 traceback: Optional[TracebackType]) -> None:
        self.close()

    def __reduce__(self) -> NoReturn:
        raise TypeError("a Mailbox can't be copied or pickled")

    def __iter__(self) -> "Mailbox":
        return self

    def __next__(self) -> bytes:
        """The next message."""
        with self._lock:
            if self._is_busy:
                raise ValueError("the mailbox is being read")
            if self._handle is None:
                raise ValueError("the mailbox is closed")
            self._is_busy = True
            try:
                return self._taken(library.mimetool_next_message(self._handle, addressof(self._answer)))
            finally:
                self._is_busy = False

    def _taken(self, status: int) -> bytes:
        """The message that a call answered, of which the library's copy is freed; or why there is none."""
        if status == NO_MESSAGE:
            raise StopIteration
        if status == READ_FAILED:
            self._reader.fail()
        if status:
            raise error(status)
        answer = self._answer
        try:
            return answer.bytes[:answer.size]
        finally:
            library.mimetool_free(addressof(answer))


def write_all(sink: Any, text: bytes) -> None:
    """Writes all of a text, to a file that may take less at once, too."""
    rest = memoryview(text)
    while rest:
        count = sink.write(rest)
        if count is None and isinstance(sink, io.RawIOBase):
            raise BlockingIOError("the sink takes no bytes now")
        rest = rest[count:] if isinstance(count, int) else rest[:0]


def edited(message: bytes, number: int, visit: Visit, kind: int) -> Tuple[Optional[bytes], bool]:
    """What goes out for a message, or None; and whether its edits are refused."""
    with Session(message) as session:
        kept = visit(session, number)
        if kept is not None and not kept:
            return None, False
        text = session.text() if session.done else message
    if text is message or library.mimetool_fits(kind, message, len(message), text, len(text)):
        return text, False
    return message, True


def filter_mailbox(source: Source, sink: BinaryIO, visit: Visit, from_lines: Union[FromLines, str] = FromLines.ANY,
                   refused: Optional[Callable[[int, Recut], object]] = None) -> None:
    r"""Lets each message of a mailbox be visited, and writes those that are kept.

    source and from_lines are those of `Mailbox`, and sink is a binary file. visit is called with a `Session` of the message, which
    it may edit, and the number of the message, counted from 1. Where it returns None or what counts as true, the message is
    written as the session has it then; where it returns False, or what counts as false, the message is left out. The session is
    closed when visit has returned.

    An edited message that would be cut in another way in the mailbox is written as it came, byte for byte, and refused is called
    with its number and a `Recut`. So what is written is a mailbox whose messages are those that were kept.

    What visit, refused, the source or the sink raise ends the filtering and is raised here. All messages before that one have been
    written as a whole then, or left out.

    >>> import io
    >>> box = b"From a\nSubject: one\n\n1\n\nFrom b\nX-Spam: yes\n\n2\n\nFrom c\nSubject: three\n\n3\n"
    >>> def visit(session, number):
    ...     if b"X-Spam:" in session.text():
    ...         return False
    ...     session.add_field((1,), f"X-Number: {number}")
    >>> kept = io.BytesIO()
    >>> filter_mailbox(box, kept, visit)
    >>> kept.getvalue()
    b'From a\nSubject: one\nX-Number: 1\n\n1\n\nFrom c\nSubject: three\nX-Number: 3\n\n3\n'
    """
    kind = FROM_LINES.index(FromLines(from_lines))
    with Mailbox(source, from_lines) as mailbox:
        for number, message in enumerate(mailbox, 1):
            text, is_refused = edited(message, number, visit, kind)
            if text:
                write_all(sink, text)
            if is_refused and refused is not None:
                refused(number, Recut(RECUT, "Recut"))
