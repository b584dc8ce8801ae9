"""A message under edit."""

from ctypes import byref, c_size_t
from threading import Lock
from types import TracebackType
from typing import Callable, Iterable, List, NoReturn, Optional, Tuple, Type

from . import _library
from ._edits import (ADD_FIELD, INSERT_PART, REMOVE_FIELD, REMOVE_PART, RENAME_FIELD, SET_BODY, SET_FIELD, SET_SECTION, WRAP, Edit,
                     EditKind, Path, Text, bytes_of, counted, data_of, ending_of, look_at, packed)
from ._errors import NO_NAME, error
from ._library import MOST, NUMBER, SECTION_SIZE, Room, address, library, size
from ._sections import Section, sections_in

TAKE_A_FIELD = ADD_FIELD, SET_FIELD
# Where in the room of a session the place of a refusal, a new session, and a listing and its length are. A view is at its start.
PLACE, STARTED, LISTING, COUNT = Room.edit.offset, Room.session.offset, Room.listing.offset, Room.count.offset
# The calls that are frequent, so that they aren't looked up in the library each time.
c_start, c_close, c_add_field = library.mimetool_start, library.mimetool_close, library.mimetool_add_field
c_view_text, c_view_content, c_view_sections = (library.mimetool_view_text, library.mimetool_view_content,
                                                library.mimetool_view_sections)


class Session:
    r"""A message under edit. Each accepted edit, or group of edits, is a step that can be undone and made again.

    It is a context manager that closes itself. Threads may share a session: it makes their calls one after another.

    >>> with Session(b"Subject: hi\n\nHello\n") as s:
    ...     s.set_body((1,), "Bye\n")
    ...     print(s.text(), s.done, s.undone)
    b'Subject: hi\n\nBye\n' 1 0
    """

    # The session of the library as a parameter of its calls, which is never false.
    _handle: Optional[object] = None
    # The ending of the message's first line; None after an edit that may have changed it.
    _ending: Optional[bytes]

    def __init__(self, data: bytes) -> None:
        """Opens a session with a message, any bytes."""
        if type(data) is not bytes:
            data = data_of(data)
        room = self._room = Room()
        self._view, self._place = byref(room), byref(room, PLACE)
        self._lock, self._ending = Lock(), ending_of(data)
        status = c_start(byref(room, STARTED), data, size(len(data)))
        if status:
            raise error(status)
        self._handle = address(room.session)

    @classmethod
    def load(cls, data: bytes, journal: bytes) -> "Session":
        r"""Opens a session with a message and the journal that `save` gave of it.

        >>> with Session(b"A: b\n\n") as s:
        ...     s.remove_field((1,), "A")
        ...     text, journal = s.text(), s.save()
        >>> with Session.load(text, journal) as s:
        ...     s.undo()
        ...     print(s.text())
        b'A: b\n\n'
        """
        data, journal = data_of(data), data_of(journal)
        session = cls.__new__(cls)
        room = session._room = Room()
        session._view, session._place = byref(room), byref(room, PLACE)
        session._lock, session._ending = Lock(), ending_of(data)
        session._end(library.mimetool_load(byref(room, STARTED), data, len(data), journal, len(journal), session._place))
        session._handle = address(room.session)
        return session

    def _end(self, status: int) -> None:
        """Raises the error of a call that says where it was refused."""
        if status:
            raise error(status, self._room.edit, self._room.number)

    def close(self) -> None:
        """Frees what the session holds. Any later use raises ValueError, but for another close."""
        with self._lock:
            handle, self._handle = self._handle, None
            c_close(handle)

    def __del__(self) -> None:
        if self._handle is not None:
            self.close()

    def __enter__(self) -> "Session":
        if self._handle is None:
            _closed()
        return self

    def __exit__(self, kind: Optional[Type[BaseException]], value: Optional[BaseException],
                 traceback: Optional[TracebackType]) -> None:
        lock = self._lock
        # Where calls are frequent, this is used: it is twice as fast as a with statement.
        lock.acquire()
        try:
            handle, self._handle = self._handle, None
            c_close(handle)
        finally:
            lock.release()

    def __reduce__(self) -> NoReturn:
        raise TypeError("a Session can't be copied or pickled; load one with its text and its journal")

    def _viewed(self, status: int) -> bytes:
        """A copy of the bytes that a call answered, or its error."""
        if status:
            raise error(status)
        room = self._room
        return room.bytes[:room.size]

    def text(self) -> bytes:
        """The message as it stands."""
        lock = self._lock
        lock.acquire()
        try:
            status = c_view_text(self._handle or _closed(), self._view)
            if status:
                raise error(status)
            room = self._room
            return room.bytes[:room.size]
        finally:
            lock.release()

    def save(self) -> bytes:
        """The journal: all steps, and a digest of the message as it stands. `load` takes it with the message."""
        with self._lock:
            return self._viewed(library.mimetool_view_journal(self._handle or _closed(), self._view))

    def undo(self) -> None:
        """Takes the last step back."""
        self._step(library.mimetool_undo)

    def redo(self) -> None:
        """Makes the step again that was taken back last."""
        self._step(library.mimetool_redo)

    def _step(self, call: Callable[[int], int]) -> None:
        with self._lock:
            status = call(self._handle or _closed())
            self._ending = None
        if status:
            raise error(status)

    def _counts(self) -> Tuple[int, int]:
        done, undone = c_size_t(), c_size_t()
        with self._lock:
            status = library.mimetool_counts(self._handle or _closed(), byref(done), byref(undone))
        if status:
            raise error(status)
        return done.value, undone.value

    @property
    def done(self) -> int:
        """How many steps can be undone."""
        return self._counts()[0]

    @property
    def undone(self) -> int:
        """How many steps can be made again."""
        return self._counts()[1]

    def sections(self) -> List[Section]:
        r"""All sections of the message, each before those below it.

        >>> with Session(b"Content-Type: text/html\n\n<p>\n") as s:
        ...     for section in s.sections():
        ...         print(section.path, section.kind.value, section.type, section.encoding.value, section.body)
        (1,) leaf text/html identity 25
        """
        room, lock = self._room, self._lock
        lock.acquire()
        try:
            status = c_view_sections(self._handle or _closed(), byref(room, LISTING), byref(room, COUNT))
            if status:
                raise error(status)
            return sections_in(room.listing[:room.count * SECTION_SIZE])
        finally:
            lock.release()

    def extract(self, path: Path) -> bytes:
        """The content of a section: that of a leaf decoded, that of another as it stands."""
        numbers, depth = packed(path)
        lock = self._lock
        lock.acquire()
        try:
            status = c_view_content(self._handle or _closed(), numbers, depth, self._view)
            if status:
                raise error(status)
            room = self._room
            return room.bytes[:room.size]
        finally:
            lock.release()

    def name(self, path: Path) -> Optional[str]:
        r"""The name that the fields of a section say, or None.

        It may hold any characters, slashes too: don't open it as a file without a look at it.

        >>> with Session(b"Content-Disposition: attachment; filename*=utf-8''%C3%BC.txt\n\n") as s:
        ...     print(s.name((1,)) == "\u00fc.txt")
        True
        """
        numbers, depth = packed(path)
        with self._lock:
            status = library.mimetool_view_name(self._handle or _closed(), numbers, depth, self._view)
            return None if status == NO_NAME else self._viewed(status).decode()

    def add_field(self, path: Path, field: Text, top: bool = False) -> None:
        r"""Puts a field after the others of the section, or before them.

        The field has to carry the endings of its lines. One that has no line ending at all gets the message's own: that of the
        first line of the message, or LF where it has none.

        >>> with Session(b"A: b\r\n\r\n") as s:
        ...     s.add_field((1,), "X-Seen: yes")
        ...     s.add_field((1,), "X-Long: a\r\n b\r\n", top=True)
        ...     print(s.text())
        b'X-Long: a\r\n b\r\nA: b\r\nX-Seen: yes\r\n\r\n'
        """
        text, lock = bytes_of(field), self._lock
        numbers, depth = packed(path)
        lock.acquire()
        try:
            handle = self._handle or _closed()
            is_bare = b"\n" not in text
            if is_bare:
                text += self._ending or self._line_ending()
            status = c_add_field(handle, numbers, depth, bool(top), text, size(len(text)), self._place)
            if status:
                self._end(status)
            if not (is_bare or self._keeps_ending(ADD_FIELD, path, text)):
                self._ending = None
        finally:
            lock.release()

    def remove_field(self, path: Path, name: Text, number: int = 1) -> None:
        """Removes the number-th field of the name, counted from 1. Names are compared without regard to case."""
        self._make_one(REMOVE_FIELD, path, bytes_of(name), number, False, b"")

    def rename_field(self, path: Path, name: Text, to: Text, number: int = 1) -> None:
        """Gives the number-th field of the name another name. What follows the name stays."""
        self._make_one(RENAME_FIELD, path, bytes_of(name), number, False, bytes_of(to))

    def set_field(self, path: Path, name: Text, field: Text, number: int = 1) -> None:
        r"""Replaces the number-th field of the name by a field, which may have another name.

        The field has to carry the endings of its lines. One that has no line ending at all gets the message's own: that of the
        first line of the message, or LF where it has none.

        >>> with Session(b"A: b\nC: d\n\n") as s:
        ...     s.set_field((1,), "c", "E: f")
        ...     print(s.text())
        b'A: b\nE: f\n\n'
        """
        self._make_one(SET_FIELD, path, bytes_of(name), number, False, bytes_of(field))

    def set_body(self, path: Path, body: Text) -> None:
        """Replaces the body of a leaf, as it stands: in its transfer encoding."""
        self._make_one(SET_BODY, path, b"", 0, False, bytes_of(body))

    def set_section(self, path: Path, entity: Text) -> None:
        """Replaces the section, fields and body."""
        self._make_one(SET_SECTION, path, b"", 0, False, bytes_of(entity))

    def insert_part(self, path: Path, after: int, entity: Text) -> None:
        """Puts a part, fields and body, into a multipart, after so many others."""
        self._make_one(INSERT_PART, path, b"", after, False, bytes_of(entity))

    def remove_part(self, path: Path) -> None:
        """Removes a part of a multipart, with its delimiter."""
        self._make_one(REMOVE_PART, path, b"", 0, False, b"")

    def wrap(self, path: Path, subtype: Text, boundary: Text) -> None:
        """Makes the section the one part of a multipart of this subtype."""
        self._make_one(WRAP, path, bytes_of(subtype), 0, False, bytes_of(boundary))

    def group(self, edits: Iterable[Edit]) -> None:
        r"""Makes edits one after another as one step, all or none. Where one is refused, `edit` of the error says which.

        Fields without a line ending get the one that the message has before the first edit. No edits are a step, too.

        >>> with Session(b"A: b\n\n") as s:
        ...     s.group([Edit.add_field((1,), "C: d"), Edit.remove_field((1,), "A")])
        ...     print(s.text(), s.done)
        b'C: d\n\n' 1
        """
        given = list(edits)
        for edit in given:
            look_at(edit)
        with self._lock:
            made = [self._c_edit(edit.kind, edit.path, edit.name, edit.number, edit.top, edit.text) for edit in given]
            rows = (_library.Edit * len(made))(*made)
            self._end(library.mimetool_group(self._handle or _closed(), byref(rows), len(made), self._place))
            if not all(self._keeps_ending(edit.kind, edit.path, edit.text) for edit in given):
                self._ending = None

    def check(self, edit: Edit) -> None:
        r"""Raises what this edit would raise. Nothing changes.

        >>> with Session(b"A: b\n\n") as s:
        ...     s.check(Edit.remove_field((1,), "A"))
        ...     s.check(Edit.remove_field((1,), "B"))
        Traceback (most recent call last):
        mimetool.NoSuchField: The section has no such field.
        """
        look_at(edit)
        with self._lock:
            made = self._c_edit(edit.kind, edit.path, edit.name, edit.number, edit.top, edit.text)
            self._end(library.mimetool_check(self._handle or _closed(), byref(made), self._place))

    def _make_one(self, kind: EditKind, path: Path, name: bytes, number: int, top: bool, text: bytes) -> None:
        with self._lock:
            made = self._c_edit(kind, path, name, number, top, text)
            self._end(library.mimetool_group(self._handle or _closed(), byref(made), 1, self._place))
            if not self._keeps_ending(kind, path, text):
                self._ending = None

    def _c_edit(self, kind: EditKind, path: Path, name: bytes, number: int, top: bool, text: bytes) -> _library.Edit:
        """An edit as the library takes it."""
        if kind in TAKE_A_FIELD and b"\n" not in text:
            text += self._line_ending()
        if number:
            number = counted(number, MOST if kind is INSERT_PART else 0)
        numbers, _ = packed(path)
        return _library.Edit(kind, numbers, len(numbers) // NUMBER, name or None, len(name), number, top, text or None, len(text))

    def _line_ending(self) -> bytes:
        """The ending of the message's first line. It is looked for again only after an edit that may have changed it."""
        if self._ending is None:
            self._ending = ending_of(self._viewed(c_view_text(self._handle or _closed(), self._view)))
        return self._ending

    def _keeps_ending(self, kind: EditKind, path: Path, text: bytes) -> bool:
        """Whether an edit surely left the ending of the message's first line, which is above all sections below the root."""
        if len(path) > 1 or kind is RENAME_FIELD:
            return True
        return kind in TAKE_A_FIELD and (b"\n" not in text or ending_of(text) == self._ending)


def _closed() -> NoReturn:
    raise ValueError("the session is closed")
