"""Journals: histories as texts, in two versions."""

import hashlib

from . import session, splices


class Refused(Exception):
    """Why a journal isn't taken."""


class Reader:
    """Reads a journal from front to end, and knows where it stops being one."""

    def __init__(self, text):
        self.text, self.at = text, 0

    def fail(self):
        """The offset is the length of the longest prefix with which some journal begins (own)."""
        raise Refused("JournalSyntax %d" % min(self.at, len(self.text)))

    def one_of(self, allowed):
        """The next byte has to be one of these (own)."""
        byte = self.text[self.at:self.at + 1]
        if byte == b"" or byte not in allowed:
            self.fail()
        self.at += 1
        return byte

    def word(self, expected):
        """These bytes have to come next (own)."""
        for byte in expected:
            self.one_of(bytes([byte]))

    def number(self, ending):
        """A number is 0, or a digit 1 to 9 and at most 19 digits, and one byte ends it (own)."""
        digits = self.one_of(b"0123456789")
        if digits != b"0":
            while len(digits) < 20 and self.text[self.at:self.at + 1].isdigit():
                digits += self.one_of(b"0123456789")
        self.word(ending)
        return int(digits)

    def bytes(self, size):
        """As many bytes as are asked for have to be there (own)."""
        found = self.text[self.at:self.at + size]
        self.at += len(found)
        if len(found) < size:
            self.fail()
        return found

    def entry(self):
        """An entry is a place, two lengths, the old and the new bytes, and LF (own)."""
        place, old, new = self.number(b" "), self.number(b" "), self.number(b"\n")
        found = place, self.bytes(old), self.bytes(new)
        self.word(b"\n")
        return found


def parsed(text):
    """A journal is its first line, in version 2 a digest, the counts and the steps: digest, done, steps (own)."""
    reader = Reader(text)
    reader.word(b"mimejournal ")
    version = reader.one_of(b"12")
    reader.word(b"\n")
    digest = b"".join(reader.one_of(b"0123456789abcdef") for _ in range(64)) if version == b"2" else None
    if digest:
        reader.word(b"\n")
    done, undone = reader.number(b" "), reader.number(b"\n")
    steps = []
    while len(steps) < done + undone:
        count = reader.number(b"\n") if version == b"2" else 1
        step = []
        while len(step) < count:
            step.append(reader.entry())
        steps.append(step)
    if reader.at < len(text):
        reader.fail()
    return digest, done, steps


def back(text, step):
    """A step is taken back from its last splice to its first (own)."""
    for place, old, new in reversed(step):
        text = None if text is None else splices.replaced(text, place, new, old)
    return text


def forth(text, step):
    """A step is made from its first splice to its last (own)."""
    for place, old, new in step:
        text = None if text is None else splices.replaced(text, place, old, new)
    return text


def loaded(text, journal):
    """The history that a journal describes with a text; the first step that doesn't fit is named (own)."""
    digest, done, steps = parsed(journal)
    if digest and digest != hashlib.sha256(text).hexdigest().encode():
        raise Refused("JournalOther")
    earlier, later = [text], [text]
    for number in range(done, 0, -1):
        earlier.insert(0, back(earlier[0], steps[number - 1]))
        if earlier[0] is None:
            raise Refused("JournalMismatch %d" % number)
    for number in range(done + 1, len(steps) + 1):
        later.append(forth(later[-1], steps[number - 1]))
        if later[-1] is None:
            raise Refused("JournalMismatch %d" % number)
    history = session.Session(text)
    history.texts, history.steps, history.place = earlier + later[1:], steps, done
    return history


def entry_text(place, old, new):
    """An entry as it is written (own)."""
    return b"%d %d %d\n%s%s\n" % (place, len(old), len(new), old, new)


def saved(history):
    """A journal of version 2: the digest of the text, the counts, each step with its count of splices (own)."""
    digest = hashlib.sha256(history.text()).hexdigest().encode()
    counts = b"%d %d\n" % (history.place, len(history.steps) - history.place)
    steps = b"".join(b"%d\n" % len(step) + b"".join(entry_text(*splice) for splice in step) for step in history.steps)
    return b"mimejournal 2\n" + digest + b"\n" + counts + steps
