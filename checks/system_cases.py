"""Runs of each command over standard input, `--from` and `--in-place`, and all that each one leaves."""

from dataclasses import dataclass, field, replace

from common import FOLDER, MISSING, read_fault
from file_rows import ADD, DONE, EDITED, MESSAGE, journal

OPEN = b" x\n"
MAILBOX = b"From a\nA: 1\n\nx\n\nFrom b\nA: 2\n\ny\n"
FILTERED = MAILBOX.replace(b"A: 1\n", b"A: 1\nC: d\n").replace(b"A: 2\n", b"A: 2\nC: d\n")
UNDONE = journal(MESSAGE, b"0 1\n1\n5 0 5\nC: d\n\n")
LISTING = b"1 leaf text/plain identity 0 6 8 1 1\n"
OBJECT = (b'{"path":"1","kind":"leaf","type":"text/plain","encoding":"identity","start":0,"body":6,"end":8,"field_lines":1,'
          b'"body_lines":1,"stored_as":"part-1","size":2}\n')
PACKED = (b'Subject: s\nMIME-Version: 1.0\nContent-Type: multipart/mixed; boundary="b"\n\n--b\nContent-Type: text/plain; name="p"\n'
          b'Content-Disposition: attachment; filename="p"\nContent-Transfer-Encoding: quoted-printable\n\nhi\n\n--b--\n')
SHOWN = b'Content-Type: text/plain; charset=utf-8\nContent-Transfer-Encoding: quoted-printable\n\nhi\n'
DRESSED = b'Subject: s\nMIME-Version: 1.0\nContent-Type: multipart/digest; boundary="b"\n\n--b\n' + SHOWN + b"\n--b--\n"
FORWARDED = (b'Subject: s\nMIME-Version: 1.0\nContent-Type: multipart/mixed; boundary="b"\nContent-Transfer-Encoding: 8bit\n\n'
             b"--b\nContent-Type: message/rfc822\nContent-Disposition: attachment\n\nhi\n\n--b\nContent-Type: message/rfc822\n"
             b"Content-Disposition: attachment\nContent-Transfer-Encoding: 8bit\n\nA: \xe9\n\n--b--\n")
# A leaf that isn't base64, and one that is.
LEAVES = (b"Content-Type: multipart/mixed; boundary=b\n\n"
          b"--b\nContent-Type: image/gif; name=bad.gif\nContent-Transfer-Encoding: base64\n\naGl=\n"
          b"--b\nContent-Type: image/gif; name=n.gif\nContent-Transfer-Encoding: base64\n\naGk=\n--b--\n")


@dataclass
class Case:
    """A run. `left` are the files that it makes or changes, and `kept` those that it makes even where its output fails."""
    words: list
    output: bytes = b""
    errors: bytes = b""
    status: int = 0
    message: bytes = MESSAGE
    files: dict = field(default_factory=dict)
    left: dict = field(default_factory=dict)
    kept: dict = field(default_factory=dict)
    reads: bool = True
    # Whether the run is ended by what its errors say, so that its status is that, whether or not it can be said.
    ended: bool = False
    # Whether a message goes out before its error line.
    early: bool = False


def edits():
    files = {"s": b"add 1 C: d\nbody 1 1\n", "p": b"hi\n", "bad": b"x", "j": journal(EDITED, DONE), "k": UNDONE}
    more = journal(EDITED.replace(b"d\n", b"d\nE: f\n"), b"2 0\n1\n5 0 5\nC: d\n\n1\n10 0 5\nE: f\n\n")
    yield Case(["edit", *ADD], EDITED)
    yield Case(["edit", *ADD, "-e", "del 1 Z 1"], EDITED, b"line 2: NoSuchField\n", 1)
    yield Case(["edit", "-e", "del 1 Z 1"], MESSAGE, b"line 1: NoSuchField\n", 1)
    yield Case(["edit", "s", "p"], b"A: b\nC: d\n\nhi\n", files=files)
    yield Case(["edit", *ADD, "-j", "new"], EDITED, files=files, left={"new": journal(EDITED, DONE)})
    yield Case(["edit", "-e", "add 1 E: f", "-j", "j"], EDITED.replace(b"d\n", b"d\nE: f\n"), message=EDITED, files=files, left={"j": more})
    yield Case(["edit", *ADD, "-e", "x"], b"", b"script: line 2: unknown word\nscript: line 2: syntax\n", 2, reads=False)
    yield Case(["edit", *ADD, "-j", "bad"], b"", b"journal: JournalSyntax 0\n", 1, files=files)
    yield Case(["undo", "-j", "j"], MESSAGE, message=EDITED, files=files, left={"j": UNDONE})
    yield Case(["redo", "-j", "k"], EDITED, files=files, left={"k": journal(EDITED, DONE)})
    yield Case(["undo", "-j", "k"], MESSAGE, b"line 1: NothingToUndo\n", 1, files=files)


def letters():
    yield Case(["field"], MESSAGE)
    yield Case(["field", "-A", "C: d"], EDITED)
    yield Case(["field", "--drop", "Z:", "--drop", "X-*:", "-A", "C: d"], EDITED)
    yield Case(["field", "-A", "Z: 1", "-A", "C: d", "--drop", "Z:"], EDITED)
    yield Case(["field", "--keep", "A:", "-A", "C: d"], EDITED)
    yield Case(["field", "-A", "C: e", "--sub", "C:s/e/d/", "-A", "Z: 1", "--drop", "Z:~1"], EDITED)
    yield Case(["field", "-s", "-A", "C: d"], FILTERED, message=MAILBOX)
    yield Case(["field", "-A", "A: b"], OPEN, b"message 1: Recut\n", 1, OPEN, early=True)


def shown():
    yield Case(["sections"], LISTING)
    yield Case(["sections", "--json"], OBJECT)
    yield Case(["extract", "-s", "1"], b"x\n")
    yield Case(["extract", "-s", "1.9"], b"", b"1.9: NoSuchSection\n", 1)
    yield Case(["field", "-x", "A:"], b" b\n")
    yield Case(["field", "-s", "-X", "A:"], b"A: 1\nA: 2\n", message=MAILBOX)
    made = {"d": FOLDER, "d/part-1": b"x\n"}
    yield Case(["unpack", "-t", "-C", "d"], b"part-1 (text/plain)\n", left=made, kept=made)
    yield Case(["unpack", "-t", "--silent", "-C", "d"], left=made)
    made = {"d": FOLDER, "d/n.gif": b"hi"}
    yield Case(["unpack", "-C", "d"], b"n.gif (image/gif)\n", b"1.1: BadBase64\n", 1, LEAVES, left=made, kept=made)


def alone():
    """Runs that are the same whatever the message is, and `pack`."""
    files = {"p": b"hi\n"}
    yield Case(["pack", "-b", "b", "text/plain:p"], PACKED, message=b"Subject: s\n", files=files)
    yield Case(["pack", "-b", "b", "text/plain:p"], b"", b"pack: BadField 1\n", 1, b"Subject: s\n\nx\n", files)
    yield Case(["pack", "-b", "b", "-m", "digest", "--inline", "--charset", "utf-8", "text/plain:p"], DRESSED, message=b"Subject: s\n", files=files)
    yield Case(["pack", "-b", "b", "--forward", "p", "--forward", "f"], FORWARDED, message=b"Subject: s\n", files={**files, "f": b"From a\nA: \xe9\n"})
    yield Case(["pack", "-b", "b", "--forward", "p", "--forward", "f"], b"", b"pack: HoldsBoundary 1\n", 1, b"Subject: s\n", {**files, "f": b"--b"})
    yield Case(["pack", "--forward", "none"], b"", read_fault("none", MISSING), 3, reads=False, ended=True)
    yield Case(["pack", "--part", "text/plain:p", "--inline", "--charset", "utf-8"], SHOWN, files=files, reads=False)
    yield Case(["pack", "-b", "b", "-m", "a b", "text/plain:p"], b"", b"pack: BadSubtype\n", 1, b"Subject: s\n", files)
    yield Case(["pack", "-b", "b", "--charset", "", "text/plain:p"], b"", b"pack: BadCharset\n", 1, b"Subject: s\n", files)
    yield Case(["--version"], b"mimetool 0.1.0\n", reads=False)
    yield Case([b"\xff"], b"", b"mimetool: usage\n", 2, reads=False, ended=True)
    yield Case(["sections", "--from", "none"], b"", read_fault("none", MISSING), 3, reads=False, ended=True)
    yield Case(["edit", "none", "p"], b"", read_fault("none", MISSING), 3, files=files, reads=False, ended=True)


def from_file(case):
    """The same run with its message in a file."""
    return replace(case, words=[*case.words, "--from", "m"], message=b"not this\n", files={**case.files, "m": case.message}, reads=False)


def in_place(case):
    """The same run on a file, which gets what would have gone out."""
    text = case.output if case.errors[:7] not in (b"script:", b"journal") else case.message
    return replace(case, words=[*case.words, "--in-place", "m"], output=b"", message=b"not this\n", files={**case.files, "m": case.message},
                   left={**case.left, "m": text}, reads=False)


def cases():
    for case in [*edits(), *letters()]:
        yield case
        yield from_file(case)
        yield in_place(case)
    for case in shown():
        yield case
        yield from_file(case)
    yield from alone()
