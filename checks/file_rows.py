"""Files that a run can't use as its command line has them, and the whole of what is said of each."""

import hashlib
from dataclasses import dataclass, field

from common import FIFO, FOLDER, FORBIDDEN, MISSING, READ_FAULT, WRITE_FAULT, Link, read_fault, write_fault

MESSAGE = b"A: b\n\nx\n"
EDITED = b"A: b\nC: d\n\nx\n"
LEAF = b"Content-Type: image/gif; name=n.gif\n\nold\n"
LONG = "n" * 100
LONG_LEAF = b"Content-Type: image/gif; name=" + LONG.encode() + b"\n\nold\n"
DEEP = "./" * 2000 + "d"

NO_FOLDER = "Not a directory (os error 20)"
THERE = "File exists (os error 17)"
TOO_LONG = "File name too long (os error 36)"
IS_FOLDER = "is a directory"
NO_FILE = "not a regular file"
LOOPS = ["Too many levels of symbolic links (os error 40)", "filesystem loop or indirection limit (e.g. symlink loop)"]


@dataclass
class Row:
    """A run, and what it leaves. `errors` may be a list of texts of which one has to be found."""
    shows: str
    words: list
    errors: object
    status: int = 3
    files: dict = field(default_factory=dict)
    message: bytes = MESSAGE
    output: bytes = b""
    unreadable: tuple = ()
    closed: tuple = ()
    made: tuple = ()
    device: str = ""


def digest(text):
    return hashlib.sha256(text).hexdigest().encode()


def journal(text, rest):
    return b"mimejournal 2\n" + digest(text) + b"\n" + rest


DONE = b"1 0\n1\n5 0 5\nC: d\n\n"
ADD = ["-e", "add 1 C: d"]

# Each kind of file that is read: its name here, the words around the path, and files that the row needs too.
READ = [
    ("SCRIPT", lambda path: ["edit", path], {}),
    ("PIECE", lambda path: ["edit", "s", path], {"s": b"undo\n"}),
    ("the second PIECE", lambda path: ["edit", "s", "s", path], {"s": b"undo\n"}),
    ("PIECE beside -e", lambda path: ["edit", "-e", "undo", path], {}),
    ("the file of SPEC", lambda path: ["pack", "-b", "b", "text/plain:" + path], {}),
    ("the file of the second SPEC", lambda path: ["pack", "-b", "b", "text/plain:s", "image/gif:" + path], {"s": b"x\n"}),
    *[(f"--from of {words[0]}", lambda path, words=words: [*words, "--from", path], {}) for words in (
        ["edit", *ADD], ["undo", "-j", "j"], ["redo", "-j", "j"], ["sections"], ["sections", "--json"], ["extract", "-s", "1"],
        ["unpack"], ["field"], ["field", "-s"])],
    *[(f"--in-place of {words[0]}", lambda path, words=words: [*words, "--in-place", path], {}) for words in (
        ["edit", *ADD], ["undo", "-j", "j"], ["redo", "-j", "j"], ["field", "-A", "C: d"], ["field", "-s", "-A", "C: d"])],
    ("the journal that is listed", lambda path: ["journal", "-j", path], {}),
    ("a further file of --from", lambda path: ["field", "-x", "Z:", "--from", "s", path], {"s": MESSAGE}),
    ("a further file of --in-place", lambda path: ["field", "-u", "A:", "--in-place", "s", path], {"s": MESSAGE}),
    ("a further --in-place of edit", lambda path: ["edit", "-e", "set 1 A 1 A: b", "--in-place", "s", "--in-place", path], {"s": MESSAGE}),
]


def unread():
    """Files that can't be read, of each kind."""
    for kind, words, files in READ:
        yield Row(f"{kind} is missing", words("none"), read_fault("none", MISSING), files=files)
        yield Row(f"{kind} is in a folder that is missing", words("none/f"), read_fault("none/f", MISSING), files=files)
        yield Row(f"{kind} is below a file", words("f/g"), read_fault("f/g", NO_FOLDER), files={**files, "f": MESSAGE})
        yield Row(f"{kind} is a folder", words("d"), read_fault("d", IS_FOLDER), files={**files, "d": FOLDER})
        yield Row(f"{kind} can't be read", words("f"), read_fault("f", FORBIDDEN), files={**files, "f": MESSAGE}, unreadable=("f",))
        yield Row(f"{kind} is a link that leads nowhere", words("l"), read_fault("l", MISSING), files={**files, "l": Link("none")})
        yield Row(f"{kind} is a link to itself", words("l"), [read_fault("l", why) for why in LOOPS], files={**files, "l": Link("l")})
        yield Row(f"{kind} has a name that is too long", words("n" * 256), read_fault("n" * 256, TOO_LONG), files=files)
        if "SPEC" not in kind:
            yield Row(f"{kind} has a name that is empty", words(""), read_fault("", MISSING), files=files)
        if "in-place" in kind:
            yield Row(f"{kind} is a pipe", words("p"), read_fault("p", NO_FILE), files={**files, "p": FIFO})
            yield Row(f"{kind} is a device", words("/dev/null"), read_fault("/dev/null", NO_FILE), files=files)
            yield Row(f"{kind} is a link to a folder", words("l"), read_fault("l", IS_FOLDER), files={**files, "d": FOLDER, "l": Link("d")})
    yield Row("the file of SPEC is empty", ["pack", "-b", "b", "text/plain:"], read_fault("", MISSING))
    yield Row("the first of two files that are missing is named", ["edit", "none", "other"], read_fault("none", MISSING))


def journals_unread():
    """Journals that can't be read."""
    for words in (["edit", *ADD, "-j"], ["undo", "-j"], ["redo", "-j"]):
        name = f"the journal of {words[0]}"
        yield Row(f"{name} is a folder", [*words, "d"], read_fault("d", IS_FOLDER),
                  files={"d": FOLDER})
        yield Row(f"{name} can't be read", [*words, "j"], read_fault("j", FORBIDDEN), files={"j": b""}, unreadable=("j",))
        yield Row(f"{name} is a link to itself", [*words, "l"], [read_fault("l", why) for why in LOOPS], files={"l": Link("l")})
        yield Row(f"{name} is below a file", [*words, "f/j"], read_fault("f/j", NO_FOLDER), files={"f": b""})


SYNTAX = [
    (b"x", 1), (b"undo ", 1), (b" undo\n", 1), (b"undo\nredo \nx\n", 2), (b"# x\n\nadd 1\n", 3), (b"add 01 A: b\n", 1), (b"add 1. A: b\n", 1),
    (b"del 1 A 01\n", 1), (b"del 1 A\n", 1), (b"ren 1 A 1 \n", 1), (b"ren 1 A 1 B C\n", 1), (b"set 1 A 1\n", 1), (b"body 1 1\n", 1),
    (b"body 1 0\n", 1), (b"replace 1 2\n", 1), (b"insert 1 00 1\n", 1), (b"wrap 1 mixed\n", 1), (b"remove 1 \n", 1), (b"Undo\n", 1),
    (b"undo\nbegin\nadd 1 A: b\n", 2), (b"begin\nbegin\nend\n", 2), (b"begin\nundo\nend\n", 2), (b"end\n", 1), (b"begin\nx\n", 1),
    (b"del 1 A 4294967296\n", 1), (b"\xff\n", 1), (b"add\t1 A: b\n", 1),
]


SPACES = "words are separated by exactly one space"
FEW = "too few arguments"
MANY = "too many arguments"
PATH = "invalid path; write numbers from 1 with dots between them, such as 1.2"

# Scripts without pieces, and why a line of each is invalid.
REASONS = [
    (b"x\n", 1, "unknown word"), (b"Undo\n", 1, "unknown word"), (b"x 1 A: b\n", 1, "unknown word"), (b"undo\nadd\n", 2, FEW),
    (b"add 1\n", 1, FEW), (b"del 1 A\n", 1, FEW), (b"ren 1 A 1\n", 1, FEW), (b"wrap 1 mixed\n", 1, FEW), (b"encode 1\n", 1, FEW),
    (b"undo 1\n", 1, MANY), (b"undo \n", 1, MANY), (b"del 1 A 1 2\n", 1, MANY), (b"ren 1 A 1 B C\n", 1, MANY),
    (b"drop 1 A B\n", 1, MANY), (b" add 1 A: b\n", 1, SPACES), (b"add  1 A: b\n", 1, SPACES), (b"del 1  A 1\n", 1, SPACES),
    (b"remove 1.1 \n", 1, PATH), (b"remove  1.1\n", 1, SPACES), (b"drop 1 \n", 1, SPACES), (b"add x A: b\n", 1, PATH),
    (b"add 1. A: b\n", 1, PATH), (b"add 01 A: b\n", 1, PATH), (b"put 1..2 A: b\n", 1, PATH), (b"del 1 A x\n", 1, "invalid number"),
    (b"del 1 A 01\n", 1, "invalid number"), (b"insert 1 x 1\n", 1, "invalid number"), (b"body 1 x\n", 1, "invalid number"),
    (b"body 1 1\n", 1, "no such piece"), (b"attach 1 a/b c 1\n", 1, "no such piece"),
    (b"encode 1 7bit\n", 1, "invalid encoding; write quoted-printable or qp, base64, or 8bit or identity"), (b"begin\nundo\nend\n", 2, "undo and redo can't be in a group"),
    (b"begin\n", 1, "begin without end, or inside a group"), (b"begin\nbegin\nend\n", 2, "begin without end, or inside a group"),
    (b"end\n", 1, "end without begin"),
]


def syntax():
    """Scripts with a fault: its line is named, nothing is printed, and no journal is made."""
    for script, line in SYNTAX:
        errors = f"script: line {line}: syntax\n".encode()
        yield Row(f"the script {script!r}", ["edit", "s"], errors, 2, {"s": script})
    for script, line, reason in REASONS:
        errors = f"script: line {line}: {reason}\nscript: line {line}: syntax\n".encode()
        yield Row(f"why the script {script!r} is invalid", ["edit", "--explain", "s"], errors, 2, {"s": script})
    errors = b"script: line 1: with --all, each line has to be an edit\nscript: line 1: syntax\n"
    yield Row("undo with --all", ["edit", "--all", "-e", "undo"], errors, 2)
    errors = b"script: line 2: unknown word\nscript: line 2: syntax\n"
    yield Row("a fault in the second -e", ["edit", "-e", "undo", "-e", "x"], errors, 2)
    yield Row("a fault beside a journal", ["edit", "-e", "undo", "-e", "x", "-j", "j"], errors, 2)
    yield Row("a fault beside a refused journal", ["edit", "-e", "undo", "-e", "x", "-j", "j"], errors, 2, {"j": b"x"})
    yield Row("a fault beside --in-place", ["edit", "-e", "undo", "-e", "x", "--in-place", "f"], errors, 2, {"f": MESSAGE})


def refused_journals():
    """A journal, what is said of it, and the message."""
    whole = journal(EDITED, DONE)
    yield b"", "JournalSyntax 0", EDITED
    yield b"x", "JournalSyntax 0", EDITED
    yield b"mimejournal 3\n", "JournalSyntax 12", EDITED
    yield b"mimejournal 2\r\n", "JournalSyntax 13", EDITED
    yield b"mimejournal 2\n" + digest(EDITED).upper() + b"\n" + DONE, "JournalSyntax " + str(14 + first_letter(digest(EDITED))), EDITED
    yield journal(EDITED, b"01 0\n"), "JournalSyntax 80", EDITED
    yield journal(EDITED, b"1  0\n"), "JournalSyntax 81", EDITED
    yield whole[:-1], f"JournalSyntax {len(whole) - 1}", EDITED
    yield whole[:40], "JournalSyntax 40", EDITED
    yield whole + b"x", f"JournalSyntax {len(whole)}", EDITED
    yield whole, "JournalOther", MESSAGE
    yield journal(EDITED, b"1 0\n1\n5 0 5\nC: e\n\n"), "JournalMismatch 1", EDITED
    yield journal(EDITED, b"1 0\n1\n999 0 5\nC: d\n\n"), "JournalMismatch 1", EDITED
    yield journal(EDITED, b"2 0\n1\n0 0 1\nZ\n1\n5 0 5\nC: d\n\n"), "JournalMismatch 1", EDITED
    yield journal(MESSAGE, b"0 2\n1\n5 0 5\nC: d\n\n1\n0 1 1\nZY\n"), "JournalMismatch 2", MESSAGE
    yield b"mimejournal 1\n1 0\n5 0 5\nC: e\n\n", "JournalMismatch 1", EDITED


def first_letter(text):
    return next(place for place, byte in enumerate(text) if byte > 57)


def refused():
    """Journals that are refused: nothing is printed, and nothing changes."""
    for text, reason, message in refused_journals():
        errors = f"journal: {reason}\n".encode()
        for words in (["edit", *ADD], ["undo"], ["redo"]):
            shows = f"{words[0]} with a journal that is {reason}"
            yield Row(shows, [*words, "-j", "j"], errors, 1, {"j": text}, message)
            yield Row(shows + ", in place", [*words, "-j", "j", "--in-place", "f"], errors, 1, {"j": text, "f": message})


def unwritten():
    """Files that can't be written."""
    nothing = {"d": FOLDER, "f": MESSAGE}
    inside = {"d": FOLDER, "d/f": MESSAGE, "d/j": journal(MESSAGE, b"0 0\n")}
    yield Row("-j in a folder that is missing", ["edit", *ADD, "-j", "none/j"], write_fault("none/j", MISSING), output=EDITED)
    yield Row("-j in a folder that is closed", ["edit", *ADD, "-j", "d/j"], write_fault("d/j", FORBIDDEN), files=nothing, output=EDITED, closed=("d",))
    yield Row("a journal that is there, in a closed folder", ["edit", *ADD, "-j", "d/j"], write_fault("d/j", FORBIDDEN), files=inside,
              output=EDITED, closed=("d",))
    yield Row("a link to a journal in a closed folder", ["edit", *ADD, "-j", "l"], write_fault("l", FORBIDDEN),
              files={**inside, "l": Link("d/j")}, output=EDITED, closed=("d",))
    yield Row("-j with a name that is too long", ["edit", *ADD, "-j", "n" * 256], read_fault("n" * 256, TOO_LONG))
    yield Row("--in-place and -j in a folder that is missing", ["edit", *ADD, "--in-place", "f", "-j", "none/j"],
              write_fault("none/j", MISSING), files=nothing)
    yield Row("--in-place and -j in a closed folder", ["edit", *ADD, "--in-place", "f", "-j", "d/j"], write_fault("d/j", FORBIDDEN),
              files={**inside, "f": MESSAGE}, closed=("d",))
    for words in (["edit", *ADD], ["field", "-A", "C: d"], ["field", "-s", "-A", "C: d"]):
        name = f"--in-place of {words[0]}"
        yield Row(f"{name} in a closed folder", [*words, "--in-place", "d/f"], write_fault("d/f", FORBIDDEN), files=inside, closed=("d",))
        yield Row(f"{name} by a link into a closed folder", [*words, "--in-place", "l"], write_fault("l", FORBIDDEN),
                  files={**inside, "l": Link("d/f")}, closed=("d",))
    yield Row("--in-place and -j in the same closed folder", ["edit", *ADD, "--in-place", "d/f", "-j", "d/j"],
              [write_fault("d/f", FORBIDDEN), write_fault("d/j", FORBIDDEN)], files=inside, closed=("d",))


def unpacked():
    """Folders and files that `unpack` can't make."""
    yield Row("-C that is a file", ["unpack", "-C", "f"], write_fault("f", THERE), files={"f": b"x"}, message=LEAF)
    yield Row("-C below a file", ["unpack", "-C", "f/d"], write_fault("f/d", NO_FOLDER), files={"f": b"x"}, message=LEAF)
    yield Row("-C that is empty", ["unpack", "-C", ""], write_fault("", "a folder needs a name"), message=LEAF)
    yield Row("-C in a closed folder", ["unpack", "-C", "d/e"], write_fault("d/e", FORBIDDEN), files={"d": FOLDER}, message=LEAF, closed=("d",))
    yield Row("-C with a name that is too long", ["unpack", "-C", "n" * 256], write_fault("n" * 256, TOO_LONG), message=LEAF)
    yield Row("-C that is a link that leads nowhere", ["unpack", "-C", "l"], write_fault("l", THERE), files={"l": Link("none")}, message=LEAF)
    yield Row("a file in a closed folder", ["unpack", "-C", "d"], write_fault("d/n.gif", FORBIDDEN), files={"d": FOLDER}, message=LEAF, closed=("d",))
    yield Row("a path that is too long", ["unpack", "-C", DEEP], write_fault(f"{DEEP}/{LONG}", TOO_LONG), files={"d": FOLDER}, message=LONG_LEAF)
    yield Row("-f over a file in a closed folder", ["unpack", "-f", "-C", "d"], write_fault("d/n.gif", FORBIDDEN),
              files={"d": FOLDER, "d/n.gif": b"x"}, message=LEAF, closed=("d",))
    yield Row("-f over a folder", ["unpack", "-f", "-C", "d"], [write_fault("d/n.gif", why) for why in (
        IS_FOLDER, "Is a directory (os error 21)", THERE)], files={"d": FOLDER, "d/n.gif": FOLDER}, message=LEAF)


def devices():
    """Standard input and output that fail: no file is named."""
    commands = (["edit", *ADD], ["sections"], ["sections", "--json"], ["extract", "-s", "1"], ["pack", "-b", "b", "text/plain:f"],
                ["field"], ["field", "-s"], ["field", "-x", "Content-Type:"], ["undo", "-j", "j"], ["edit", *ADD, "-j", "k"])
    files = {"f": b"x\n", "j": journal(EDITED, DONE)}
    for words in commands:
        message = {"pack": b"A: b\n", "undo": EDITED}.get(words[0], LEAF)
        yield Row(f"a full output of {' '.join(words)}", words, WRITE_FAULT, files=files, message=message, device="/dev/full")
        yield Row(f"an input of {' '.join(words)} that fails", words, READ_FAULT, files=files, device="folder")
    yield Row("a full output of unpack", ["unpack"], WRITE_FAULT, message=LEAF, made=("n.gif",), device="/dev/full")
    yield Row("an input of unpack that fails", ["unpack"], READ_FAULT, device="folder")
    for words in (["--help"], ["--version"], ["edit", "--help"], ["help"]):
        yield Row(f"a full output of {' '.join(words)}", words, WRITE_FAULT, device="/dev/full")


def rows():
    for table in (unread, journals_unread, syntax, refused, unwritten, unpacked, devices):
        yield from table()
