"""What `--in-place` gives: the results of the run without it, in the place of FILE."""

import fcntl
import hashlib
import os
import time

from common import FIFO, FOLDER, MISSING, READ_FAULT, SECONDS, Link, limit_files, make, names, read, read_fault, state, write_fault

MESSAGES = [
    b"", b"A: b", b"A: b\n\nx\n", b"A: b\r\nC: d\r\n\r\nx\ry\nz", b"From a\nA: b\n\nx\n", b" x\n", b"\xff\x00\n",
    b'Subject: t\nContent-Type: multipart/mixed; boundary="b"\n\npre\n--b\n\none\n--b \t\nContent-Type: text/html\n\ntwo\n--b--\nepi\n',
    b"Content-Type: multipart/mixed; boundary=b\n\n--b\nContent-Type: message/rfc822\n\nA: b\n\nx\n--b\n\ny\n",
    b"A: b\n\n" + b"x" * 99 + b"\n" * 300_000, b"A: b\nA: " + b"c" * 70_000 + b"\n\nx\n",
]
FILES = {
    "add": b"add 1 C: d\n", "script": b"add 1 C: d\nbody 1 1\n", "part": b"insert 1 1 2\nremove 1.1\n",
    "piece": b"hi\n", "entity": b"E: f\n\ng\n",
}
COMMANDS = [
    ["edit", "-e", "add 1 C: d"], ["edit", "-e", "top 1 C: d", "-e", "del 1 A 1"], ["edit", "-e", "del 1 A 1", "-e", "undo"], ["edit", "add"],
    ["edit", "script", "piece"], ["edit", "part", "piece", "entity"], ["edit", "-e", "replace 1 1", "piece"], ["edit", "-e", "wrap 1 mixed w"],
    ["edit", "-e", "remove 1.2", "-e", "add 1 bad", "-e", "add 1 G: h"], ["edit", "-e", "undo"], ["edit", "-e", "add 1 C: d", "-e", "x"],
    ["field"], ["field", "-I", "A: 1"], ["field", "-I", "A:"], ["field", "-A", "C: d", "--rename", "A:B"], ["field", "-u", "A:"],
    ["field", "-I", "Content-Type:"], ["field", "-s", "-A", "C: d"], ["field", "-s"],
]


def mailbox(count):
    """A mailbox whose messages are of mixed size, some of them without a body or a last ending."""
    texts = []
    for number in range(count):
        body = b"line of the body\n" * (number * 37 % 100 if number % 50 else 5000)
        texts.append(b"From a%d\nSubject: number %d\nReceived: a\nReceived: b\n\n%s\n" % (number, number, body))
    return b"".join(texts)


def check_same(program, words, message, files):
    """A run in place leaves in FILE what the run without it prints, and all else is the same."""
    plain, placed = program.folder(), program.folder()
    make(plain, files)
    make(placed, {**files, "f": message})
    before = state(placed, "f")
    expected = program.run(words, plain, message)
    found = program.run([*words, "--in-place", "f"], placed)
    text = expected.stdout if expected.returncode in (0, 1) else message
    shows = f"{' '.join(words)} on {message[:60]!r} ({len(message)} bytes)"
    program.ended(shows, found, expected.returncode, errors=expected.stderr,
                  text=(text, read(placed, "f")), files=(sorted([*names(plain), "f"]), names(placed)))
    if text == message:
        program.expect(f"{shows} leaves it alone", state=(before, state(placed, "f")))


def check_table(program):
    for message in MESSAGES:
        for words in COMMANDS:
            check_same(program, words, message, FILES)
    box = mailbox(2000)
    for letters in (["-A", "C: d"], ["-I", "Subject:"], ["-I", "X:"], ["-u", "Received:"], ["--rename", "Subject:Old"], []):
        check_same(program, ["field", "-s", *letters], box, {})
    last = box[box.rindex(b"From a"):]
    check_same(program, ["field", "-s", "-I", "Last:"], box + last.replace(b"Subject", b"Last"), {})


def check_journals(program):
    """Journals are those of the runs without --in-place, and take the same steps back and make them again."""
    for message in MESSAGES:
        plain, placed, text = program.folder(), program.folder(), message
        make(placed, {"f": message})
        for step in (["edit", "-e", "top 1 C: d", "-e", "top 1 E: f"], ["undo"], ["redo"], ["undo"], ["undo"], ["undo"], ["redo"]):
            words = [*step, "-j", "j"]
            expected = program.run(words, plain, text)
            found = program.run([*words, "--in-place", "f"], placed)
            text = expected.stdout
            program.ended(f"{' '.join(words)} on {message[:60]!r}", found, expected.returncode,
                          errors=expected.stderr, text=(text, read(placed, "f")), journal=(read(plain, "j"), read(placed, "j")),
                          files=(["f", "j"], names(placed)))


def texts():
    """Texts, and others that take their place: they differ at the first byte, at the last, or in their length."""
    for size in (1, 2, 4095, 4096, 4097, 8192, 65_536, 65_537, 1_000_003):
        text = (b"0123456789abcde\n" * (size // 16 + 1))[:size]
        yield f"{size} bytes, another first byte", text, b"!" + text[1:]
        yield f"{size} bytes, another last byte", text, text[:-1] + b"!"
        yield f"{size} bytes, one fewer", text, text[:-1]
        yield f"{size} bytes, one more", text, text + b"!"
        yield f"{size} bytes, half of them", text, text[:size // 2]
        yield f"{size} bytes, twice", text, text + text
        yield f"{size} bytes, none instead", text, b""
        yield f"{size} bytes instead of none", b"", text
        yield f"{size} bytes, the same", text, text
    yield "nothing instead of nothing", b"", b""


def check_texts(program):
    """The result is written whole, wherever it begins to differ."""
    for shows, old, new in texts():
        folder = program.folder()
        make(folder, {"f": old, "piece": new})
        before = state(folder, "f")
        found = program.run(["edit", "-e", "replace 1 1", "piece", "--in-place", "f"], folder)
        same = old != new or before == state(folder, "f")
        program.ended(shows, found, text=(new, read(folder, "f")),
                      files=(["f", "piece"], names(folder)), left_alone=(True, same))


ALONE = [
    (["edit", "-e", "add 1 C: d", "-e", "undo"], 0), (["edit", "-e", "add 1 C: d", "-e", "del 1 C 1"], 0), (["edit", "-e", "set 1 A 1 A: b"], 0),
    (["edit", "-e", "del 1 Z 1"], 1), (["edit", "-e", "undo"], 1), (["field"], 0), (["field", "-s"], 0), (["field", "-I", "Z:"], 0),
    (["field", "-u", "A:"], 0), (["field", "-s", "-u", "A:"], 0), (["field", "-a", "A: 9"], 0),
]


def check_alone(program):
    """Where nothing changes, FILE isn't touched, also where it couldn't be replaced."""
    for words, status in ALONE:
        for closed in (False, True):
            folder = program.folder()
            make(folder, {"f": b"From a\nA: b\n\n" + b"x\n" * 100_000})
            if closed:
                os.chmod(os.path.join(folder, "f"), 0o444)
                os.chmod(folder, 0o555)
            before = state(folder, "f")
            # A file that grows would fail here.
            found = program.run([*words, "--in-place", "f"], folder, before=limit_files(0))
            program.ended(f"{' '.join(words)} changes nothing{', in a closed folder' * closed}", found, status, None,
                          state=(before, state(folder, "f")), files=(["f"], names(folder)))


def check_permissions(program):
    """The result has the permissions of FILE, and its owner is the one who ran it."""
    for mode in (0o600, 0o644, 0o444, 0o640, 0o755, 0o400):
        folder = program.folder()
        make(folder, {"f": b"A: b\n\nx\n"})
        path = os.path.join(folder, "f")
        os.chmod(path, mode)
        found = program.run(["edit", "-e", "add 1 C: d", "--in-place", "f"], folder, before=lambda: os.umask(0o027))
        program.ended(f"permissions {mode:o}", found, text=(b"A: b\nC: d\n\nx\n", read(folder, "f")),
                      mode=(mode, os.stat(path).st_mode & 0o7777), owner=(os.stat(folder).st_uid, os.stat(path).st_uid))


def check_links(program):
    """Links stay links, and what they lead to is replaced, in its own folder."""
    for shows, links in (
        ("a link", {"l": Link("f")}), ("a chain of links", {"l": Link("m"), "m": Link("n"), "n": Link("f")}),
        ("a link into another folder", {"l": Link("../other/g")}), ("a chain by another folder", {"l": Link("../other/m")}),
    ):
        outer = program.folder()
        folder, other = os.path.join(outer, "inner"), os.path.join(outer, "other")
        for path in (folder, other):
            os.mkdir(path)
            os.chown(path, os.stat(outer).st_uid, os.stat(outer).st_gid)
        make(other, {"g": b"A: b\n\nx\n", "m": Link("g")})
        make(folder, {"f": b"A: b\n\nx\n", **links})
        there = names(outer)
        found = program.run(["field", "-A", "C: d", "--in-place", "l"], folder)
        program.ended(shows, found, text=(b"A: b\nC: d\n\nx\n", read(folder, "l")),
                      files=(there, names(outer)),
                      links=([str(link) for link in links.values()], [os.readlink(os.path.join(folder, name)) for name in links]))
    folder = program.folder()
    make(folder, {"f": b"A: b\n\nx\n", "l": Link(os.path.join(folder, "f")), "gone": Link("none")})
    os.link(os.path.join(folder, "f"), os.path.join(folder, "hard"))
    found = program.run(["field", "-A", "C: d", "--in-place", "l"], folder)
    program.ended("a hard link keeps the old text", found, old=(b"A: b\n\nx\n", read(folder, "hard")),
                  new=(b"A: b\nC: d\n\nx\n", read(folder, "f")))
    found = program.run(["field", "-A", "C: d", "--in-place", "gone"], folder)
    program.ended("a link that leads nowhere", found, 3, errors=read_fault("gone", MISSING),
                  files=(["f", "gone", "hard", "l"], names(folder)))


def check_names(program):
    """Names that begin with a hyphen, and others that are unusual."""
    for words, name in (
        (["--in-place", "-x"], "-x"), (["--in-place=-x"], "-x"), (["--in-place", "--from"], "--from"), (["--in-place", "./-x"], "-x"),
        (["--in-place", "a b"], "a b"), (["--in-place", "f=g"], "f=g"), (["--in-place=f=g"], "f=g"), (["--in-place", "f\ng"], "f\ng"),
        (["--in-place", "\u00e4"], "\u00e4"), (["--in-place", ".f.1.new"], ".f.1.new"), (["--in-place", "n" * 250], "n" * 250), (["--in-place", "n" * 255], "n" * 255),
    ):
        for command in (["edit", "-e", "add 1 C: d"], ["field", "-A", "C: d"]):
            folder = program.folder()
            make(folder, {name: b"A: b\n\nx\n"})
            found = program.run([*command, *words], folder)
            program.ended(f"{command[0]} {' '.join(words)}", found,
                          text=(b"A: b\nC: d\n\nx\n", read(folder, name)), files=([name], names(folder)))
    edit = ["edit", "--in-place", "f"]
    for words in ([*edit, "./-s", "./-p"], [*edit, "--", "-s", "-p"], [*edit, "-e", "body 1 1", "--", "-p"]):
        folder = program.folder()
        make(folder, {"f": b"A: b\n\nx\n", "-s": b"body 1 1\n", "-p": b"y\n"})
        found = program.run(words, folder)
        program.ended(" ".join(words), found, text=(b"A: b\n\ny\n", read(folder, "f")))


def held(name):
    return f"mimetool: {name}: another run is using it (--wait waits for it)\n".encode() + READ_FAULT


def check_held(program):
    """A file that another run has is refused, or after a while with --wait."""
    folder = program.folder()
    make(folder, {"f": b"A: b\n\nx\n", "l": Link("f"), "j": b"", "g": b"A: b\n\nx\n", ".f.mimetool.lock": b"", ".j.mimetool.lock": b"", ".n.mimetool.lock": b""})
    there = names(folder)
    locks = [open(os.path.join(folder, f".{name}.mimetool.lock"), "rb") for name in "fjn"]
    for lock in locks:
        fcntl.flock(lock, fcntl.LOCK_EX)
    for words, name in (
        (["field", "-A", "C: d", "--in-place", "f"], "f"), (["field", "-A", "C: d", "--in-place", "l"], "l"),
        (["edit", "-e", "undo", "--in-place", "f"], "f"), (["edit", "-e", "add 1 C: d", "-j", "j", "--in-place", "g"], "j"),
        (["edit", "-e", "add 1 C: d", "-j", "n", "--in-place", "g"], "n"),
    ):
        for tempfail in ([], ["--tempfail"]):
            before = state(folder, "f"), state(folder, "g"), state(folder, "j")
            found = program.run([*words, *tempfail], folder)
            program.ended(f"another run has it: {' '.join(words + tempfail)}", found, 75 if tempfail else 3, errors=held(name),
                          state=(before, (state(folder, "f"), state(folder, "g"), state(folder, "j"))), files=(there, names(folder)))
    begin = time.monotonic()
    found = program.run(["field", "-A", "C: d", "--in-place", "f", "--wait=1"], folder)
    waited = time.monotonic() - begin
    program.ended("another run has it for longer", found, 3, errors=b"mimetool: f: another run is still using it\n" + READ_FAULT,
                  waited=(True, 1 <= waited < SECONDS / 2), files=(there, names(folder)))
    waiting = program.start(["edit", "-e", "add 1 C: d", "-j", "n", "--in-place", "f", "--wait"], folder)
    time.sleep(0.3)
    for lock in locks:
        time.sleep(0.1)
        program.expect("a run that waits", end=(None, waiting.poll()), text=(b"A: b\n\nx\n", read(folder, "f")))
        lock.close()
    program.expect("a run that has waited", end=((b"", b""), waiting.communicate(timeout=SECONDS)), status=(0, waiting.returncode),
                   text=(b"A: b\nC: d\n\nx\n", read(folder, "f")), files=([".j.mimetool.lock", "f", "g", "j", "l", "n"], names(folder)))


def check_other_locks(program):
    """A lock that another program has on FILE, as flock(1) does, is no matter; nor is one that a killed run has left."""
    for shows, left in (("a lock on FILE", {}), ("a lock that was left", {".f.mimetool.lock": b"", ".j.mimetool.lock": b""})):
        folder = program.folder()
        make(folder, {"f": b"A: b\n\nx\n", "j": b"mimejournal 2\n" + hashlib.sha256(b"A: b\n\nx\n").hexdigest().encode() + b"\n0 0\n", **left})
        with open(os.path.join(folder, "f"), "rb") as file, open(os.path.join(folder, "j"), "rb") as journal:
            fcntl.flock(file, fcntl.LOCK_EX)
            fcntl.flock(journal, fcntl.LOCK_EX)
            found = program.run(["edit", "-e", "add 1 C: d", "-j", "j", "--in-place", "f"], folder)
            program.ended(shows, found, text=(b"A: b\nC: d\n\nx\n", read(folder, "f")), files=(["f", "j"], names(folder)))
    for shows, other in (("a file", b"x"), ("a link", Link("f")), ("a folder", FOLDER), ("a pipe", FIFO)):
        folder = program.folder()
        make(folder, {"f": b"A: b\n\nx\n", ".f.mimetool.lock": other})
        before = state(folder, "f")
        found = program.run(["field", "-A", "C: d", "--in-place", "f"], folder)
        program.ended(f"{shows} has the name of the lock", found, 3, errors=write_fault("f", "another file has the name of its lock"),
                      state=(before, state(folder, "f")), files=([".f.mimetool.lock", "f"], names(folder)))


def check_own_journal(program):
    """FILE isn't its own journal."""
    folder = program.folder()
    make(folder, {"f": b"A: b\n\nx\n", "l": Link("f")})
    for words in (["--wait", "-j", "f"], ["-j", "./f"], ["-j", "l"]):
        found = program.run(["undo", *words, "--in-place", "f"], folder)
        program.ended(f"FILE as its own journal: {words}", found, 3, errors=read_fault(words[-1], "the file of --in-place can't also be its journal"),
                      text=(b"A: b\n\nx\n", read(folder, "f")), files=(["f", "l"], names(folder)))


CHECKS = [check_table, check_journals, check_texts, check_alone, check_permissions, check_links, check_names, check_held, check_other_locks, check_own_journal]
