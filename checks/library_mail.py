"""The mailboxes and built messages of the library for C, by c/tests/callbacks.c, for checks/library.

Expected values are those of the plain program in fuzz/plain, or worked out by hand from docs/FORMATS.md. From-lines with a date, which
the plain program lacks, are found here by a pattern."""

import os
import re
import resource
import subprocess
import sys
import tempfile

import common

sys.path.insert(0, os.path.join(common.TOP, "fuzz"))

import messages
from chooser import Chooser
from plain import edits, letters, lines, session
from library_built import BUILT, REFUSED

KINDS = [b"any", b"date", b"field"]
MOSTS = [1, 2, 7, 64, 1000, 65536, 1 << 20]
FAILS = [0, 0, 2, 3, 10]
RUNS, SLOW_RUNS, PLACES = 120, 6, 120
SECONDS = 300
MOST_GROWTHS = 2000
ZONE = rb"(?:[A-Za-z]+|[+-]\d{4})"
DATE = re.compile(rb".*[ \t](?:Mon|Tue|Wed|Thu|Fri|Sat|Sun) (?:Jan|Feb|Mar|Apr|May|Jun|Jul|Aug|Sep|Oct|Nov|Dec) (?:\d\d| \d)"
                  rb" (?:[01]\d|2[0-3]):[0-5]\d:(?:[0-5]\d|60) (?:\d{4}|%b \d{4}|\d{4} %b)" % (ZONE, ZONE), re.S)
FROM_LINES = [b"From a Mon Nov  2 09:00:00 2026", b"From Sat Feb 28 23:59:60 2026", b"From a@b Tue Mar 03 10:00:07 +0100 2026",
              b"From x Wed Apr  1 00:00:00 2026 CET", b"From a Mon Nov 2 09:00:00 2026", b"From a Mon Nov  2 24:00:00 2026",
              b"From aMon Nov  2 09:00:00 2026", b"From a Mon Nov  2 09:00:00 2026 ", b"From here on it rains", b"From : x"]


def counts(cut, at, kind):
    """Whether a line is a From-line that counts."""
    if kind == b"date":
        return lines.is_from_line(cut[at].content) and DATE.fullmatch(cut[at].content) is not None
    return letters.counts(cut, at, kind)


def pieces(text, kind):
    """The messages of a mailbox."""
    if kind != b"date":
        return letters.messages(text, kind)
    found, before, cut = [], None, lines.cut(text)
    for at, line in enumerate(cut):
        if not found or (before == b"" and counts(cut, at, kind)):
            found.append([])
        found[-1].append(line)
        before = line.content
    return [lines.printed(message) for message in found]


def takes_place(old, new, kind):
    """Whether a text may stand where a message stood: it is one, and begins and ends so."""
    before, after = lines.cut(old), lines.cut(new)
    begins = not (before and counts(before, 0, kind)) or (bool(after) and counts(after, 0, kind))
    ends = not before or before[-1].content != b"" or (bool(after) and after[-1].content == b"")
    return len(pieces(new, kind)) < 2 and begins and ends


def mailbox(chooser):
    """A mailbox of drawn messages, with From-lines of all kinds."""
    text = messages.mailbox(chooser)
    for line in (b"From a\n", b"From here on\n"):
        while line in text and chooser.maybe(0.7):
            text = text.replace(line, chooser.choice(FROM_LINES) + chooser.choice([b"\n", b"\r\n", b"\nA: b\n"]), 1)
    return text


def ran(program, words, given, files, folder, **settings):
    """A run in a folder with files: its status, output and errors."""
    common.make(folder, files)
    run = subprocess.run([*program, *words], input=given, capture_output=True, cwd=folder, env={**os.environ, **settings}, timeout=SECONDS)
    return run.returncode, run.stdout, run.stderr


def try_run(checked, shows, program, words, given, files, wanted, **settings):
    """A row: a run gives the status, the output and the errors that are wanted."""
    with tempfile.TemporaryDirectory(dir=checked.holder) as folder:
        found = ran(program, words, given, files, folder, **settings)
    checked.expect(shows, status=(wanted[0], found[0]), output=(wanted[1], found[1]), errors=(wanted[2], found[2]))


def listed(found):
    """What `callbacks messages` prints of messages."""
    return b"".join(b"%d\n%b" % (len(message), message) for message in found)


def edited(message, word, text):
    """A message after an edit of its root; as it is, where that is refused."""
    history = session.Session(message)
    edit = edits.Edit("add", (1,), text) if word == "field" else edits.Edit("replace", (1,), text)
    return message if history.edit(edit) else history.text()


def filtered(text, kind, rules, files):
    """What a filter writes, and what it says."""
    output, errors = b"", b""
    for number, message in enumerate(pieces(text, kind), 1):
        word, *name = rules.get(number, ("keep",))
        if word in ("stop", "odd"):
            return output, errors + b"Stopped\n%d bytes are next\n" % len(message)
        after = edited(message, word, files[name[0]]) if name else message
        if not takes_place(message, after, kind):
            after = message
            errors += b"message %d: Recut\n" % number
        output += b"" if word == "drop" else after
    return output, errors


def drawn_rules(chooser):
    """Rules for the first messages, and their files."""
    rules, files = {}, {}
    for number in range(1, 6):
        word = chooser.weighted([("keep", 4), ("drop", 2), ("stop", 0.2), ("odd", 0.1), ("field", 3), ("section", 4)])
        if word in ("field", "section"):
            name = f"f{number}"
            end = chooser.choice([b"", b"\n", b"\n\n", b"\n\nFrom z\nA: b\n\n"])
            files[name] = b"X-Seen: yes\n" if word == "field" else messages.message(chooser, 1) + end
            rules[number] = word, name
        elif word != "keep":
            rules[number] = (word,)
    said = "".join(f"{number} {' '.join(rule)}\n" for number, rule in rules.items())
    return rules, {**files, "rules": said.encode()}


def drawn_mailboxes(checked, made):
    """Drawn mailboxes, read and filtered by each program, in reads of any size, of which some fail."""
    chooser = Chooser("mailboxes 1")
    for number in range(RUNS):
        kind, most, fail = chooser.randint(0, 2), chooser.choice(MOSTS), chooser.choice(FAILS)
        text = mailbox(chooser)
        rules, files = drawn_rules(chooser)
        words = [str(kind), str(most), str(fail)]
        shows = f"mailbox {number} by {words}: {text!r}"
        cut = 0, listed(pieces(text, KINDS[kind])), b""
        kept = 0, *filtered(text, KINDS[kind], rules, files)
        for name, program in made.items():
            try_run(checked, f"{name}, {shows}", [program], ["messages", *words], text, {}, cut)
            try_run(checked, f"{name}, filtered, {shows}, {files!r}", [program], ["filter", *words, "rules"], text, files, kept)


def drawn_places(checked, program):
    """Whether drawn texts fit the places of drawn messages."""
    chooser = Chooser("places 1")
    for number in range(PLACES):
        kind = chooser.randint(0, 2)
        old, new = [chooser.choice(pieces(mailbox(chooser), KINDS[kind]) or [b"A: b\n\n"]) for _ in range(2)]
        new = chooser.choice([new, new + b"\n", b"", mailbox(chooser), old])
        wanted = b"yes\n" if takes_place(old, new, KINDS[kind]) else b"no\n"
        try_run(checked, f"place {number}", [program], ["fits", str(kind), "old", "new"], b"", {"old": old, "new": new}, (0, wanted, b""))


def small_memory(checked, program):
    """A mailbox of 60 messages of 1 MB goes through 24 MB of addresses; and one-byte reads are linear."""
    message = b"From a\nA: b\n\n" + (b"x" * 60 + b"\n") * 17000 + b"\n"
    words = ["filter", "0", "100000", "0", "rules"]
    with tempfile.TemporaryDirectory(dir=checked.holder) as folder:
        common.make(folder, {"rules": b"2 field f\n4 drop\n", "f": b"C: d\n"})
        run = subprocess.run([program, *words], input=message * 60, cwd=folder, capture_output=True, timeout=SECONDS,
                             preexec_fn=lambda: resource.setrlimit(resource.RLIMIT_AS, (24_000_000, 24_000_000)))
    wanted = message + message.replace(b"A: b\n", b"A: b\nC: d\n") + message * 57
    checked.expect("little memory", status=(0, run.returncode), same=(True, wanted == run.stdout), errors=(b"", run.stderr))
    try_run(checked, "reads of one byte", [program], ["linear"], b"", {}, (0, b"", b""))


def build_words(row):
    """The words and files of a row of built messages."""
    return ["build", *row[1]], row[2]


def built_messages(checked, made, library):
    """Messages that are built, and those that are refused. The library reads their contents again."""
    for row in BUILT:
        shows, _, _, wanted, contents = row
        words, files = build_words(row)
        for name, program in made.items():
            try_run(checked, f"built, {name}: {shows}", [program], words, b"", files, (0, wanted, b""))
        for path, content in contents.items():
            try_run(checked, f"read again, {path}: {shows}", [library], ["extract", "-s", path], wanted, {}, (0, content, b""))
    for row in REFUSED:
        words, files = build_words(row)
        for name, program in made.items():
            try_run(checked, f"not built, {name}: {row[0]}", [program], words, b"", files, (1, b"", row[3]))


def sweeps():
    """Runs in which each growth is refused: what they show, the words, the input, the files, and what is wanted."""
    with open(os.path.join(common.TOP, "examples", "box.mbox"), "rb") as file:
        box = file.read()
    rules = {1: ("field", "f"), 2: ("section", "s"), 3: ("drop",)}
    files = {"f": b"X-Seen: yes\n", "s": b"A: b\n", "rules": b"1 field f\n2 section s\n3 drop\n"}
    found = [("messages", ["messages", "0", "70", "3"], box, {}, (0, listed(pieces(box, b"any")), b"")),
             ("filter", ["filter", "0", "70", "3", "rules"], box, files, (0, *filtered(box, b"any", rules, files)))]
    for row in BUILT[-1:]:
        words, files = build_words(row)
        found.append(("build", words, b"", files, (0, row[3], b"")))
    return found


def refuse_growths(checked, program, preload):
    """Refuses each growth in turn. The call that meets it is made again, and nothing is lost."""
    mark = os.path.join(checked.holder, "mark")
    for shows, words, given, files, wanted in sweeps():
        for at in range(1, MOST_GROWTHS):
            try_run(checked, f"{shows}, growth {at} refused", [program], words, given, files, wanted,
                    LD_PRELOAD=preload, REFUSE_AT=str(at), REFUSE_MARK=mark)
            if not os.path.exists(mark):
                break
            os.remove(mark)


def by_valgrind(checked, program):
    """The same runs by valgrind: no error, and nothing lost."""
    for shows, words, given, files, wanted in sweeps():
        slow = ["valgrind", "-q", "--error-exitcode=99", "--leak-check=full", program]
        try_run(checked, f"valgrind, {shows}", slow, words, given, files, wanted)


def check(checked, made, library, preload, has_valgrind):
    """All of it, by programs of c/tests/callbacks.c; `library` is that of c/tests/library.c."""
    drawn_mailboxes(checked, made)
    drawn_places(checked, made["static"])
    small_memory(checked, made["static"])
    built_messages(checked, made, library)
    refuse_growths(checked, made["shared"], preload)
    if has_valgrind:
        by_valgrind(checked, made["static"])
    for name, program in made.items():
        try_run(checked, f"NULLs of callbacks, {name}", [program], ["nulls"], b"", {}, (0, b"0 wrong\n", b""))
