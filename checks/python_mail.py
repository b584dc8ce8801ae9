"""Mailboxes, filters and built messages of the Python module, for checks/python. Mailboxes are cut here by the plain program of
fuzz/, and the expected messages are those of library_built.py, worked out by hand."""

import copy
import gc
import io
import os
import pathlib
import pickle
import re
import resource
import tempfile
import threading
import weakref

from library_built import BUILT, REFUSED
from library_mail import KINDS, drawn_rules, filtered, mailbox, pieces
from chooser import Chooser

ROOT = (1,)
BOX = b"From a\nA: 1\n\nx\n\nFrom b\nA: 2\n\ny\n\nFrom c\nA: 3\n\nz\n"
PIECES = [b"From a\nA: 1\n\nx\n\n", b"From b\nA: 2\n\ny\n\n", b"From c\nA: 3\n\nz\n"]
WORDS = ["any", "date", "field"]
DRAWN = 300
MANY = 10_000


class Odd:
    """A file that gives at most so many bytes at once, and fails at some reads. It has nothing but read."""

    def __init__(self, data, most, fail=0):
        self.file, self.most, self.fail, self.calls = io.BytesIO(data), most, fail, 0

    def read(self, size):
        self.calls += 1
        if self.fail and self.calls % self.fail == 1:
            raise OSError("no read")
        return self.file.read(min(size, self.most))


class Sink:
    """A file that takes at most so many bytes at once, and fails at one write."""

    def __init__(self, most=1 << 30, fail=0):
        self.got, self.most, self.fail, self.calls = b"", most, fail, 0

    def write(self, data):
        self.calls += 1
        if self.calls == self.fail:
            raise OSError("no write")
        self.got += bytes(data[:self.most])
        return min(len(data), self.most)


def raised(call, *given, **named):
    """The class of what a call raises, or None."""
    try:
        call(*given, **named)
    except BaseException as error:
        return type(error).__name__
    return None


def all_of(mailbox):
    """The messages of a mailbox whose reads may fail: each failed call is made again."""
    found = []
    while True:
        try:
            found.append(next(mailbox))
        except OSError:
            pass
        except StopIteration:
            return found


def sources(cases, folder):
    """Each kind of source gives the same messages."""
    open_mailbox, path = cases.module.Mailbox, os.path.join(folder, "box")
    with open(path, "wb") as file:
        file.write(BOX)
    files = open(path, "rb"), open(path, "rb", buffering=0), io.BytesIO(BOX)
    for shows, source in [("bytes", BOX), ("a bytearray", bytearray(BOX)), ("a memoryview", memoryview(BOX)), ("a path", path),
                          ("a pathlib.Path", pathlib.Path(path)), ("a file", files[0]), ("a raw file", files[1]), ("a BytesIO", files[2]),
                          ("one byte at once", Odd(BOX, 1)), ("seven bytes at once", Odd(BOX, 7))]:
        with open_mailbox(source) as found:
            cases.expect("a mailbox of " + shows, PIECES, list(found))
    cases.expect("files stay open", [False] * 3, [file.closed for file in files])
    for file in files:
        file.close()
    before = len(os.listdir("/proc/self/fd")) if os.path.isdir("/proc/self/fd") else 0
    for _ in range(20):
        next(open_mailbox(path))
    after = len(os.listdir("/proc/self/fd")) if os.path.isdir("/proc/self/fd") else 0
    cases.expect("a path is closed", before, after)
    cases.expect("no messages", [], list(open_mailbox(b"")))
    cases.expect("no file", "FileNotFoundError", raised(open_mailbox, path + "x"))
    cases.expect("no source", ["TypeError"] * 2, [raised(open_mailbox, source) for source in (5, None)])
    cases.expect("no From-lines", "ValueError", raised(open_mailbox, b"", "each"))
    for kind in cases.module.FromLines:
        cases.expect(f"From-lines by value: {kind}", list(open_mailbox(BOX, kind)), list(open_mailbox(BOX, kind.value)))


def faults(cases):
    """What a source raises comes out, and nothing is lost."""
    open_mailbox = cases.module.Mailbox
    for most in (1, 3, 1000):
        cases.expect(f"failing reads of {most}", PIECES, all_of(open_mailbox(Odd(BOX, most, 2))))
    text, none, long = io.StringIO("From a\n"), Odd(b"", 1), Odd(b"", 1)
    none.read, long.read = lambda size: None, lambda size: b"x" * (size + 1)
    for shows, source, wanted in [("text", text, "TypeError"), ("nothing yet", none, "BlockingIOError"), ("too much", long, "ValueError")]:
        cases.expect("a source that gives " + shows, wanted, raised(next, open_mailbox(source)))
    odd = Odd(BOX, 5)
    found = open_mailbox(odd)

    def interrupt(size):
        odd.read = Odd.read.__get__(odd)
        found._reader._read = odd.read
        raise KeyboardInterrupt
    found._reader._read = interrupt
    cases.expect("an interrupt", ("KeyboardInterrupt", PIECES), (raised(next, found), list(found)))
    inner = Odd(BOX, 5)
    again = open_mailbox(inner)
    again._reader._read = lambda size: next(again)
    cases.expect("a read that reads the mailbox", "ValueError", raised(next, again))
    again._reader._read = lambda size: again.close()
    cases.expect("a read that closes the mailbox", "ValueError", raised(next, again))
    again._reader._read = inner.read
    cases.expect("it goes on", PIECES, list(again))


def closing(cases):
    """Closed mailboxes, and what holds them."""
    open_mailbox = cases.module.Mailbox
    found = open_mailbox(BOX)
    cases.expect("an iterator", True, iter(found) is found)
    cases.expect("the end stays", (PIECES, [], []), (list(found), list(found), list(found)))
    found.close()
    found.close()
    cases.expect("closed", ["ValueError"] * 2, [raised(next, found), raised(found.__enter__)])
    cases.expect("no copies", ["TypeError"] * 2, [raised(copy.copy, found), raised(pickle.dumps, found)])
    gc.disable()
    source = Odd(BOX, 1, 3)
    held = weakref.ref(source)
    found = open_mailbox(source)
    raised(next, found)
    del found, source
    cases.expect("nothing holds a mailbox", None, held())
    gc.enable()


def drawn(cases):
    """Drawn mailboxes, read and filtered in reads of odd sizes."""
    chooser, module = Chooser("python mailboxes"), cases.module
    for number in range(DRAWN):
        kind, most, text = chooser.randint(0, 2), chooser.choice([1, 2, 7, 64, 100_000]), mailbox(chooser)
        cases.expect(f"mailbox {number}", pieces(text, KINDS[kind]), list(module.Mailbox(Odd(text, most), WORDS[kind])))
        rules, files = drawn_rules(chooser)
        rules = {place: rule for place, rule in rules.items() if rule[0] not in ("stop", "odd")}

        def visit(session, place):
            word, *name = rules.get(place, ("keep",))
            try:
                if word == "field":
                    session.add_field(ROOT, files[name[0]])
                elif word == "section":
                    session.set_section(ROOT, files[name[0]])
            except module.MimetoolError:
                pass
            return word != "drop"
        sink, told = Sink(chooser.choice([3, 1000])), []
        module.filter_mailbox(Odd(text, most), sink, visit, WORDS[kind], lambda place, error: told.append((place, error.reason)))
        output, errors = filtered(text, KINDS[kind], rules, files)
        said = "".join(f"message {place}: {reason}\n" for place, reason in told).encode()
        cases.expect(f"filtered {number}", (output, errors), (sink.got, said))


def filters(cases):
    """What is kept, and what is raised."""
    module = cases.module
    for kept in (None, True, 1, "yes", object()):
        sink = Sink()
        module.filter_mailbox(BOX, sink, lambda session, number: kept)
        cases.expect(f"{kept!r:.10} keeps", BOX, sink.got)
    for dropped in (False, 0, "", []):
        sink = Sink()
        module.filter_mailbox(BOX, sink, lambda session, number: dropped if number == 2 else None)
        cases.expect(f"{dropped!r} drops", PIECES[0] + PIECES[2], sink.got)

    def fails(session, number):
        if number == 2:
            raise KeyError(number)
    for shows, source, sink, visit, wanted, output in [
            ("visit", BOX, Sink(), fails, "KeyError", PIECES[0]), ("the source", Odd(BOX, 20, 4), Sink(), lambda *_: None, "OSError", b""),
            ("the sink", BOX, Sink(fail=2), lambda *_: None, "OSError", PIECES[0]),
            ("a visit that closes", BOX, Sink(), lambda session, number: session.close(), "ValueError", b"")]:
        cases.expect(f"what {shows} raises", (wanted, output), (raised(module.filter_mailbox, source, sink, visit), sink.got))
    kept = []
    module.filter_mailbox(BOX, Sink(), lambda session, number: kept.append(session))
    cases.expect("sessions are closed", ["ValueError"] * 3, [raised(session.text) for session in kept])


def refusals(cases):
    """An edit that would cut the mailbox in another way."""
    module, told, sink = cases.module, [], Sink()

    def visit(session, number):
        session.set_body(ROOT, "no empty line\n" if number < 3 else "\nFrom z\n")
    module.filter_mailbox(BOX, sink, visit, refused=lambda *given: told.append(given))
    said = [(number, type(error).__name__) for number, error in told]
    cases.expect("refused", (BOX, [(1, "Recut"), (2, "Recut"), (3, "Recut")]), (sink.got, said))
    sink = Sink()
    module.filter_mailbox(BOX, sink, visit)
    cases.expect("refused in silence", BOX, sink.got)

    def give_up(number, error):
        raise error
    cases.expect("a refusal may be raised", "Recut", raised(module.filter_mailbox, BOX, Sink(), visit, refused=give_up))


def many(cases, folder):
    """10,000 messages: as they are, shared by threads, filtered, and in little memory."""
    module, path = cases.module, os.path.join(folder, "many")
    wanted = [b"From a\nX-Number: %d\n\n%b\n\n" % (number, b"x" * 9000 + b"\n" * (number % 7)) for number in range(MANY)]
    with open(path, "wb") as file:
        file.writelines(wanted)
    before = resource.getrusage(resource.RUSAGE_SELF).ru_maxrss
    with module.Mailbox(path) as found:
        cases.expect("10,000 messages", [], [number for number, message in enumerate(found) if message != wanted[number]])
    with open(os.path.join(folder, "filtered"), "wb") as sink:
        module.filter_mailbox(path, sink, lambda session, number: session.add_field(ROOT, "X-Seen: yes") if number % 2 else False)
    grown = resource.getrusage(resource.RUSAGE_SELF).ru_maxrss - before
    cases.expect("little memory", True, grown < 8_000)
    with module.Mailbox(os.path.join(folder, "filtered")) as found:
        half = [message.replace(b"\n\n", b"\nX-Seen: yes\n\n", 1) for message in wanted[::2]]
        cases.expect("10,000 messages filtered", True, list(found) == half)
    shares = [[] for _ in range(4)]
    with module.Mailbox(path) as shared:
        running = [threading.Thread(target=share.extend, args=(shared,)) for share in shares]
        for thread in running:
            thread.start()
        for thread in running:
            thread.join()
    cases.expect("threads share a mailbox", True, sorted(sum(shares, [])) == sorted(wanted))


def memory(cases):
    """Nothing is kept of mailboxes and built messages, the faulty ones too: 400 MB go through."""
    module, text = cases.module, b"From a\nA: b\n\n" + b"x" * 1_000_000 + b"\n\nFrom b\n\n"

    def turn():
        with module.Mailbox(text) as found:
            next(found)
        raised(list, module.Mailbox(Odd(text, 100_000, 4)))
        raised(module.filter_mailbox, text, Sink(fail=2), lambda *_: None)
        module.build([], [module.Part("image/png", text)], messages=[text])
        raised(module.build, ["x"], [module.Part("image/png", text)], messages=[text])
    for _ in range(5):
        turn()
    before = resource.getrusage(resource.RUSAGE_SELF).ru_maxrss
    for _ in range(60):
        turn()
    cases.expect("no memory is lost by mail", True, resource.getrusage(resource.RUSAGE_SELF).ru_maxrss - before < 20_000)


def asked(module, row):
    """The arguments of build for a row of library_built.py."""
    fields, parts, named = [], [], {"messages": []}
    for word in row[1]:
        key, _, rest = word.partition("=")
        if key == "field":
            fields.append(row[2][rest])
        elif key == "part":
            name, encoding, media, *said = rest.split(":")
            parts.append(module.Part(media, row[2][name], *said, base64=encoding == "base64"))
        elif key == "message":
            name, how = rest.split(":")
            named["messages"].append(module.Forward(row[2][name], how == "shown"))
        elif key == "crlf":
            named["eol"] = b"\r\n"
        else:
            named[key] = rest
    return fields, parts, named


def built(cases):
    """The same messages as from C, and the same reasons."""
    module = cases.module
    for row in BUILT:
        fields, parts, named = asked(module, row)
        found = module.build(fields, parts, **named)
        cases.expect("built: " + row[0], row[3], found)
        with module.Session(found) as session:
            read = {path: session.extract(tuple(map(int, path.split(".")))) for path in row[4]}
        cases.expect("read again: " + row[0], row[4], read)
    items = {"BadField": "field", "BadType": "part", "BadName": "part", "HoldsBoundary": "message"}
    for row in REFUSED:
        reason, index = row[3].decode().split()[1:]
        fields, parts, named = asked(module, row)
        try:
            found = module.build(fields, parts, **named)
        except module.MimetoolError as error:
            found = error.reason, error.index, error.item, str(pickle.loads(pickle.dumps(error))) == str(error)
        cases.expect("not built: " + row[0], (reason, int(index), items.get(reason, ""), True), found)


def build_arguments(cases):
    """What build makes of what it is given."""
    module = cases.module
    build, part = module.build, module.Part
    plain = build(["A: \u00fc"], [part("text/plain", "\u00fc\n"), part(b"image/png", bytearray(b"hi"), b"a.png")], boundary=b"b")
    cases.expect("str is UTF-8, and texts aren't base64", (True,) * 3, (b"A: \xc3\xbc\n" in plain, b"=C3=BC\n" in plain, b"aGk=" in plain))
    cases.expect("an iterator", plain, build(iter(["A: \u00fc"]), iter([part("text/plain", "\u00fc\n"), part("image/png", b"hi", "a.png")]),
                                             boundary="b"))
    attached = build([], [], messages=[b"A: b\n\n"], boundary="b")
    cases.expect("bytes are attached", attached, build([], [], messages=[module.Forward(b"A: b\n\n")], boundary="b"))
    found = [re.search(rb'boundary="(=_[0-9a-f]{24})"', build([], [])) for _ in range(2)]
    cases.expect("boundaries are random", (True, True), (all(found), found[0][1] != found[1][1]))
    for shows, wanted, call in [
            ("another ending", "ValueError", lambda: build([], [], eol=b"\r")),
            ("a NUL in a name", "ValueError", lambda: build([], [part("a/b", b"", "c\0")])),
            ("a NUL in a type", "BadType", lambda: build([], [part("a/b\0", b"")])),
            ("a NUL in a subtype", "BadSubtype", lambda: build([], [], subtype="a\0")),
            ("a NUL in a charset", "BadCharset", lambda: build([], [], charset="a\0")),
            ("a NUL in a boundary", "BadBoundary", lambda: build([], [], boundary="a\0")),
            ("a NUL alone", "BadBoundary", lambda: build([], [], boundary="\0")),
            ("a number", "TypeError", lambda: build([5], [])), ("no part", "AttributeError", lambda: build([], [5])),
            ("a content that is a number", "TypeError", lambda: build([], [part("a/b", 5)])),
            ("a message that is a str", "TypeError", lambda: build([], [], messages=["A: b"])),
            ("a boundary beyond ASCII", "BadBoundary", lambda: build([], [], boundary="\u00fc"))]:
        cases.expect("build: " + shows, wanted, raised(call))
    nul = build([b"A: \0"], [part("text/plain", b"a\0b")], boundary="b")
    cases.expect("NULs of fields and contents stay", (True, True), (nul.startswith(b"A: \0\n"), b"a=00b" in nul))


def check_mail(cases):
    with tempfile.TemporaryDirectory(prefix="python-") as folder:
        sources(cases, folder)
        many(cases, folder)
    for check in (faults, closing, drawn, filters, refusals, memory, built, build_arguments):
        check(cases)
