"""Terminals, pipes that end at once, and files that grow while they are read."""

import os
import pty
import select
import subprocess
import termios
import threading
import time

from common import SECONDS, make, names, read
from system_cases import FILTERED, LISTING, MAILBOX

MESSAGE = b"A: b\n\nx\n"
END = b"\x04"


class Terminal:
    """A terminal whose three streams a program has, and the side at which someone sits. Nothing is echoed, and bytes stay as they are."""

    def __init__(self, program, words, folder):
        self.seat, streams = pty.openpty()
        modes = termios.tcgetattr(streams)
        modes[1] &= ~termios.OPOST
        modes[3] &= ~termios.ECHO
        termios.tcsetattr(streams, termios.TCSANOW, modes)
        self.process = subprocess.Popen([program.path, *words], cwd=folder, stdin=streams, stdout=streams, stderr=streams)
        os.close(streams)

    def type(self, keys):
        os.write(self.seat, keys)

    def shown(self, awaited=None):
        """What comes until that is all there, or until the program ends."""
        text, limit = b"", time.monotonic() + SECONDS
        while text != awaited and select.select([self.seat], [], [], max(0, limit - time.monotonic()))[0]:
            try:
                piece = os.read(self.seat, 65536)
            except OSError:
                break
            text += piece
        return text

    def end(self):
        """How the program ended."""
        try:
            return self.process.wait(SECONDS)
        except subprocess.TimeoutExpired:
            self.process.kill()
            self.process.wait()
            return "no end"
        finally:
            os.close(self.seat)


# What is asked of a message that is typed, what is shown, and the status.
TYPED = [
    (["sections"], MESSAGE, LISTING, 0),
    (["extract", "-s", "1"], MESSAGE, b"x\n", 0),
    (["extract", "-s", "2"], MESSAGE, b"2: NoSuchSection\n", 1),
    (["edit", "-e", "add 1 C: d", "-e", "undo", "-e", "undo"], MESSAGE, b"line 3: NothingToUndo\n" + MESSAGE, 1),
    (["field", "-A", "C: d"], MESSAGE, b"A: b\nC: d\n\nx\n", 0),
    (["field", "-s", "-A", "C: d"], MAILBOX, FILTERED, 0),
    (["unpack", "-t", "--silent"], MESSAGE, b"", 0),
    (["sections"], b"", b"1 leaf text/plain identity 0 0 0 0 0\n", 0),
    # A line without an ending is sent by a first ^D; only the next one is the end.
    (["field"], b"A: b\n\nx" + END, b"A: b\n\nx", 0),
]


def check_terminals(program):
    """The message is typed, and ended by one ^D."""
    for words, keys, output, status in TYPED:
        terminal = Terminal(program, words, program.folder())
        terminal.type(keys + END)
        text = terminal.shown()
        program.expect(f"a terminal: {words}", output=(output, text), status=(status, terminal.end()))


def check_turns(program):
    """A message of a mailbox is shown as soon as the next one begins."""
    terminal = Terminal(program, ["field", "-s", "-A", "C: d"], program.folder())
    first, second = [b"From " + message for message in FILTERED.split(b"From ")[1:]]
    terminal.type(MAILBOX[:MAILBOX.index(b"A: 2")])
    program.expect("the first message at a terminal", output=(first, terminal.shown(first)))
    terminal.type(MAILBOX[MAILBOX.index(b"A: 2"):] + END)
    program.expect("the second message at a terminal", output=(second, terminal.shown()), status=(0, terminal.end()))


# What is asked of an empty message, and what goes out.
EMPTY = [
    (["sections"], b"1 leaf text/plain identity 0 0 0 0 0\n"),
    (["extract", "-s", "1"], b""),
    (["unpack", "-t", "-C", "d"], b"part-1 (text/plain)\n"),
    (["edit", "-e", "add 1 C: d"], b"C: d\n"),
    (["field"], b""),
    (["field", "-s"], b""),
    (["field", "-A", "C: d"], b"C: d\n"),
    (["field", "-s", "-A", "C: d"], b""),
    (["field", "-x", "A:"], b""),
    (["pack", "-b", "b", "text/plain:/dev/null"],
     b'MIME-Version: 1.0\nContent-Type: multipart/mixed; boundary="b"\n\n--b\nContent-Type: text/plain; name="null"\n'
     b'Content-Disposition: attachment; filename="null"\nContent-Transfer-Encoding: quoted-printable\n\n\n--b--\n'),
]


def check_empty(program):
    """An input that ends at once is an empty message."""
    for words, output in EMPTY:
        for shows, options in (("a pipe", {}), ("a device", {"stdin": subprocess.DEVNULL})):
            found = program.run(words, program.folder(), b"", nobody=False, **options)
            program.ended(f"{shows} that ends at once: {words}", found, output=output)


BEGUN = b"A: b\n\n" + b"a line\n" * 200_000
ADDED, MOST = b"a line\n" * 2_000, 200


class Growing:
    """A file that gets longer until this is left, or until it has grown enough."""

    def __init__(self, folder):
        self.path, self.ends = os.path.join(folder, "f"), False
        make(folder, {"f": BEGUN})
        self.thread = threading.Thread(target=self.grow)

    def grow(self):
        with open(self.path, "ab", buffering=0) as file:
            for _ in range(MOST):
                if self.ends:
                    break
                file.write(ADDED)

    def __enter__(self):
        self.thread.start()
        return self

    def __exit__(self, *_):
        self.ends = True
        self.thread.join()


def listed(text):
    lines = text.count(b"\n") + (not text.endswith(b"\n"))
    return b"1 leaf text/plain identity 0 6 %d 1 %d\n" % (len(text), lines - 2)


def with_field(text):
    return text.replace(b"\n", b"\nC: d\n", 1)


# What is asked of the file, what that is for a text that it had, and how long the text was.
GROWING = [
    (["field"], bytes, len),
    (["field", "-A", "C: d"], with_field, lambda output: len(output) - 5),
    (["field", "-s", "-A", "C: d"], with_field, lambda output: len(output) - 5),
    (["edit", "-e", "add 1 C: d"], with_field, lambda output: len(output) - 5),
    (["extract", "-s", "1"], lambda text: text[6:], lambda output: len(output) + 6),
    (["sections"], listed, lambda output: int(output.split()[6])),
]


def check_growing(program):
    """What was read is a text that the file had during the run."""
    for words, answer, size in GROWING:
        folder = program.folder()
        with Growing(folder):
            found = program.run([*words, "--from", "f"], folder, nobody=False)
        text = read(folder, "f")[:size(found.stdout)] if found.stdout else b""
        program.ended(f"a file that grows: {words}", found, output=answer(text), whole=(True, len(text) >= len(BEGUN)))


CHECKS = [check_terminals, check_turns, check_empty, check_growing]
