"""Long command lines, little memory and few descriptors; and how much memory many steps take."""

import re
import resource
import subprocess

from common import make, names, read, read_fault, write_fault
from file_rows import DONE, EDITED, MESSAGE, journal

# The longest word that the system takes is one of 128 KB, with the byte at its end.
WORD = 128 * 1024 - 1
PIECES = 60_000
MEMORY = b"mimetool: memory\n"
FEW = "Too many open files (os error 24)"
# The standard streams, and one by which the system loads the C library.
LEAST_DESCRIPTORS = 4


def check_long_words(program):
    """A command line of about 1 MB: values as long as the system takes them, and many words."""
    value = "X: " + "y" * (WORD - 3)
    field = value.encode() + b"\n"
    found = program.run(["field", "-I", value], program.folder(), MESSAGE)
    program.ended("a value of 128 KB", found, output=b"A: b\n" + field + b"\nx\n")
    line = "add 1 " + value[:WORD - 6]
    found = program.run(["edit", *["-e", line] * 8], program.folder(), MESSAGE)
    program.ended("eight lines of 128 KB", found, output=b"A: b\n" + (line[6:].encode() + b"\n") * 8 + b"\nx\n")
    found = program.run(["extract", "-s", "1." * (WORD // 2) + "1"], program.folder(), MESSAGE)
    program.ended("a path of 65,536 numbers", found, 1, ("1." * (WORD // 2) + "1: NoSuchSection\n").encode())
    found = program.run(["extract", "-s", "9" * WORD], program.folder(), MESSAGE)
    program.ended("a number of 131,071 digits", found, 2, None)
    lines = [word for _ in range(PIECES // 2) for word in ("-e", "undo")]
    found = program.run(["edit", *lines], program.folder(), MESSAGE)
    said = b"".join(b"line %d: NothingToUndo\n" % number for number in range(1, PIECES // 2 + 1))
    program.ended("many lines", found, 1, said, MESSAGE)
    folder = program.folder()
    make(folder, {"p": b"p\n", "q": b"q\n"})
    found = program.run(["edit", "-e", f"body 1 {PIECES}", *["p"] * (PIECES - 1), "q"], folder, MESSAGE)
    program.ended("many pieces", found, output=b"A: b\n\nq\n")


def limited(name, size):
    """What a child does before it starts, so that it has no more of something."""
    def limit():
        resource.setrlimit(name, (size, size))
    return limit


LARGE = b"A: b\n\n" + b"a line of the body\n" * 20_000
BOX = b"".join(b"From a%d\nA: b\n\ntext\n\n" % number for number in range(2_000))
PARTS = b"Content-Type: multipart/mixed; boundary=b\n\n" + b"--b\n\nx\n" * 500 + b"--b--\n"


def tight_runs():
    """Runs that need memory: words, the message, what goes out, and the files that are there afterwards."""
    yield ["--version"], b"", b"mimetool 0.1.0\n", {}
    yield ["sections", "--from", "f"], LARGE, b"1 leaf text/plain identity 0 6 %d 1 20000\n" % len(LARGE), {}
    yield ["sections"], PARTS, listed_parts(), {}
    yield ["extract", "-s", "1"], LARGE, LARGE[6:], {}
    yield ["edit", "-e", "add 1 C: d"], LARGE, LARGE.replace(b"b\n", b"b\nC: d\n", 1), {}
    yield ["edit", "-e", "add 1 C: d", "-j", "j"], MESSAGE, EDITED, {"j": journal(EDITED, DONE)}
    yield ["field", "-s", "-A", "C: d"], BOX, BOX.replace(b"b\n", b"b\nC: d\n"), {}
    yield ["field", "-A", "C: d", "--in-place", "f"], LARGE, b"", {"f": LARGE.replace(b"b\n", b"b\nC: d\n", 1)}
    yield ["unpack", "-t", "-C", "."], LARGE, b"part-1 (text/plain)\n", {"part-1": LARGE[6:]}
    yield ["pack", "-b", "b", "image/gif:f"], b"", None, {}


def listed_parts():
    head, part = len(PARTS) - 7 * 500 - 6, 7
    lines = [b"1 multi multipart/mixed identity 0 %d %d 1 1501\n" % (head, len(PARTS))]
    for number in range(500):
        begin = head + number * part + 4
        lines.append(b"1.%d leaf text/plain identity %d %d %d 0 1\n" % (number + 1, begin, begin + 1, begin + 3))
    return b"".join(lines)


def least_memory(program):
    """The least size, in steps of 64 KB, at which the system can start the program."""
    folder, size = program.folder(), 0
    while size < 1 << 26:
        size += 64 * 1024
        if program.run(["--version"], folder, nobody=False, before=limited(resource.RLIMIT_AS, size)).returncode in (0, 4):
            return size
    return size


def check_memory(program):
    """With little memory a run is as it should be, or ends as one that is out of memory, and is never killed."""
    least = least_memory(program)
    sizes = [least + step * 64 * 1024 for step in range(48)] + [least + step * 1024 * 1024 for step in range(3, 12)]
    for words, message, output, left in tight_runs():
        for size in sizes:
            check_tight(program, words, message, output, left, size)


def check_tight(program, words, message, output, left, size):
    folder = program.folder()
    make(folder, {"f": message})
    found = program.run(words, folder, message, nobody=False, before=limited(resource.RLIMIT_AS, size))
    shows = f"{size // 1024} KB of memory: {words}: status {found.returncode}"
    files = {name: read(folder, name) for name in names(folder)}
    if found.returncode == 0:
        program.ended(shows, found, output=output, files=({"f": message, **left}, files))
    else:
        made = {name: text for name, text in files.items() if name != "f"}
        program.ended(shows, found, 4, MEMORY, output=None, whole=(True, output is None or output.startswith(found.stdout)),
                      f=(message, files["f"]), made=({}, made))


def check_descriptors(program):
    """With few descriptors a run is as it should be, or names the file that can't be opened, and leaves all as it was."""
    done = {"f": EDITED, "j": journal(EDITED, b"2 0\n0\n1\n5 0 5\nC: d\n\n")}
    before = {"f": MESSAGE, "j": journal(MESSAGE, b"1 0\n0\n")}
    well = []
    for count in range(LEAST_DESCRIPTORS, 16):
        folder = program.folder()
        make(folder, before)
        found = program.run(["edit", "-e", "add 1 C: d", "-j", "j", "--in-place", "f"], folder, nobody=False,
                            before=limited(resource.RLIMIT_NOFILE, count))
        files = {name: read(folder, name) for name in names(folder)}
        well.append(found.returncode == 0)
        if found.returncode == 0:
            program.ended(f"{count} descriptors", found, files=(done, files))
        else:
            errors = [fault(name, FEW) for fault in (read_fault, write_fault) for name in ("f", "j")]
            program.ended(f"{count} descriptors", found, 3, errors, files=(before, files))
    program.expect("descriptors", some=([False, True], sorted(set(well))))
    found = program.run(["field", "-A", "C: d"], program.folder(), MESSAGE, nobody=False,
                        before=limited(resource.RLIMIT_NOFILE, LEAST_DESCRIPTORS))
    program.ended("a run without files, with few descriptors", found, output=EDITED)


LONG = b"Subject: 0\n\n" + b"a line of the body\n" * (10_000_000 // 19)
STEPS = 1_000


def peak_memory(process):
    """The most memory that a process has had in RAM, in bytes; 0 where it has ended. Unlike the usage that the system reports at
    its end, this counts nothing of the process that started it."""
    with open(f"/proc/{process.pid}/status") as file:
        found = re.search(r"^VmHWM:\s+(\d+) kB$", file.read(), re.M)
    return int(found.group(1)) * 1024 if found else 0


def check_steps(program):
    """A thousand edits of one field of a message of 10 MB, each a step that can be taken back. The program keeps the message and
    the bytes that each step replaced: with its own few MB, less than the message twice."""
    folder = program.folder()
    script = b"".join(b"set 1 Subject 1 Subject: %d\n" % number for number in range(1, STEPS + 1))
    make(folder, {"f": LONG, "s": script})
    # So that a program that keeps far more doesn't take all memory of the system.
    limit = limited(resource.RLIMIT_AS, 20 * len(LONG))
    process = program.start(["edit", "s", "--from", "f"], folder, bufsize=0, preexec_fn=limit)
    # The first byte goes out after the last step. The rest of 10 MB waits for a reader.
    output = process.stdout.read(1)
    peak = peak_memory(process)
    rest, errors = process.communicate()
    found = subprocess.CompletedProcess(process.args, process.returncode, output + rest, errors)
    program.ended("a thousand steps", found, output=LONG.replace(b"0", b"%d" % STEPS, 1))
    program.expect(f"a thousand steps: {peak} bytes of memory", within=(True, 0 < peak < 2 * len(LONG)))


CHECKS = [check_long_words, check_memory, check_descriptors, check_steps]
