"""Runs with `--in-place` that can't be done: FILE and the journal are as they were, and no fresh file is left."""

import os

from common import FORBIDDEN, MISSING, FullDisk, WRITE_FAULT, limit_files, make, names, read, read_fault, state, write_fault

FULL = "No space left on device (os error 28)"
TOO_LARGE = "File too large (os error 27)"
OLD = b"A: b\n\n" + b"x\n" * 50_000
ADD = ["edit", "-e", "add 1 C: d"]
BODY = ["edit", "-e", "body 1 1", "piece", "-j", "j", "--in-place", "f"]
NEW = OLD.replace(b"b\n", b"b\nC: d\n", 1)
LETTERS = ["field", "-A", "C: d"]


def begin_journal(program, folder, journal="j"):
    """A journal of FILE, which stays as it is."""
    return program.run(["edit", "-e", "add 1 Z: z", "-e", "undo", "-j", journal, "--in-place", "f"], folder).returncode == 0


def stays(program, shows, folder, words, status, errors, **options):
    """A row: the run ends so, and leaves all as it was, journal and times included."""
    there = names(folder)
    files = [name for name in there if os.path.isfile(os.path.join(folder, name))]
    before = {name: (state(folder, name), read(folder, name)) for name in files}
    found = program.run(words, folder, **options)
    left = names(folder)
    states = {name: (state(folder, name), read(folder, name)) for name in left if name in files}
    program.ended(f"{shows}: {' '.join(words)}", found, status, errors, files=(there, left), states=(before, states))


def check_refused(program):
    """Faults before anything is written."""
    for words, status, errors in (
        (["edit", "s"], 2, b"script: line 2: syntax\n"), (["edit", "-e", "add 1 C: d", "-e", "x"], 2, b"script: line 2: unknown word\nscript: line 2: syntax\n"),
        ([*ADD, "-j", "bad"], 1, b"journal: JournalSyntax 0\n"), (["undo", "-j", "bad"], 1, b"journal: JournalSyntax 0\n"),
        (["redo", "-j", "other"], 1, b"journal: JournalOther\n"), ([*ADD, "none"], 3, read_fault("none", MISSING)),
        (["edit", "none"], 3, read_fault("none", MISSING)), ([*ADD, "-j", "none/j"], 3, write_fault("none/j", MISSING)),
    ):
        folder = program.folder()
        other = b"mimejournal 2\n" + b"0" * 64 + b"\n0 0\n"
        make(folder, {"f": OLD, "s": b"add 1 C: d\nx\n", "bad": b"x", "other": other})
        stays(program, "refused", folder, [*words, "--in-place", "f"], status, [errors])


def check_closed(program):
    """A folder without write permission."""
    for words in (ADD, LETTERS, [*LETTERS, "-s"]):
        folder = program.folder()
        make(folder, {"f": OLD})
        os.chmod(folder, 0o555)
        stays(program, "a closed folder", folder, [*words, "--in-place", "f"], 3, [write_fault("f", FORBIDDEN)])
    for journal in ("j", "../open/j"):
        outer = program.folder()
        folder, other = os.path.join(outer, "closed"), os.path.join(outer, "open")
        for path in (folder, other):
            os.mkdir(path)
            os.chown(path, os.stat(outer).st_uid, os.stat(outer).st_gid)
        make(folder, {"f": OLD})
        program.expect("a journal to begin with", well=(True, begin_journal(program, folder, journal)))
        os.chmod(folder, 0o555)
        errors = [write_fault("f", FORBIDDEN)] + [write_fault("j", FORBIDDEN)] * (journal == "j")
        before = names(other), read(other, "j")
        stays(program, "a closed folder, with a journal", folder, [*ADD, "-j", journal, "--in-place", "f"], 3, errors)
        program.expect("the journal in another folder", journal=(before, (names(other), read(other, "j"))))


def check_limits(program):
    """A limit on the size of files, whether its signal is ignored or not."""
    for limit in (0, 1, 4096, 50_000, len(OLD), len(OLD) + 4):
        for words in (ADD, LETTERS, [*LETTERS, "-s"], ["edit", "-e", "top 1 C: d"], [*ADD, "-j", "j"], [*ADD, "-j", "new"]):
            folder = program.folder()
            make(folder, {"f": OLD})
            if "j" in words:
                program.expect("a journal to begin with", well=(True, begin_journal(program, folder)))
            errors = [write_fault("f", TOO_LARGE)] + [write_fault(name, TOO_LARGE) for name in ("j", "new") if name in words]
            stays(program, f"files of {limit} bytes", folder, [*words, "--in-place", "f"], 3, errors, before=limit_files(limit))
    for limit in range(0, len(OLD) + 20_000, 10_000):
        folder = program.folder()
        make(folder, {"f": OLD})
        found = program.run([*ADD, "--in-place", "f"], folder, before=limit_files(limit, ignored=False))
        text = read(folder, "f")
        program.expect(f"files of {limit} bytes, where the signal isn't ignored: status {found.returncode}",
                       whole=(True, text in (OLD, NEW)), well=(found.returncode == 0, text != OLD))


def check_journal_limit(program):
    """FILE would fit, and the journal wouldn't, and the other way round."""
    large, small = b"A: b\n\n" + b"x\n" * 200_000, b"y\n"
    for shows, old, piece in (("the journal is too large", large, small), ("both are too large", small, large)):
        folder = program.folder()
        make(folder, {"f": b"A: b\n\n" + old, "piece": piece})
        program.expect("a journal to begin with", well=(True, begin_journal(program, folder)))
        errors = [write_fault("j", TOO_LARGE), write_fault("f", TOO_LARGE)]
        stays(program, shows, folder, BODY, 3, errors, before=limit_files(100_000))


def check_full(program):
    """A full disk: nothing fits, FILE doesn't, or its journal doesn't."""
    with FullDisk(program, "4m") as disk:
        if not disk.mounted:
            print("in-place: full disks are left out: no file system can be mounted here")
            return
        for number, words in enumerate((ADD, LETTERS, [*LETTERS, "-s"], [*ADD, "-j", "j"], [*ADD, "-j", "new"])):
            make(disk.path, {"f": OLD})
            if "j" in words:
                program.expect("a journal to begin with", well=(True, begin_journal(program, disk.path)))
            disk_full(disk, number % 2 * len(OLD) // 2)
            errors = [write_fault(name, FULL) for name in ("f", "j", "new") if name in [*words, "f"]]
            stays(program, "a full disk", disk.path, [*words, "--in-place", "f"], 3, errors)
            empty(disk.path)
        make(disk.path, {"f": b"A: b\n\n" + b"x\n" * 500_000, "piece": b"y\n"})
        program.expect("a journal to begin with", well=(True, begin_journal(program, disk.path)))
        disk_full(disk, 300_000)
        stays(program, "no room for the journal", disk.path, BODY, 3, [write_fault("j", FULL), write_fault("f", FULL)])
        os.unlink(os.path.join(disk.path, "filling"))
        found = program.run(BODY, disk.path)
        program.ended("the same with room", found, text=(b"A: b\n\ny\n", read(disk.path, "f")),
                      files=(["f", "j", "piece"], names(disk.path)))


def disk_full(disk, left):
    """Fills a disk but for so many bytes."""
    disk.fill()
    with open(os.path.join(disk.path, "filling"), "r+b") as file:
        file.truncate(os.path.getsize(file.name) - left)


def empty(folder):
    for name in os.listdir(folder):
        os.unlink(os.path.join(folder, name))


def check_fresh_names(program):
    """Files that have the names of fresh ones stay, and the next number is taken."""
    folder = program.folder()
    others = {".f.1.new": b"1", ".f.2.new": b"2", ".j.1.new": b"3"}
    make(folder, {"f": OLD, **others})
    found = program.run([*ADD, "-j", "j", "--in-place", "f"], folder)
    program.ended("fresh names that are taken", found, text=(NEW, read(folder, "f")),
                  files=([".f.1.new", ".f.2.new", ".j.1.new", "f", "j"], names(folder)),
                  others=(others, {name: read(folder, name) for name in others}))


def check_output(program):
    """Nothing goes to the output, so a full or closed one is no fault."""
    for words in (ADD, LETTERS, [*LETTERS, "-s"]):
        folder = program.folder()
        make(folder, {"f": OLD})
        with open("/dev/full", "wb") as device:
            found = program.run([*words, "--in-place", "f"], folder, stdout=device)
        program.ended(f"{words[0]} in place with a full output", found, text=(NEW, read(folder, "f")))
    folder = program.folder()
    make(folder, {"f": OLD})
    with open("/dev/full", "wb") as device:
        found = program.run(ADD, folder, OLD, stdout=device)
    program.ended("a full output without --in-place", found, 3, errors=WRITE_FAULT)


CHECKS = [check_refused, check_closed, check_limits, check_journal_limit, check_full, check_fresh_names, check_output]
