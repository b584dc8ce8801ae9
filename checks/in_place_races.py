"""Runs with `--in-place` that are killed, that run at once, or whose FILE another program changes."""

import os
import random
import signal
import time

from common import READ_FAULT, WRITE_FAULT, make, names, read

KILLS, MESSAGES, PAIRS, CHANGES, AT_ONCE = 200, 30, 60, 60, 30
HELD = b"mimetool: f: another run is using it (--wait waits for it)\n" + READ_FAULT
CHANGED = b"mimetool: f: another program has changed it\n" + WRITE_FAULT


def time_of(program, folder, words):
    """How long a run takes: the longest of some."""
    longest = 0
    for _ in range(5):
        begin = time.monotonic()
        program.run(words, folder, nobody=False)
        longest = max(longest, time.monotonic() - begin)
    return longest


def lock_of(name):
    """The hidden file by which a run locks a file."""
    return f".{name}.mimetool.lock"


def numbered(number, name):
    """A message of several hundred kilobytes, with a field that says a number."""
    body = b"%d\n" % name + b"a line of the body\n" * (10_000 + name * 500)
    return b"Subject: s\nX-Count: %d\n\n" % number + body


def check_kills(program):
    """A run that is killed leaves the old text or the new one, and its lock and one fresh file at most."""
    chance, folder = random.Random(1), program.folder()
    make(folder, {f"m{name}": numbered(0, name) for name in range(MESSAGES)})
    whole = time_of(program, folder, ["field", "-I", "X-Count: 0", "-A", "Z: z", "--in-place", "m29"])
    make(folder, {"m29": numbered(0, MESSAGES - 1)})
    for number in range(1, KILLS + 1):
        name = number % MESSAGES
        old, new = read(folder, f"m{name}"), numbered(number, name)
        there = names(folder)
        process = program.start(["field", "-I", f"X-Count: {number}", "--in-place", f"m{name}"], folder)
        time.sleep(chance.random() * whole)
        process.send_signal(signal.SIGKILL)
        process.communicate()
        text, fresh = read(folder, f"m{name}"), [each for each in names(folder) if each not in there and each != lock_of(f"m{name}")]
        program.expect(f"kill {number}", whole=(True, text in (old, new)),
                       fresh=(True, len(fresh) <= 1 and all(each.endswith(".new") for each in fresh)), others=(True, set(there) - {lock_of(f"m{name}")} <= set(names(folder))))
        if text != old and fresh:
            program.expect(f"kill {number}: a fresh file beside the new text", fresh=([], fresh))
    left = names(folder)
    for name in range(MESSAGES):
        found = program.run(["field", "-I", "X-Count: 999", "--in-place", f"m{name}"], folder, nobody=False)
        program.ended(f"the run after the killed ones on m{name}", found,
                      text=(numbered(999, name), read(folder, f"m{name}")))
    locks = {lock_of(f"m{name}") for name in range(MESSAGES)}
    program.expect("the files after the killed runs", files=([each for each in left if each not in locks], names(folder)))


def check_pairs(program):
    """Of two runs on one file at once, the result is that of one, or of both in turn."""
    chance = random.Random(2)
    whole = time_of_pair(program)
    for number in range(PAIRS):
        folder = program.folder()
        make(folder, {"f": numbered(0, 9)})
        lines = {"X: 1": "edit", "Y: 2": "edit"}
        runs = []
        for line in lines:
            runs.append(program.start(["edit", "-e", f"top 1 {line}", "--in-place", "f"], folder))
            time.sleep(chance.random() * whole * (number % 3) / 2)
        ends = [(run.communicate(timeout=60)[1], run.returncode) for run in runs]
        for errors, status in ends:
            refused = (3, errors) if errors in (HELD, CHANGED) else (3, HELD)
            program.expect(f"pair {number}: how a run ends", end=((0, b"") if status == 0 else refused, (status, errors)))
        done = [line.encode() + b"\n" for line, (_, status) in zip(lines, ends) if status == 0]
        results = [b"".join(order) + numbered(0, 9) for order in (done, done[::-1])]
        program.expect(f"pair {number}", some=(True, bool(done)), serial=(True, read(folder, "f") in results), files=(["f"], names(folder)))


def time_of_pair(program):
    folder = program.folder()
    make(folder, {"f": numbered(0, 9)})
    return time_of(program, folder, ["edit", "-e", "top 1 X: 1", "--in-place", "f"])


def check_waits(program):
    """Of many runs at once that wait for one another, each succeeds: no edit is lost."""
    folder = program.folder()
    make(folder, {"f": b"A: b\n\nx\n", "g": b"A: b\n\nx\n"})
    runs = [program.start(["field", "-A", f"X-{number}: {number}", "--in-place", "f", "--wait"], folder) for number in range(AT_ONCE)]
    ends = [(run.communicate(timeout=60)[1], run.returncode) for run in runs]
    fields = sorted(b"X-%d: %d" % (number, number) for number in range(AT_ONCE))
    lines = read(folder, "f").split(b"\n")
    program.expect(f"{AT_ONCE} runs at once that wait", ends=([(b"", 0)] * AT_ONCE, ends), fields=(fields, sorted(lines[1:-3])),
                   message=([b"A: b", b"", b"x", b""], lines[:1] + lines[-3:]), files=(["f", "g"], names(folder)))
    words = [["edit", "-e", f"add 1 X: {number}", "--in-place", "g", "-j", "j", "--wait=60"] for number in range(AT_ONCE)]
    runs = [program.start(each, folder) for each in words]
    ends = [(run.communicate(timeout=60)[1], run.returncode) for run in runs]
    for _ in words:
        program.run(["undo", "-j", "j", "--in-place", "g"], folder, nobody=False)
    program.expect(f"{AT_ONCE} runs at once with a journal", ends=([(b"", 0)] * AT_ONCE, ends), undone=(b"A: b\n\nx\n", read(folder, "g")),
                   files=(["f", "g", "j"], names(folder)))


def check_pipe_of_runs(program):
    """Two runs in one pipe, on one journal: the second reads all before it waits."""
    folder, message = program.folder(), b"A: b\n\n" + b"a line of the body\n" * 50_000
    make(folder, {"f": message})
    first = program.start(["edit", "-e", "add 1 C: d", "-j", "j", "--from", "f", "--wait"], folder)
    second = program.start(["edit", "-e", "add 1 E: f", "-j", "j", "--wait"], folder, stdin=first.stdout)
    first.stdout.close()
    output, errors = second.communicate(timeout=60)
    first.stderr.close()
    program.expect("two runs in one pipe that wait", ends=((0, 0, b""), (first.wait(), second.returncode, errors)),
                   text=(message.replace(b"b\n", b"b\nC: d\nE: f\n", 1), output), files=(["f", "j"], names(folder)))


TAIL = b"From z\nA: 9\n\nthe end\n"
BOX = b"".join(b"From a%d\nA: %d\n\n%s\n" % (number, number, b"text\n" * 100) for number in range(20_000))


def added(text):
    """A mailbox whose messages have got a field, as `-A` adds it."""
    return b"".join(b"From " + piece.replace(b"\n\n", b"\nC: d\n\n", 1) for piece in text.split(b"From ")[1:])


def append(path):
    with open(path, "ab", buffering=0) as file:
        file.write(TAIL)


def replace(path):
    with open(path + ".other", "wb") as file:
        file.write(TAIL)
    os.rename(path + ".other", path)


def overwrite(path):
    with open(path, "r+b", buffering=0) as file:
        file.write(b"From other")


# What another program does, and the texts of which one has to be there then.
WAYS = [
    (append, [BOX + TAIL, added(BOX + TAIL), added(BOX) + TAIL]),
    (replace, [TAIL, added(TAIL)]),
    (overwrite, [b"From other" + BOX[10:], added(b"From other" + BOX[10:]), b"From other" + added(BOX)[10:]]),
]


def check_changes(program):
    """What another program does to FILE during a run isn't lost."""
    chance, folder = random.Random(3), program.folder()
    make(folder, {"f": BOX})
    path, words = os.path.join(folder, "f"), ["field", "-s", "-A", "C: d", "--in-place", "f"]
    whole = time_of(program, folder, ["field", "-s", "-I", "C: d", "--in-place", "f"])
    for number in range(CHANGES):
        change, texts = WAYS[number % len(WAYS)]
        os.unlink(path)
        make(folder, {"f": BOX})
        process = program.start(words, folder)
        time.sleep(chance.random() * whole)
        process.send_signal(signal.SIGSTOP)
        time.sleep(0.002)
        change(path)
        process.send_signal(signal.SIGCONT)
        errors = process.communicate(timeout=120)[1]
        text = read(folder, "f")
        status = process.returncode
        shows = f"change {number}, {change.__name__}: status {status}"
        program.expect(shows, kept=(True, text in texts), files=(["f"], names(folder)), errors=(CHANGED if status == 3 else b"", errors))
        if status == 3:
            program.expect(f"{shows}: the text", text=(texts[0], text))


CHECKS = [check_kills, check_pairs, check_waits, check_pipe_of_runs, check_changes]
