"""Standard streams that are closed, can't be read or written, or have no reader."""

import os
import signal
from itertools import product

from common import FOLDER, READ_FAULT, WRITE_FAULT, make, names, read
from system_cases import cases

STREAMS = ("input", "output", "errors")
OPEN = "open"
# What each stream may be, if it isn't open: a path that is opened, and for what.
KINDS = {
    "a folder": ("/", os.O_RDONLY), "only written": ("/dev/null", os.O_WRONLY),
    "full": ("/dev/full", os.O_WRONLY), "only read": ("/dev/null", os.O_RDONLY),
}
NO_READER = "without a reader"
INPUTS = ["a folder", "only written"]
OUTPUTS = ["full", "only read", NO_READER]


def combinations():
    """What the three streams are: closed in each way, or one of them or both outputs of another kind."""
    yield from product((OPEN, "closed"), repeat=3)
    for kind in INPUTS:
        yield kind, OPEN, OPEN
    for kind in OUTPUTS:
        yield OPEN, kind, OPEN
        yield OPEN, OPEN, kind
        yield OPEN, kind, kind


def become(place, kind):
    """Makes a standard stream of this process one of a kind."""
    if kind == NO_READER:
        reader, handle = os.pipe()
        os.close(reader)
    else:
        handle = os.open(*KINDS[kind])
    os.dup2(handle, place)
    os.close(handle)


def between(streams, action):
    """What a child does before it starts. A write to a pipe without a reader has this action."""
    def prepare():
        signal.signal(signal.SIGPIPE, action)
        for place, kind in enumerate(streams):
            if kind not in (OPEN, "closed"):
                become(place, kind)
        for place, kind in enumerate(streams):
            if kind == "closed":
                os.close(place)
    return prepare


def foreseen(case, streams):
    """How a run between these streams ends: its status, what may have gone to the outputs, and the files that it makes or changes."""
    reads, prints, tells = [kind == OPEN for kind in streams]
    if case.reads and not reads:
        return 3, [b""], [READ_FAULT], {}
    if case.errors and not tells:
        outputs = [b"", case.output] if case.early else [b""]
        return case.status if case.ended else 3, outputs, [b""], {}
    if case.output and not prints:
        # Nothing is said where nobody reads the pipe any more.
        fault = b"" if streams[1] == NO_READER else WRITE_FAULT
        errors = [case.errors + fault] + [fault] * case.early
        return 3, [b""], errors, case.kept
    return case.status, [case.output], [case.errors], case.left


def content(folder, name):
    return FOLDER if os.path.isdir(os.path.join(folder, name)) else read(folder, name)


def found_or_first(allowed, found):
    return found if found in allowed else allowed[0]


def check_case(program, case, streams, before):
    """Runs a case between streams, and compares all that it leaves."""
    folder = program.folder()
    make(folder, case.files)
    found = program.run(case.words, folder, case.message, nobody=False, before=before)
    status, outputs, errors, left = foreseen(case, streams)
    if streams[2] != OPEN:
        errors = [b""]
    kinds = [f"{name} {kind}" for name, kind in zip(STREAMS, streams) if kind != OPEN] or ["all streams open"]
    program.ended(f"{', '.join(kinds)}: {case.words}", found, status, list(errors), found_or_first(outputs, found.stdout),
                  files=({**case.files, **left}, {name: content(folder, name) for name in names(folder)}))


def check_streams(program):
    for streams in combinations():
        actions = (signal.SIG_DFL, signal.SIG_IGN) if NO_READER in streams else (signal.SIG_DFL,)
        for action in actions:
            for case in cases():
                check_case(program, case, streams, between(streams, action))


CHECKS = [check_streams]
