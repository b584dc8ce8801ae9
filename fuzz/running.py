"""Runs of the program in a folder of their own, and what they leave."""

import os
import shutil
import signal
import tempfile

from plain.program import Answer

SECONDS = 30


def open_and_read(path):
    with open(path, "rb") as file:
        return file.read()


def too_long(*_):
    raise TimeoutError


class Program:
    """A built program and an empty folder to run it in."""

    def __init__(self, binary):
        self.binary = os.path.abspath(binary).encode()
        shared = "/dev/shm" if os.access("/dev/shm", os.W_OK) else None
        self.holder = tempfile.mkdtemp(prefix="fuzz-", dir=shared).encode()
        self.folder = os.path.join(self.holder, b"work")
        self.devices = [os.path.join(self.holder, name) for name in (b"input", b"output", b"errors")]
        os.mkdir(self.folder)
        os.chdir(self.folder)
        signal.signal(signal.SIGALRM, too_long)

    def close(self):
        os.chdir("/")
        shutil.rmtree(self.holder)

    def clear(self):
        for entry in os.scandir(self.folder):
            shutil.rmtree(entry.path) if entry.is_dir(follow_symlinks=False) else os.remove(entry.path)

    def fill(self, files):
        for name, text in files.items():
            path = os.path.join(self.folder, name)
            if b"/" in name:
                os.makedirs(os.path.dirname(path), exist_ok=True)
            with open(path, "wb") as file:
                file.write(text)

    def left(self):
        """The files that are there now, and each empty folder as a name with a slash."""
        found = {}
        for folder, inner, names in os.walk(self.folder):
            below = os.path.relpath(folder, self.folder)
            if not inner and not names and below != b".":
                found[below + b"/"] = b""
            for name in names:
                found[os.path.normpath(os.path.join(below, name))] = open_and_read(os.path.join(folder, name))
        return found

    def status(self, words):
        """How the program ends with these words, or that it doesn't."""
        modes = [os.O_RDONLY] + [os.O_WRONLY | os.O_CREAT | os.O_TRUNC] * 2
        opened = [(os.POSIX_SPAWN_OPEN, at, path, mode, 0o600) for at, (path, mode) in enumerate(zip(self.devices, modes))]
        child = os.posix_spawn(self.binary, [self.binary, *words], os.environ, file_actions=opened)
        signal.alarm(SECONDS)
        try:
            return os.waitstatus_to_exitcode(os.waitpid(child, 0)[1])
        except TimeoutError:
            os.kill(child, signal.SIGKILL)
            os.waitpid(child, 0)
            return "no end"
        finally:
            signal.alarm(0)

    def answer(self, run):
        """What the program does with a run."""
        self.clear()
        self.fill(run.files)
        with open(self.devices[0], "wb") as file:
            file.write(run.message)
        status = self.status(run.words)
        output, errors = [open_and_read(path) for path in self.devices[1:]]
        return Answer(status, output, errors, self.left())


def are_told(expected, found):
    """Whether each line that names a reason comes after one with the same front, which says what it means (`--explain`)."""
    lines = found.splitlines(True)
    for wanted in expected.splitlines(True):
        front = wanted.split(b": ")[0] + b": "
        if not wanted.startswith(b"script: ") and not (lines and lines.pop(0).startswith(front)):
            return False
        if not lines or lines.pop(0) != wanted:
            return False
    return not lines


def differences(expected, found, words):
    """Names of what isn't as it should be."""
    names = [name for name in ("status", "output", "files") if getattr(expected, name) != getattr(found, name)]
    if expected.loose:
        same = found.errors.endswith(expected.errors)
    elif b"--explain" in words:
        same = are_told(expected.errors, found.errors)
    else:
        same = found.errors == expected.errors
    return names + ([] if same else ["errors"])
