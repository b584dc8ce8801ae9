"""What the scripts in this folder share: running the program, making files, comparing, and reporting."""

import os
import resource
import shutil
import signal
import stat
import subprocess
import sys
import tempfile

TOP = os.path.dirname(os.path.dirname(os.path.abspath(__file__)))
BUILT = os.path.join(TOP, "crates", "mk_tool", "out", "mk_tool")
NOBODY = 65534
SECONDS = 30
IS_ROOT = os.geteuid() == 0

READ_FAULT = b"mimetool: read fault\n"
WRITE_FAULT = b"mimetool: write fault\n"
MISSING = "No such file or directory (os error 2)"
FORBIDDEN = "Permission denied (os error 13)"

FOLDER, FIFO = object(), object()


class Link(str):
    """A file that is a link to the path that it holds."""


def read_fault(name, why):
    return f"mimetool: {name}: {why}\n".encode() + READ_FAULT


def write_fault(name, why):
    return f"mimetool: {name}: {why}\n".encode() + WRITE_FAULT


def become_nobody():
    os.setgroups([])
    os.setgid(NOBODY)
    os.setuid(NOBODY)


def limit_files(size, ignored=True):
    """What a child does before it starts, so that no file that it writes gets larger."""
    def limit():
        signal.signal(signal.SIGXFSZ, signal.SIG_IGN if ignored else signal.SIG_DFL)
        resource.setrlimit(resource.RLIMIT_FSIZE, (size, size))
    return limit


class Program:
    """The program, as a copy that every user may run, and a folder for its files."""

    def __init__(self, title):
        if len(sys.argv) > 2 or sys.argv[1:2] in (["-h"], ["--help"]):
            print(f"usage: checks/{title} [BINARY]")
            sys.exit(0 if len(sys.argv) == 2 else 2)
        binary = os.path.abspath(sys.argv[1] if len(sys.argv) == 2 else BUILT)
        if not os.path.isfile(binary) or not os.access(binary, os.X_OK):
            print(f"checks/{title}: {binary} is no program", file=sys.stderr)
            sys.exit(2)
        # So that nothing is left where this is ended from outside.
        signal.signal(signal.SIGTERM, lambda *_: sys.exit(1))
        self.title, self.rows, self.wrong, self.folders = title, 0, 0, 0
        self.holder = tempfile.mkdtemp(prefix="checks-")
        os.chmod(self.holder, 0o755)
        self.path = os.path.join(self.holder, "mimetool")
        shutil.copy(binary, self.path)
        os.chmod(self.path, 0o755)

    def folder(self):
        """An empty folder, which nobody owns where root runs this."""
        self.folders += 1
        path = os.path.join(self.holder, f"folder{self.folders}")
        os.mkdir(path, 0o755)
        give_away(path)
        return path

    def run(self, words, folder, message=b"", nobody=IS_ROOT, before=None, **options):
        """Runs it in a folder, as nobody where root runs this and `nobody` isn't false."""
        def prepare():
            if before:
                before()
            if nobody:
                become_nobody()
        if "stdin" not in options:
            options["input"] = message
        options.setdefault("stdout", subprocess.PIPE)
        try:
            return subprocess.run([self.path, *words], cwd=folder, stderr=subprocess.PIPE, timeout=SECONDS,
                                  preexec_fn=prepare, **options)
        except subprocess.TimeoutExpired:
            return subprocess.CompletedProcess(words, f"no end after {SECONDS} seconds", b"", b"")

    def start(self, words, folder, **options):
        """Starts it as the one who runs this, and doesn't wait."""
        options.setdefault("stdout", subprocess.PIPE)
        options.setdefault("stdin", subprocess.DEVNULL)
        return subprocess.Popen([self.path, *words], cwd=folder, stderr=subprocess.PIPE, **options)

    def differ(self, shows, *lines):
        self.wrong += 1
        print(f"{self.title}: {shows}")
        for line in lines:
            print(f"    {line}")

    def expect(self, shows, **pairs):
        """A row: each pair is what was expected and what was found."""
        self.rows += 1
        unlike = {name: pair for name, pair in pairs.items() if pair[0] != pair[1]}
        if unlike:
            self.differ(shows, *[f"{name}: expected {short(pair[0])}, found {short(pair[1])}" for name, pair in unlike.items()])
        return not unlike

    def ended(self, shows, found, status=0, errors=b"", output=b"", **pairs):
        """A row about a run: how it ended, and other pairs. Errors may be a list of texts of which one has to be found; where
        they are None, or the output is, they aren't compared."""
        if isinstance(errors, list):
            errors = found.stderr if found.stderr in errors else errors[0]
        if errors is not None:
            pairs["errors"] = errors, found.stderr
        if output is not None:
            pairs["output"] = output, found.stdout or b""
        return self.expect(shows, status=(status, found.returncode), **pairs)

    def end(self):
        """Removes all files, and says how many rows differ."""
        for path, folders, _ in os.walk(self.holder):
            for name in folders:
                inner = os.path.join(path, name)
                if not os.path.islink(inner):
                    os.chmod(inner, 0o755)
        shutil.rmtree(self.holder)
        print(f"{self.title}: {self.rows} rows, {self.wrong} differ")
        return 1 if self.wrong else 0


def run_all(title, checks):
    """Runs checks, each a function of the program, and answers the exit status."""
    program = Program(title)
    try:
        for check in checks:
            check(program)
    finally:
        status = program.end()
    return status


def short(value):
    text = value if isinstance(value, str) else repr(value)
    return text if len(text) <= 400 else f"{text[:250]} .. {text[-100:]} ({len(text)} long)"


def give_away(path):
    if IS_ROOT:
        os.chown(path, NOBODY, NOBODY, follow_symlinks=False)


def make(folder, files):
    """Makes files: bytes are a content, and a FOLDER, a FIFO and a Link are what they say."""
    for name, content in files.items():
        path = os.path.join(folder, name)
        if content is FOLDER:
            os.mkdir(path)
        elif content is FIFO:
            os.mkfifo(path)
        elif isinstance(content, Link):
            os.symlink(content, path)
        else:
            with open(path, "wb") as file:
                file.write(content)
        give_away(path)


def read(folder, name):
    """The bytes at a path, or what else is there."""
    path = os.path.join(folder, name)
    try:
        if not stat.S_ISREG(os.stat(path).st_mode):
            return "no regular file"
        with open(path, "rb") as file:
            return file.read()
    except OSError as error:
        return error.strerror


def state(folder, name):
    """What a run that leaves a file alone doesn't change."""
    found = os.stat(os.path.join(folder, name))
    return found.st_ino, found.st_mtime_ns, found.st_ctime_ns, found.st_size, found.st_mode, found.st_nlink


def names(folder):
    """All that a folder holds, by its path from there."""
    found = []
    for path, folders, files in os.walk(folder):
        found += [os.path.relpath(os.path.join(path, name), folder) for name in folders + files]
    return sorted(found)


class FullDisk:
    """A small file system that a command fills. Only root can mount one."""

    def __init__(self, program, size):
        self.path, self.size = program.folder(), size

    def __enter__(self):
        words = ["mount", "-t", "tmpfs", "-o", f"size={self.size},mode=777", "none", self.path]
        try:
            mounted = IS_ROOT and subprocess.run(words, stderr=subprocess.DEVNULL).returncode == 0
        except FileNotFoundError:
            mounted = False
        self.mounted = mounted
        return self

    def fill(self):
        """Leaves no room at all."""
        with open(os.path.join(self.path, "filling"), "wb", buffering=0) as file:
            try:
                while file.write(b"x" * 4096) == 4096:
                    pass
            except OSError:
                pass

    def __exit__(self, *_):
        if self.mounted:
            subprocess.run(["umount", self.path], check=True)
