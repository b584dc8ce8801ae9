"""Deep messages on a small stack. Sections at level 101 are leaves, so what is deeper is the content of one."""

import resource

from common import make, names, read
from file_rows import journal

STACK = 256 * 1024
LEVELS = 100


def small_stack():
    resource.setrlimit(resource.RLIMIT_STACK, (STACK, STACK))


class Nested:
    """Sections in sections: what stands before and after each inner one, and the last one."""

    def __init__(self, shows, kind, around, last):
        self.shows, self.kind, self.around, self.last = shows, kind, around, last
        self.text = b"".join(before for before, _ in around) + last + b"".join(after for _, after in reversed(around))

    def depth(self):
        """How many sections have others inside."""
        return min(len(self.around), LEVELS)

    def path(self):
        """The path of the last section that is read."""
        return "1" + ".1" * self.depth()

    def bounds(self):
        """Where each section begins and ends, the root first."""
        begin, end = 0, len(self.text)
        yield begin, end
        for before, after in self.around[:self.depth()]:
            begin, end = begin + len(before), end - len(after)
            yield begin, end

    def leaf(self):
        """Where the last section begins, where its body begins, and where it ends."""
        begin, end = list(self.bounds())[-1]
        has_fields = self.text[begin:begin + 1] != b"\n"
        return begin, self.text.index(b"\n\n", begin) + 2 if has_fields else begin + 1, end

    def type(self):
        """The type of the leaf."""
        return self.kind[1] if len(self.around) > LEVELS else b"text/plain"

    def listing(self):
        lines, bounds = [], list(self.bounds())
        for level, (begin, end) in enumerate(bounds):
            is_leaf = level == len(bounds) - 1
            kind, media = (b"leaf", self.type()) if is_leaf else self.kind
            body = self.leaf()[1] if is_leaf else self.text.index(b"\n\n", begin) + 2
            path, fields, rest = b"1" + b".1" * level, self.text[begin:body].count(b"\n") - 1, self.text[body:end].count(b"\n")
            lines.append(b"%s %s %s identity %d %d %d %d %d\n" % (path, kind, media, begin, body, end, fields, rest))
        return b"".join(lines)

    def content(self):
        """The content of the leaf. The last line ending belongs to the line after it, where there is one."""
        _, body, end = self.leaf()
        return self.text[body:end - 1] if end < len(self.text) else self.text[body:end]

    def with_field(self):
        """The text with one more field at the start of the leaf."""
        begin = self.leaf()[0]
        return self.text[:begin] + b"X: y\n" + self.text[begin:]


def multiparts(levels):
    around = [(b"Content-Type: multipart/mixed; boundary=b%d\n\n--b%d\n" % (level, level), b"--b%d--\n" % level) for level in range(levels)]
    return Nested(f"{levels} multiparts", (b"multi", b"multipart/mixed"), around, b"\nx\n")


def messages(levels):
    return Nested(f"{levels} messages", (b"message", b"message/rfc822"), [(b"Content-Type: message/rfc822\n\n", b"")] * levels, b"\nx\n")


def runs(nested):
    """Runs on a nested message: the words, what goes out, and the files that are left beside the message."""
    text, path, content = nested.text, nested.path(), nested.content()
    name = "part-" + path
    undone = journal(text, b"0 1\n1\n%d 0 5\nX: y\n\n" % nested.leaf()[0])
    yield ["sections"], nested.listing(), {}
    yield ["extract", "-s", path], content, {}
    yield ["unpack", "-t", "-C", "."], name.encode() + b" (" + nested.type() + b")\n", {name: content}
    yield ["edit", "-e", f"top {path} X: y"], nested.with_field(), {}
    yield ["edit", "-e", f"top {path} X: y", "-e", "undo", "-j", "j"], text, {"j": undone}
    yield ["field", "-A", "X: y"], text.replace(b"\n\n", b"\nX: y\n\n", 1), {}
    yield ["field", "-s", "-I", "X: y"], text.replace(b"\n\n", b"\nX: y\n\n", 1), {}


def check_nesting(program):
    for nested in (multiparts(100), multiparts(1000), messages(100), messages(1000)):
        for words, output, left in runs(nested):
            folder = program.folder()
            found = program.run(words, folder, nested.text, nobody=False, before=small_stack)
            program.ended(f"{nested.shows} on a small stack: {words[:2]}", found, output=output,
                          files=(left, {name: read(folder, name) for name in names(folder)}))
        folder = program.folder()
        make(folder, {"m": nested.text})
        found = program.run(["edit", "-e", f"top {nested.path()} X: y", "--in-place", "m"], folder, nobody=False, before=small_stack)
        program.ended(f"{nested.shows} on a small stack, in place", found, text=(nested.with_field(), read(folder, "m")))


CHECKS = [check_nesting]
