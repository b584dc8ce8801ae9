"""Lines of a text, and what kind of line each is."""

from collections import namedtuple

Line = namedtuple("Line", "content ending")


def cut(text):
    """A text is cut after each LF; CR LF is one ending, and a last line may have none (RFC 5322, 2.1; own for a lone LF)."""
    closed = text.split(b"\n")
    last = closed.pop()
    lines = [Line(found[:-1], b"\r\n") if found.endswith(b"\r") else Line(found, b"\n") for found in closed]
    return lines + ([Line(last, b"")] if last else [])


def printed(lines):
    """The text of lines is their contents and endings, joined (own)."""
    return b"".join(line.content + line.ending for line in lines)


def ending_of(text):
    """The ending of a text is that of its first line, or LF where that line has none or isn't there (own)."""
    lines = cut(text)
    return lines[0].ending or b"\n" if lines else b"\n"


def is_name(name):
    """A name is one or more bytes 33 to 126 without a colon (RFC 5322, 2.2)."""
    return len(name) > 0 and all(33 <= byte <= 126 and byte != ord(":") for byte in name)


def is_field_start(content):
    """A field starts with a name, blanks or none, and a colon (RFC 5322, 2.2; 4.5 for the blanks)."""
    before, colon, _ = content.partition(b":")
    return bool(colon) and is_name(before.rstrip(b" \t"))


def name_of(content):
    """The name of a field stands before the blanks and the colon (RFC 5322, 2.2)."""
    return content.partition(b":")[0].rstrip(b" \t")


def is_continuation(content):
    """A line that begins with a blank continues a field (RFC 5322, 2.2.3)."""
    return content[:1] in (b" ", b"\t")


def is_from_line(content):
    """A From-line begins with `From ` and doesn't start a field (own)."""
    return content.startswith(b"From ") and not is_field_start(content)


def is_part_mark(content, boundary):
    """A delimiter is `--` and the boundary; blanks at its end don't count, nothing else may follow (RFC 2046, 5.1.1; own)."""
    return content.rstrip(b" \t") == b"--" + boundary


def is_close_mark(content, boundary):
    """A close line is `--`, the boundary and `--`; blanks at its end don't count (RFC 2046, 5.1.1; own)."""
    return content.rstrip(b" \t") == b"--" + boundary + b"--"


def is_mark(content, boundary):
    """A mark of a boundary is its delimiter or its close line (RFC 2046, 5.1.1)."""
    return is_part_mark(content, boundary) or is_close_mark(content, boundary)


def turned(text, ending):
    """The text with this ending at each line that has one; no carriage return stays before a line feed alone (own)."""
    kept = (line.content.rstrip(b"\r") if line.ending and ending == b"\n" else line.content for line in cut(text))
    return b"".join(content + (ending if line.ending else b"") for content, line in zip(kept, cut(text)))
