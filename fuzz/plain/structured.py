"""Structured values with text in them: names of addresses, comments (RFC 2047, 5) and parameters (RFC 2231, 4)."""

import re

from . import wording

ADDRESSES = b"from sender reply-to to cc bcc disposition-notification-to".split()
PARAMETERS = b"content-type content-disposition".split()
COMMENTS = b"date message-id in-reply-to references received return-path mime-version content-transfer-encoding content-id".split()
WHITE = b" \t\r\n"
ATTRIBUTE = re.compile(rb"[!#$&+\-.0-9A-Z^_`a-z{|}~]+\Z")
QUOTED = re.compile(rb'"(?:[^"\\]|\\.)*"\Z', re.DOTALL)


def kind(name):
    """What the value of a field is, unless it is text (own)."""
    name = name.lower()
    bare = name[7:] if name.startswith(b"resent-") else name
    if bare in ADDRESSES:
        return "addresses"
    if name in PARAMETERS:
        return "parameters"
    return "comments" if bare in COMMENTS else None


def places(text):
    """Where each byte stands: outside, in a quoted string, or in a comment, its parentheses apart (RFC 5322, 3.2.2, 3.2.4)."""
    quoted, depth, escaped, found = False, 0, False, []
    for byte in (text[at:at + 1] for at in range(len(text))):
        if escaped:
            escaped = False
            found.append("quoted" if quoted else "inside")
        elif quoted:
            found.append("quoted")
            escaped, quoted = byte == b"\\", byte != b'"'
        elif depth:
            escaped = byte == b"\\"
            depth += (byte == b"(") - (byte == b")")
            found.append("inside" if depth else "end")
        else:
            found.append("begin" if byte == b"(" else "quoted" if byte == b'"' else "outside")
            quoted, depth = byte == b'"', int(byte == b"(")
    return found


def cut(text, marks):
    """The text between marks that stand outside, and the mark after each (own)."""
    found, begin = [], 0
    for at, place in enumerate(places(text)):
        if place == "outside" and text[at] in marks:
            found.append((text[begin:at], text[at:at + 1]))
            begin = at + 1
    return found + [(text[begin:], b"")]


def stretches(text):
    """Bytes outside comments, and the comment after them: its parenthesis, what it holds, and its closing one."""
    found = [[b"", b"", b"", b""]]
    for at, place in enumerate(places(text)):
        number = {"begin": 1, "inside": 2, "end": 3}.get(place, 0)
        if number == 0 and found[-1][3]:
            found.append([b"", b"", b"", b""])
        if number == 1 and found[-1][3]:
            found.append([b"", b"", b"", b""])
        found[-1][number] += text[at:at + 1]
    return found if not found[-1][3] else found + [[b"", b"", b"", b""]]


def said(text, dropped):
    """Each backslash is replaced by the byte after it, and some bytes go (own)."""
    found, escaped = b"", False
    for byte in (text[at:at + 1] for at in range(len(text))):
        if escaped or byte != b"\\" and byte not in dropped:
            found += byte
        escaped = not escaped and byte == b"\\"
    return found


DROPPED_IN_NAMES = (b'"', b"\r", b"\n")
DROPPED_IN_COMMENTS = (b"\r", b"\n")


def name_worded(name, ending):
    """A name in encoded words, where it needs them (RFC 2047, 5 (3))."""
    text = name.lstrip(WHITE)
    told = said(text.rstrip(b" \t"), DROPPED_IN_NAMES)
    return name[:len(name) - len(text)] + wording.encoded(told, ending) + b" " if wording.needs_words(told) else name


def ascii_alone(text, _):
    return text if text.isascii() else None


def parameter(text, _):
    """A parameter that isn't ASCII gets a charset, if it is a name and a value (RFC 2231, 4)."""
    if text.isascii():
        return text
    name, equals, value = text.partition(b"=")
    white, attribute = name[:len(name) - len(name.lstrip(WHITE))], name.lstrip(WHITE).rstrip(b" \t")
    value = value.lstrip(WHITE).rstrip(b" \t")
    bare = value and b'"' not in value and b"\\" not in value
    if not equals or not ATTRIBUTE.match(attribute) or not (bare or QUOTED.match(value)):
        return None
    written = b"".join(bytes([byte]) if ATTRIBUTE.match(bytes([byte])) else b"%%%02X" % byte for byte in said(value, DROPPED_IN_NAMES))
    return white + attribute + b"*=utf-8''" + written


def written(text, ending, first, others):
    """What stands outside comments is written by one way and then another, and comments are encoded where they need it."""
    made = b""
    for number, (outside, begin, inside, end) in enumerate(stretches(text)):
        part = (others if number else first)(outside, ending)
        if part is None:
            return None
        told = said(inside, DROPPED_IN_COMMENTS)
        made += part + begin + (wording.encoded(told, ending) if wording.needs_words(told) else inside) + end
    return made


def address(text, end, ending):
    """A name and an address, the name of a group, or an address alone (RFC 5322, 3.4)."""
    (name, angle), *rest = cut(text, b"<")
    if not angle:
        outside = name_worded if end == b":" else ascii_alone
        return written(name, ending, outside, outside)
    back = text[len(name):]
    return joined([written(name, ending, name_worded, name_worded), written(back, ending, ascii_alone, ascii_alone)])


def joined(parts):
    return None if None in parts else b"".join(parts)


def worded(name, value, ending):
    """The value of a structured field, or None where a byte can't be written."""
    which = kind(name)
    if which == "comments":
        return written(value, ending, ascii_alone, ascii_alone)
    if which == "addresses":
        return joined([made for entry, end in cut(value, b",;:") for made in (address(entry, end, ending), end)])
    (front, mark), *others = cut(value, b";")
    made = [written(front, ending, ascii_alone, ascii_alone), mark]
    return joined(made + [part for entry, end in others for part in (written(entry, ending, parameter, ascii_alone), end)])
