"""What parameters say as text (RFC 2231), and names of files in any language."""

import unicodedata

from . import charsets, values, wording

DIGITS = b"0123456789ABCDEFabcdef"


def percent_decoded(text):
    """`%` and two digits are a byte, `%` alone is nothing (RFC 2231, 7)."""
    found, at = b"", 0
    while at < len(text):
        digits = text[at + 1:at + 3]
        if text[at:at + 1] != b"%":
            found, at = found + text[at:at + 1], at + 1
        elif len(digits) == 2 and all(digit in DIGITS for digit in digits):
            found, at = found + bytes([int(digits, 16)]), at + 3
        else:
            return None
    return found


def segments(found, name):
    """Segments are numbered from 0; the one with a star counts, and the first that is missing ends them (RFC 2231, 3 and 4.1; own)."""
    there = []
    while True:
        plain = name + b"*%d" % len(there)
        encoded = values.parameter(found, plain + b"*")
        value = encoded if encoded is not None else values.parameter(found, plain)
        if value is None:
            return there
        there.append((encoded is not None, value))


def segments_text(there):
    """A first segment with a star says the charset of all; without one the bytes are UTF-8 (RFC 2231, 4.1; own)."""
    if not there:
        return None
    charset, others = b"utf-8", list(there)
    if there[0][0]:
        charset, first, rest = there[0][1].partition(b"'")
        language, second, text = rest.partition(b"'")
        if not (first and second):
            return None
        others[0] = True, text
    joined = [percent_decoded(value) if encoded else value for encoded, value in others]
    if None in joined:
        return None
    text = charsets.in_utf8(charset, b"".join(joined))
    return text if text is not None and wording.is_utf8(text) else None


def text_of(found, name):
    """The value with a star, the segments, the plain value with its encoded words decoded: the first that can be read (own)."""
    whole = values.parameter(found, name + b"*")
    text = segments_text([(True, whole)]) if whole is not None else None
    if text is None:
        text = segments_text(segments(found, name))
    plain = values.parameter(found, name)
    if text is None and plain is not None:
        text = wording.decoded(plain)
        text = text if wording.is_utf8(text) else None
    return text


def is_kept(character):
    """Letters and digits of Unicode, `.`, `_` and `-` stay in a name (own)."""
    category = unicodedata.category(character)
    return category[0] == "L" or category in ("Nd", "Nl", "No") or character in "._-"


def cleaned(text):
    """No folder, other characters as `_`, no `.` or `-` in front, at most 100 bytes of whole characters (own)."""
    last = text.decode().replace("\\", "/").split("/")[-1]
    safe = "".join(character if is_kept(character) else "_" for character in last)
    if safe[:1] in (".", "-"):
        safe = "_" + safe[1:]
    while len(safe.encode()) > 100:
        safe = safe[:-1]
    return safe.encode()
