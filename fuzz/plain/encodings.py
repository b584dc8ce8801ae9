"""Transfer encodings, read and written."""

from . import lines

LETTERS = b"ABCDEFGHIJKLMNOPQRSTUVWXYZabcdefghijklmnopqrstuvwxyz0123456789+/"
DIGITS = b"0123456789abcdefABCDEF"


class Refused(Exception):
    """Why a text can't be decoded."""


def decoded(encoding, text):
    """A text is decoded by its encoding, and isn't where that has no such name (RFC 2045, 6)."""
    if encoding == b"identity":
        return text
    if encoding == b"quoted-printable":
        return quoted_printable_decoded(text)
    if encoding == b"base64":
        return base64_decoded(text)
    raise Refused("UnknownEncoding")


def quoted_printable_line(content):
    """`=` and two digits of either case are a byte, all else stands for itself (RFC 2045, 6.7; own for all else)."""
    found, at = b"", 0
    while at < len(content):
        digits = content[at + 1:at + 3]
        escaped = content[at:at + 1] == b"=" and len(digits) == 2 and all(digit in DIGITS for digit in digits)
        found += bytes([int(digits, 16)]) if escaped else content[at:at + 1]
        at += 3 if escaped else 1
    return found


def quoted_printable_decoded(text):
    """Blanks at a line's end are dropped, and a `=` there joins it to the next line (RFC 2045, 6.7)."""
    found = b""
    for line in lines.cut(text):
        content = line.content.rstrip(b" \t")
        soft = content.endswith(b"=")
        found += quoted_printable_line(content[:-1] if soft else content) + (b"" if soft else line.ending)
    return found


def base64_decoded(text):
    """The letters before the first `=` count; six bits each, and those left over are zero (RFC 2045, 6.8; own)."""
    letters = [letter for letter in text.partition(b"=")[0] if letter in LETTERS]
    bits = "".join(format(LETTERS.index(letter), "06b") for letter in letters)
    size = len(bits) // 8 * 8
    if len(letters) % 4 == 1 or "1" in bits[size:]:
        raise Refused("BadBase64")
    return bytes(int(bits[at:at + 8], 2) for at in range(0, size, 8))


def base64_front(text):
    """The most letters from the first on that are whole count (own)."""
    letters = bytes(letter for letter in text.partition(b"=")[0] if letter in LETTERS)
    for count in range(len(letters), -1, -1):
        try:
            return base64_decoded(letters[:count])
        except Refused:
            pass
    return b""


def base64_encoded(text, ending):
    """Six bits make a letter, `=` fills groups of four, 76 letters a line, no ending after the last (RFC 2045, 6.8)."""
    bits = "".join(format(byte, "08b") for byte in text)
    bits += "0" * (-len(bits) % 6)
    letters = bytes(LETTERS[int(bits[at:at + 6], 2)] for at in range(0, len(bits), 6))
    letters += b"=" * (-len(letters) % 4)
    return ending.join(letters[at:at + 76] for at in range(0, len(letters), 76))


def quoted_printable_form(byte, last, first_on_line):
    """Printable bytes stand for themselves; a last blank and `-`, `.`, `F` in front are escaped (RFC 2045, 6.7; own)."""
    blank = byte in b" \t"
    plain = blank or (33 <= byte <= 126 and byte != ord("="))
    if not plain or (blank and last) or (first_on_line and byte in b"-.F"):
        return b"=%02X" % byte
    return bytes([byte])


def quoted_printable_packed(logical, ending):
    """An output line has at most 75 characters before its soft break, 76 where the logical line ends (RFC 2045, 6.7)."""
    done, line = b"", b""
    for at, byte in enumerate(logical):
        last = at == len(logical) - 1
        form = quoted_printable_form(byte, last, line == b"")
        if len(line) + len(form) > (76 if last else 75):
            done, line = done + line + b"=" + ending, b""
            form = quoted_printable_form(byte, last, True)
        line += form
    return done + line


def quoted_printable_encoded(text, ending):
    """The bytes are cut at each ending into logical lines, each encoded by itself (RFC 2045, 6.7)."""
    return ending.join(quoted_printable_packed(logical, ending) for logical in text.split(ending))
