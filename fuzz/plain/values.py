"""Values with parameters, of Content-Type and others, on any bytes."""

from collections import namedtuple

BLANKS = b" \t"
SPECIALS = b'()<>@,;:\\"/[]?='
BOUNDARY_MARKS = b"'()+_,-./:=? "

Type = namedtuple("Type", "main sub parameters")


def is_token(word):
    """A token is bytes 33 to 126 without the specials (RFC 2045, 5.1)."""
    return len(word) > 0 and all(33 <= byte <= 126 and byte not in SPECIALS for byte in word)


def is_boundary(word):
    """A boundary that may be made has 1 to 70 boundary characters, the last not a space (RFC 2046, 5.1.1)."""
    allowed = all(bytes([byte]).isalnum() or byte in BOUNDARY_MARKS for byte in word)
    return 1 <= len(word) <= 70 and allowed and not word.endswith(b" ")


def quoted_end(value, start):
    """A quoted string ends after its quote, a backslash takes the next byte with it, or it runs to the end (RFC 2045, 5.1; own)."""
    at = start + 1
    while at < len(value):
        if value[at:at + 1] == b'"':
            return at + 1
        at += 2 if value[at:at + 1] == b"\\" else 1
    return len(value)


def comment_end(value, start):
    """A comment may hold others, a backslash takes the next byte with it, or it runs to the end (RFC 5322, 3.2.2; own)."""
    depth, at = 0, start
    while at < len(value):
        byte = value[at:at + 1]
        depth += {b"(": 1, b")": -1}.get(byte, 0)
        at += 2 if byte == b"\\" else 1
        if depth == 0:
            return at
    return len(value)


def without_comments(value):
    """Comments outside quoted strings are taken out (RFC 2045, 5.1)."""
    kept, at = b"", 0
    while at < len(value):
        byte = value[at:at + 1]
        end = comment_end(value, at) if byte == b"(" else quoted_end(value, at) if byte == b'"' else at + 1
        kept += b"" if byte == b"(" else value[at:end]
        at = end
    return kept


def pieces(value):
    """A value is cut at each semicolon outside quoted strings (RFC 2045, 5.1)."""
    found, at = [b""], 0
    while at < len(value):
        end = quoted_end(value, at) if value[at:at + 1] == b'"' else at + 1
        if value[at:end] == b";":
            found.append(b"")
        else:
            found[-1] += value[at:end]
        at = end
    return found


def unquoted(value):
    """In a quoted string each backslash stands for the byte after it; what follows the quote doesn't count (RFC 2045, 5.1; own)."""
    if not value.startswith(b'"'):
        return value
    plain, at = b"", 1
    while at < len(value) and value[at:at + 1] != b'"':
        at += 1 if value[at:at + 1] == b"\\" else 0
        plain += value[at:at + 1]
        at += 1
    return plain


def parameters(found):
    """Each later piece with a `=` is a parameter, its name in lower case (RFC 2045, 5.1)."""
    named = []
    for piece in found:
        name, equals, value = piece.partition(b"=")
        if equals:
            named.append((name.strip(BLANKS).lower(), unquoted(value.strip(BLANKS))))
    return named


def content_type(value):
    """The type is token, `/`, token in lower case, and text/plain where it isn't (RFC 2045, 5.1 and 5.2)."""
    first, *later = pieces(without_comments(value))
    main, slash, sub = first.strip(BLANKS).partition(b"/")
    if not (slash and is_token(main) and is_token(sub)):
        main, sub = b"text", b"plain"
    return Type(main.lower(), sub.lower(), parameters(later))


def parameter(found, name):
    """Of parameters with one name the first counts (own)."""
    return next((value for named, value in found.parameters if named == name), None)


def encoding(value):
    """The transfer encoding is told by its name in any case, comments aside (RFC 2045, 6.1)."""
    name = without_comments(value or b"").strip(BLANKS).lower()
    if name in (b"", b"7bit", b"8bit", b"binary"):
        return b"identity"
    return name if name in (b"quoted-printable", b"base64") else b"other"
