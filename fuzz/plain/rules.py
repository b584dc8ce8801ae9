"""Rules for the texts of fields: `--sub`, and `--drop` of a pattern."""

import re

from . import edits, fields, lines, structured, wording

MOST = 100
MARKS = b'()<>[]:;@\\,"'
GROUP = re.compile(r"\$(?:(\$)|\{([^}]*)\}|([0-9A-Za-z_]+))")


def first_part(text):
    """What stands before the first slash that no backslash escapes, and what follows it; an escaped slash loses its backslash (own)."""
    found, at = b"", 0
    while at < len(text):
        if text[at:at + 1] == b"/":
            return found, text[at + 1:]
        size = 2 if text[at:at + 1] == b"\\" else 1
        found += b"/" if text[at:at + size] == b"\\/" else text[at:at + size]
        at += size
    return None


def substitution(word):
    """`NAME:s/OLD/NEW/` and flags (own): the name, OLD, NEW, flags."""
    name, colon, rest = word.partition(b":")
    old = first_part(rest[2:]) if colon and rest.startswith(b"s/") else None
    new = first_part(old[1]) if old and old[0] else None
    if not new or new[1] not in (b"", b"g", b"i", b"gi", b"ig") or not lines.is_name(name) or b"\n" in new[0] or b"\r" in new[0]:
        return None
    return name, old[0], new[0], new[1]


def removal(word):
    """`NAME:~PATTERN` (own): the name and the pattern."""
    name, colon, rest = word.partition(b":")
    return (name, rest[1:]) if colon and rest.startswith(b"~") and lines.is_name(name) else None


def is_removal(word):
    """Whether a word of `--drop` is a rule (own)."""
    return word.partition(b":")[2].startswith(b"~")


def compiled(pattern, flags):
    """A pattern, or None where it is refused."""
    try:
        return re.compile(pattern.decode(), re.IGNORECASE if b"i" in flags else 0)
    except (re.error, UnicodeDecodeError):
        return None


def is_rule(letter, word):
    """Whether a word is a rule whose pattern isn't refused (own)."""
    asked = substitution(word) if letter == "--sub" else removal(word)
    return asked is not None and compiled(asked[1], asked[3] if letter == "--sub" else b"") is not None


def marks(text):
    """The special characters of addresses in a text, but for the full stop (RFC 5322, 3.2.3)."""
    return bytes(byte for byte in text if byte in MARKS)


def reads_words(name, value):
    """Encoded words are read in texts, and in addresses where they bring no special character in (own)."""
    kind = structured.kind(name)
    return kind is None or (kind == "addresses" and marks(wording.said(value)) == marks(wording.unfolded(value)))


def written(new, match):
    """NEW with groups in the places of their names; a group that isn't there is nothing (own)."""
    def of(found):
        if found[1]:
            return "$"
        key = found[2] if found[2] is not None else found[3]
        if key.isdigit():
            return (match[int(key)] or "") if int(key) <= match.re.groups else ""
        return match.groupdict().get(key) or ""
    return GROUP.sub(of, new)


def replaced(pattern, new, each, text):
    """The text with NEW in the place of the first match, or of each, without blanks at its ends (own)."""
    put = lambda match: written(new.decode("utf-8", "surrogateescape"), match)
    made = pattern.sub(put, text.decode("utf-8", "surrogateescape"), 0 if each else 1)
    return made.encode("utf-8", "surrogateescape").strip(b" \t")


def changed(letter, word, field, ending):
    """What becomes of a field of the name: None where it goes, else its bytes (own)."""
    raw = lines.printed(field)
    asked = substitution(word) if letter == "--sub" else removal(word) + (b"", b"")
    name, _, value = raw.partition(b":")
    name, words = name.rstrip(b" \t"), reads_words(name.rstrip(b" \t"), value)
    text = wording.said(value) if words else wording.unfolded(value)
    pattern = compiled(asked[1], asked[3])
    if not pattern.search(text.decode("utf-8", "surrogateescape")):
        return raw
    if letter == "--drop":
        return None
    new = replaced(pattern, asked[2], b"g" in asked[3], text)
    if new == text:
        return raw
    made = name + b": " + new
    made = wording.worded(made, ending) if words and raw.isascii() else made
    return made + (b"\r\n" if raw.endswith(b"\r\n") else b"\n" if raw.endswith(b"\n") else b"")


def rule_edits(letter, word, head, ending, path):
    """The edits of a rule: fields that go aren't counted, and of those that stay a hundred are looked at (own)."""
    name, number, found = word.partition(b":")[0], 1, []
    for field in head:
        if number > MOST or not fields.is_named(field, name):
            continue
        made = changed(letter, word, field, ending)
        if made is None:
            found.append(edits.Edit("del", path, name=name, number=number))
            continue
        if made != lines.printed(field):
            found.append(edits.Edit("set", path, name=name, number=number, text=made))
        number += 1
    return found
