"""Addresses in fields (RFC 5322, 3.4 and 4.4)."""

import re

from . import wording

TOKEN = re.compile(rb'"(?:\\[\s\S]|[^"\\])*(?:"|\\?\Z)|\[[^\]]*(?:\]|\Z)|[\s\S]')
WHITE = b" \t\r\n"
MARKS = b"<>,;:"
JOINTS = b".@"


def after_comment(text, at):
    """Where a comment ends that begins here; comments may hold others, and one that isn't closed runs to the end (RFC 5322, 3.2.2)."""
    depth = 0
    while at < len(text):
        byte = text[at:at + 1]
        if byte == b"\\" and depth:
            at += 1
        depth += (byte == b"(") - (byte == b")")
        at += 1
        if not depth:
            break
    return at


def tokens(text):
    """Marks, gaps, and the other pieces of a text: quoted strings, domain literals and single bytes."""
    at = 0
    while at < len(text):
        if text[at:at + 1] == b"(":
            at = after_comment(text, at)
            yield "gap", b""
            continue
        token = TOKEN.match(text, at).group()
        at += len(token)
        yield "gap" if token in [bytes([byte]) for byte in WHITE] else "mark" if len(token) == 1 and token in MARKS else "piece", token


def places(text):
    """What stands between two marks, as words of pieces, with both marks; the text begins and ends as with a comma."""
    before, words = b",", [[]]
    for kind, token in [*tokens(text), ("mark", b",")]:
        if kind == "mark":
            yield before, [word for word in words if word], token
            before, words = token, [[]]
        elif kind == "gap":
            words.append([])
        else:
            words[-1].append(token)


def is_address(words):
    """A local part, an at sign and a domain; white space and comments stand in it beside full stops and at signs alone (RFC 5322, 4.4)."""
    pieces = [piece for word in words for piece in word]
    joined = all(one[-1][-1:] in [b".", b"@"] or other[0] in [b".", b"@"] for one, other in zip(words, words[1:]))
    return joined and b"@" in pieces[1:] and not b"".join(pieces).endswith(b"@")


def found(value):
    """The addresses of a value: those in angles, and those that stand alone between commas, semicolons and the colon of a group (own)."""
    text = re.sub(rb"[\r\n]", b" ", wording.joined(value))
    return [b"".join(piece for word in words for piece in word) for before, words, after in places(text)
            if (before == b"<" or after == b">" or before != b">" and after in [b",", b";"]) and words and is_address(words)]
