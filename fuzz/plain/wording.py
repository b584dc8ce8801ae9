"""Encoded words (RFC 2047), and values of fields as people write them."""

from . import charsets, encodings, lines, structured

BLANKS = b" \t"
DIGITS = b"0123456789ABCDEFabcdef"
ROOM = 45


def is_utf8(text):
    """Whether bytes are a text in UTF-8 (RFC 3629)."""
    try:
        text.decode("utf-8")
    except UnicodeDecodeError:
        return False
    return True


def b_text(text):
    """Letters of base64 with at most two `=` after them (RFC 2047, 4.1; own)."""
    letters = text.rstrip(b"=")
    if len(text) - len(letters) > 2 or any(letter not in encodings.LETTERS for letter in letters):
        return None
    try:
        return encodings.base64_decoded(letters)
    except encodings.Refused:
        return None


def q_text(text):
    """`_` is a space, `=` and two digits are a byte, other printable bytes stand for themselves (RFC 2047, 4.2)."""
    found, at = b"", 0
    while at < len(text):
        byte, digits = text[at:at + 1], text[at + 1:at + 3]
        if byte == b"=" and len(digits) == 2 and all(digit in DIGITS for digit in digits):
            found, at = found + bytes([int(digits, 16)]), at + 3
        elif byte == b"=" or not 33 <= byte[0] <= 126:
            return None
        else:
            found, at = found + (b" " if byte == b"_" else byte), at + 1
    return found


def word_text(word):
    """An encoded word has five parts between question marks (RFC 2047, 2); a language may follow the charset (RFC 2231, 5)."""
    parts = word.split(b"?")
    if len(parts) != 5 or parts[0] != b"=" or parts[4] != b"=":
        return None
    text = {b"b": b_text, b"q": q_text}.get(parts[2].lower(), lambda text: None)(parts[3])
    return None if text is None else charsets.in_utf8(parts[1].partition(b"*")[0], text)


def runs(text):
    """Words, and the blanks before, between and after them."""
    found = []
    for byte in text:
        blank = byte in BLANKS
        if not found or found[-1][0] != blank:
            found.append((blank, b""))
        found[-1] = blank, found[-1][1] + bytes([byte])
    return found


def joined(value):
    """Line endings go (RFC 5322, 2.2.3)."""
    return b"".join(line.content for line in lines.cut(value))


def whole_text(word):
    """What an encoded word stands for, where that is UTF-8 (own)."""
    text = word_text(word)
    return text if text is None or is_utf8(text) else None


def decoded(value, read=word_text):
    """Line endings go, encoded words are decoded, and blanks between two of them go (RFC 2047, 6.2)."""
    found, all_runs = b"", runs(joined(value))
    texts = [None if blank else read(run) for blank, run in all_runs]
    for at, (blank, run) in enumerate(all_runs):
        between = blank and 0 < at < len(texts) - 1 and texts[at - 1] is not None and texts[at + 1] is not None
        found += b"" if between else run if texts[at] is None else texts[at]
    return found


def on_one_line(text):
    """A text without line breaks, and without blanks at its ends (own)."""
    return text.replace(b"\r", b" ").replace(b"\n", b" ").strip(BLANKS)


def unfolded(value):
    """A value on one line (own)."""
    return on_one_line(joined(value))


def said(value):
    """What a value says is one line without blanks at its ends; a word of half a character stays where that isn't UTF-8 (own)."""
    text = decoded(value)
    return on_one_line(text if is_utf8(text) else decoded(value, whole_text))


def pieces(text):
    """As many whole characters as go into 45 bytes each (own; RFC 2047, 5 (3))."""
    found = [b""]
    for character in text.decode("utf-8"):
        if found[-1] and len(found[-1] + character.encode()) > ROOM:
            found.append(b"")
        found[-1] += character.encode()
    return found


def encoded(text, ending):
    """A word for each piece, an ending and a space between two (RFC 2047, 2)."""
    words = [b"=?utf-8?B?" + encodings.base64_encoded(piece, b"") + b"?=" for piece in pieces(text)]
    return (ending + b" ").join(words)


def needs_words(text):
    """A text in UTF-8 that isn't printable ASCII, or holds `=?` (own)."""
    return is_utf8(text) and not (all(32 <= byte <= 126 for byte in text) and b"=?" not in text)


def value_worded(name, value, ending):
    """What goes into a field of a name; None where encoded words can't stand where they are needed (RFC 2047, 5)."""
    return structured.worded(name, value, ending) if structured.kind(name) else encoded(value, ending)


def worded(field, ending):
    """A value that isn't printable ASCII or holds `=?` goes in as encoded words (own)."""
    name, _, value = field.partition(b":")
    name, value = name.rstrip(BLANKS), value.strip(BLANKS)
    made = value_worded(name, value, ending) if needs_words(value) else None
    return field if made is None else name + b": " + made


def takes_words(field):
    """Whether a field can go in so (own)."""
    name, _, value = field.partition(b":")
    name, value = name.rstrip(BLANKS), value.strip(BLANKS)
    return not needs_words(value) or value_worded(name, value, b"\n") is not None
