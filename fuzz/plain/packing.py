"""Messages that are built of fields and files."""

from . import encodings, fields, lines, values, wording

MOST = 100
MOST_SAID = 255
SAID = b"!#$&+-.^_`{|}~"


def is_good_field(text):
    """A field for a built message is one field, and none that the message gets anyway (RFC 2045, 3 and 4)."""
    if not fields.is_one_field(text):
        return False
    name = lines.name_of(lines.cut(text)[0].content).lower()
    return name != b"mime-version" and not name.startswith(b"content-")


def is_good_type(media):
    """A media type is token, `/`, token of at most 100 bytes, and no multipart or message (RFC 2045, 5.1; own)."""
    main, slash, sub = media.partition(b"/")
    form = bool(slash) and values.is_token(main) and values.is_token(sub)
    return form and len(media) <= MOST and main.lower() not in (b"multipart", b"message")


def is_good_name(name):
    """A name is 1 to 100 bytes 32 to 126 without quote and backslash (own)."""
    return 1 <= len(name) <= MOST and all(32 <= byte <= 126 and byte not in b'"\\' for byte in name)


def is_said(name):
    """A name in UTF-8 that isn't printable ASCII, of at most 255 bytes, is also written as it is (own)."""
    return len(name) <= MOST_SAID and wording.is_utf8(name) and not all(32 <= byte <= 126 for byte in name)


def names_of(name, utf8):
    """The name in quotes, and the parameter that has the name as it is (RFC 2231, 4)."""
    if not (utf8 and is_said(name)):
        return name, b""
    plain = bytes(byte if is_good_name(bytes([byte])) else ord("_") for byte in name)[:MOST]
    said = b"".join(bytes([byte]) if bytes([byte]).isalnum() or byte in SAID else b"%%%02X" % byte for byte in name)
    return plain, b"; filename*=utf-8''" + said


def refusal(given, parts, boundary, messages=()):
    """The first reason against a message: fields, types, names, the boundary, forwarded messages, each by its least number (own)."""
    tests = [("BadField", is_good_field, given), ("BadType", is_good_type, [media for media, _, _ in parts]),
             ("BadName", is_good_name, [name for _, (name, _), _ in parts])]
    for reason, is_good, items in tests:
        for number, item in enumerate(items):
            if not is_good(item):
                return "%s %d" % (reason, number)
    if not values.is_boundary(boundary):
        return "BadBoundary"
    for number, text in enumerate(messages):
        if any(line.startswith(b"--" + boundary) for line in text.split(b"\n")):
            return "HoldsBoundary %d" % number
    return None


def part(media, names, text, ending):
    """A part has a type, a disposition, an encoding and the encoded bytes (RFC 2045, 5 and 6; RFC 2183)."""
    (name, said), is_text = names, media.partition(b"/")[0].lower() == b"text"
    encode = encodings.quoted_printable_encoded if is_text else encodings.base64_encoded
    head = [b'Content-Type: %s; name="%s"' % (media, name), b'Content-Disposition: attachment; filename="%s"%s' % (name, said),
            b"Content-Transfer-Encoding: " + (b"quoted-printable" if is_text else b"base64"), b""]
    return b"".join(line + ending for line in head) + encode(text, ending)


def sent(text):
    """A message without the line that a mailbox puts before it (own)."""
    first, feed, rest = text.partition(b"\n")
    return rest if lines.is_from_line(first.removesuffix(b"\r") if feed else first) else text


def eight_bit(text, ending):
    """Bytes of 128 or more are told of, since no encoding hides them (RFC 2045, 6.4)."""
    return b"" if text.isascii() else b"Content-Transfer-Encoding: 8bit" + ending


def forwarded(text, ending):
    """A message as an attachment, byte for byte, and an ending that takes no CR of it (RFC 2046, 5.2.1)."""
    head = b"Content-Type: message/rfc822" + ending + b"Content-Disposition: attachment" + ending + eight_bit(text, ending)
    return head + ending + text + (b"\r\n" if text.endswith(b"\r") else ending)


def built(given, parts, boundary, ending, messages=()):
    """The fields, those of a multipart, each part and message after a delimiter, and the close line (RFC 2046, 5.1)."""
    message = b"".join(field if field.endswith(b"\n") else field + ending for field in given)
    message += b"MIME-Version: 1.0" + ending
    message += b'Content-Type: multipart/mixed; boundary="%s"' % boundary + ending + eight_bit(b"".join(messages), ending) + ending
    for media, names, text in parts:
        message += b"--" + boundary + ending + part(media, names, text, ending) + ending
    for text in messages:
        message += b"--" + boundary + ending + forwarded(text, ending)
    return message + b"--" + boundary + b"--" + ending


def run(text, boundary, parts, utf8=False, messages=()):
    """The input gives the fields and the ending; all but one empty line after them is refused (own): output, errors, status."""
    head, _, body = fields.split(lines.cut(text))
    given = [lines.printed(field) for field in head] + ([b""] if body else [])
    parts = [(media, names_of(name, utf8), content) for media, name, content in parts]
    messages = [sent(message) for message in messages]
    reason = refusal(given, parts, boundary, messages)
    if reason:
        return b"", b"pack: " + reason.encode() + b"\n", 1
    return built(given, parts, boundary, lines.ending_of(text), messages), b"", 0
