"""What a word of a script stands for in a document: edits, made one after another."""

import hashlib
from dataclasses import dataclass, replace

from . import edits, encodings, fields, lines, listing, packing, tree, values


class Fault(Exception):
    """A word that stands for no edits, and why."""


@dataclass(frozen=True)
class Job:
    """A word that stands for edits which the document decides."""
    word: str
    path: tuple = ()
    text: bytes = b""
    name: bytes = b""
    media: bytes = b""
    paths: tuple = ()
    given: bytes = b""      # the piece as it is, whatever its text became
    piece: int = 0


ENCODINGS = {b"qp": b"quoted-printable", b"quoted-printable": b"quoted-printable", b"base64": b"base64", b"8bit": b"8bit", b"identity": b"8bit"}
TURNED = ("body", "replace", "insert", "content", "put-piece", "append", "append-text")
LONGEST = 998


def turned(step, ending):
    """With `--eol` the lines of a piece get the ending of the message; a file that is attached stays as it is, but for texts (own)."""
    if step.word not in TURNED and not (step.word == "attach" and is_text(step.media)):
        return step
    return replace(step, text=lines.turned(step.text, ending))


def is_text(media):
    """A media type of texts is `text`, in any case, before a slash (RFC 2046, 4.1)."""
    main, slash, _ = media.partition(b"/")
    return bool(slash) and main.lower() == b"text"


def is_utf8(text):
    try:
        text.decode()
    except UnicodeDecodeError:
        return False
    return True


def may_hold(found, text):
    """A text in us-ascii has bytes below 128, one in utf-8 is UTF-8; text/plain without a charset is us-ascii (RFC 2046, 4.1.2)."""
    charset = (values.parameter(found, b"charset") or b"").lower()
    if found.main != b"text":
        return True
    if values.parameter(found, b"charset") is None:
        return found.sub != b"plain" or text.isascii()
    return {b"us-ascii": bytes.isascii, b"utf-8": is_utf8}.get(charset, lambda _: True)(text)


def may_stand(text):
    """Without an encoding there is no NUL, and no line of more than 998 bytes (RFC 2045, 2.8)."""
    return b"\0" not in text and all(len(line.content) <= LONGEST for line in lines.cut(text))


def divided(text, ending):
    """An ending between a text and the line after it; after a CR it is CR LF, which LF alone would become (own)."""
    return text + (b"\r\n" if text.endswith(b"\r") else ending)


def content(job, document, section, ending):
    """The bytes in the encoding of the leaf, apart from the line that follows it (RFC 2045, 6; RFC 2046, 5.1.1)."""
    if section is None or not isinstance(section.entity.body, tree.Leaf):
        return [edits.Edit("body", job.path, text=job.text)]
    name = tree.encoding_of(section.entity.fields)
    given = job.given if name == b"base64" else job.text
    if not may_hold(tree.type_of(section.entity.fields, section.default), given):
        raise Fault("BadCharset")
    encode = {b"identity": lambda text, _: text, b"quoted-printable": encodings.quoted_printable_encoded,
              b"base64": encodings.base64_encoded}.get(name)
    if encode is None:
        raise Fault("UnknownEncoding")
    text = encode(given, ending)
    return [edits.Edit("body", job.path, text=divided(text, ending) if tree.is_followed(document, section) else text)]


def encode(job, document, section, ending):
    """The content of a leaf in another encoding, after the field that says it (own; RFC 2045, 6)."""
    if section is None or not isinstance(section.entity.body, tree.Leaf):
        return [edits.Edit("body", job.path)]
    try:
        content = listing.content(document, section)
    except encodings.Refused as reason:
        raise Fault(str(reason)) from None
    name = ENCODINGS[job.name]
    if name == b"8bit" and not may_stand(content):
        raise Fault("BinaryContent")
    said = b"Content-Transfer-Encoding: " + name + ending
    encoders = {b"quoted-printable": encodings.quoted_printable_encoded, b"base64": encodings.base64_encoded, b"8bit": lambda text, _: text}
    text = encoders[name](content, ending)
    text = divided(text, ending) if tree.is_followed(document, section) else text
    return put(replace(job, text=said), document, section, ending) + [edits.Edit("body", job.path, text=text)]


def put(job, document, section, ending):
    """A field takes the place of the first of its name, and the others go; where there is none it is added (own)."""
    if section is None or not fields.is_one_field(job.text):
        return [edits.Edit("add", job.path, text=job.text)]
    name = lines.name_of(lines.cut(job.text)[0].content)
    count = len(fields.numbers(section.entity.fields, name))
    if count == 0:
        return [edits.Edit("add", job.path, text=job.text)]
    return [edits.Edit("set", job.path, name=name, number=1, text=job.text)] + [edits.Edit("del", job.path, name=name, number=2)] * (count - 1)


def drop(job, document, section, ending):
    """All fields of a name go; none may be there (own)."""
    count = 1 if section is None else len(fields.numbers(section.entity.fields, job.name))
    return [edits.Edit("del", job.path, name=job.name, number=1)] * count


def is_multipart(section):
    return isinstance(section.entity.body, tree.Multi)


def is_last_followed(document, section):
    """A line follows the last part, or else the preamble: the close line, or one after the section; beside another section the close line does (own)."""
    if not is_multipart(section):
        return True
    parts = tree.children(section)
    if parts:
        return tree.is_followed(document, parts[-1])
    return bool(getattr(section.entity.body, "tail", ())) or tree.is_followed(document, section)


def beside(job, raw):
    """A section and a part become a multipart, whose boundary is made of the digest of both, each after its length (own)."""
    digest = hashlib.sha256(b"".join(b"%d:" % len(text) + text for text in (raw, job.text))).hexdigest()
    return [edits.Edit("wrap", job.path, subtype=b"mixed", boundary=b"=_" + digest[:24].encode()), edits.Edit("insert", job.path, place=1, text=job.text)]


def append(job, document, section, ending):
    """A part goes after the others, or beside a section that is no multipart; the last one gets an ending where nothing follows it (own)."""
    if section is not None and not is_multipart(section):
        return beside(job, lines.printed(tree.entity_lines(section.entity)))
    parts = tree.children(section) if section else []
    found = []
    if parts and not tree.is_followed(document, parts[-1]):
        text = divided(lines.printed(tree.entity_lines(parts[-1].entity)), ending)
        found.append(edits.Edit("replace", parts[-1].path, text=text))
    return found + [edits.Edit("insert", job.path, place=len(parts), text=job.text)]


def attach(job, document, section, ending):
    """A file is packed as a part, which ends with an ending where a line is to follow (RFC 2046, 5.1.1)."""
    names = packing.names_of(job.name.rpartition(b"/")[2], True)
    reason = packing.refusal([], [(job.media, names, job.text)], b"b")
    if reason:
        raise Fault(reason.split(" ")[0])
    part = packing.part(job.media, names, job.text, ending)
    followed = section is not None and is_last_followed(document, section)
    return append(replace(job, text=part + ending if followed else part), document, section, ending)


def append_text(job, document, section, ending):
    """A text goes after the others as a part without fields, apart from the line that is to follow it (RFC 2046, 5.1)."""
    followed = section is not None and is_last_followed(document, section)
    text = divided(job.text, ending) if followed else job.text
    return append(replace(job, text=ending + text), document, section, ending)


MEANINGS = {"append-text": append_text, "content": content, "encode": encode, "put": put, "drop": drop, "append": append, "attach": attach}


def meaning(step, document, ending):
    """The edits of a word, where lines that are made get this ending (own)."""
    if isinstance(step, edits.Edit):
        return [replace(step, text=step.text + ending)] if step.word in ("add", "top", "set") else [step]
    if step.word == "remove":
        return [edits.Edit("remove", path) for path in sorted(set(step.paths), reverse=True)]
    return MEANINGS[step.word](step, document, tree.section_at(document, step.path), ending)


def field_ended(job, ending):
    """The field of `put` gets an ending, that of `put-piece` where its last line has none (own)."""
    if isinstance(job, edits.Edit):
        return job
    if job.word == "put":
        return replace(job, text=job.text + ending)
    if job.word == "put-piece":
        return replace(job, word="put", text=job.text + ending if job.text and not job.text.endswith(b"\n") else job.text)
    return job
