"""The tree of a message: entities, their kinds, and the sections of a document."""

from dataclasses import dataclass, replace

from . import fields, lines, values

LEVELS = 100
TEXT, MESSAGE = b"text/plain", b"message/rfc822"


@dataclass(frozen=True)
class Leaf:
    lines: tuple


@dataclass(frozen=True)
class Message:
    entity: object


@dataclass(frozen=True)
class Multi:
    boundary: bytes
    preamble: tuple
    parts: tuple      # pairs of a delimiter line and an entity
    tail: tuple       # the close line and the epilogue, or nothing


@dataclass(frozen=True)
class Entity:
    fields: tuple
    separator: tuple
    body: object


@dataclass(frozen=True)
class Document:
    envelope: tuple
    root: Entity


@dataclass(frozen=True)
class Section:
    path: tuple
    entity: Entity
    default: bytes
    start: int


def type_of(given, default):
    """The type of fields is that of the first Content-Type, or the default (RFC 2045, 5.2; RFC 2046, 5.1.5)."""
    value = fields.first_value(given, b"Content-Type")
    return values.content_type(default if value is None else value)


def encoding_of(given):
    """The encoding of fields is that of the first Content-Transfer-Encoding (RFC 2045, 6.1)."""
    return values.encoding(fields.first_value(given, b"Content-Transfer-Encoding"))


def boundary_of(found):
    """A boundary loses the blanks at its end, and counts where it has a byte and no CR (RFC 2046, 5.1.1; own)."""
    boundary = (values.parameter(found, b"boundary") or b"").rstrip(b" \t")
    return None if b"\r" in boundary or not boundary else boundary


def kind_of(given, default, level):
    """Fields make a multipart, a message or a leaf; level 101 is a leaf (RFC 2046, 5.1 and 5.2.1; RFC 6532, 3.7; own)."""
    found = type_of(given, default)
    if level > LEVELS:
        return "leaf"
    if found.main == b"multipart" and boundary_of(found) is not None:
        return "multi"
    holds = found.main == b"message" and found.sub in (b"rfc822", b"global")
    return "message" if holds and encoding_of(given) == b"identity" else "leaf"


def child_default(given, default):
    """The parts of a digest are messages where they don't say, all others texts (RFC 2046, 5.1.5)."""
    found = type_of(given, default)
    return MESSAGE if (found.main, found.sub) == (b"multipart", b"digest") else TEXT


def cut_by(boundary, body):
    """A body is a preamble, parts after delimiters, and the close line with all after it (RFC 2046, 5.1.1)."""
    ends = [at for at, line in enumerate(body) if lines.is_close_mark(line.content, boundary)]
    end = ends[0] if ends else len(body)
    starts = [at for at in range(end) if lines.is_part_mark(body[at].content, boundary)]
    first = starts[0] if starts else end
    parts = [(body[at], body[at + 1:upto]) for at, upto in zip(starts, starts[1:] + [end])]
    return body[:first], parts, body[end:]


def read(given, default, level):
    """An entity is read from its lines, its default and its level, from the outside in (RFC 2046, 5.1)."""
    head, separator, body = fields.split(given)
    kind = kind_of(head, default, level)
    if kind == "leaf":
        return Entity(head, separator, Leaf(body))
    if kind == "message":
        return Entity(head, separator, Message(read(body, TEXT, level + 1)))
    boundary = boundary_of(type_of(head, default))
    preamble, parts, tail = cut_by(boundary, body)
    below = child_default(head, default)
    made = tuple((mark, read(part, below, level + 1)) for mark, part in parts)
    return Entity(head, separator, Multi(boundary, preamble, made, tail))


def document(text):
    """A text is an envelope, where its first line is a From-line, and the root (own)."""
    given = tuple(lines.cut(text))
    size = 1 if given and lines.is_from_line(given[0].content) else 0
    return Document(given[:size], read(given[size:], TEXT, 1))


def body_lines(entity):
    """The lines of a body are those of all that it holds, in order (own)."""
    body = entity.body
    if isinstance(body, Leaf):
        return list(body.lines)
    if isinstance(body, Message):
        return entity_lines(body.entity)
    inner = [line for mark, part in body.parts for line in [mark] + entity_lines(part)]
    return list(body.preamble) + inner + list(body.tail)


def field_lines(entity):
    """The lines of the fields of an entity (own)."""
    return [line for field in entity.fields for line in field]


def entity_lines(entity):
    """The lines of an entity are those of its fields, its separator and its body (own)."""
    return field_lines(entity) + list(entity.separator) + body_lines(entity)


def document_lines(given):
    """The lines of a document are its envelope and those of its root (own)."""
    return list(given.envelope) + entity_lines(given.root)


def printed(given):
    """A document's text is its lines, joined (own)."""
    return lines.printed(document_lines(given))


def body_start(section):
    """A body begins after the fields and the separator (RFC 5322, 2.1)."""
    entity = section.entity
    return section.start + len(fields.printed(entity.fields)) + len(lines.printed(entity.separator))


def section_end(section):
    """A section ends after its last line (own)."""
    return section.start + len(lines.printed(entity_lines(section.entity)))


def children(section):
    """Below a multipart are its parts, below a message its one entity (own)."""
    entity, at = section.entity, body_start(section)
    if isinstance(entity.body, Message):
        return [Section(section.path + (1,), entity.body.entity, TEXT, at)]
    found = []
    if isinstance(entity.body, Multi):
        at += len(lines.printed(entity.body.preamble))
        for number, (mark, part) in enumerate(entity.body.parts, 1):
            at += len(lines.printed([mark]))
            found.append(Section(section.path + (number,), part, child_default(entity.fields, section.default), at))
            at = section_end(found[-1])
    return found


def root(given):
    """The root is section 1, and begins after the envelope (own)."""
    return Section((1,), given.root, TEXT, len(lines.printed(given.envelope)))


def sections(given):
    """All sections, each before those below it (own)."""
    waiting, found = [root(given)], []
    while waiting:
        found.append(waiting.pop(0))
        waiting = children(found[-1]) + waiting
    return found


def way_to(given, path):
    """The sections from the root to a path, as far as they are there (own)."""
    way = [root(given)] if path[0] == 1 else []
    for number in path[1:]:
        below = children(way[-1]) if way else []
        if number > len(below):
            return way
        way.append(below[number - 1])
    return way


def section_at(given, path):
    """The section of a path, or None (own)."""
    way = way_to(given, path)
    return way[-1] if len(way) == len(path) else None


def is_followed(given, section):
    """A section is followed where it ends before the end of the document (own)."""
    return section_end(section) < len(printed(given))


def content(given, section):
    """A content is the body, without the line ending before a mark that follows it (RFC 2046, 5.1.1)."""
    body = body_lines(section.entity)
    if body and is_followed(given, section):
        body = body[:-1] + [lines.Line(body[-1].content, b"")]
    return lines.printed(body)


def changed_below(entity, path, change):
    """The entity in which the one at the rest of a path is another (own)."""
    if not path:
        return change(entity)
    if isinstance(entity.body, Message):
        return replace(entity, body=Message(changed_below(entity.body.entity, path[1:], change)))
    parts = list(entity.body.parts)
    mark, part = parts[path[0] - 1]
    parts[path[0] - 1] = (mark, changed_below(part, path[1:], change))
    return replace(entity, body=replace(entity.body, parts=tuple(parts)))


def changed(given, path, change):
    """The document in which the entity at a path is another; the envelope stays (own)."""
    return replace(given, root=changed_below(given.root, path[1:], change))
