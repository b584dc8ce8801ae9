"""The nine edits: what each makes of a document."""

from dataclasses import dataclass, replace

from . import fields, lines, tree


@dataclass(frozen=True)
class Edit:
    word: str
    path: tuple
    text: bytes = b""
    name: bytes = b""
    number: int = 0
    new: bytes = b""
    place: int = 0
    subtype: bytes = b""
    boundary: bytes = b""


def level_of(edit):
    """The root has level 1, each step down one more (own)."""
    return len(edit.path)


def with_fields(entity, head):
    """The entity with other fields (own)."""
    return replace(entity, fields=tuple(head))


def field_added(edit, entity):
    """`add` puts a field after the others, `top` before them (own)."""
    field = (tuple(lines.cut(edit.text)),)
    return with_fields(entity, field + entity.fields if edit.word == "top" else entity.fields + field)


def renamed(field, new):
    """The bytes of the name are replaced, and all else stays (own)."""
    first = field[0]
    rest = first.content[len(lines.name_of(first.content)):]
    return (lines.Line(new + rest, first.ending),) + field[1:]


def field_changed(edit, entity):
    """`del` takes the field out, `ren` gives it another name, `set` puts another in its place (own)."""
    at = fields.place(entity.fields, edit.name, edit.number)
    new = {"del": lambda: (),
           "ren": lambda: (renamed(entity.fields[at], edit.new),),
           "set": lambda: (tuple(lines.cut(edit.text)),)}[edit.word]()
    return with_fields(entity, entity.fields[:at] + new + entity.fields[at + 1:])


def body_set(edit, entity, ending):
    """`body` gives a leaf other lines, and a separator where it had none (own)."""
    separator = entity.separator or (lines.Line(b"", ending),)
    return replace(entity, separator=separator, body=tree.Leaf(tuple(lines.cut(edit.text))))


def default_at(document, path):
    """The default of a place is text/plain, or what its multipart says (RFC 2046, 5.1.5)."""
    return tree.section_at(document, path).default


def part_inserted(edit, document, entity, ending):
    """`insert` puts a delimiter and the entity that the text alone reads as before or after parts (own)."""
    body = entity.body
    below = tree.child_default(entity.fields, default_at(document, edit.path))
    new = tree.read(tuple(lines.cut(edit.text)), below, level_of(edit) + 1)
    part = (lines.Line(b"--" + body.boundary, ending), new)
    parts = body.parts[:edit.place] + (part,) + body.parts[edit.place:]
    return replace(entity, body=replace(body, parts=parts))


def part_removed(edit, document):
    """`remove` takes a part out, with its delimiter (own)."""
    def without(entity):
        parts = entity.body.parts
        number = edit.path[-1]
        return replace(entity, body=replace(entity.body, parts=parts[:number - 1] + parts[number:]))
    return tree.changed(document, edit.path[:-1], without)


def is_about_content(field):
    """Fields whose names begin with `Content-` describe a body (RFC 2045, 3)."""
    return fields.name(field).lower().startswith(b"content-")


def wrapped_body(document, section, ending):
    """A leaf that no line follows gets an ending after its body, so that its content stays (own)."""
    body = section.entity.body
    if not isinstance(body, tree.Leaf) or tree.is_followed(document, section):
        return body
    if body.lines and not body.lines[-1].ending:
        return tree.Leaf(body.lines[:-1] + (lines.Line(body.lines[-1].content, ending),))
    return tree.Leaf(body.lines + (lines.Line(b"", ending),))


def wrap_head(edit, entity, ending):
    """A wrapped section keeps its other fields and gets those of a multipart (RFC 2045, 4; RFC 2046, 5.1): kept, made."""
    kept = [field for field in entity.fields if not is_about_content(field)]
    made = []
    if edit.path == (1,) and not fields.numbers(kept, b"MIME-Version"):
        made.append((lines.Line(b"MIME-Version: 1.0", ending),))
    made.append((lines.Line(b'Content-Type: multipart/%s; boundary="%s"' % (edit.subtype, edit.boundary), ending),))
    return tuple(kept), tuple(made)


def wrapped(edit, document, ending):
    """`wrap` makes the section the one part of a multipart (RFC 2046, 5.1; own)."""
    section = tree.section_at(document, edit.path)
    entity, empty = section.entity, lines.Line(b"", ending)
    kept, made = wrap_head(edit, entity, ending)
    about = tuple(field for field in entity.fields if is_about_content(field))
    part = tree.Entity(about, entity.separator or (empty,), wrapped_body(document, section, ending))
    mark = lines.Line(b"--" + edit.boundary, ending)
    close = lines.Line(b"--" + edit.boundary + b"--", ending)
    return tree.Entity(kept + made, (empty,), tree.Multi(edit.boundary, (), ((mark, part),), (close,)))


def edited(edit, document):
    """The document that an edit means, before it is read again (own)."""
    ending = lines.ending_of(tree.printed(document))
    if edit.word == "remove":
        return part_removed(edit, document)
    change = {
        "add": lambda entity: field_added(edit, entity), "top": lambda entity: field_added(edit, entity),
        "del": lambda entity: field_changed(edit, entity), "ren": lambda entity: field_changed(edit, entity),
        "set": lambda entity: field_changed(edit, entity),
        "body": lambda entity: body_set(edit, entity, ending),
        "replace": lambda entity: tree.read(tuple(lines.cut(edit.text)), default_at(document, edit.path), level_of(edit)),
        "insert": lambda entity: part_inserted(edit, document, entity, ending),
        "wrap": lambda entity: wrapped(edit, document, ending),
    }[edit.word]
    return tree.changed(document, edit.path, change)
