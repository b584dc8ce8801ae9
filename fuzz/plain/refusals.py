"""Why an edit is refused: the first reason that holds."""

from . import edits, fields, lines, listing, tree, values


def reason_of_place(edit, document, section):
    """The section has to be of the kind that the edit is about (own)."""
    body = section.entity.body
    if edit.word == "insert" and not isinstance(body, tree.Multi):
        return "NotMultipart"
    if edit.word == "body" and not isinstance(body, tree.Leaf):
        return "NotLeaf"
    if edit.word == "remove":
        above = tree.section_at(document, edit.path[:-1]) if len(edit.path) > 1 else None
        if above is None or not isinstance(above.entity.body, tree.Multi):
            return "NotPart"
    return None


def reason_of_words(edit, section):
    """What the edit names has to be there, and what it gives has to be well formed (own; RFC 2046, 5.1.1 for boundaries)."""
    head, body = section.entity.fields, section.entity.body
    if edit.word in ("del", "ren", "set") and fields.place(head, edit.name, edit.number) is None:
        return "NoSuchField"
    if edit.word == "insert" and edit.place > len(body.parts):
        return "BadPlace"
    if edit.word in ("add", "top", "set") and not fields.is_one_field(edit.text):
        return "BadField"
    if edit.word == "ren" and not lines.is_name(edit.new):
        return "BadName"
    if edit.word == "wrap" and not values.is_boundary(edit.boundary):
        return "BadBoundary"
    if edit.word == "wrap" and not values.is_token(edit.subtype):
        return "BadSubtype"
    return None


def has_open_line(document):
    """A line without an ending may only be the last (own)."""
    return any(not line.ending for line in tree.document_lines(document)[:-1])


def enclosing(edit, document):
    """The multiparts on the way to a section, each with its level (own)."""
    above = tree.way_to(document, edit.path)[:-1]
    return [(level, section.entity.body.boundary) for level, section in enumerate(above, 1)
            if isinstance(section.entity.body, tree.Multi)]


def wrap_lines(edit, document):
    """The lines that `wrap` makes (own)."""
    ending = lines.ending_of(tree.printed(document))
    _, made = edits.wrap_head(edit, tree.section_at(document, edit.path).entity, ending)
    marks = [lines.Line(b"--" + edit.boundary, ending), lines.Line(b"--" + edit.boundary + b"--", ending)]
    return [line for field in made for line in field] + [lines.Line(b"", ending)] + marks


def looked_at(edit, document):
    """Pairs of a line that an edit gives or makes and the boundaries of which it mustn't be a mark (own)."""
    around, section = enclosing(edit, document), tree.section_at(document, edit.path)
    here = len(edit.path)
    if edit.word == "remove":
        return []
    if edit.word == "wrap":
        inside = [(line, [(here, edit.boundary)]) for line in tree.body_lines(section.entity)]
        return [(line, around) for line in wrap_lines(edit, document)] + inside
    if edit.word == "insert":
        boundary = section.entity.body.boundary
        mark = lines.Line(b"--" + boundary, b"")
        return [(mark, around)] + [(line, around + [(here, boundary)]) for line in lines.cut(edit.text)]
    if edit.word == "ren":
        at = fields.place(section.entity.fields, edit.name, edit.number)
        return [(edits.renamed(section.entity.fields[at], edit.new)[0], around)]
    return [(line, around) for line in lines.cut(edit.text)]


def held_level(edit, document):
    """The level of the outermost multipart of which a line would be a mark, or None (RFC 2046, 5.1.1; own)."""
    hits = [level for line, around in looked_at(edit, document)
            for level, boundary in around if lines.is_mark(line.content, boundary)]
    return min(hits) if hits else None


def reason(edit, document):
    """The first reason against an edit, as it is printed, or None (own)."""
    section = tree.section_at(document, edit.path)
    if section is None:
        return "NoSuchSection"
    early = reason_of_place(edit, document, section) or reason_of_words(edit, section)
    if early:
        return early
    if edit.word == "remove":
        return None
    result = edits.edited(edit, document)
    if has_open_line(result):
        return "OpenLine"
    level = held_level(edit, document)
    if level is not None:
        return "HoldsBoundary " + listing.written(edit.path[:level]).decode()
    return None if tree.document(tree.printed(result)) == result else "Recut"
