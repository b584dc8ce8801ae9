"""What an edit replaces in a text, as a journal keeps it: a place, the old bytes, the new bytes."""

from . import edits, fields, lines, tree


def field_splice(edit, section):
    """An edit of a field replaces the field, its name, or nothing (own)."""
    head, at = section.entity.fields, section.start
    if edit.word == "top":
        return at, b"", edit.text
    if edit.word == "add":
        return at + len(fields.printed(head)), b"", edit.text
    number = fields.place(head, edit.name, edit.number)
    at += len(fields.printed(head[:number]))
    if edit.word == "ren":
        return at, fields.name(head[number]), edit.new
    return at, lines.printed(head[number]), edit.text if edit.word == "set" else b""


def part_splice(edit, document, section):
    """An edit of parts replaces nothing by a delimiter and a part, or these by nothing (own)."""
    if edit.word == "remove":
        above = tree.section_at(document, edit.path[:-1])
        mark = lines.printed([above.entity.body.parts[edit.path[-1] - 1][0]])
        old = mark + lines.printed(tree.entity_lines(section.entity))
        return section.start - len(mark), old, b""
    body, at = section.entity.body, tree.body_start(section)
    at += len(lines.printed(body.preamble))
    for mark, part in body.parts[:edit.place]:
        at += len(lines.printed([mark] + tree.entity_lines(part)))
    ending = lines.ending_of(tree.printed(document))
    return at, b"", b"--" + body.boundary + ending + edit.text


def splice(edit, document):
    """The bytes that an edit replaces (own)."""
    section = tree.section_at(document, edit.path)
    if edit.word in ("add", "top", "del", "ren", "set"):
        return field_splice(edit, section)
    if edit.word in ("insert", "remove"):
        return part_splice(edit, document, section)
    ending = lines.ending_of(tree.printed(document))
    if edit.word == "body":
        made = b"" if section.entity.separator else ending
        return tree.body_start(section), lines.printed(tree.body_lines(section.entity)), made + edit.text
    old = lines.printed(tree.entity_lines(section.entity))
    if edit.word == "replace":
        return section.start, old, edit.text
    return section.start, old, lines.printed(tree.entity_lines(edits.wrapped(edit, document, ending)))


def replaced(text, place, old, new):
    """The text in which bytes at a place are others, or None where they aren't there (own)."""
    if text[place:place + len(old)] != old or place + len(old) > len(text):
        return None
    return text[:place] + new + text[place + len(old):]
