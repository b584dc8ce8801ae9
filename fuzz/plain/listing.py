"""What `sections` and `extract` print."""

from . import encodings, lines, tree

GREATEST = 4294967295
KINDS = {tree.Leaf: b"leaf", tree.Multi: b"multi", tree.Message: b"message"}


def written(path):
    """A path is its numbers, joined by dots (own)."""
    return b".".join(b"%d" % number for number in path)


def type_name(section):
    """A type is written as main, slash, subtype (RFC 2045, 5.1)."""
    found = tree.type_of(section.entity.fields, section.default)
    return found.main + b"/" + found.sub


def row(section):
    """A section's line has nine columns (own)."""
    entity = section.entity
    columns = [written(section.path), KINDS[type(entity.body)], type_name(section), tree.encoding_of(entity.fields)]
    numbers = [section.start, tree.body_start(section), tree.section_end(section),
               len(tree.field_lines(entity)), len(tree.body_lines(entity))]
    return b" ".join(columns + [b"%d" % number for number in numbers]) + b"\n"


def listing(text):
    """Each section has a line, before those below it (own)."""
    return b"".join(row(section) for section in tree.sections(tree.document(text)))


def content(document, section):
    """The content of a leaf is decoded, that of others stays as it is (RFC 2045, 6)."""
    found = tree.content(document, section)
    if isinstance(section.entity.body, tree.Leaf):
        return encodings.decoded(tree.encoding_of(section.entity.fields), found)
    return found


def is_number(word, least):
    """A number has no leading zero and is at most 4,294,967,295 (own)."""
    digits = word.isdigit() and (word == b"0" or not word.startswith(b"0"))
    return digits and least <= int(word) <= GREATEST


def path_of(word):
    """A path is numbers from 1, joined by dots; None where it isn't (own)."""
    numbers = word.split(b".")
    return tuple(map(int, numbers)) if all(is_number(number, 1) for number in numbers) else None


def extract(text, word):
    """A section's content is printed, or a line says why it can't be (own): output, errors, status."""
    document = tree.document(text)
    section = tree.section_at(document, path_of(word))
    if section is None:
        return b"", word + b": NoSuchSection\n", 1
    try:
        return content(document, section), b"", 0
    except encodings.Refused as reason:
        return b"", word + b": " + str(reason).encode() + b"\n", 1
