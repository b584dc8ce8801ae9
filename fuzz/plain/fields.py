"""Header fields: where they stand, what they are called and what they say."""

from . import lines


def split(given):
    """A text is the longest run of fields, an empty line after it or none, and the rest (RFC 5322, 2.1; own)."""
    fields, at = [], 0
    while at < len(given) and lines.is_field_start(given[at].content):
        end = at + 1
        while end < len(given) and lines.is_continuation(given[end].content):
            end += 1
        fields.append(tuple(given[at:end]))
        at = end
    separator = tuple(given[at:at + 1]) if at < len(given) and given[at].content == b"" else ()
    return tuple(fields), separator, tuple(given[at + len(separator):])


def name(field):
    """The name of a field is that of its first line (RFC 5322, 2.2)."""
    return lines.name_of(field[0].content)


def is_named(field, wanted):
    """Names are equal without regard to ASCII case (RFC 5322, 1.2.2)."""
    return name(field).lower() == wanted.lower()


def numbers(fields, wanted):
    """The places, from 0, of the fields of a name (own)."""
    return [at for at, field in enumerate(fields) if is_named(field, wanted)]


def place(fields, wanted, number):
    """The place of the field of that name and number, counted from 1, or None (own)."""
    found = numbers(fields, wanted)
    return found[number - 1] if 1 <= number <= len(found) else None


def value(field):
    """The value is the contents of the lines, joined, from after the first colon (RFC 5322, 2.2.3)."""
    return b"".join(line.content for line in field).partition(b":")[2]


def first_value(fields, wanted):
    """Of fields with one name the first counts (own)."""
    at = place(fields, wanted, 1)
    return None if at is None else value(fields[at])


def printed(fields):
    """The text of fields is that of their lines (own)."""
    return b"".join(lines.printed(field) for field in fields)


def is_one_field(text):
    """A text is one field where its lines are exactly that (own)."""
    fields, separator, body = split(lines.cut(text))
    return len(fields) == 1 and not separator and not body
