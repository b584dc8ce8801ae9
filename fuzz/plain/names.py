"""Names of files for leaves, and what `unpack` makes."""

from . import encodings, extended, fields, listing, tree, values


def raw_name(section):
    """The name is `filename` of Content-Disposition, else `name` of Content-Type (RFC 2183, 2.3; own)."""
    value = fields.first_value(section.entity.fields, b"Content-Disposition")
    name = None if value is None else values.parameter(values.content_type(value), b"filename")
    if name is None:
        name = values.parameter(tree.type_of(section.entity.fields, section.default), b"name")
    return name


def text_name(section):
    """What the names say as text: first that of Content-Disposition, then that of Content-Type (RFC 2231; own)."""
    value = fields.first_value(section.entity.fields, b"Content-Disposition")
    text = None if value is None else extended.text_of(values.content_type(value), b"filename")
    if text is None:
        text = extended.text_of(tree.type_of(section.entity.fields, section.default), b"name")
    return text


def is_kept(byte):
    """Letters, digits, `.`, `_` and `-` stay in a name (own)."""
    return bytes([byte]).isalnum() or byte in b"._-"


def cleaned(name):
    """No folder, other bytes as `_`, no `.` or `-` in front, at most 100 bytes (own)."""
    last = name.replace(b"\\", b"/").split(b"/")[-1]
    safe = bytes(byte if is_kept(byte) else ord("_") for byte in last)
    if safe[:1] in (b".", b"-"):
        safe = b"_" + safe[1:]
    return safe[:100]


def given_name(wanted, earlier):
    """A name that an earlier leaf has gets the least free number after it (own)."""
    if wanted not in earlier:
        return wanted
    return next(name for name in (b"%s.%d" % (wanted, number) for number in range(1, len(earlier) + 2))
                if name not in earlier)


def content_id(section):
    """The id stands between the first angle brackets outside comments, or is all of a value without them (RFC 2045, 7; own)."""
    value = fields.first_value(section.entity.fields, b"Content-ID")
    if value is None:
        return None
    depth, at = 0, 0
    while at < len(value) and (depth or value[at] != ord("<")):
        if depth and value[at] == ord("\\"):
            at += 1
        elif value[at] == ord("("):
            depth += 1
        elif value[at] == ord(")"):
            depth = max(0, depth - 1)
        at += 1
    found = value[at + 1:].split(b">")[0] if at < len(value) else value
    return found.strip(b" \t") or None


def is_stored(section, named, texts, messages):
    """Leaves are stored, texts without a name and messages only where they are asked for (own)."""
    if isinstance(section.entity.body, tree.Leaf):
        return named or texts or tree.type_of(section.entity.fields, section.default).main != b"text"
    return isinstance(section.entity.body, tree.Message) and messages


def names(document, texts, utf8=False, messages=False, by_id=False):
    """Each section that is stored has a name (own)."""
    found = []
    for section in tree.sections(document):
        identity = content_id(section) if by_id else None
        raw, said = identity or raw_name(section), text_name(section) if utf8 and identity is None else None
        if not is_stored(section, raw is not None or said is not None, texts, messages):
            continue
        safe = cleaned(raw or b"") if said is None else extended.cleaned(said)
        wanted = safe or b"part-" + listing.written(section.path)
        found.append((section, given_name(wanted, [name for _, name in found])))
    return found


def free_name(name, there, over, counted):
    """The name itself, or without `-f` the first free one of it and .1 to .99, with --number of all numbers, or None (own)."""
    if over:
        return name
    most = len(there) + 1 if counted else 99
    wanted = [name] + [b"%s.%d" % (name, number) for number in range(1, most + 1)]
    return next((one for one in wanted if one not in there), None)


def contents(document, found, prefix):
    """What is written of each section, in order, or why nothing is; after that what decodes of those that were cut off (own)."""
    cut = []
    for section, name in found:
        try:
            yield section, name, listing.content(document, section), None
        except encodings.Refused as reason:
            yield section, name, None, b"%s: %s\n" % (listing.written(section.path), str(reason).encode())
            if prefix and str(reason) == "BadBase64":
                cut.append((section, name + b".part", encodings.base64_front(tree.content(document, section)), None))
    yield from cut


def unpack(text, there, options):
    """Each leaf is written to a file of its name (own): output, errors, status, and the files afterwards."""
    document, there = tree.document(text), dict(there)
    found = names(document, b"-t" in options, b"--utf8" in options, b"--messages" in options, b"--content-id" in options)
    output, errors = b"", b""
    for section, name, content, refusal in contents(document, found, b"--prefix" in options):
        if refusal is not None:
            errors += refusal
            continue
        whole = (section, name) in found
        free = free_name(name, there, whole and b"-f" in options, b"--number" in options)
        if free is None:
            errors += name + b": exists\n"
            continue
        there[free] = content
        output += b"" if b"--silent" in options else b"%s (%s)\n" % (free, listing.type_name(section))
    return output, errors, 1 if errors else 0, there
