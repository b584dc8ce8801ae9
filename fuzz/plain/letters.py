"""The letters of `field`, and mailboxes."""

from . import addresses, edits, fields, lines, rules, session, tree, values, wording

EDITING = ("removal", "--rename", "-a", "-A", "-i", "-I", "-u", "-U")
BY_NAMES = ("--drop", "--keep", "--keep-only")
BY_RULES = ("--sub",)
PRINTING = ("-x", "-X")
WITH_FIELDS = ("-a", "-A", "-i", "-I")
SHAPES = (b"--unfold", b"--decode", b"--addresses")
FORMS = (b"--encode", b"--eol")


def counts(cut, at, how):
    """With `--mbox=field` a From-line counts only where a field follows it (own)."""
    if not lines.is_from_line(cut[at].content):
        return False
    return how != b"field" or (at + 1 < len(cut) and lines.is_field_start(cut[at + 1].content))


def messages(text, how=b"any"):
    """A mailbox is cut before each From-line that counts and directly follows an empty line (own)."""
    found, before, cut = [], None, lines.cut(text)
    for at, line in enumerate(cut):
        if not found or (before == b"" and counts(cut, at, how)):
            found.append([])
        found[-1].append(line)
        before = line.content
    return [lines.printed(message) for message in found]


def is_left_alone(message, how):
    """With `--mbox=field` empty lines before the first From-line are left as they are (own)."""
    return how == b"field" and not any(line.content for line in lines.cut(message))


def is_bare(field):
    """A field is bare where only blanks stand after its colon (own)."""
    return field.partition(b":")[2].strip(b" \t") == b""


def is_open_field(field):
    """A given field is exactly one, and its last line has no ending (own)."""
    return fields.is_one_field(field) and not lines.cut(field)[-1].ending


def pattern(word):
    """A name and a colon mean that name, with an asterisk before the colon all that begin so (own): name, whether it is a front."""
    name = word[:-1]
    return (name[:-1], True) if name.endswith(b"*") else (name, False)


def is_meant(word, name):
    """Case doesn't count (own)."""
    front, is_front = pattern(word)
    return name.lower().startswith(front.lower()) if is_front else name.lower() == front.lower()


def is_rule(letter, word):
    """`--sub` is a rule, and so is `--drop` of a pattern (own)."""
    return letter in BY_RULES or (letter == "--drop" and rules.is_removal(word))


def is_allowed_letter(letter, word):
    """The value of a letter is a field, a name with its colon, two names with one between them, or a rule (own)."""
    if is_rule(letter, word):
        return rules.is_rule(letter, word)
    if letter == "--rename":
        old, colon, new = word.partition(b":")
        return bool(colon) and lines.is_name(old) and lines.is_name(new)
    if letter in ("-u", "-U", "-x", "-X"):
        return word.endswith(b":") and lines.is_name(word[:-1])
    if letter in BY_NAMES:
        return word.endswith(b":") and lines.is_name(pattern(word)[0])
    return is_open_field(word) and not (letter in ("-a", "-A") and is_bare(word))


def are_allowed(given):
    """`-x` and `-X` stand alone, though each as often as one likes, and each value is of its form (own)."""
    printing = any(letter in PRINTING for letter, _ in given)
    return not (printing and len({letter for letter, _ in given}) > 1) and all(is_allowed_letter(*pair) for pair in given)


def rounds(given):
    """A letter that its round has already begins another; `--drop`, `--keep` and `--keep-only` never do. A rule is a round by
    itself (own)."""
    found = []
    for letter, word in given:
        if is_rule(letter, word):
            found.append({"rule": (letter, word)})
            continue
        if not found or "rule" in found[-1] or letter in found[-1]:
            found.append({})
        if letter in BY_NAMES:
            found[-1].setdefault("removal", []).append((letter, word))
        else:
            found[-1][letter] = word
    return found


def head_of(text, path):
    """The fields of the section at a path, none where there is no such section (own)."""
    section = tree.section_at(tree.document(text), path)
    return section.entity.fields if section else ()


def rename_edits(head, word, path):
    """Each field of the old name gets the new one (own)."""
    old, _, new = word.partition(b":")
    same = old.lower() == new.lower()
    return [edits.Edit("ren", path, name=old, number=number if same else 1, new=new)
            for number in range(1, len(fields.numbers(head, old)) + 1)]


def goes(given, name):
    """A name goes that is dropped, and where some are kept each other one; what says the structure stays then, unless
    `--keep-only` was given (own; RFC 2045, 4 and 9)."""
    dropped = any(is_meant(word, name) for letter, word in given if letter == "--drop")
    kept = [word for letter, word in given if letter != "--drop"]
    structural = name.lower() == b"mime-version" or name.lower().startswith(b"content-")
    only = any(letter == "--keep-only" for letter, _ in given)
    return dropped or (bool(kept) and not any(is_meant(word, name) for word in kept) and (only or not structural))


def removal_edits(head, given, path):
    """The fields go whose names go, each as the first of its name (own)."""
    names = [fields.name(field) for field in head]
    return [edits.Edit("del", path, name=name, number=1) for name in names if goes(given, name)]


def letter_edits(letter, word, head, ending, path):
    """The edits of one letter on the fields that are there (own)."""
    if letter == "removal":
        return removal_edits(head, word, path)
    name = word[:-1] if letter in ("-u", "-U") else lines.name_of(word)
    there = fields.numbers(head, name)
    adding = [edits.Edit("add", path, text=word + ending)]
    last = [] if is_bare(word) else adding
    if letter == "--rename":
        return rename_edits(head, word, path)
    if letter == "-a":
        return [] if there else adding
    if letter == "-A":
        return adding
    if letter == "-i":
        return [edits.Edit("ren", path, name=name, number=1, new=b"Old-" + fields.name(head[at])) for at in there] + last
    if letter == "-I":
        return [edits.Edit("del", path, name=name, number=1)] * len(there) + last
    return [edits.Edit("del", path, name=name, number=2 if letter == "-u" else 1)] * (len(there) - 1)


def has_section(text, path):
    """Whether a message has a section at a path (own)."""
    return tree.section_at(tree.document(text), path) is not None


def takes_place(old, new, how):
    """A text may stand in the place of a message of a mailbox: it is one message, and begins and ends as that does (own)."""
    before, after = lines.cut(old), lines.cut(new)
    begins = not counts(before, 0, how) or (after and counts(after, 0, how))
    ends = before[-1].content or (after and not after[-1].content)
    return len(messages(new, how)) < 2 and bool(begins) and bool(ends)


def filtered(message, given, flags, path, how):
    """A message after its rounds, or as it came with the reason where they are refused (own): text, reason."""
    if not has_section(message, path):
        return message, "NoSuchSection"
    text = message
    for letters in rounds(given):
        text, reason = round_filtered(text, letters, flags, path)
        if reason:
            return message, reason
    if b"-s" in flags and (path != (1,) or how == b"field") and not takes_place(message, text, how):
        return message, "Recut"
    return text, None


def formed(word, ending, flags):
    """A field in encoded words, and with the ending of the message at its lines, as far as that is asked for (own)."""
    word = wording.worded(word, ending) if b"--encode" in flags else word
    return lines.turned(word, ending) if b"--eol" in flags else word


def round_edits(letters, history, ending, flags, path):
    """The edits of a round, each letter's on what those before it left (own)."""
    if "rule" in letters:
        yield from rules.rule_edits(*letters["rule"], head_of(history.text(), path), ending, path)
    for letter in EDITING:
        if letter in letters:
            word = letters[letter]
            word = formed(word, ending, flags) if letter in WITH_FIELDS else word
            yield from letter_edits(letter, word, head_of(history.text(), path), ending, path)


def round_filtered(message, letters, flags, path):
    """A text after a round, or as it came with the reason where an edit is refused (own): text, reason."""
    history, ending = session.Session(message), lines.ending_of(message)
    for edit in round_edits(letters, history, ending, flags, path):
        reason = history.edit(edit)
        if reason:
            return message, reason
    return history.text(), None


def shaped(value, flags):
    """What stands after a colon, or its addresses, or that on a line, or what it says on a line (own)."""
    if b"--addresses" in flags:
        return b"".join(address + b"\n" for address in addresses.found(value))
    if b"--decode" in flags:
        return wording.said(value) + b"\n"
    return wording.unfolded(value) + b"\n" if b"--unfold" in flags else value


def shown(message, given, flags, path):
    """`-X` prints fields of a name whole, `-x` what stands after their colons (own): text, reason."""
    if not has_section(message, path):
        return b"", "NoSuchSection"
    found = b""
    for letter, word in given:
        for field in head_of(message, path):
            if fields.is_named(field, word[:-1]):
                raw = lines.printed(field)
                found += raw if letter == "-X" else shaped(raw.partition(b":")[2], flags)
    return found, None


def run(text, given, flags, path, how=b"any"):
    """The whole input, or each message of a mailbox, goes through the letters (own): output, errors, status."""
    output, errors, each = b"", b"", b"-s" in flags
    for number, message in enumerate(messages(text, how) if each else [text], 1):
        printing = any(letter in PRINTING for letter, _ in given)
        if each and is_left_alone(message, how):
            result, reason = b"" if printing else message, None
        elif printing:
            result, reason = shown(message, given, flags, path)
        else:
            result, reason = filtered(message, given, flags, path, how)
        output += result
        errors += b"message %d: %s\n" % (number, reason.encode()) if reason else b""
    return output, errors, 1 if errors and b"--refused-ok" not in flags else 0
