"""Scripts for `edit`, and journals for it, `undo` and `redo`."""

import hashlib
import re

import messages
from plain import fields, journals, listing, tree

ODD_PATHS = [b"2", b"1.1", b"1.9", b"1.1.1.1", b"1.4294967295", b"2.1", b"1." + b"1." * 98 + b"1", b"1." * 100 + b"1"]
FAULTY_PATHS = [b"0", b"1.0", b"01", b"1.", b".1", b"", b"1.4294967296", b"x", b"1.+1", b"1." * 101 + b"1", b"1,1"]
FAULTY_LINES = [b" ", b"undo ", b"Undo", b"add", b"add 1", b"del 1 A", b"del 1 A 1 ", b"del 1  A 1", b"ren 1 A 1 ", b"ren 1 A 1 b c",
                b"set 1 A 1", b"set 1  1 A: b", b"body 1 0", b"body 1 01", b"body 1 99", b"insert 1 00 1", b"insert 1 0", b"wrap 1 mixed",
                b"wrap 1  b", b"remove 1 x", b"remove", b"content 1 0", b"content 1", b"encode 1 7bit", b"encode 1", b"encode 1 qp ", b"put 1", b"drop 1", b"drop 1 A B", b"put-piece 1 99", b"append 1  1",
                b"attach 1 text/plain n", b"attach 1 text/plain a  1", b"attach 1 text/plain  a 1", b"attach 1 text/plain a 1 ", b"attach 1 text/plain 1", b"remove 1.1 1.2 ", b"contents 1 1", b"bogus", b" # x", b"begin x", b"end ", b"del 1 A 4294967296", b"del 1 A -1",
                b"replace 1", b"\xff", b"redo 1", b"begin", b"end"]
SUBTYPES = [b"mixed", b"mixed", b"digest", b"Digest", b"alternative", b"x-y", b"a/b", b"\xff", b"mi\txed", b"\"x\""]
LIMITS = [b"0", b"1", b"2", b"99999999999999999999", b"100000000000000000000", b"18446744073709551615", b"18446744073709551616", b"01", b"-1"]
WORDS = [("add", 5), ("top", 3), ("del", 3), ("ren", 3), ("set", 3), ("body", 3), ("replace", 3), ("insert", 9), ("remove", 4), ("wrap", 5),
         ("content", 4), ("encode", 4), ("put", 3), ("put-piece", 2), ("drop", 2), ("append", 4), ("append-text", 3), ("attach", 3), ("undo", 4), ("redo", 2)]
OF_LEAVES, OF_MULTIPARTS = ("body", "content", "encode"), ("insert",)
OF_PIECES = ("body", "replace", "insert", "content", "put-piece", "append", "append-text", "attach")
FILES = [b"n.txt", b"a/b.gif", b"x", b"-n", b"a/", b"a\\b", b"q\"q", b"\xc3\xa9", b"a b  c.txt", b"\xc3\xa9 1/\xe2\x82\xac 2.pdf", b"\xff", b"n" * 101]
TYPES = [b"text/plain", b"image/gif", b"application/x-y", b"TEXT/html", b"multipart/mixed", b"message/rfc822", b"text", b"a/" + b"b" * 99]


def field_text(chooser, boundaries):
    """A field to be put into a message, in most cases one."""
    way = chooser.weighted([("field", 8), ("type", 4), ("about", 2), ("odd", 2)])
    if way == "field":
        return chooser.choice(messages.FIELDS)
    if way == "about":
        return chooser.choice([field[0] for field in messages.leaf_fields(chooser)] or [b"B: c"])
    if way == "odd":
        return messages.odd_line(chooser, boundaries)
    boundary = chooser.choice(boundaries)
    return b" ".join(chooser.choice([messages.multipart_field(chooser, boundary),
                                     messages.type_field(chooser, chooser.choice(messages.MESSAGES + messages.LEAVES))]))


class Writer:
    """Writes the lines of a script for a message."""

    def __init__(self, chooser, message, pieces, last=0.25):
        self.chooser, self.pieces, self.last = chooser, pieces, last
        self.sections = tree.sections(tree.document(message))
        multiparts = [section for section in self.sections if isinstance(section.entity.body, tree.Multi)]
        self.multiparts = [section.path for section in multiparts]
        self.boundaries = [section.entity.body.boundary for section in multiparts] + [b"b", b"c"]

    def fits(self, word, section):
        """Whether a word can say something of a section."""
        if word in OF_LEAVES + OF_MULTIPARTS:
            return isinstance(section.entity.body, tree.Leaf if word in OF_LEAVES else tree.Multi)
        if word == "remove":
            return section.path[:-1] in self.multiparts
        return bool(section.entity.fields) or word not in ("del", "ren", "set", "drop")

    def section(self, word):
        """A section, in most cases one of which the word can say something; None where there is none such."""
        fitting = [section for section in self.sections if self.fits(word, section)]
        if self.chooser.maybe(0.08):
            return self.chooser.choice(self.sections)
        if not fitting:
            return None
        return fitting[-1] if self.chooser.maybe(self.last) else self.chooser.choice(fitting)

    def path(self, section):
        odd = ODD_PATHS if self.chooser.maybe(0.07) else FAULTY_PATHS if self.chooser.maybe(0.004) else None
        return self.chooser.choice(odd) if odd else listing.written(section.path)

    def name(self, section):
        """The name of a field that is there, in most cases."""
        there = [fields.name(field) for field in section.entity.fields]
        odd = not there or self.chooser.maybe(0.1)
        return self.chooser.choice([b"A", b"content-type", b"Content-Type", b"Z", b"a\tb"] if odd else there)

    def number(self):
        return self.chooser.choice([b"1"] * 9 + [b"2", b"2", b"0", b"3", b"4294967295"])

    def piece(self):
        return b"%d" % self.chooser.randint(1, len(self.pieces))

    def rest(self, word, section):
        """What follows the path."""
        choose = self.chooser.choice
        if word in ("add", "top", "put"):
            return field_text(self.chooser, self.boundaries)
        if word == "drop":
            return self.name(section)
        if word == "encode":
            return choose([b"qp", b"quoted-printable", b"base64", b"8bit", b"identity"])
        if word == "attach":
            return choose(TYPES[:3] if self.chooser.maybe(0.8) else TYPES) + b" " + choose(FILES[:3] if self.chooser.maybe(0.8) else FILES) + b" " + self.piece()
        if word == "wrap":
            boundaries = messages.BOUNDARIES if self.chooser.maybe(0.1) else self.boundaries + [b"c", b"d", b"z z"]
            return choose(SUBTYPES[:6] if self.chooser.maybe(0.9) else SUBTYPES) + b" " + choose(boundaries)
        if word in OF_PIECES and word != "insert":
            return self.piece()
        if word == "insert":
            return choose([b"0", b"0", b"1", b"1", b"2", b"3"]) + b" " + self.piece()
        found = self.name(section) + b" " + self.number()
        if word == "ren":
            new = choose([b"B", b"Content-Type", b"X-Long", b"--b", b"A", b"a:b", b"\xff", b"From", b"content-transfer-encoding"])
            return found + b" " + new
        return found + (b" " + field_text(self.chooser, self.boundaries) if word == "set" else b"")

    def line(self, inside):
        word = self.chooser.weighted(WORDS[:-2] if inside else WORDS)
        if word in ("undo", "redo"):
            return word.encode()
        if word in OF_PIECES and not self.pieces:
            word = "remove"
        section = self.section(word)
        if section is None:
            return self.line(inside)
        words = [word.encode(), self.path(section)]
        if word == "remove":
            others = [self.path(self.section(word) or section) for _ in range(self.chooser.choice([0, 0, 1, 2]))]
            return b" ".join(words + others)
        return b" ".join(words + [self.rest(word, section)])


def some_pieces(chooser, message):
    """Files of pieces by their names, some with lines that are marks of the message."""
    boundaries = Writer(chooser, message, []).boundaries
    return {b"p%d" % number: messages.piece(chooser, boundaries) for number in range(chooser.choice([0, 1, 2, 2, 3]))}


def script_lines(chooser, message, pieces):
    """Lines of words, groups and comments, now and then with a fault."""
    writer, found, inside = Writer(chooser, message, pieces), [], False
    for _ in range(chooser.choice([0, 1, 2, 3, 4, 5, 6, 9])):
        if chooser.maybe(0.3 if inside else 0.15):
            found.append(b"end" if inside else b"begin")
            inside = not inside
        elif chooser.maybe(0.05):
            found.append(chooser.choice([b"", b"# x", b"#"]))
        else:
            found.append(writer.line(inside).replace(b"\n", b" "))
    found += [b"end"] if inside and chooser.maybe(0.93) else []
    for _ in range(chooser.weighted([(0, 30), (1, 1), (2, 1)])):
        found = [line for line in found if line != b"end"] if chooser.maybe(0.2) else found
        found.insert(chooser.randint(0, len(found)), chooser.choice(FAULTY_LINES))
    return found


def script(chooser, message, pieces):
    """A script as a file, its lines of one ending, the last perhaps of none."""
    ending = chooser.choice([b"\n", b"\n", b"\n", b"\r\n"])
    text = ending.join(script_lines(chooser, message, pieces))
    return text + (ending if text and chooser.maybe(0.8) else b"")


def first_version(journal):
    """The same history in version 1, where each splice is a step."""
    _, done, steps = journals.parsed(journal)
    return journal_text(None, len(sum(steps[:done], [])), steps)


def with_other_number(chooser, journal):
    """A journal of which one number is another."""
    found = chooser.choice(list(re.finditer(rb"[0-9]+", journal)))
    old = int(found.group()[:20])
    new = chooser.choice([b"%d" % (old + 1), b"%d" % max(0, old - 1), b"0" + found.group()] + LIMITS)
    return journal[:found.start()] + new + journal[found.end():]


def with_other_byte(chooser, text):
    """A text with a byte more, fewer, or another."""
    at = chooser.randrange(len(text) + 1)
    return text[:at] + chooser.choice([b"", b"0", b"x", b"\n", b" ", b"\r"]) + text[at + chooser.randint(0, 1):]


def with_other_step(chooser, journal):
    """A journal of good form of which a splice, the order or the count of what is done is another."""
    digest, done, steps = journals.parsed(journal)
    splices = [(step, at) for step in steps for at in range(len(step))]
    way = chooser.choice(["place", "old", "new", "order", "done", "lose"] if splices else ["done"])
    step, at = chooser.choice(splices) if splices else ([], 0)
    if way in ("place", "old", "new"):
        place, old, new = step[at]
        step[at] = {"place": (max(0, place + chooser.choice([-1, 1, 10 ** 19])), old, new),
                    "old": (place, with_other_byte(chooser, old), new),
                    "new": (place, old, with_other_byte(chooser, new))}[way]
    if way == "order":
        chooser.shuffle(steps)
        chooser.shuffle(step)
    if way == "lose":
        del step[at]
    done = chooser.randint(0, len(steps)) if way == "done" else done
    return journal_text(digest, done, steps)


def journal_text(digest, done, steps):
    """A journal of version 2, or of version 1 where there is no digest."""
    counts = b"%d %d\n" % (done, len(steps) - done)
    if digest is None:
        steps = [[splice] for step in steps for splice in step]
        counts = b"%d %d\n" % (min(done, len(steps)), len(steps) - min(done, len(steps)))
    head = b"mimejournal 1\n" if digest is None else b"mimejournal 2\n%s\n" % digest
    return head + counts + b"".join((b"%d\n" % len(step) if digest else b"") +
                                    b"".join(journals.entry_text(*splice) for splice in step) for step in steps)


def spoiled(chooser, journal):
    """A journal with a fault, or without one."""
    way = chooser.weighted([("as it is", 10), ("cut", 1), ("byte", 2), ("more", 1), ("number", 2), ("large", 0.5), ("step", 6)])
    if way == "cut":
        return journal[:chooser.randrange(len(journal) + 1)]
    if way == "byte":
        return with_other_byte(chooser, journal)
    if way == "more":
        return journal + chooser.choice([b"\n", b"x", b"0 0 0\n\n", b"0\n"])
    if way == "number":
        return with_other_number(chooser, journal)
    if way == "step":
        return with_other_step(chooser, journal)
    return journal.upper() if way == "large" else journal


def drawn_splice(chooser, text, backwards):
    """A splice that fits a text, and the text that it leads to, in that direction."""
    place = chooser.randint(0, len(text))
    there, other = text[place:place + chooser.randint(0, 4)], bytes(chooser.choice(b"A: b\n\r-") for _ in range(chooser.randint(0, 3)))
    left = text[:place] + other + text[place + len(there):]
    return ((place, other, there) if backwards else (place, there, other)), left


def drawn_steps(chooser, text, backwards):
    """Steps of splices that fit a text, one after the other in that direction."""
    steps = []
    for _ in range(chooser.randint(0, 3)):
        step = []
        for _ in range(chooser.choice([0, 1, 1, 1, 2, 3])):
            splice, text = drawn_splice(chooser, text, backwards)
            step.append(splice)
        steps.append(step[::-1] if backwards else step)
    return steps[::-1] if backwards else steps


def drawn_journal(chooser, text):
    """A journal of version 2 that fits a text, of steps that no edit made."""
    done, undone = drawn_steps(chooser, text, True), drawn_steps(chooser, text, False)
    return journal_text(hashlib.sha256(text).hexdigest().encode(), len(done), done + undone)
