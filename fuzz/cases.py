"""The kinds of cases. A case is a generator of runs; it is sent what each run left."""

import messages
import scripts
from plain import fields, names, tree
from plain.program import Run

FIELDS = [b"A: 9", b"A:", b"A: ", b"B: 2", b"subject: x", b"SUBJECT:", b"Content-Type: text/html", b"Content-Type:", b"MIME-Version: 1.0",
          b"From: z", b"--b: c", b"A: b\n c", b"A : 9", b"X:\n ", b"Content-Transfer-Encoding: base64", b"content-type: message/rfc822",
          "X: \u00e9".encode(), b"A: b\r", b"From : q", b"A: =?", "Subject : \u00e4 \u20ac\t".encode(), "A: b\n \u00e9".encode(), b"A: b\r\n c\n d",
          "From: J\u00f6rg <j@x.org>".encode(), 'To: "\u00c4, B" <a@b>, c@d (B\u00fcro), G\u00fc: e@f, <g@h>;'.encode(), "Cc: \u00e4@b".encode(),
          'Content-Disposition: attachment; filename="\u00dc 1.txt"; size=3'.encode(), 'Content-Type: text/plain; name=\u00fc (c); x="a\\"\u00e4"'.encode(),
          "Message-ID: <a@b> (\u00e4 (b\\) c))".encode(), "Sender: (\u00e4 (b)) \u00e4(c)\u00e4 <c@d> (\u00fc".encode(), 'Content-Disposition: a; b="\u00e4" c'.encode(),
          ("B: " + "\u00e9" * 23).encode(), ("A:" + "a\u20ac\U0001d11e" * 12).encode(), b"A: " + b"long " * 50, b"X: a\tb"]
FAULTY_FIELDS = [b"", b"A", b"A: b\n", b" A: b", b"A: b\nB: c", b": x", b"A b: c", b"A: b\n\n", b"\n", b"-x"]
NAMES = [b"A", b"a", b"Subject", b"SUBJECT", b"Content-Type", b"From", b"--b", b"Old-A", b"Z", b"MIME-Version", b"Content-X", b"!"]
FAULTY_NAMES = [b"A", b"", b":", b"A::", b"A b:", b"A :", "\u00e9:".encode(), b"A:b"]
PATTERNS = [b"x", b"b", b"[a-z]+", b"^[ -~]", b"(t)(e)?", b"(?P<n>[0-9])", "\u00e9".encode(), b"=", b"\\/", b"[0-9]$", b"^$|b", b"text\\/plain", b"@", b"[,;]"]
REPLACEMENTS = [b"", b"y", b"$0$0", b"$1-$2", b"${n}", b"$$", "\u00e9\u00fc".encode(), b"=?x", b" ", b"\\/", b"<a@b>", b"text\\/html", b",", b"$9"]
FAULTY_RULES = [b"A:s/x/y", b"A:s/x", b"A:s//y/", b"A:s/x/y/gg", b"A:s/x/y/x", b"A b:s/x/y/", b":s/x/y/", b"A:s/(/y/", b"A:s/x/y\nz/", b"A:sx", b"A", b"A:~(", b":~x", b"A b:~x"]
FILES = [b"n.txt", b"d/n.txt", b"a b", b"x:y", b"n" * 100, b"d/d/x", b"-f", b'q"r', b"c\\d", "\u00e9".encode(), b"n" * 101, b"t\tx", b"~",
         ("\u00e9" * 60).encode(), ("\u00e9" * 127 + "a").encode(), ("d/\u65e5\u672c (1)%*'.txt").encode()]
MEDIA = [b"text/plain", b"Text/html", b"image/gif", b"application/octet-stream", b"message/rfc822", b"multipart/mixed", b"Message/x",
         b"text", b"", b"a/b/c", b"text /plain", b"x/" + b"y" * 98, b"x/" + b"y" * 99, b"text/plain;charset=x", b"TEXT/x"]
CONTENTS = [b"", b"hi\n", b"hi", b"-- \n", b"From here\n", b".\r\n..\n", b"x\t\n \n", b"a" * 75 + b" b\n", b"=\n", b"\r\n", b"\r", bytes(range(256)),
            b"a" * 76 + b"\n", b"a" * 77, b"a" * 74 + b"==", b"a" * 75 + b"\n-F.", (b"a" * 75 + b"-") * 2, b"a" * 73 + b"\xff\xff", b"\0" * 57,
            b"\0" * 58, b" " * 77, b"F" * 80 + b"\r\n"]


def from_file(chooser, run):
    """The run, now and then with its message from a file."""
    if not chooser.maybe(0.06):
        return run
    files = {**run.files, b"m": run.message} if chooser.maybe(0.9) else run.files
    return Run(run.words + [b"--from", b"m"], b"not this\n", files)


def sections(chooser):
    """`sections` of a message."""
    yield from_file(chooser, Run([b"sections"], messages.message(chooser), {}))


def extract(chooser):
    """`extract` of a section that is there, or isn't."""
    message = messages.message(chooser)
    there = [b".".join(b"%d" % number for number in section.path) for section in tree.sections(tree.document(message))]
    odd = scripts.ODD_PATHS + scripts.FAULTY_PATHS + [b"-1", b"1.1." + b"1." * 120 + b"1"]
    path = chooser.choice(there if chooser.maybe(0.9) else odd)
    yield from_file(chooser, Run([b"extract", b"-s", path], message, {}))


def there_before(chooser, message, folder):
    """Files that have the names of leaves, now and then all hundred of one."""
    found = [name for _, name in names.names(tree.document(message), True) if len(name) < 120]
    there = {folder + name: b"old" for name in found if chooser.maybe(0.2)}
    if found and chooser.maybe(0.15):
        name, most = chooser.choice(found), chooser.choice([1, 2, 98, 99, 99])
        there.update({folder + name + b".%d" % number: b"old" for number in range(1, most + 1)})
        there[folder + name] = b"old"
    return there


def unpack(chooser):
    """`unpack` into a folder with or without files."""
    message = messages.message(chooser)
    folder = chooser.choice([b"", b"d", b"d", b"d/e"])
    files = there_before(chooser, message, folder + b"/" if folder else b"") if chooser.maybe(0.6) else {}
    words = [b"unpack"] + ([b"-C", folder] if folder else [])
    options = ((b"-t", 0.6), (b"-f", 0.3), (b"--silent", 0.2), (b"--utf8", 0.5), (b"--number", 0.2), (b"--messages", 0.3),
               (b"--prefix", 0.4), (b"--content-id", 0.3))
    for flag, chance in options:
        words += [flag] if chooser.maybe(chance) and not (flag == b"--number" and b"-f" in words) else []
    yield Run(words, message, files)


def a_name(chooser, there):
    """The name of a field, in most cases of one that is there, in any case."""
    name = chooser.choice(there if there and chooser.maybe(0.6) else NAMES)
    return name.swapcase() if chooser.maybe(0.25) else name


def rule(chooser, name):
    """What follows the name of a rule: a pattern that removes fields, or a substitution."""
    pattern = chooser.choice(PATTERNS)
    if name == b"--drop":
        return b":~" + pattern
    return b":s/" + pattern + b"/" + chooser.choice(REPLACEMENTS) + b"/" + chooser.choice([b"", b"", b"g", b"i", b"gi", b"ig"])


def letter(chooser, name, there):
    """The words of a letter, for fields of the names that are there."""
    odd = chooser.maybe(0.03)
    if name == b"--rename":
        old = a_name(chooser, there)
        new = old.swapcase() if chooser.maybe(0.2) else a_name(chooser, there)
        return [name, chooser.choice(FAULTY_NAMES) if odd else old + b":" + new]
    if name == b"--sub" or (name == b"--drop" and chooser.maybe(0.2)):
        return [name, chooser.choice(FAULTY_RULES) if odd else a_name(chooser, there) + rule(chooser, name)]
    if name in (b"--drop", b"--keep", b"--keep-only"):
        dropped = a_name(chooser, there)
        front = dropped[:chooser.choice([1, 2, 4])] + b"*"
        return [name, chooser.choice(FAULTY_NAMES + [b"*:"]) if odd else (front if chooser.maybe(0.4) else dropped) + b":"]
    if name in (b"-u", b"-U", b"-x", b"-X"):
        return [name, chooser.choice(FAULTY_NAMES) if odd else a_name(chooser, there) + b":"]
    word = chooser.choice(FAULTY_FIELDS if odd else FIELDS)
    if there and not odd and chooser.maybe(0.5):
        word = a_name(chooser, there) + chooser.choice([b": x", b":", b":y", b": "])
    return [name, word + b" x" if word.endswith(b":") and name in (b"-a", b"-A") and chooser.maybe(0.9) else word]


def field(chooser):
    """`field` with letters, over a message or a mailbox."""
    each = chooser.maybe(0.5)
    text = messages.mailbox(chooser) if chooser.maybe(0.8 if each else 0.1) else messages.message(chooser)
    section = chooser.choice(tree.sections(tree.document(text))) if chooser.maybe(0.3) else tree.root(tree.document(text))
    there = [fields.name(named) for named in section.entity.fields]
    if chooser.maybe(0.2):
        chosen = [chooser.choice([b"-x", b"-X"])] * chooser.choice([1, 1, 1, 2, 3]) + chooser.some([b"-x", b"-X", b"-a"], 1)[:chooser.maybe(0.1)]
    else:
        every = [b"--sub", b"--drop", b"--keep", b"--keep-only", b"--rename", b"-a", b"-A", b"-i", b"-I", b"-u", b"-U"]
        chosen = chooser.sample(every, chooser.choice([0, 1, 1, 1, 2, 2, 3, 10]))
        for _ in range(chooser.choice([0, 0, 0, 1, 2, 4])):
            chosen.append(chooser.choice(every))
    words = [b"field"] + [word for name in chosen for word in letter(chooser, name, there)]
    for flag, chance in ((b"-s", each), (b"--decode", 0.4 if b"-x" in chosen else 0.02), (b"--unfold", 0.4 if b"-x" in chosen else 0.02), (b"--addresses", 0.2 if b"-x" in chosen else 0.02), (b"--refused-ok", 0.2), (b"--encode", 0.3 if chosen else 0.02),
                         (b"--eol", 0.3 if chosen else 0.02)):
        if chooser.maybe(chance):
            words.insert(chooser.choice([1, len(words)]), flag)
    if chooser.maybe(0.4 if each else 0.02):
        words[1:1] = [b"--mbox", chooser.choice([b"any", b"field", b"field", b"field"] if chooser.maybe(0.95) else [b"", b"fields"])]
    if len(section.path) > 1 or chooser.maybe(0.05):
        odd = scripts.ODD_PATHS + scripts.FAULTY_PATHS
        path = chooser.choice(odd) if chooser.maybe(0.05) else b".".join(b"%d" % number for number in section.path)
        words[1:1] = [b"-p", path]
    yield from_file(chooser, Run(words, text, {}))


def edits_alone(script):
    """A script without the lines that are no edits."""
    return b"".join(line for line in script.splitlines(True) if line.strip() not in (b"begin", b"end", b"undo", b"redo"))


def edit(chooser):
    """`edit` with a script from a file or the command line."""
    message = messages.message(chooser)
    pieces = scripts.some_pieces(chooser, message)
    as_one = chooser.maybe(0.2)
    edit_words = [b"edit"] + [flag for flag, chance in ((b"--all", as_one), (b"--eol", 0.2), (b"--explain", 0.2)) if chance is True or chooser.maybe(chance)]
    if chooser.maybe(0.85):
        script = scripts.script(chooser, message, list(pieces))
        files = {b"s": edits_alone(script) if as_one and chooser.maybe(0.9) else script, **pieces}
        yield from_file(chooser, Run(edit_words + [b"s"] + list(pieces), message, files))
        return
    given = [line.replace(b"\0", b"") for line in scripts.script_lines(chooser, message, list(pieces)) if not line.endswith(b"\r")]
    words = [word for line in given for word in (b"-e", line.decode("latin-1").encode() if chooser.maybe(0.98) else line)]
    yield from_file(chooser, Run(edit_words + words + list(pieces), message, pieces))


def deep(chooser):
    """`edit` of a line or two at the bottom of a message of a hundred levels or so."""
    message = messages.joined(chooser, messages.deep(chooser, [b"b"]))
    pieces = scripts.some_pieces(chooser, message)
    writer = scripts.Writer(chooser, message, list(pieces), 0.9)
    script = b"".join(writer.line(False) + b"\n" for _ in range(chooser.randint(1, 2)))
    if chooser.maybe(0.5) and writer.multiparts:
        pieces = {b"p0": messages.joined(chooser, messages.nested(chooser, 1))}
        script = b"insert " + b".".join(b"%d" % number for number in writer.multiparts[-1]) + b" 0 1\n"
    yield Run([b"edit", b"s"] + list(pieces), message, {b"s": script, **pieces})


def journal(chooser):
    """Runs that leave a journal, and runs that begin with what they left, spoiled or not."""
    text = messages.message(chooser, 3)
    left = None
    if chooser.maybe(0.3):
        left = scripts.drawn_journal(chooser, text)
    for _ in range(chooser.randint(1, 4)):
        if left is not None:
            left = scripts.first_version(left) if chooser.maybe(0.15) else left
            left = scripts.spoiled(chooser, left)
        pieces = scripts.some_pieces(chooser, text)
        files = {} if left is None else {b"J": left}
        if left is not None and chooser.maybe(0.6):
            run = Run([chooser.choice([b"undo", b"redo"]), b"-j", b"J"], text, files)
        else:
            written = scripts.script(chooser, text, list(pieces))
            run = Run([b"edit", b"-j", b"J", b"s"] + list(pieces), text, {**files, b"s": written, **pieces})
        found = yield run
        if found.status > 1 or b"J" not in found.files or found.errors.startswith(b"journal"):
            return
        text, left = chooser.choice([found.output] * 5 + [text]), found.files[b"J"]


def content(chooser):
    """The bytes of a file to be attached, some in lines about as long as an encoded line may be."""
    if chooser.maybe(0.5):
        return chooser.choice(CONTENTS)
    found = b""
    for _ in range(chooser.randint(1, 4)):
        size = chooser.choice([0, 1, 2, 70, 73, 74, 75, 76, 77, 150])
        odd = [bytes([chooser.choice(b"-.F= \t\r\xff\x00a")]) for _ in range(chooser.randint(0, 5))]
        found += b"".join([b"a" * size] + odd) + chooser.choice([b"\n", b"\r\n", b"\n", b""])
    return found


def forwarded(chooser, boundary):
    """A message to be forwarded, now and then with a From-line before it or a line that begins as a delimiter does."""
    text = chooser.choice([b"", b"", b"From a@b\n", b"From \xff\r\n", b"From: x\n"]) + messages.message(chooser)
    text += chooser.weighted([(b"", 8), (b"\r", 1), (b"\n", 1), (b"\xe9", 1)])
    return text + chooser.weighted([(b"", 12), (b"\n--" + boundary, 1), (b"\r\n--" + boundary + b"x\n", 1), (b"\n --" + boundary + b"\n", 1)])


def pack(chooser):
    """`pack` of files and messages after fields."""
    head = chooser.some(messages.FIELDS[:9] + [b" x"], 3) if chooser.maybe(0.8) else chooser.some(messages.FIELDS + messages.JUNK, 3)
    head += chooser.weighted([([], 8), ([b""], 6), ([b"", b""], 1), ([b"", b"x"], 1)])
    ending = chooser.choice([b"\n", b"\r\n"])
    text = ending.join(head) + chooser.choice([b"", ending])
    names_of_files = FILES[:7] if chooser.maybe(0.6) else FILES
    files = {chooser.choice(names_of_files): content(chooser) for _ in range(chooser.randint(1, 3))}
    media = MEDIA[:4] if chooser.maybe(0.85) else MEDIA
    specs = [chooser.choice(media) + b":" + chooser.choice(list(files)) for _ in range(chooser.choice([0] + [1, 2, 3] * 5))]
    specs = [spec if chooser.maybe(0.7) else spec.partition(b":")[2] for spec in specs]
    specs = [spec if chooser.maybe(0.8) else spec + chooser.choice([b"=", b"=n.txt", b"=a/b=c", b"=\xc3\xa4.pdf"]) for spec in specs]
    specs += [b"text/plain:none"] if chooser.maybe(0.02) else []
    boundary = chooser.choice([b"b", b"=_b", b"a b"] if chooser.maybe(0.8) else messages.BOUNDARIES + [b"-b", b"y" * 71])
    flags = [b"--utf8"] if chooser.maybe(0.5) else []
    given = {b"m%d" % number: forwarded(chooser, boundary) for number in range(chooser.choice([0, 0, 1, 2]))}
    names_given = list(given) + ([b"none"] if chooser.maybe(0.02) else [])
    flags += [word for name in names_given for word in (b"--forward", name)]
    yield Run([b"pack"] + flags + [b"-b", boundary, b"--"] + specs, text, {**files, **given})


KINDS = {kind.__name__: kind for kind in (sections, extract, unpack, field, edit, deep, journal, pack)}
WEIGHTS = {"sections": 3, "extract": 2, "unpack": 4, "field": 5, "edit": 10, "deep": 0.5, "journal": 5, "pack": 2}
