"""Scripts: their syntax, and what a run of one prints."""

from . import edits, jobs, journals, lines, listing, session

PATH_NUMBERS = 101
WORDS = {"add": 3, "top": 3, "del": 4, "ren": 5, "set": 5, "body": 3, "replace": 3, "insert": 4, "remove": 2, "wrap": 4,
         "content": 3, "encode": 3, "put": 3, "put-piece": 3, "drop": 3, "append": 3, "append-text": 3, "attach": 5}
REST = ("add", "top", "set", "wrap", "put")


class Fault(Exception):
    """A line that isn't of a script's form."""


def path(word):
    """A path in a script has at most 101 numbers (own)."""
    found = listing.path_of(word)
    if found is None or len(found) > PATH_NUMBERS:
        raise Fault
    return found


def number(word, least=0):
    """A number is 0 or has no leading zero, and is at most 4,294,967,295 (own)."""
    if not listing.is_number(word, least):
        raise Fault
    return int(word)


def piece(word, pieces):
    """A piece is given by its number, from 1 to their count (own)."""
    at = number(word, 1)
    if at > len(pieces):
        raise Fault
    return pieces[at - 1]


def word_of(given):
    """A name, a new name or a subtype isn't empty (own)."""
    if not given:
        raise Fault
    return given


def file_of(given):
    """The name of a file may hold spaces, but not at its ends (own)."""
    if given.strip(b" ") != given:
        raise Fault
    return word_of(given)


def name_of(given):
    """The name of fields may have its colon (RFC 5322, 2.2; own)."""
    name = given.removesuffix(b":")
    if not lines.is_name(name):
        raise Fault
    return name


def parts_of(content):
    """Words are parted by one space; the last of some is the rest of the line (own)."""
    word = content.split(b" ")[0].decode("latin-1")
    if word not in WORDS:
        raise Fault
    if word == "attach":
        front, _, piece = content.rpartition(b" ")
        found = front.split(b" ", WORDS[word] - 2) + [piece]
    else:
        found = content.split(b" ", WORDS[word] - 1) if word in REST else content.split(b" ")
    if len(found) != WORDS[word] and not (word == "remove" and len(found) > WORDS[word]):
        raise Fault
    return word, found[1:]


def job_of(word, given, pieces):
    """A word for edits which the document decides (own)."""
    if word == "remove":
        return jobs.Job(word, paths=tuple(map(path, given)))
    where = path(given[0])
    if word == "put":
        return jobs.Job(word, where, text=given[1])
    if word == "encode":
        if given[1] not in jobs.ENCODINGS:
            raise Fault
        return jobs.Job(word, where, name=given[1])
    if word == "drop":
        return jobs.Job(word, where, name=name_of(given[1]))
    if word == "attach":
        return jobs.Job(word, where, text=piece(given[3], pieces), name=file_of(given[2]), media=word_of(given[1]))
    text = piece(given[1], pieces)
    return jobs.Job(word, where, text=text, given=text, piece=int(given[1]))


def edit_of(content, pieces):
    """A line that names an edit, without the ending of its field (own)."""
    word, given = parts_of(content)
    if word in jobs.MEANINGS or word == "put-piece" or len(given) > 1 and word == "remove":
        return job_of(word, given, pieces)
    where = path(given[0])
    if word in ("add", "top"):
        return edits.Edit(word, where, text=given[1])
    if word == "remove":
        return edits.Edit(word, where)
    if word in ("body", "replace"):
        return edits.Edit(word, where, text=piece(given[1], pieces))
    if word == "insert":
        return edits.Edit(word, where, place=number(given[1]), text=piece(given[2], pieces))
    if word == "wrap":
        return edits.Edit(word, where, subtype=word_of(given[1]), boundary=given[2])
    name, at = word_of(given[1]), number(given[2])
    if word == "set":
        return edits.Edit(word, where, name=name, number=at, text=given[3])
    return edits.Edit(word, where, name=name, number=at, new=word_of(given[3]) if word == "ren" else b"")


def step_of(content, pieces, inside):
    """A line is a word alone or an edit; `begin`, `undo` and `redo` stand outside groups, `end` inside (own)."""
    if content == b"end" if inside else content in (b"begin", b"undo", b"redo"):
        return content.decode()
    return edit_of(content, pieces)


def parsed(script, pieces):
    """The steps of a script, each with its line number, or the number of the first faulty line (own): steps, fault."""
    steps, faults, begun = [], [], None
    for at, line in enumerate(lines.cut(script), 1):
        if line.content == b"" or line.content.startswith(b"#"):
            continue
        try:
            step = step_of(line.content, pieces, begun is not None)
        except Fault:
            faults.append(at)
            continue
        begun = at if step == "begin" else None if step == "end" else begun
        steps.append((at, step))
    faults += [begun] if begun else []
    return steps, min(faults) if faults else None


def parsed_as_one(script, pieces):
    """The same with each line an edit of one group (own)."""
    steps = []
    for at, line in enumerate(lines.cut(script), 1):
        if line.content == b"" or line.content.startswith(b"#"):
            continue
        try:
            steps.append((at, edit_of(line.content, pieces)))
        except Fault:
            return [], at
    return [(0, "begin")] + steps + [(0, "end")], None


def words_made(history, words, turned):
    """Words are made in turn as one step, or not at all; lines that are made get the ending of the text before them (own)."""
    ending = lines.ending_of(history.text())
    given = [(at, jobs.field_ended(jobs.turned(word, ending) if turned else word, ending)) for at, word in words]
    return history.words([(at, lambda document, word=word: jobs.meaning(word, document, ending)) for at, word in given])


def obey(history, steps, turned):
    """The lines are done in turn; a refused one is reported and the run goes on (own): the error lines."""
    errors, members = b"", None
    for at, step in steps:
        if step == "begin":
            members = []
        elif members is not None and step != "end":
            members.append((at, step))
        else:
            if step in ("undo", "redo"):
                reason = history.undo() if step == "undo" else history.redo()
                refused = reason and (at, reason)
            else:
                refused = words_made(history, members if step == "end" else [(at, step)], turned)
                members = None
            errors += b"line %d: %s\n" % (refused[0], refused[1].encode()) if refused else b""
    return errors


def told(steps):
    """A piece of `append` without an empty line is read as fields, which is said (own)."""
    rest = b"has no empty line, so its lines are read as fields; append-text takes them as text\n"
    appended = [(at, job) for at, job in steps if isinstance(job, jobs.Job) and job.word == "append" and job.text]
    return b"".join(b"script: line %d: piece %d " % (at, job.piece) + rest
                    for at, job in appended if all(line.content for line in lines.cut(job.text)))


def run(message, script, pieces, journal=None, journaled=False, as_one=False, turned=False, explained=False):
    """Syntax, journal, lines, message, journal, in this order (own): output, errors, status, journal."""
    steps, fault = (parsed_as_one if as_one else parsed)(script, pieces)
    if fault:
        return b"", b"script: line %d: syntax\n" % fault, 2, journal
    notes = told(steps) if explained else b""
    try:
        history = session.Session(message) if journal is None else journals.loaded(message, journal)
    except journals.Refused as reason:
        return b"", notes + b"journal: " + str(reason).encode() + b"\n", 1, journal
    errors = obey(history, steps, turned)
    return history.text(), notes + errors, 1 if errors else 0, journals.saved(history) if journaled else None
