"""The command line: which words mean what, and how a run ends."""

import os
import re
from collections import namedtuple

from . import letters, listing, names, packing, scripts, wording

Run = namedtuple("Run", "words message files")            # files: a dictionary of names and bytes
Answer = namedtuple("Answer", "status output errors files loose", defaults=(False,))

OPTIONS = {
    b"sections": (b"--from",), b"extract": (b"-s", b"--from"), b"unpack": (b"-C", b"--from"),
    b"field": (b"--sub", b"--drop", b"--keep", b"--keep-only", b"--rename", b"-a", b"-A", b"-i", b"-I", b"-u", b"-U", b"-x", b"-X", b"-p", b"--mbox", b"--from"),
    b"edit": (b"-j", b"-e", b"--from"), b"undo": (b"-j", b"--from"), b"redo": (b"-j", b"--from"), b"pack": (b"-b", b"--forward"),
}
FLAGS = {b"unpack": (b"-f", b"-t", b"--silent", b"--utf8", b"--number", b"--messages", b"--prefix", b"--content-id"), b"field": (b"-s", b"--unfold", b"--decode", b"--addresses", b"--encode", b"--eol", b"--refused-ok"),
         b"pack": (b"--utf8",), b"edit": (b"--all", b"--eol", b"--explain")}
AGAIN = {b"edit": (b"-e",), b"pack": (b"--forward",), b"field": (b"--sub", b"--drop", b"--keep", b"--keep-only", b"--rename", b"-a", b"-A", b"-i", b"-I", b"-u", b"-U", b"-x", b"-X")}
HOW = (b"any", b"field")                                  # --mbox=date isn't in the plain program
NEEDED = {b"extract": b"-s", b"undo": b"-j", b"redo": b"-j", b"pack": b"-b"}


class Usage(Exception):
    """A command line that isn't of the program's form."""


class ReadFault(Exception):
    """A file that can't be read."""


def asked(words):
    """A command, options with a value, flags, and other words; most options are given once (own)."""
    command, waiting, found, others = words[0], list(words[1:]), {}, []
    again = AGAIN.get(command, ())
    while waiting:
        word = waiting.pop(0)
        if word == b"--":
            others, waiting = others + waiting, []
        elif word in OPTIONS[command]:
            if not waiting or (word in found and word not in again):
                raise Usage
            found.setdefault(word, []).append(waiting.pop(0))
            found.setdefault("order", []).append((word.decode(), found[word][-1]))
        elif word in FLAGS.get(command, ()):
            if word in found:
                raise Usage
            found[word] = True
        elif word.startswith(b"-") and word != b"-":
            raise Usage
        else:
            others.append(word)
    if NEEDED.get(command, b"") not in found and command in NEEDED:
        raise Usage
    return command, {word: value[0] if isinstance(value, list) and word not in again and word != "order" else value
                     for word, value in found.items()}, others


def file_of(files, name):
    """A file that isn't there can't be read (own)."""
    if name not in files:
        raise ReadFault
    return files[name]


def letters_given(found):
    """`field` takes its letters with their words in the order of the command line (own)."""
    return [(letter, word) for letter, word in found.get("order", []) if letter in letters.EDITING + letters.BY_NAMES + letters.BY_RULES + letters.PRINTING]


def are_letters_valid(found):
    """`--unfold`, `--decode` and `--addresses` are for `-x`, the last without the others, `--encode` and `--eol` for letters that take a field, `-p` takes a path, and `--mbox` is for `-s` (own)."""
    if listing.path_of(found.get(b"-p", b"1")) is None:
        return False
    if b"--mbox" in found and (found[b"--mbox"] not in HOW or b"-s" not in found):
        return False
    if b"--addresses" in found and (b"--unfold" in found or b"--decode" in found):
        return False
    given = letters_given(found)
    shapes, adds = any(flag in found for flag in letters.SHAPES), any(letter in letters.WITH_FIELDS for letter, _ in given)
    forms = any(flag in found for flag in letters.FORMS)
    if b"--encode" in found and not all(wording.takes_words(word) for letter, word in given if letter in letters.WITH_FIELDS):
        return False
    return letters.are_allowed(given) and (not shapes or b"-x" in found) and (not forms or adds)


def are_valid(command, found, others):
    """Whether the words of a command are what it takes; this is asked before any file is read (own)."""
    if command == b"edit":
        return all(b"\n" not in line for line in found.get(b"-e", [])) and (b"-e" in found or bool(others))
    if command == b"pack":
        return bool(others or b"--forward" in found) and all(others)
    if command == b"extract" and listing.path_of(found[b"-s"]) is None:
        return False
    if command == b"field" and not are_letters_valid(found):
        return False
    return not others


def run_edit(command, found, others, message, files):
    """`edit` takes a script from a file or the command line, `undo` and `redo` are scripts of one word (own)."""
    journal = found.get(b"-j")
    if command != b"edit":
        script, pieces = command, []
    elif b"-e" in found:
        script, pieces = b"".join(line + b"\n" for line in found[b"-e"]), others
    else:
        script, pieces = file_of(files, others[0]), others[1:]
    given = [file_of(files, name) for name in pieces]
    output, errors, status, left = scripts.run(message, script, given, files.get(journal), journal is not None, b"--all" in found,
                                                b"--eol" in found, b"-e" in found or b"--explain" in found)
    return output, errors, status, {**files, journal: left} if left is not None else files


def run_unpack(found, message, files):
    """`unpack` writes below its folder; what else is there stays (own)."""
    folder = found[b"-C"] + b"/" if b"-C" in found else b""
    there = {name[len(folder):]: text for name, text in files.items()
             if name.startswith(folder) and b"/" not in name[len(folder):]}
    output, errors, status, left = names.unpack(message, there, found)
    return output, errors, status, {**files, **{folder + name: text for name, text in left.items()}}


def type_of(path):
    """The media type of a file by its ending, from the table of the page (own)."""
    with open(os.path.join(os.path.dirname(__file__), "..", "..", "docs", "FORMATS.md"), encoding="utf-8") as page:
        table = page.read().split("### Types of files")[1].split("\n## ")[0]
    rows = re.findall(r"^\| `(\S+)` \| (.*) \|$", table, re.M)
    types = {ending: media for media, endings in rows for ending in re.findall(r"`(\w+)`", endings)}
    name = path.split(b"/")[-1]
    ending = name.rpartition(b".")[2].lower().decode("latin-1") if b"." in name else ""
    return types.get(ending, "application/octet-stream").encode()


def run_pack(found, others, message, files):
    """Each part is a file, after its type and a colon or without, and before an equals sign and a name where there is no file of
    the whole word; a name is what follows the last slash. Each message is a file (own)."""
    parts = []
    for word in others:
        media, colon, name = word.partition(b":") if b":" in word else (None, b"", word)
        path, equals, other = name.rpartition(b"=")
        path, name = (path, other) if equals and name not in files else (name, name)
        parts.append((type_of(path) if media is None else media, name.split(b"/")[-1], file_of(files, path)))
    messages = [file_of(files, name) for name in found.get(b"--forward", [])]
    return packing.run(message, found[b"-b"], parts, b"--utf8" in found, messages)


def obeyed(run):
    """What a run prints, how it ends, and the files afterwards (own)."""
    command, found, others = asked(run.words)
    if not are_valid(command, found, others):
        raise Usage
    message = file_of(run.files, found[b"--from"]) if b"--from" in found else run.message
    if command in (b"edit", b"undo", b"redo"):
        return run_edit(command, found, others, message, run.files)
    if command == b"unpack":
        return run_unpack(found, message, run.files)
    if command == b"sections":
        plain = listing.listing(message), b"", 0
    elif command == b"extract":
        plain = listing.extract(message, found[b"-s"])
    elif command == b"field":
        plain = letters.run(message, letters_given(found), [flag for flag in found if found[flag] is True],
                            listing.path_of(found.get(b"-p", b"1")), found.get(b"--mbox", b"any"))
    else:
        plain = run_pack(found, others, message, run.files)
    return *plain, run.files


def answer(run):
    """How a run ends; of a fault, of a script too, the errors end with its line, of a usage fault the status counts alone (own)."""
    try:
        for word in run.words:
            word.decode()
        output, errors, status, files = obeyed(run)
    except (Usage, UnicodeDecodeError):
        return Answer(2, b"", b"", run.files, True)
    except ReadFault:
        return Answer(3, b"", b"mimetool: read fault\n", run.files, True)
    return Answer(status, output, errors, files, status == 2)
