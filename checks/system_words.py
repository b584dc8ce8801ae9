"""Invalid words beside files that can't be read or written: the words are told, whatever the files are."""

from common import FOLDER, make, names
from usage_rows import APART, BESIDE, IN_PLACE, VALUES, WITH_FROM

NO_SCRIPT = "give a SCRIPT, or its lines, each with -e"


def faults():
    """Command lines that are invalid, and what is said of each."""
    for words, argument, value, takes in VALUES:
        yield words, f"error: invalid value '{value}' for '{argument}': {takes}\n"
    for words in BESIDE:
        yield ["field", *words], f"error: {APART}\n"
    yield ["edit"], f"error: {NO_SCRIPT}\n"
    yield ["extract"], "error: the following required arguments were not provided:\n  -s <PATH>\n"
    for command in ("undo", "redo"):
        yield [command], "error: the following required arguments were not provided:\n  -j <JOURNAL>\n"
    yield ["pack", "-b", "b"], "error: the following required arguments were not provided:\n  <SPEC>...\n"
    yield ["pack", "-b", "b", "text/plain:none", ""], "error: invalid value '' for '<SPEC>...': write FILE or TYPE:FILE, such as image/gif:dot.gif\n"
    yield ["edit", "none", "-Z"], "error: unexpected argument '-Z' found\n"


def beside(words):
    """The same command lines with files that are missing, that are folders, or that can't be made."""
    command = words[0]
    yield words
    if command in WITH_FROM:
        yield [*words, "--from", "none"]
        yield [*words, "--from", "d"]
        yield [command, "--from", "none/f", *words[1:]]
    if command in IN_PLACE and "-x" not in words and "-X" not in words:
        yield [*words, "--in-place", "none"]
        yield [*words, "--in-place", "d"]
    if command == "edit":
        yield [*words, "-j", "d"]
        yield [*words, "-j", "none/j", "--from", "none"]
    if command == "unpack":
        yield [*words, "-C", ""]


def check_words(program):
    """The words are told first, nothing goes out, and no file is made."""
    folder = program.folder()
    make(folder, {"d": FOLDER})
    for words, sentence in faults():
        for line in beside(words):
            found = program.run(line, folder)
            start = found.stderr[:len(sentence.encode())]
            program.ended(f"an invalid word beside files: {line}", found, 2, None, sentence=(sentence.encode(), start),
                          files=(["d"], names(folder)))


CHECKS = [check_words]
