"""Command lines that are invalid as they stand, and what is said of each. The words are those of clap."""

A_TEXT = "write a name, a colon and a text on one line, such as 'Subject:[list] '"
A_PAIR = "write two names with a colon between them, such as Subject:X-Subject"
A_FIELD = "write a name, a colon and a value, such as 'X-Seen: yes'"
A_FIELD_OR_NAME = A_FIELD + ", or a name and a colon alone, such as X-Seen:"
A_NAME = "write a name and a colon, such as Subject:"
A_NAME_OR_FRONT = A_NAME + ", or with an asterisk before the colon, such as X-*:"
A_NAME_FRONT_OR_PATTERN = A_NAME_OR_FRONT + ", or with a pattern after it, such as 'Subject:~^Re: '"
A_SUBSTITUTION = "write a name, a colon and a substitution, such as 'Subject:s/^Re: //', with g and i after it for each match and for both cases"
A_PATH = "write numbers from 1 with dots between them, such as 1.2"
A_SPEC = "write FILE or TYPE:FILE, such as image/gif:dot.gif"
A_TEMPLATE = "write the name of a file in ASCII, with one %d or %04d for the number"
SECONDS = "write a whole number of seconds, from 0 to 4294967295"
APART = "-x and -X print fields, so neither goes with another letter"

COMMANDS = ["edit", "undo", "redo", "journal", "sections", "extract", "unpack", "pack", "field", "reply", "check", "messages", "split"]
WITH_FROM = [command for command in COMMANDS if command not in ("journal", "pack")]
IN_PLACE = ["edit", "undo", "redo", "field"]

# What a command needs beside the words that a row is about.
NEEDED = {
    "edit": ["-e", "undo"], "undo": ["-j", "j"], "redo": ["-j", "j"], "journal": ["-j", "j"], "sections": [], "extract": ["-s", "1"], "unpack": [],
    "pack": ["-b", "b", "text/plain:f"], "field": [], "reply": [], "check": [], "messages": [], "split": [],
}

# Each option that takes a value, with a value that it takes.
OPTIONS = {
    "edit": {"-j <JOURNAL>": "j", "-e <LINE>": "undo"},
    "undo": {"-j <JOURNAL>": "j"},
    "redo": {"-j <JOURNAL>": "j"},
    "journal": {"-j <JOURNAL>": "j"},
    "sections": {},
    "extract": {"-s <PATH>": "1"},
    "unpack": {"-C <DIR>": "d", "-s <PATH>": "1"},
    "pack": {"-b <BOUNDARY>": "b", "-m <SUBTYPE>": "related", "--charset <NAME>": "utf-8", "--forward <FILE>": "f"},
    "field": {
        "--prepend <NAME:TEXT>": "A:b", "--sub <NAME:s/OLD/NEW/>": "A:s/b/c/", "--drop <NAME:>": "A:", "--keep <NAME:>": "A:", "--keep-only <NAME:>": "A:", "--rename <OLD:NEW>": "A:B", "-a <FIELD>": "A: 1", "-A <FIELD>": "A: 1", "-i <FIELD>": "A: 1", "-I <FIELD>": "A: 1",
        "-u <NAME:>": "A:", "-U <NAME:>": "A:", "-x <NAME:>": "A:", "-X <NAME:>": "A:", "-j <JOURNAL>": "j", "-D <FILE>": "f",
    },
    "reply": {},
    "check": {},
    "messages": {"--mbox <HOW>": "date"},
    "split": {"--name <TEMPLATE>": "%d", "-C <DIR>": "d", "--mbox <HOW>": "date"},
}
for command in WITH_FROM:
    OPTIONS[command]["--from <FILE>"] = "f"
for command in IN_PLACE:
    OPTIONS[command]["--in-place <FILE>"] = "f"

FLAGS = {
    "edit": ["--each"], "undo": ["--all"], "redo": ["--all"], "sections": ["--json", "-H", "--each"], "extract": ["--raw", "--head", "--prefix", "--each"], "unpack": ["-f", "--number", "-t", "--messages", "--prefix", "--silent", "--paths", "--utf8", "--content-id", "--each"],
    "pack": ["--inline", "--utf8"], "field": ["-H", "--each"], "check": ["--json", "-H"], "messages": ["--unique", "--json", "-H"],
    "split": ["-f", "--silent", "--maildir", "--bare", "--unquote"],
}
for command in IN_PLACE:
    FLAGS[command] = [*FLAGS.get(command, []), "--tempfail"]

# Values that a command's argument doesn't take: the words, the argument, the value, and what should stand there.
VALUES = [
    *[(["extract", "-s", value], "-s <PATH>", value, A_PATH)
      for value in ("", "0", "1.0", "01", "1.01", "1.", ".1", "1..2", "-1", "1,2", "a", " 1", "1 ", "1.4294967296", "1\n")],
    *[(["unpack", "-s", "1", "-s", value], "-s <PATH>", value, A_PATH) for value in ("", "0", "1.", "-1", "a")],
    (["pack", "-b", "b", ""], "<SPEC>...", "", A_SPEC),
    (["pack", "-b", "b", "text/plain:f", ""], "<SPEC>...", "", A_SPEC),
    (["pack", "--part", ""], "--part <SPEC>", "", A_SPEC),
    *[(["split", "--name", value], "--name <TEMPLATE>", value, A_TEMPLATE)
      for value in ("", "m.eml", "%", "%%d", "%d%d", "%4d", "%0d", "%00d", "%s", "../%d", "a/%d", ".%d", "-%d", "%d\n", "\xe9%d")],
    *[(["field", "--rename", value], "--rename <OLD:NEW>", value, A_PAIR)
      for value in ("", "AB", ":", "A:", ":B", "A:B C", "A B:C", "A:B:C", "A: B")],
    *[(["field", letter, value], f"{letter} <FIELD>", value, A_FIELD)
      for letter in ("-a", "-A") for value in ("", "x", "A:", "A: ", "A: \t", ": x", "A b: c", "A: b\n", "A: b\nC: d")],
    *[(["field", letter, value], f"{letter} <FIELD>", value, A_FIELD_OR_NAME)
      for letter in ("-i", "-I") for value in ("", "x", ":", ": x", "A b: c", "A: b\n", "A: b\nC: d")],
    *[(["field", "--prepend", value], "--prepend <NAME:TEXT>", value, A_TEXT)
      for value in ("", "A", ":", "A:", "A: ", "A:\t", ":b", "A b:c", "A:b\nc", "A:b\r")],
    *[(["field", "--sub", value], "--sub <NAME:s/OLD/NEW/>", value, A_SUBSTITUTION)
      for value in ("", "A", "A:", "A:s", "A:s/b", "A:s/b/c", "A:s//c/", "A:s/b/c/gg", "A:s/b/c/ii", "A:s/b/c/x", "A:s/b/c/g ", "A b:s/b/c/", ":s/b/c/", "A: s/b/c/", "A:S/b/c/",
                    "A:s,b,c,", "A:s/b\\/c/", "A:s/b/c\\/", "A:s/b/c\nd/", "A:~b")],
    *[(["field", "--drop", value], "--drop <NAME:>", value, A_NAME_FRONT_OR_PATTERN) for value in (":~b", "A b:~b", "A: ~b")],
    *[(["field", letter, value], f"{letter} <NAME:>", value, A_NAME_FRONT_OR_PATTERN if letter == "--drop" else A_NAME_OR_FRONT)
      for letter in ("--drop", "--keep", "--keep-only") for value in ("", "A", ":", "A: b", "A b:", "A:B:", "*:", "*", "A b*:", "A*")],
    (["field", "--drop", "A:", "--drop", "B"], "--drop <NAME:>", "B", A_NAME_FRONT_OR_PATTERN),
    (["field", "-u", "A", "--drop", "B"], "--drop <NAME:>", "B", A_NAME_FRONT_OR_PATTERN),
    (["field", "-A", "A: 1", "-A", "x"], "-A <FIELD>", "x", A_FIELD),
    *[(["field", letter, value], f"{letter} <NAME:>", value, A_NAME)
      for letter in ("-u", "-U", "-x", "-X") for value in ("", "A", ":", "A: b", "A b:", "A:B:")],
    (["field", "-A", "A: 1", "-I", "x y"], "-I <FIELD>", "x y", A_FIELD_OR_NAME),
    (["field", "-x", "A:", "-I", "x"], "-I <FIELD>", "x", A_FIELD_OR_NAME),
    (["field", "-U", "x", "-a", "y", "--rename", "z"], "--rename <OLD:NEW>", "z", A_PAIR),
    *[([*words, f"--wait={value}"], "--wait[=<SECONDS>]", value, SECONDS)
      for words in (["edit", "-e", "undo"], ["undo", "-j", "j"], ["redo", "-j", "j"], ["field"])
      for value in ("", "x", "-1", "+1", "1.5", "1s", " 1", "4294967296", "99999999999999999999")],
]

# Letters that don't stand beside each other.
BESIDE = [
    ["-x", "A:", "-X", "A:"],
    ["-x", "A:", "-x", "B:", "-X", "A:"],
    *[[letter, "A:", *other] for letter in ("-x", "-X") for other in (
        ["--prepend", "A:b"], ["--sub", "A:s/b/c/"], ["--drop", "A:~b"], ["--drop", "A:"], ["--keep", "A:"], ["--keep-only", "A:"], ["--rename", "A:B"], ["-a", "A: 1"], ["-A", "A: 1"], ["-i", "A: 1"], ["-I", "A: 1"], ["-u", "A:"], ["-U", "A:"])],
]

# Other command lines, and all that has to be said of each.
SAID = [
    ("no command", [], ["requires a subcommand", "Usage: mimetool"]),
    ("an unknown command", ["list"], ["unrecognized subcommand 'list'", "Usage: mimetool"]),
    ("a command in capitals", ["Edit"], ["unrecognized subcommand 'Edit'", "Usage: mimetool"]),
    ("an empty word for a command", [""], ["Usage: mimetool"]),
    ("an unknown option before a command", ["-x"], ["unexpected argument '-x' found", "Usage: mimetool"]),
    ("an option of a command before it", ["--from", "f", "sections"], ["unexpected argument '--from' found", "Usage: mimetool"]),
    ("edit alone", ["edit"], ["SCRIPT", "-e", "Usage: mimetool edit"]),
    ("edit with a journal alone", ["edit", "-j", "j"], ["SCRIPT", "-e", "Usage: mimetool edit"]),
    ("edit with a message alone", ["edit", "--from", "f"], ["SCRIPT", "-e", "Usage: mimetool edit"]),
    ("edit --in-place alone", ["edit", "--in-place", "f"], ["SCRIPT", "-e", "Usage: mimetool edit"]),
    ("undo without a journal", ["undo"], ["required arguments were not provided", "-j <JOURNAL>", "Usage: mimetool undo"]),
    ("redo without a journal", ["redo"], ["required arguments were not provided", "-j <JOURNAL>", "Usage: mimetool redo"]),
    ("journal without a journal", ["journal"], ["required arguments were not provided", "-j <JOURNAL>", "Usage: mimetool journal"]),
    ("a message beside a journal", ["journal", "-j", "j", "--from", "f"], ["unexpected argument '--from' found", "Usage: mimetool journal"]),
    ("extract without a path", ["extract"], ["required arguments were not provided", "-s <PATH>", "Usage: mimetool extract"]),
    ("pack without all", ["pack"], ["required arguments were not provided", "<SPEC>...", "Usage: mimetool pack"]),
    ("pack without parts", ["pack", "-b", "b"], ["required arguments were not provided", "<SPEC>...", "Usage: mimetool pack"]),
    ("a multipart around a part alone", ["pack", "-m", "digest", "--part", "text/plain:f"],
     ["cannot be used with", "-m <SUBTYPE>", "--part <SPEC>", "Usage: mimetool pack"]),
    ("a message beside a part alone", ["pack", "--part", "text/plain:f", "--forward", "f"],
     ["cannot be used with", "--forward <FILE>", "--part <SPEC>", "Usage: mimetool pack"]),
    ("a piece that begins with a hyphen", ["edit", "-e", "undo", "-m"], ["unexpected argument '-m' found", "Usage: mimetool edit"]),
    ("--json with a value", ["sections", "--json=1"], ["--json", "Usage: mimetool sections"]),
    ("--json of another command", ["unpack", "--json"], ["unexpected argument '--json' found", "Usage: mimetool unpack"]),
    ("--utf8 without --json", ["sections", "--utf8"], ["--utf8 goes only with --json", "Usage: mimetool sections"]),
    ("a line feed in a line of a script", ["edit", "-e", "undo\nx"],
     ['invalid value "undo\\nx" for \'-e <LINE>\'', "write one line, and use -e again for each further line", "Usage: mimetool edit"]),
    ("a line feed after a line of a script", ["edit", "-e", "undo", "-e", "undo\n", "-j", "none/j"], ['invalid value "undo\\n"', "Usage: mimetool edit"]),
    ("seconds without an equals sign", ["field", "--wait", "5"], ["unexpected argument '5' found", "write '--wait=5'", "Usage: mimetool field"]),
    ("--tempfail with a value", ["undo", "-j", "j", "--tempfail=75"], ["--tempfail", "Usage: mimetool undo"]),
    ("a file for sections", ["sections", "f"], ["unexpected argument 'f' found", "tip: to read the message from a file, write '--from f'", "Usage: mimetool sections"]),
    ("a journal of several files", ["edit", "-e", "undo", "-j", "j", "--in-place", "f", "--in-place", "g"], ["-j goes with one file", "Usage: mimetool edit"]),
    *[(f"a journal of several messages in {words}", ["field", "-j", "j", *words.split()], ["-j goes with one file", "Usage: mimetool field"])
      for words in ("--in-place f --in-place g", "--in-place f g", "--from f g")],
    *[(f"-H of {command} without a file", [command, *words, "-H"], ["-H goes only with --from", f"Usage: mimetool {command}"])
      for command, words in (("sections", []), ("field", ["-x", "A:"]), ("check", []), ("messages", []))],
    ("--addresses without -x", ["field", "--addresses", "-X", "A:"], ["--addresses is for the values that -x prints", "Usage: mimetool field"]),
    ("-H without -x", ["field", "-H", "-A", "A: 1", "--from", "f"], ["-H goes only with -x or -X", "Usage: mimetool field"]),
    ("a file for redo", ["redo", "-j", "j", "f"], ["unexpected argument 'f' found", "'--from f'", "'--in-place f'", "Usage: mimetool redo"]),
    *[(f"{words[0]} of formail", ["field", *words], [f"unexpected argument '{words[0]}' found", tip, "Usage: mimetool field"]) for words, tip in (
        (["-R", "A", "B"], "write '--rename OLD:NEW'"), (["-c", "-x", "A:"], "write '--unfold' with -x"), (["-z"], "'--unfold' with -x"),
        (["-k"], "the body is always kept"), (["-r"], "write 'mimetool reply'"))],
    ("-D of formail, with a length", ["field", "-D", "99", "f"], ["unexpected argument 'f' found", "Usage: mimetool field"]),
    ("-D of one message in place", ["field", "-D", "f", "--in-place", "g"], ["-D goes with --in-place only where -s is there", "Usage: mimetool field"]),
    ("a letter in capitals", ["field", "--Rename", "A:B"], ["unexpected argument '--Rename' found", "Usage: mimetool field"]),
]

# Words that stand where none is taken.
SUPERFLUOUS = {"undo": "w", "redo": "w", "journal": "w", "sections": "1", "extract": "1", "unpack": "n", "field": "A: 1", "reply": "m", "check": "m", "messages": "m", "split": "m"}

# Options that exclude each other, of a command that has both.
EXCLUDED = [
    *[(command, ["--in-place", "f", "--from", "f"], ["--in-place <FILE>", "--from <FILE>"]) for command in IN_PLACE],
    ("field", ["--in-place", "f", "-x", "A:"], ["--in-place <FILE>", "-x <NAME:>"]),
    ("field", ["--in-place", "f", "-X", "A:"], ["--in-place <FILE>", "-X <NAME:>"]),
    ("field", ["-s", "-x", "A:", "--in-place", "f"], ["--in-place <FILE>", "-x <NAME:>"]),
    *[("field", ["-x", "A:", "--addresses", flag], ["--addresses", flag]) for flag in ("--unfold", "--decode")],
    ("unpack", ["--silent", "--paths"], ["--silent", "--paths"]),
    ("unpack", ["-f", "--number"], ["-f", "--number"]),
    ("extract", ["--raw", "--head"], ["--raw", "--head"]),
    ("extract", ["--head", "--prefix"], ["--head", "--prefix"]),
    ("extract", ["--prefix", "--raw"], ["--raw", "--prefix"]),
    *[(command, ["--each", "-n", "1"], ["--each", "-n <N>"]) for command in ("edit", "sections", "extract", "unpack")],
    *[(command, ["--each", "-j", "j"], ["--each", "-j <JOURNAL>"]) for command in ("edit", "field")],
    ("field", ["-j", "j", "-D", "f"], ["-j <JOURNAL>", "-D <FILE>"]),
    ("field", ["-j", "j", "-x", "A:"], ["-j <JOURNAL>", "-x <NAME:>"]),
    ("field", ["-j", "j", "-X", "A:"], ["-j <JOURNAL>", "-X <NAME:>"]),
    ("edit", ["--each", "--unquote"], ["--each", "--unquote"]),
    *[(command, ["-H", "--json"], ["-H", "--json"]) for command in ("sections", "check", "messages")],
]

# Command lines of which a word isn't UTF-8.
NO_TEXT = [
    ["sections", "--from", b"\xff"], ["sections", b"--j\xffson"], [b"\xff"], ["edit", b"s\xff"], ["edit", "-e", b"add 1 A: \xe9"],
    ["edit", "-e", "undo", b"\xff"], ["edit", "-e", "undo", "-j", b"\xff"], ["edit", "-e", "undo", "--in-place", b"\xff"],
    ["undo", "-j", "j", "--in-place", b"f\xff"], ["extract", "-s", b"1.\xff"], ["unpack", "-C", b"\xc3"],
    ["pack", "-b", b"\xff", "text/plain:f"], ["pack", "-b", "b", b"text/plain:\xff"], ["field", "-A", b"A: \xff"],
    ["field", "--in-place", b"\xed\xa0\x80"],
]


# Options that may be given again.
FILES = ["field", "sections", "extract", "unpack", "check", "messages"]
REPEATED = {*((command, "--from") for command in FILES), ("edit", "--in-place"), ("field", "--in-place"), ("edit", "-e"), ("unpack", "-s"), ("extract", "-s"), ("pack", "--forward"), *(("field", letter) for letter in ("--prepend", "--sub", "--drop", "--keep", "--keep-only", "--rename", "-a", "-A", "-i", "-I", "-u", "-U", "-x", "-X"))}


def doubled():
    """Each option given twice where it may be given once: the command, its words and the option."""
    for command, options in OPTIONS.items():
        for option, value in options.items():
            word = option.split()[0]
            if (command, word) not in REPEATED:
                needed = NEEDED[command] if word not in NEEDED[command] else NEEDED[command][2:]
                yield command, [command, *needed, word, value, word, value], option
    for command, flags in FLAGS.items():
        for flag in flags:
            yield command, [command, *NEEDED[command], flag, flag], flag


def said():
    """All rows: what each shows, its words, and all that its errors have to hold."""
    yield from SAID
    for command in COMMANDS:
        usage = f"Usage: mimetool {command}"
        for option in ("-Z", "--no-such-option"):
            yield f"an unknown option of {command}", [command, *NEEDED[command], option], [f"unexpected argument '{option}' found", usage]
        if command in SUPERFLUOUS:
            word = SUPERFLUOUS[command]
            yield f"a superfluous word of {command}", [command, *NEEDED[command], word], [f"unexpected argument '{word}' found", usage]
        for option in OPTIONS[command]:
            words = [command, *NEEDED[command], option.split()[0]]
            yield f"{option} of {command} without its value", words, [f"a value is required for '{option}' but none was supplied"]
    for command in ("edit", "undo", "redo", "field"):
        for option in ("-f", "-t"):
            yield f"{option} of {command}", [command, *NEEDED[command], option], [f"unexpected argument '{option}' found", f"Usage: mimetool {command}"]
    for command in ("journal", "sections", "extract", "unpack", "pack", "reply", "check", "messages", "split"):
        yield (f"--in-place of {command}", [command, *NEEDED[command], "--in-place", "f"],
               ["unexpected argument '--in-place' found", f"Usage: mimetool {command}"])
    for command in IN_PLACE:
        yield (f"--wait of {command} twice", [command, *NEEDED[command], "--wait", "--wait=1"],
               ["the argument '--wait[=<SECONDS>]' cannot be used multiple times", f"Usage: mimetool {command}"])
    yield "--from of pack", ["pack", *NEEDED["pack"], "--from", "f"], ["unexpected argument '--from' found", "Usage: mimetool pack"]
    for command, words, option in doubled():
        yield f"{option} of {command} twice", words, [f"the argument '{option}' cannot be used multiple times", f"Usage: mimetool {command}"]
    for command, words, options in EXCLUDED:
        needed = [] if command == "field" else NEEDED[command]
        yield (f"{' beside '.join(options)} of {command}", [command, *needed, *words],
               ["cannot be used with", *options, f"Usage: mimetool {command}"])
    for words, argument, value, takes in VALUES:
        yield (f"{argument} with {value!r}", words,
               [f"error: invalid value '{value}' for '{argument}': {takes}\n", f"Usage: mimetool {words[0]} "])
    for letters in BESIDE:
        yield f"letters {' '.join(letters)}", ["field", *letters], [f"error: {APART}\n", "Usage: mimetool field "]
