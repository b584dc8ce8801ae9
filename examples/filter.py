"""Goes over a mailbox as a mail filter does: tags messages, files some of them, and forwards others.

usage: python3 filter.py TAG FOLDER ADDRESS < MAILBOX > KEPT

- A message of a mailing list goes into a mailbox of FOLDER that has the list's name, byte for byte, and isn't kept.
- All others are kept. TAG is put before what their subject says, and all else stays byte for byte.
- One whose subject says urgent is forwarded, too: FOLDER/forward-NUMBER.eml is a message to ADDRESS that has it attached.

A single message is a mailbox of one."""

import os
import re
import sys

import mimetool

# The value of a field with all its lines: those that begin with a blank go on with it.
FIELD = rb"^%b[ \t]*:[ \t]*((?:.*\n[ \t])*.*\n?)"


def value(session, name):
    """What the first field of a name says, with its line endings, or None."""
    head = session.text()[:session.sections()[0].body]
    found = re.search(FIELD % re.escape(name), head, re.IGNORECASE | re.MULTILINE)
    return found and found[1]


class Filter:
    def __init__(self, tag, folder, address):
        self.tag, self.folder, self.address = tag.encode(), folder, address

    def visit(self, session, number):
        """What becomes of a message: False, where it isn't kept."""
        names = value(session, b"List-Id")
        if names is not None:
            self.file(names, session.text())
            return False
        subject = value(session, b"Subject")
        if subject is not None and b"urgent" in subject.lower():
            self.forward(number, session.text())
        try:
            self.tag_subject(session, subject)
        except mimetool.MimetoolError as refused:
            self.say_refused(number, refused)
        return True

    def tag_subject(self, session, subject):
        if subject is None:
            session.add_field((1,), b"Subject: " + self.tag)
        else:
            session.set_field((1,), "Subject", b"Subject: " + self.tag + b" " + subject)

    def file(self, names, text):
        """Puts a message after the others of its list. An empty line ends it there."""
        name = re.sub(rb"[^A-Za-z0-9.-]+", b"-", names).strip(b"-.").decode() or "list"
        while not text.endswith((b"\n\n", b"\n\r\n")):
            text += b"\n"
        with open(os.path.join(self.folder, name + ".mbox"), "ab") as file:
            file.write(text)

    def forward(self, number, text):
        """Makes a message that another program can send."""
        note = mimetool.Part("text/plain", "This came in, and says that it is urgent.\n")
        fields = [f"From: {self.address}", f"To: {self.address}", "Subject: urgent mail"]
        message = mimetool.build(fields, [note], messages=[text], charset="us-ascii")
        with open(os.path.join(self.folder, f"forward-{number}.eml"), "wb") as file:
            file.write(message)

    def say_refused(self, number, refused):
        print(f"message {number} isn't tagged: {refused}", file=sys.stderr)


def main():
    if len(sys.argv) != 4:
        sys.exit(__doc__)
    asked = Filter(*sys.argv[1:])
    mimetool.filter_mailbox(sys.stdin.buffer, sys.stdout.buffer, asked.visit, refused=asked.say_refused)


if __name__ == "__main__":
    main()
