"""Prints which media types the messages of a mailbox have: of each, how many leaves there are, and the bytes of their contents.

usage: python3 survey.py MAILBOX [any|date|field]

The last word says which From-lines begin messages. How far it has come is said on standard error."""

import os
import sys
from collections import Counter

import mimetool

# After how many messages it is said how far this has come.
STEP = 500


def content_size(session, section):
    """The size of a content, or of what stands there where that can't be decoded."""
    try:
        return len(session.extract(section.path))
    except (mimetool.BadBase64, mimetool.UnknownEncoding):
        return section.end - section.body


def survey(path, from_lines):
    """How many leaves each type has, and their bytes; and how many messages there are."""
    counts, sizes = Counter(), Counter()
    number = done = 0
    whole = os.path.getsize(path) or 1
    with mimetool.Mailbox(path, from_lines=from_lines) as mailbox:
        for number, message in enumerate(mailbox, 1):
            with mimetool.Session(message) as session:
                for section in session.sections():
                    if section.kind is mimetool.Kind.LEAF:
                        counts[section.type] += 1
                        sizes[section.type] += content_size(session, section)
            done += len(message)
            if number % STEP == 0:
                print(f"\r{number} messages, {100 * done // whole} %", end="", file=sys.stderr, flush=True)
    print(f"\r{number} messages, 100 %", file=sys.stderr)
    return counts, sizes


def main():
    if len(sys.argv) not in (2, 3):
        sys.exit(__doc__)
    counts, sizes = survey(sys.argv[1], sys.argv[2] if len(sys.argv) > 2 else "any")
    print(f"{'type':30} {'leaves':>8} {'bytes':>12}")
    for media, size in sizes.most_common():
        print(f"{media:30} {counts[media]:8} {size:12}")
    print(f"{'all':30} {sum(counts.values()):8} {sum(sizes.values()):12}")


if __name__ == "__main__":
    main()
