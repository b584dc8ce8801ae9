"""Makes a run smaller while it still differs."""

import re
import time

SECONDS = 30


def cut_lines(text):
    return re.findall(rb"[^\n]*\n|[^\n]+", text)


def without(items, differs, deadline):
    """The items that are needed: leaves out runs of them, long ones first, while what is left still differs."""
    size = max(1, len(items) // 2)
    while size and time.monotonic() < deadline:
        at = 0
        while at < len(items) and time.monotonic() < deadline:
            fewer = items[:at] + items[at + size:]
            if differs(fewer):
                items = fewer
            else:
                at += size
        size = size - 1 if size < 3 else (size + 1) // 2
    return items


def shrunk_text(text, differs, deadline):
    """A text of fewer lines, and then of fewer bytes."""
    left = b"".join(without(cut_lines(text), lambda items: differs(b"".join(items)), deadline))
    return bytes(without(list(left), lambda items: differs(bytes(items)), deadline))


def shrunk(run, differs):
    """A run with a smaller message, smaller files and fewer words that still differs."""
    deadline = time.monotonic() + SECONDS
    before = None
    while run != before and time.monotonic() < deadline:
        before = run
        fewer = without(list(run.words[1:]), lambda words: differs(run._replace(words=run.words[:1] + words)), deadline)
        run = run._replace(words=run.words[:1] + fewer)
        message = shrunk_text(run.message, lambda text: differs(run._replace(message=text)), deadline)
        run = run._replace(message=message)
        for name in sorted(run.files):
            fewer = {other: text for other, text in run.files.items() if other != name}
            if differs(run._replace(files=fewer)):
                run = run._replace(files=fewer)
                continue
            text = shrunk_text(run.files[name], lambda text: differs(run._replace(files={**run.files, name: text})), deadline)
            run = run._replace(files={**run.files, name: text})
    return run
