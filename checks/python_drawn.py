"""Messages that fuzz/ makes, given to the Python module: whatever is edited, undoing all of it has to give the message back."""

import os
import sys

TOP = os.path.dirname(os.path.dirname(os.path.abspath(__file__)))
sys.path.insert(0, os.path.join(TOP, "fuzz"))

import messages
from chooser import Chooser

NAMES = [b"A", b"Content-Type", b"Subject", b"B"]
BOUNDARIES = ["q", "b", "a:b"]


def drawn_edit(mimetool, chooser, sections):
    """An edit of a section that is there, in most cases."""
    edit = mimetool.Edit
    path = chooser.choice(sections).path if chooser.maybe(0.9) else (1, 2)
    field, name, entity = chooser.choice(messages.FIELDS), chooser.choice(NAMES), messages.message(chooser, 1)
    made = [lambda: edit.add_field(path, field, chooser.maybe(0.5)), lambda: edit.remove_field(path, name, chooser.randint(0, 2)),
            lambda: edit.rename_field(path, name, b"Old-" + name), lambda: edit.set_field(path, name, field),
            lambda: edit.set_body(path, entity), lambda: edit.set_section(path, entity),
            lambda: edit.insert_part(path, chooser.randint(0, 2), entity), lambda: edit.remove_part(path),
            lambda: edit.wrap(path, "mixed", chooser.choice(BOUNDARIES))]
    return chooser.choice(made)()


def answer(call, *arguments):
    """What is raised by a call that is refused, or None."""
    try:
        call(*arguments)
    except Exception as error:
        return type(error).__name__, error.args
    return None


def edited(mimetool, chooser, session, message):
    """The texts that edits give in turn, the message first; or what is wrong."""
    texts = [message]
    for _ in range(chooser.randint(1, 8)):
        edit = drawn_edit(mimetool, chooser, session.sections())
        checked, made = answer(session.check, edit), answer(session.group, [edit])
        if checked != made:
            return f"check answers {checked}, and group {made}"
        if made is None:
            texts.append(session.text())
        elif session.text() != texts[-1]:
            return f"{edit} is refused and changes the text"
    return texts


def look_at_sections(mimetool, session):
    """Asks for all that there is of each section. A content that can't be decoded is refused."""
    for section in session.sections():
        session.name(section.path)
        refused = answer(session.extract, section.path)
        if refused and refused[0] not in ("BadBase64", "UnknownEncoding"):
            return f"the content of {section.path} is refused: {refused}"
    return None


def taken_back(mimetool, session, texts):
    """Whether undoing gives each text again, in the session and in one that its journal gives."""
    loaded = mimetool.Session.load(texts[-1], session.save())
    for each in (session, loaded):
        for text in reversed(texts[:-1]):
            each.undo()
            if each.text() != text:
                return f"undo gives {each.text()!r}, and not {text!r}"
    loaded.close()
    return None


def check_drawn(cases, count):
    """Edits drawn messages, and takes all of it back."""
    mimetool = cases.module
    for number in range(count):
        chooser = Chooser(f"python {number}")
        message = messages.message(chooser)
        with mimetool.Session(message) as session:
            wrong = look_at_sections(mimetool, session)
            texts = edited(mimetool, chooser, session, message)
            if isinstance(texts, list):
                wrong = wrong or taken_back(mimetool, session, texts)
            else:
                wrong = texts
        cases.expect(f"drawn message {number}", None, wrong)
