"""A history of texts, and the edits, groups, undos and redos that make it."""

from . import edits, jobs, refusals, splices, tree


class Session:
    """Whole texts, the step between any two neighbours, and a place among them (own)."""

    def __init__(self, text):
        self.texts, self.steps, self.place = [text], [], 0

    def text(self):
        """The text now (own)."""
        return self.texts[self.place]

    def take(self, text, step):
        """An accepted step drops what was undone (own)."""
        self.texts = self.texts[:self.place + 1] + [text]
        self.steps = self.steps[:self.place] + [step]
        self.place += 1

    def words(self, members):
        """Words are made in turn, all or none, each of them the edits that it stands for in the document that the earlier
        ones left: the name of the first refused one and the reason, or None (own)."""
        text, step = self.text(), []
        for name, meaning in members:
            try:
                found = meaning(tree.document(text))
            except jobs.Fault as fault:
                return name, str(fault)
            for edit in found:
                document = tree.document(text)
                reason = refusals.reason(edit, document)
                if reason:
                    return name, reason
                step.append(splices.splice(edit, document))
                text = tree.printed(edits.edited(edit, document))
        self.take(text, step)
        return None

    def group(self, members):
        """Edits are made together or not at all: the number of the first refused one and its reason, or None (own)."""
        return self.words([(number, lambda document, edit=edit: [edit]) for number, edit in enumerate(members)])

    def edit(self, edit):
        """One edit is a step of its own: its reason, or None (own)."""
        refused = self.group([edit])
        return refused and refused[1]

    def undo(self):
        """The last step is taken back, where there is one (own)."""
        if self.place == 0:
            return "NothingToUndo"
        self.place -= 1
        return None

    def redo(self):
        """The step that was taken back last is made again, where there is one (own)."""
        if self.place == len(self.steps):
            return "NothingToRedo"
        self.place += 1
        return None
