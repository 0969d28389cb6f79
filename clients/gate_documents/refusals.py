"""What a document raises besides the refusals of `gate`."""
from gate import Fault, Gone
from gate_documents.edits import Edit


class Conflict(Fault):
    """An edit that was `Stale` and can't be moved: `mine` is what the caller asked for, and `theirs` what other clients did
    before it. The copy has `theirs`, and both are edits of the bytes that it had before.

    The two meet (`Edit.moves`), or the text to be replaced is another by now, or `theirs` is `anew`. If it is `unsure`, the
    reply to `mine` was lost. Then `theirs` may include `mine`, made before others edited the same bytes."""

    def __init__(self, rev: int, mine: Edit, theirs: Edit, unsure: bool = False):
        super().__init__({"fault": "Stale", "rev": rev})
        self.mine, self.theirs, self.unsure = mine, theirs, unsure


class Lost(Fault):
    """The document is missing: the server ended and came again without it, as one does that keeps no record, or another
    client closed it. The copy still has it, and `Document.reopen` opens it again."""

    def __init__(self) -> None:
        super().__init__({"fault": "NoDocument"})


class Unsure(Gone):
    """Like `Gone`, for an edit that may have been made, which can't be found out until a server listens again. Then
    `Document.find_out` does. Until it has, the document takes no edit and doesn't catch up."""
