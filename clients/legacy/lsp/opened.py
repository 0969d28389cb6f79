"""A text that an editor has open, with the document that follows it."""
from typing import List, NamedTuple, Optional, Sequence

from gate import Document, Fault
from legacy.difference import edits
from legacy.finding import Missing
from legacy.lsp.files import Content, Unreadable
from legacy.lsp.followed import Followed, Unfollowed
from legacy.lsp.letters import Letters
from legacy.lsp.own_lines import OwnLines
from legacy.lsp.programs import Programs
from legacy.lsp.protocol import Change, Position
from legacy.lsp.shown import Shown, differs_at, way_of_showing
from legacy.lsp.sources import Source
from legacy.lsp.standing import units_of
from legacy.saving import Refused, read, save


# The most bytes of a file for which it is tried whether a save would be refused.
TRIED = 1 << 18


class Tools(NamedTuple):
    """What all texts of a server share: its programs, what is known of characters, and the unit of positions."""

    programs: Programs
    letters: Letters
    unit: str


class Opened:
    """A text that an editor has open. It is followed as long as that is possible. If not, `reason` says why, and `line` names the line."""

    def __init__(self, tools: Tools, source: Source, text: str):
        self.tools, self.source = tools, source
        self.reason: Optional[str] = None
        self.line = 0
        # How many bytes a save by the editor's own codec has changed that no edit named.
        self.lost = 0
        # Why a save would be refused, as far as that was tried.
        self.refused: Optional[Refused] = None
        self.shown = Shown()
        # The file as it was when it was last read or written.
        self.content = Content(b"", None)
        self.followed: Optional[Followed] = None
        # A copy of the text, if its lines aren't those of the document. Another copy, if it isn't the file's text, and the length of
        # that one: an editor may begin to speak after the first edits.
        self._own: Optional[OwnLines] = None
        self._other: Optional[OwnLines] = None
        self._length = 0
        self._begin(text)

    def _begin(self, text: str) -> None:
        """Begins to follow a text, from the file's bytes."""
        self.close()
        self.reason, self.line, self.lost, self.refused = None, 0, 0, None
        try:
            self.content = self.source.read()
            self.followed = Followed(self.tools.programs, self.tools.letters, self.source.label, self.content.raw, self.tools.unit)
            self._compare(text, self.followed.on(Document.text))
        except (Unreadable, Missing, Fault) as fault:
            self.give_up(str(fault))

    def _compare(self, text: str, file: str) -> None:
        """Finds out how the editor shows the file's text."""
        shown = way_of_showing(file, text)
        if not shown:
            self.give_up(f"this editor shows another text than the file's bytes in {self.source.label}", differs_at(file, text))
            self._other, self._length = OwnLines(text, self.tools.unit), len(file)
            return
        self.shown = shown
        self._own = OwnLines(text, self.tools.unit) if "\r" in text else None

    def give_up(self, reason: str, line: int = 0) -> None:
        """Follows no longer."""
        self.close()
        self.reason, self.line = reason, line

    def try_to_save(self) -> bool:
        """Finds out whether the mount would refuse a save of this text, by the function with which it saves, and returns whether that
        is news. (It knows the two texts alone, and not the edits between them.)"""
        before, self.refused = str(self.refused), None
        followed = self.followed
        if followed and self.source.is_mounted and not followed.standings and len(self.content.raw) <= TRIED:
            gate = self.tools.programs.one()
            try:
                save(gate, self.source.label, read(gate, self.source.label, self.content.raw), followed.text())
            except Refused as fault:
                self.refused = fault
        return str(self.refused) != before

    def close(self) -> None:
        """Closes the document."""
        if self.followed:
            self.followed.close()
        self.followed, self._own, self._other = None, None, None

    def change(self, changes: Sequence[Change]) -> None:
        """Takes the editor's changes, one after the other."""
        for it in changes:
            if it.start is None or it.end is None:
                self._take_whole(it.text)
            elif self.followed:
                self._replace(it.start, it.end, it.text)
            elif self._other:
                self._change_other(self._other, it.start, it.end, it.text)

    def _change_other(self, other: OwnLines, start: Position, end: Position, text: str) -> None:
        """Makes an edit in another text than the file's, and compares both again if they are as long."""
        other.replace(other.offset(start), other.offset(end), text)
        if len(other.text) == self._length:
            self._begin(other.text)

    def _take_whole(self, text: str) -> None:
        """Takes a whole text. Only what differs is edited, the last edit first, so that places before it stay."""
        if not self.followed:
            self._begin(text)
            return
        old = self._own.text if self._own else self.shown.to_editor(self.followed.text())
        if self.shown.adds_feed and not text.endswith("\n"):
            self.shown = self.shown._replace(adds_feed=False)
            old = old[:-1]
        for it in reversed(edits(old, text)):
            start, end = (self._position(old, place) for place in (it.start, it.end))
            self._replace(start, end, text[it.new_start : it.new_end])

    def _position(self, text: str, at: int) -> Position:
        """The position of a place in the editor's text."""
        begin = text.rfind("\n", 0, at) + 1
        return text.count("\n", 0, at), sum(units_of(it, self.tools.unit) for it in text[begin:at])

    def _replace(self, start: Position, end: Position, text: str) -> None:
        """Makes an edit of the editor's."""
        if not self.followed:
            return
        try:
            if self._own:
                begin, behind = self._own.offset(start), self._own.offset(end)
                self._own.replace(begin, behind, text)
                begin, behind = self.followed.to_document(begin), self.followed.to_document(behind)
            else:
                begin, behind = self.followed.offsets([start, end])
            self.followed.replace(begin, behind, self.shown.to_file(text))
        except Unfollowed as fault:
            self.give_up(str(fault))
        except (Fault, Missing) as fault:
            self.give_up(f"gate refused an edit as {fault}")

    def faults(self) -> List[Optional[str]]:
        """What the editor is told of at once: why the text isn't followed, and what can't be saved."""
        return [self.reason, *((it.text + it.reason) for it in (self.followed.standings if self.followed else ()))]

    @property
    def has_own_lines(self) -> bool:
        """Whether the editor's lines aren't those of the document."""
        return self._own is not None

    def place(self, position: Position) -> int:
        """The place in the document of an editor's position."""
        assert self.followed
        if self._own:
            return self.followed.to_document(self._own.offset(position))
        return self.followed.offsets([position])[0]

    def positions(self, offsets: Sequence[int]) -> List[Position]:
        """The editor's positions of places in the document."""
        assert self.followed
        if self._own:
            return [self._own.position(self.followed.to_text(it)) for it in offsets]
        return self.followed.positions(offsets)

    def text(self) -> Optional[str]:
        """The editor's text, if it is followed."""
        if not self.followed:
            return None
        return self.shown.to_editor(self.followed.text())

    def save(self) -> None:
        """Looks at the file after a save. Unchanged bytes mean that the save was refused; other bytes of this text are
        followed then, and what they lost is counted. Another text isn't followed."""
        text = self.text()
        if text is None or not self.followed:
            if self._other:
                self._begin(self._other.text)
            return
        try:
            content = self.source.read()
        except Unreadable as fault:
            self.give_up(str(fault))
            return
        if content.raw == self.content.raw:
            return
        self.content, changed = content, self.followed.take_bytes(content.raw)
        self._compare(text, self.followed.on(Document.text))
        self.lost = changed if self.followed and not self.source.is_mounted else 0
