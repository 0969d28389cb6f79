"""How an editor shows a file's text: unchanged, with its line ends hidden, or as another text."""
from typing import NamedTuple, Optional

from legacy.ends import LINE_END, ends_of


class Shown(NamedTuple):
    """What an editor does with line ends. `hidden` is what a line feed of the editor is in the file, or none if the editor shows
    line ends unchanged. `is_mixed`: the file has several kinds, of which the editor's save would make one. `adds_feed`: each text
    of the editor has a line feed more at its end."""

    hidden: Optional[str] = None
    is_mixed: bool = False
    adds_feed: bool = False

    def to_file(self, text: str) -> str:
        """A text of the editor as it is in the file."""
        return text.replace("\n", self.hidden) if self.hidden else text

    def to_editor(self, text: str) -> str:
        """A text of the file as the editor has it."""
        text = without_kinds(text) if self.hidden else text
        return text + "\n" if self.adds_feed else text


def without_kinds(text: str) -> str:
    """A text in which each line end is a line feed."""
    return text.replace("\r\n", "\n").replace("\r", "\n") if "\r" in text else text


def way_of_showing(file: str, editor: str) -> Optional[Shown]:
    """How an editor shows a file's text; None if it shows another text."""
    for adds_feed in False, True:
        text = editor[:-1] if adds_feed else editor
        if adds_feed and (not editor.endswith("\n") or file.endswith("\n")):
            break
        if text == file:
            return Shown(adds_feed=adds_feed)
        if "\r" not in text and text == without_kinds(file):
            ends = ends_of(file)
            most = max((ends.lf, "\n"), (ends.crlf, "\r\n"), (ends.cr, "\r"))[1]
            return Shown(most, ends.kinds > 1, adds_feed)
    return None


def differs_at(file: str, editor: str) -> int:
    """The line, counted from 0, on which an editor's text begins to differ from a file's."""
    ours, theirs = LINE_END.split(file), LINE_END.split(editor)
    return next((n for n, (one, other) in enumerate(zip(ours, theirs)) if one != other), min(len(ours), len(theirs)) - 1)
