"""Line ends as LSP has them: CR LF, CR and LF, of which the longest counts."""
import bisect
import dataclasses
import re
from typing import AnyStr, Callable, Iterable, List, Pattern, Sequence, Tuple

LINE_END = re.compile("\r\n|\r|\n")


@dataclasses.dataclass
class Ends:
    """How many line ends of each kind there are."""

    lf: int = 0
    crlf: int = 0
    cr: int = 0

    def __add__(self, other: "Ends") -> "Ends":
        return Ends(self.lf + other.lf, self.crlf + other.crlf, self.cr + other.cr)

    @property
    def count(self) -> int:
        """How many there are of all kinds."""
        return self.lf + self.crlf + self.cr

    @property
    def kinds(self) -> int:
        """How many kinds there are."""
        return (self.lf > 0) + (self.crlf > 0) + (self.cr > 0)


class LinesAt:
    """The lines of places of a text, which are asked for in order. What lies between two of them is counted, and not looked through
    line by line."""

    def __init__(self, text: str):
        self._text, self._has_cr = text, "\r" in text
        self._line, self._start, self._at = 1, 0, 0

    def at(self, place: int) -> Tuple[int, int]:
        """The number of the line that contains a place, counted from 1, and the start of that line."""
        text, begin = self._text, self._at
        # (what is between CR and LF is in the line that both end)
        end = place - 1 if self._has_cr and text[place - 1 : place + 1] == "\r\n" else place
        if begin < end:
            self._line += text.count("\n", begin, end)
            last = text.rfind("\n", begin, end)
            if self._has_cr:
                self._line += text.count("\r", begin, end) - text.count("\r\n", begin, end)
                last = max(last, text.rfind("\r", begin, end))
            self._start = last + 1 or self._start
            self._at = end
        return self._line, self._start


def ends_of(content: AnyStr) -> Ends:
    """The line ends of a text, or of bytes in which CR and LF are these bytes and no others."""
    cr, lf = ("\r", "\n") if isinstance(content, str) else (b"\r", b"\n")
    found = content.count(cr)
    both = content.count(cr + lf) if found else 0
    return Ends(content.count(lf) - both, both, found - both)


def lines_in(text: str) -> List[Tuple[int, int]]:
    """The start and the end of the lines of a text, without their line ends. An empty last line isn't among them."""
    starts, found = 0, []
    for it in LINE_END.finditer(text):
        found.append((starts, it.start()))
        starts = it.end()
    return [*found, (starts, len(text))] if starts < len(text) else found


def without(lines: Sequence[Tuple[int, int]], found: Sequence[Tuple[int, int]]) -> List[Tuple[int, int]]:
    """The lines in which nothing is that was found, both in order."""
    left, at = [], 0
    for start, end in lines:
        while at < len(found) and found[at][1] <= start:
            at += 1
        if at == len(found) or found[at][0] > end or found[at][0] == end > start:
            left.append((start, end))
    return left


def within(found: Sequence[Tuple[int, int]], text: str, most: int) -> List[Tuple[int, int]]:
    """What was found in the first lines that have anything, in order."""
    lines, seen, kept = LinesAt(text), 0, []
    last = 0
    for it in found:
        line = lines.at(it[0])[0]
        seen, last = seen + (line != last), line
        if seen > most:
            break
        kept.append(it)
    return kept


def in_lines(
    text: str, expression: "Pattern[str]", find: Callable[[str], Iterable[Tuple[int, int]]]
) -> List[Tuple[int, int]]:
    """What is found in a text by an expression, as places where it begins and ends. Each line end is LF to the expression, whose
    `^`, `$` and `.` know no other; but if it has CR itself, the text is unchanged."""
    if "\r" not in text or "\r" in expression.pattern or "\\r" in expression.pattern:
        return list(find(text))
    found = list(find(text.replace("\r\n", "\n").replace("\r", "\n")))
    # (where each CR LF is in that text, in which it is one character shorter)
    both = [it.start() - at for at, it in enumerate(re.finditer("\r\n", text))] if found else []
    return [(begin + bisect.bisect_left(both, begin), end + bisect.bisect_left(both, end)) for begin, end in found]
