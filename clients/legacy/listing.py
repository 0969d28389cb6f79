"""How matches are printed: by words that ripgrep has too."""
import argparse
import sys
from typing import TYPE_CHECKING, Dict, Iterator, List, Tuple

from legacy.ends import LINE_END
from legacy.terminals import quote_path, visible_text

if TYPE_CHECKING:
    from legacy.search import Match, Searched

# The colours of paths, of numbers and of matches, and their end.
PATH, NUMBER, MATCH, END = "\x1b[35m", "\x1b[32m", "\x1b[1;31m", "\x1b[0m"


def add_words(parser: argparse.ArgumentParser) -> None:
    """Adds the words that say what is printed."""
    group = parser.add_argument_group("what is printed of matches")
    group.add_argument("-l", "--files-with-matches", action="store_true", help="print the paths of files with matches alone")
    group.add_argument("-c", "--count", action="store_true", help="print how many lines with matches each file has that has any")
    group.add_argument("-o", "--only-matching", action="store_true", help="print of each line the match alone")
    group.add_argument("-m", "--max-count", metavar="N", type=_number, help="print matches in so many lines of a file at most")
    for letter, name, where in ("A", "after-context", "below"), ("B", "before-context", "above"):
        group.add_argument(f"-{letter}", f"--{name}", metavar="N", type=_number, help=f"print so many lines {where} each match too")
    group.add_argument("-C", "--context", metavar="N", type=_number, default=0, help="print so many lines above and below each match")
    group.add_argument(
        "--color", choices=("auto", "always", "never"), default="auto", help="print in colours: on a terminal (auto, the default), always or never")
    group.add_argument("--json", action="store_true", help="print an object of JSON for each file")


def _number(text: str) -> int:
    if not text.isdecimal():
        raise argparse.ArgumentTypeError(f"{text} is no number of lines from 0 on")
    return int(text)


class Listing:
    """The lines of matches."""

    def __init__(self, words: argparse.Namespace):
        self._words = words
        self._has_colour = words.color == "always" or words.color == "auto" and sys.stdout.isatty()
        self._has_context = bool(words.context or words.before_context or words.after_context)
        self._last = 0  # (the number of the line that was printed last, -1 where it is another file's)

    def lines_of(self, row: "Searched") -> Iterator[str]:
        """What a person is shown of a row."""
        if not row.matches:
            return
        path = self._in(PATH, quote_path(row.path))
        if self._words.files_with_matches:
            yield path
        elif self._words.count:
            yield f"{path}:{len({it.line for it in row.matches})}"
        else:
            for number, lines in self._numbered_lines(path, row):
                if self._has_context and self._last and (self._last < 0 or number > self._last + 1):
                    yield "--"
                yield from lines
                self._last = number
            self._last = self._last and -1

    def _numbered_lines(self, path: str, row: "Searched") -> Iterator[Tuple[int, List[str]]]:
        """The lines of matches and of what is around them, by their numbers."""
        matches: Dict[int, List[str]] = {}
        around: Dict[int, str] = {}
        for it in row.matches:
            end = it.line + len(LINE_END.findall(it.text))
            around.update((it.line - len(it.above) + at, text) for at, text in enumerate(it.above))
            around.update((end + 1 + at, text) for at, text in enumerate(it.below))
            matches.setdefault(it.line, []).append(self._line(path, it))
        for number in sorted({*matches, *around}):
            yield number, matches.get(number) or [f"{path}-{self._in(NUMBER, str(number))}- {visible_text(around[number])}"]

    def _line(self, path: str, it: "Match") -> str:
        across = ", across damage" if it.across else ""
        text = self._in(MATCH, visible_text(it.text))
        line = text if self._words.only_matching else f"{visible_text(it.before)}{text}{visible_text(it.after)}"
        return f"{path}:{self._in(NUMBER, str(it.line))}:{it.character}: bytes {it.begin} to {it.end}{across}: {line}"

    def _in(self, colour: str, text: str) -> str:
        return f"{colour}{text}{END}" if self._has_colour and text else text
