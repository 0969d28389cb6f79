"""`legacy search`: Python's regular expressions over the text of files in mixed encodings.

    for row in search("図書館", ["letters"], Settings(found, encoding=[("*.txt", "shift_jis")])):
        for it in row.matches:
            print(row.path, it.line, it.character, it.begin, it.end, it.text)"""
import argparse
import dataclasses
import functools
import re
import sys
from typing import Any, ClassVar, ContextManager, Iterator, List, Optional, Pattern, Sequence, Set, Tuple, Type

from gate import Document, Gate

from legacy import listing, literals, work
from legacy.ascii import plain
from legacy.check import ENCODINGS
from legacy.damage import Range, across
from legacy.ends import LINE_END, LinesAt, ends_of, in_lines, lines_in, within, without
from legacy.finding import Missing
from legacy.folding import Folded, folded_expression
from legacy.terminals import quote_path, visible_text
from legacy.work import DONE, FOUND, REFUSED, Before, Item, PartRow, Row, Settings
from legacy.work.joints import move_bytes, move_line, tail_of

ABOUT = ("Search the text of the files of these trees for a regular expression, as Python's module re has them; ^ and $ are those of a line,"
         " whatever ends it, and empty matches are left out. The status is 0 where something was found, 1 where nothing was, 2 where something"
         " couldn't be looked at.")

# The seconds that an expression may take in a file, unless it is given others.
SECONDS = 60.0
# The bytes of its neighbours that are looked at with a part of a long file, so the most that a match over its end has.
BESIDE = 1 << 16
# The flags that begin an expression, if it has any.
FLAGS = re.compile(r"(?:\(\?[aiLmsux]+\))?")
# The code points of a line that are shown beside a match, at most.
AROUND = 200


@dataclasses.dataclass
class Match:
    """A match: its line and character, counted from 1 in code points, the start and the end of its bytes, and its text. It
    has the rest of its lines, whether it was found across damage, and the requested lines above and below it."""

    line: int
    character: int
    begin: int
    end: int
    text: str
    before: str
    after: str
    across: bool = False
    above: List[str] = dataclasses.field(default_factory=list)
    below: List[str] = dataclasses.field(default_factory=list)


@dataclasses.dataclass
class Searched(Row):
    """The effective encoding of a file, and what was found in it."""

    encoding: str = ""
    matches: List[Match] = dataclasses.field(default_factory=list)

    def __post_init__(self) -> None:
        self.matches = [Match(**it) if isinstance(it, dict) else it for it in self.matches]


@dataclasses.dataclass
class Search(work.Job):
    """The job of a search. It has the expression, with or without regard to case, and across damage or not, and the seconds that
    it may take in a file. It says whether the expression is a text that means itself, and whole words, and whether lines are
    found that it isn't in. It says whether ways in which a character is written are one, and how many lines above and below a
    match are wanted. It has the most lines of a file with matches, and says whether their bytes aren't asked for, which takes
    long if they are many."""

    expression: str
    ignore_case: bool = False
    through_damage: bool = False
    seconds: float = SECONDS
    is_text: bool = False
    is_word: bool = False
    is_inverted: bool = False
    folds: bool = False
    above: int = 0
    below: int = 0
    most: Optional[int] = None
    is_counted: bool = False

    rows: ClassVar[Type[Row]] = Searched
    is_bounded: ClassVar[bool] = True
    beside: ClassVar[Optional[int]] = BESIDE

    def pattern(self) -> Pattern[str]:
        """The expression as it is looked for. Raises `re.error` if it isn't one."""
        expression = re.escape(self.expression) if self.is_text else self.expression
        if self.folds:
            # (escaped, a character that folds would be one that means itself before it is folded)
            expression = re.escape(Folded(self.expression).text) if self.is_text else folded_expression(expression)
        if self.is_word:
            flags = FLAGS.match(expression)
            assert flags
            expression = f"{flags[0]}(?<!\\w)(?:{expression[flags.end():]})(?!\\w)"
        return compile_expression(expression, self.ignore_case or self.folds)

    def row(self, gate: Gate, item: Item, content: bytes) -> Searched:
        """What a file has that matches."""
        with self._limit():
            return self._row(gate, item, content)

    def _limit(self) -> "ContextManager[None]":
        return work.time_limit(self.seconds, f"the expression takes more than {self.seconds:g} seconds")

    def _row(self, gate: Gate, item: Item, content: bytes) -> Searched:
        made = Searched(item.path, len(content), item.label, encoding=ENCODINGS.of(gate, item.label))
        if self._is_without(gate, made.encoding, content):
            return made
        if plain(content, made.encoding) and not self._places(self.pattern(), content.decode("ascii")):
            return made
        with gate.open("searched", item.label, content) as document:
            made.encoding = document.encoding
            text = document.text(end=document.stat()["utf32"])
            made.matches = self._matches(document, text, *self._find(gate, item.label, document, text))
        self.finish(made)
        return made

    def part_row(self, gate: Gate, item: Item, content: bytes) -> PartRow:
        """What a part of a long file has that matches. Its neighbours are looked at too: a match may end there, and lines above and
        below may be there."""
        with self._limit():
            return self._part_row(gate, item, content)

    def _part_row(self, gate: Gate, item: Item, content: bytes) -> PartRow:
        part = item.part
        assert part
        made = Searched(item.path, item.size, item.label, encoding=ENCODINGS.of(gate, item.label))
        if self._is_without(gate, made.encoding, content):
            own = content[part.begin - part.start : part.end - part.start]
            tail = 0 if part.is_last else tail_of(gate, made.encoding, own)
            return PartRow(item.path, item.size, item.label, made=made, lines=ends_of(own).count, tail=tail)
        with gate.open("searched", item.label, content, "sniff" if part.is_first else "keep") as document:
            made.encoding, length = document.encoding, document.stat()["utf32"]
            text = document.text(end=length)
            begin, end = (_offset(document, len(part.head) + it - part.start, length) for it in (part.begin, part.end))
            found, across = self._find(gate, item.label, document, text)
            made.matches = self._matches(document, text, [it for it in found if begin <= it[0] < end], across)
        lines = LinesAt(text)
        (first, start), (last, tail) = lines.at(begin), lines.at(end)
        for it in made.matches:
            move_bytes(it, part)
            it.character -= begin - start if it.line == first else 0
            it.line -= first - 1
        return PartRow(item.path, item.size, item.label, made=made, lines=last - first, tail=end - max(begin, tail))

    def join(self, whole: Row, part: Row, before: Before) -> None:
        """Adds the matches of a part."""
        assert isinstance(whole, Searched) and isinstance(part, Searched)
        whole.encoding = part.encoding
        lines = {it.line for it in whole.matches} if self.most is not None else set()
        for it in part.matches:
            move_line(it, before)
            lines.add(it.line)
            if self.most is not None and len(lines) > self.most:
                break
            whole.matches.append(it)

    def finish(self, whole: Row) -> None:
        """Says whether a file has matches."""
        assert isinstance(whole, Searched)
        whole.outcome = FOUND if whole.matches else DONE

    def _is_without(self, gate: Gate, encoding: str, content: bytes) -> bool:
        """Whether the bytes say that there is no match, since they lack those of the text."""
        is_other = self.ignore_case or self.folds or self.is_inverted or self.through_damage
        is_literal = not is_other and literals.is_literal(self.expression, self.is_text)
        return is_literal and not literals.LITERALS.may_be_in(gate, encoding, self.expression, content)

    def _find(self, gate: Gate, label: str, document: Document, text: str) -> Tuple[List[Range], Set[Range]]:
        """Where matches begin and end in the text of a document, and which of them were found across damage."""
        expression = self.pattern()
        found = self._places(expression, text)
        cut = self.through_damage and document.stat()["errors"]
        more = across(gate, label, document, text, expression, found) if cut else []
        return sorted(found + more), set(more)

    def _places(self, expression: "Pattern[str]", text: str) -> List[Range]:
        """Where matches begin and end, or lines without any."""
        if self.folds:
            folded = Folded(text)
            found = [folded.origin(*it) for it in _spans(expression, folded.text)]
        else:
            found = _spans(expression, text)
        return without(lines_in(text), found) if self.is_inverted else found

    def _matches(self, document: Document, text: str, found: Sequence[Range], across: Set[Range]) -> List[Match]:
        """The matches at these places of the text, in order, of no more lines than are wanted."""
        found = found if self.most is None else within(found, text, self.most)
        numbers = LinesAt(text)
        lines = lines_in(text) if self.above or self.below else []
        # (an empty line has no character of its own)
        asked = [(begin, end if begin < end else begin + 1) for begin, end in found]
        made = []
        for (begin, end), (first, last) in zip(found, asked if self.is_counted else document.spans(asked)):
            line, start = numbers.at(begin)
            rest = LINE_END.search(text, end)
            after = text[end : min(rest.start() if rest else len(text), end + AROUND)]
            match = Match(
                line, begin - start + 1, first, last if begin < end else first, text[begin:end], text[max(start, begin - AROUND) : begin], after,
                (begin, end) in across)
            if lines:
                behind = line + len(LINE_END.findall(match.text))
                match.above, match.below = (
                    [text[one : min(other, one + 2 * AROUND)] for one, other in lines[max(0, first) : last]]
                    for first, last in ((line - 1 - self.above, line - 1), (behind, behind + self.below)))
            made.append(match)
        return made


def _offset(document: Document, at: int, length: int) -> int:
    """The code points before a byte of a document of this length, which may be its end."""
    offset: int = length if at >= len(document.bytes) else document.place(at)["utf32"]
    return offset


def _spans(expression: "Pattern[str]", text: str) -> List[Range]:
    return in_lines(text, expression, lambda lines: (it.span() for it in expression.finditer(lines) if it[0]))


@functools.lru_cache(maxsize=16)
def compile_expression(expression: str, ignore_case: bool) -> Pattern[str]:
    """The expression. Raises `re.error` if it isn't one, or is too large for the module."""
    try:
        return re.compile(expression, re.MULTILINE | (re.IGNORECASE if ignore_case else 0))
    except OverflowError as fault:
        raise re.error(str(fault)) from fault
    except RecursionError as fault:
        raise re.error("it is nested too deeply") from fault


def search(expression: str, trees: Sequence[str], settings: Settings, **how: Any) -> Iterator[Searched]:
    """The rows of all files of these trees; `how` is what `Search` has besides the expression. Raises `re.error` if the
    expression isn't one."""
    job = Search(expression, **how)
    job.pattern()
    for row in work.run(job, trees, settings):
        assert isinstance(row, Searched)
        yield row


def add_to(commands: "argparse._SubParsersAction[Any]") -> None:
    """Adds the parser of this subcommand."""
    parser = commands.add_parser("search", help="search the text of trees of files", description=ABOUT)
    parser.add_argument("expression", metavar="EXPRESSION", help="a regular expression of Python's")
    work.add_input_words(parser)
    parser.add_argument("-i", "--ignore-case", action="store_true", help="find letters of the other case too")
    parser.add_argument("-F", "--fixed-strings", action="store_true", help="EXPRESSION is a text that means itself")
    parser.add_argument("-w", "--word-regexp", action="store_true", help="find whole words alone")
    parser.add_argument("-v", "--invert-match", action="store_true", help="find lines that have no match")
    parser.add_argument(
        "--fold", action="store_true", help="find characters in each way in which they are written: full or half width, the forms that NFKC makes one,"
        " letters of both cases, and the wave dash, minus, parallel lines, cent, pound and not sign, which Japanese tables have twice")
    parser.add_argument(
        "--through-damage", action="store_true", help="find a text that damaged bytes cut too: they stand for nothing, or for one character of"
        " the expression")
    parser.add_argument(
        "--seconds", metavar="N", type=_seconds, default=SECONDS, help="the most seconds that the expression may take in a file, which is refused"
        " then (default: %(default)g)")
    listing.add_words(parser)
    work.add_words(parser)
    parser.set_defaults(run=run)


def _seconds(text: str) -> float:
    try:
        seconds = float(text)
    except ValueError:
        seconds = 0
    if not 0 < seconds < 1e6:
        raise argparse.ArgumentTypeError(f"{text} isn't a number of seconds")
    return seconds


def _job(words: argparse.Namespace) -> Search:
    """The job of the arguments. Raises `Missing` if there is none."""
    if words.through_damage and (words.fold or words.invert_match):
        raise Missing("--through-damage goes with neither --fold nor --invert-match")
    above, below = (words.context if it is None else it for it in (words.before_context, words.after_context))
    most = 1 if words.files_with_matches else words.max_count
    job = Search(
        words.expression, words.ignore_case, words.through_damage, words.seconds, words.fixed_strings, words.word_regexp, words.invert_match,
        words.fold, above, below, most, (words.count or words.files_with_matches) and not words.json)
    try:
        job.pattern()
    except re.error as fault:
        raise Missing(f"{words.expression} is no regular expression: {fault}") from fault
    return job


def run(words: argparse.Namespace) -> int:
    """Prints what was found, and returns the status."""
    found, failed = False, False
    job, lines_of = _job(words), listing.Listing(words).lines_of
    for row in work.run(job, words.trees, work.settings_from(words)):
        assert isinstance(row, Searched)
        found, failed = found or row.outcome == FOUND, failed or row.outcome == REFUSED
        for line in [row.json()] if words.json else lines_of(row):
            print(line)
        if row.outcome == REFUSED and not words.json:
            print(f"{quote_path(row.path)}: not searched: {visible_text(row.reason)}", file=sys.stderr)
    sys.stdout.flush()
    return 2 if failed else 0 if found else 1
