"""`legacy check`: each file's encoding, and what is wrong with it: bytes that don't decode, line ends of several kinds,
and a byte order mark that its rule doesn't expect.

    for row in check(["letters"], Settings(found, encoding=[("*.txt", "shift_jis")])):
        print(row.path, row.encoding, row.errors, row.places)"""
import argparse
import collections
import dataclasses
import shlex
import sys
from typing import Any, ClassVar, Counter, Dict, Iterator, List, Optional, Sequence, Tuple, Type

from gate import Document, Gate

from legacy import work
from legacy.ascii import MARKS, Rest, plain
from legacy.controls import BYTES, CONTROL, counts_of
from legacy.ends import LINE_END, Ends, LinesAt, ends_of
from legacy.terminals import quantity, quote_path, visible_text
from legacy.work import DONE, FOUND, PASSED, REFUSED, Before, Item, PartRow, Row, Settings
from legacy.work.joints import has_head, move_bytes, move_line, tail_of

ABOUT = ("Check each file of these trees: its encoding, errors with line, character, place and bytes, line ends of several kinds, and a byte"
         " order mark that disagrees with the rule. The status is 0 where all is clean, 1 where damage was found, 2 where something couldn't"
         " be looked at.")

# The kinds of damage.
ERRORS, LINE_ENDS, MARK, CONTROLS = "errors", "line-ends", "mark", "controls"
KINDS = (ERRORS, LINE_ENDS, MARK, CONTROLS)
# Those that count without a word; of the others there is a note.
COUNTED = (ERRORS, LINE_ENDS, MARK)
# The code points on each side of an error that a row has, at most.
AROUND = 60
# As many bytes of text are decoded and sent in the time of two questions.
BYTES_AN_ERROR = 4000
# The errors of a file that a row has, at most, unless it is asked for more.
MOST = 10_000


@dataclasses.dataclass
class Place:
    """An error: the start and the end of its bytes, its line and character, counted from 1 in code points, and the
    bytes in hexadecimal. It has the text around it on its line."""

    begin: int
    end: int
    line: int
    character: int
    bytes: str
    before: str
    after: str


@dataclasses.dataclass
class Checked(Row):
    """A file's effective encoding, the length of its byte order mark, its code points, and the number of its errors with the
    places of the first ones. It has the line ends, the kinds of damage, and the control characters: how many of each there
    are, and the places of the first ones."""

    encoding: str = ""
    bom: int = 0
    characters: int = 0
    errors: int = 0
    places: List[Place] = dataclasses.field(default_factory=list)
    ends: Ends = dataclasses.field(default_factory=Ends)
    damage: List[str] = dataclasses.field(default_factory=list)
    controls: Dict[str, int] = dataclasses.field(default_factory=dict)
    control_places: List[Place] = dataclasses.field(default_factory=list)

    def __post_init__(self) -> None:
        # (a row that is restored from JSON has objects in their places)
        self.places, self.control_places = (
            [Place(**it) if isinstance(it, dict) else it for it in places] for places in (self.places, self.control_places))
        self.ends = Ends(**self.ends) if isinstance(self.ends, dict) else self.ends


@dataclasses.dataclass
class Check(work.Job):
    """The job: which kinds of damage count, how many places of a file a row has at most, and whether control characters are looked
    for."""

    kinds: Sequence[str] = COUNTED
    most: int = MOST
    controls: bool = True

    rows: ClassVar[Type[Row]] = Checked
    beside: ClassVar[Optional[int]] = 0

    def row(self, gate: Gate, item: Item, content: bytes) -> Checked:
        """What is wrong with a file."""
        made = self._row(gate, item, content)
        self.finish(made)
        return made

    def _row(self, gate: Gate, item: Item, content: bytes, is_first: bool = True) -> Checked:
        made = Checked(item.path, len(content), item.label)
        given = ENCODINGS.of(gate, item.label)
        is_suspect = self.controls and (content.startswith(MARKS) or BYTES.may_be_in(gate, given, content))
        if plain(content, given) and not is_suspect:
            made.encoding, made.characters, made.ends = given, len(content), ends_of(content)
        else:
            rest = Rest(content, given, is_whole=is_suspect)
            with gate.open("checked", item.label, rest.content, rest.bom if is_first else "keep") as document:
                self._look(document, made, rest)
                if is_suspect:
                    self._look_for_controls(document, made)
        made.damage = [MARK] if made.encoding != given else []
        return made

    def part_row(self, gate: Gate, item: Item, content: bytes) -> PartRow:
        """What is wrong with a part of a long file."""
        part = item.part
        assert part
        made = self._row(gate, item, content, part.is_first)
        for it in [*made.places, *made.control_places]:
            move_bytes(it, part)
            it.line -= has_head(part)
        made.characters -= has_head(part)
        made.ends.lf -= has_head(part)
        tail = 0 if part.is_last else tail_of(gate, made.encoding, content)
        return PartRow(item.path, item.size, item.label, made=made, lines=made.ends.count, tail=tail)

    def join(self, whole: Row, part: Row, before: Before) -> None:
        """Adds what is wrong with a part."""
        assert isinstance(whole, Checked) and isinstance(part, Checked)
        for it in [*part.places, *part.control_places]:
            move_line(it, before)
        whole.encoding, whole.damage = part.encoding, whole.damage or part.damage
        whole.bom += part.bom
        whole.characters += part.characters
        whole.errors += part.errors
        whole.ends += part.ends
        whole.places += part.places[: self.most - len(whole.places)]
        whole.control_places += part.control_places[: self.most - len(whole.control_places)]
        for name, count in part.controls.items():
            whole.controls[name] = whole.controls.get(name, 0) + count

    def finish(self, whole: Row) -> None:
        """Says which kinds of damage a file has."""
        assert isinstance(whole, Checked)
        found = {ERRORS: whole.errors > 0, LINE_ENDS: whole.ends.kinds > 1, MARK: MARK in whole.damage, CONTROLS: bool(whole.controls)}
        whole.damage = [it for it in KINDS if found[it] and it in self.kinds]
        whole.controls = dict(sorted(whole.controls.items()))
        whole.outcome = FOUND if whole.damage else DONE

    def _look(self, document: Document, made: Checked, rest: Rest) -> None:
        stat = document.stat()
        made.encoding, made.bom = document.encoding, document.bom
        made.characters, made.errors = stat["utf32"] + rest.taken, stat["errors"]
        made.ends = _ends(document, stat["lines"] - 1) + rest.ends
        if made.errors:
            made.places = [_in_file(it, *rest.before(it.begin)) for it in places_of(document, self.most)]

    def _look_for_controls(self, document: Document, made: Checked) -> None:
        text = document.text()
        found = [it.span() for it in CONTROL.finditer(text)]
        made.controls = counts_of([text[begin] for begin, _ in found])
        lines = LinesAt(text)
        for (at, behind), (begin, end) in zip(found, document.spans(found[: self.most])):
            line, start = lines.at(at)
            before, after = text[max(start, at - AROUND) : at], LINE_END.split(text[behind : behind + AROUND], 1)[0]
            made.control_places.append(Place(begin, end, line, at - start + 1, document.bytes[begin:end].hex(" "), before, after))


class Encodings:
    """The names of encodings, by their labels."""

    def __init__(self) -> None:
        self._names: Dict[str, str] = {}

    def of(self, gate: Gate, label: str) -> str:
        """The name of the encoding that a label names."""
        if label not in self._names:
            with gate.open("encoding", label, b"") as document:
                self._names[label] = document.encoding
        return self._names[label]


ENCODINGS = Encodings()


def _ends(document: Document, count: int) -> Ends:
    """The line ends of a document that has `count` of them. If no byte is CR's, they are LF. Otherwise they are counted in
    the bytes if that gives the same number, as it does except in UTF-16 and after errors in ISO-2022-JP, or in the text."""
    if b"\r" not in document.bytes:
        return Ends(lf=count)
    if document.encoding.startswith("UTF-16"):
        return ends_of(document.text())
    if document.bytes.count(b"\r\n") == count:
        return Ends(crlf=count)
    ends = ends_of(document.bytes)
    return ends if ends.count == count else ends_of(document.text())


def _in_file(it: Place, taken: int, lines: int) -> Place:
    """A place of what is left of a file, where it is in the file."""
    return dataclasses.replace(it, begin=it.begin + taken, end=it.end + taken, line=it.line + lines)


def places_of(document: Document, most: int = MOST) -> List[Place]:
    """The errors of a document, from the first one on, with what is beside them on their lines. Of many errors the whole text is
    asked for once, of few what is beside each."""
    stat = document.stat()
    length, found = stat["utf32"], []
    whole = document.text() if min(stat["errors"], most) * BYTES_AN_ERROR > len(document.bytes) else ""
    starts = [0, *(it.end() for it in LINE_END.finditer(whole))]
    for (begin, end), (line, character), _ in document.diagnostics(unit="utf-32", most=most):
        at = starts[line] + character if whole else document.offset((line, character), unit="utf-32")
        first, last = at - min(character, AROUND), min(at + 1 + AROUND, length)
        text = whole[first:last] if whole else document.text(first, last)
        before, after = text[: at - first], LINE_END.split(text[at + 1 - first :], 1)[0]
        found.append(Place(begin, end, line + 1, character + 1, document.bytes[begin:end].hex(" "), before, after))
    return found


def check(
    trees: Sequence[str], settings: Settings, kinds: Sequence[str] = COUNTED, most: int = MOST, controls: bool = True
) -> Iterator[Checked]:
    """The rows of all files of these trees."""
    for row in work.run(Check(tuple(kinds), most, controls), trees, settings):
        assert isinstance(row, Checked)
        yield row


def add_to(commands: "argparse._SubParsersAction[Any]") -> None:
    """Adds the parser of this subcommand."""
    parser = commands.add_parser("check", help="find what is damaged in trees of files", description=ABOUT)
    work.add_input_words(parser)
    parser.add_argument(
        "--ignore", metavar="KIND", choices=KINDS, action="append", default=[], help=f"a kind of damage that doesn't count, of {', '.join(KINDS)};"
        " of controls no note is made either")
    parser.add_argument(
        "--damage", metavar="KIND", choices=(CONTROLS,), action="append", default=[], help="a kind of damage that counts, of which otherwise a note is"
        " made alone: controls, which are control characters other than TAB, LF, FF and CR, and code points that are no characters")
    parser.add_argument("--most", metavar="N", type=_most, default=MOST, help="the errors of a file that are listed at most (default: %(default)s)")
    parser.add_argument("-v", "--verbose", action="store_true", help="print a line for each file, clean ones too, and its encoding")
    parser.add_argument("--json", action="store_true", help="print an object of JSON for each file")
    parser.add_argument("--report", metavar="FILE", help="write a page of HTML: counts, and each damaged place with the line around it")
    work.add_words(parser)
    parser.set_defaults(run=run)


def _most(text: str) -> int:
    if not text.isdecimal():
        raise argparse.ArgumentTypeError(f"{text} is no number of errors from 0 on")
    return int(text)


def run(words: argparse.Namespace) -> int:
    """Prints what is wrong, and returns the status."""
    from legacy.report import Report

    kinds = [it for it in KINDS if it in (*COUNTED, *words.damage) and it not in words.ignore]
    counts, settings = Counts(), work.settings_from(words)
    report = Report(words.report, [*words.trees, *settings.files], words.force, about_run(words)) if words.report else None
    for row in check(words.trees, settings, kinds, words.most, CONTROLS not in words.ignore):
        counts.add(row)
        if report:
            report.add(row)
        for line in [row.json()] if words.json else lines_of(row, words.verbose):
            print(line)
    sys.stdout.flush()
    if report:
        report.close()
    print(counts, file=sys.stderr)
    return counts.status


def about_run(words: argparse.Namespace) -> List[Tuple[str, str]]:
    """What a report says of a run: its command and its rules."""
    rules = [f"-e {glob}={label}" for glob, label in words.encoding]
    rules += ["git's attribute working-tree-encoding"] if words.attributes else []
    rules += [f"--{it}" for it in ("editorconfig", "declared") if getattr(words, it)]
    rules += [f"--default {words.default}"] if words.default else []
    return [("command", shlex.join(["legacy", *sys.argv[1:]])), ("rules", ", ".join(rules) or "none")]


def lines_of(row: Checked, verbose: bool) -> Iterator[str]:
    """What a person is shown of a row."""
    name = quote_path(row.path)
    if row.outcome == REFUSED:
        yield f"{name}: not checked: {visible_text(row.reason)}"
    if row.outcome == PASSED and verbose:
        yield f"{name}: not checked, {visible_text(row.reason)}"
    if verbose and row.encoding:
        sizes = f"{quantity(row.size, 'bytes')}, {quantity(row.characters, 'characters')}"
        yield f"{name}: {row.encoding}, {sizes}{'' if row.damage else ', clean'}"
    for it in row.places if ERRORS in row.damage else []:
        around = visible_text(f"{it.before[-20:]}\ufffd{it.after[:20]}")
        yield f"{name}:{it.line}:{it.character}: bytes {it.begin} to {it.end}: {it.bytes or 'none'}: {around}"
    if ERRORS in row.damage and row.errors > len(row.places):
        yield f"{name}: {quantity(row.errors - len(row.places), 'further errors')}"
    yield from _controls_of(row, name)
    if LINE_ENDS in row.damage:
        counts = ((row.ends.lf, "LF"), (row.ends.crlf, "CR LF"), (row.ends.cr, "CR"))
        yield f"{name}: line ends of several kinds: {', '.join(f'{count} {kind}' for count, kind in counts if count)}"
    if MARK in row.damage:
        yield f"{name}: it begins with the byte order mark of {row.encoding}, and its rule names {row.label}"


def _controls_of(row: Checked, name: str) -> Iterator[str]:
    """The control characters that a person is shown: each place if they are damage, otherwise how many there are."""
    for it in row.control_places if CONTROLS in row.damage else []:
        around = visible_text(f"{it.before[-20:]}\ufffd{it.after[:20]}")
        yield f"{name}:{it.line}:{it.character}: bytes {it.begin} to {it.end}: {it.bytes}: a control character: {around}"
    more = sum(row.controls.values()) - len(row.control_places)
    if CONTROLS in row.damage and more:
        yield f"{name}: {quantity(more, 'further control characters')}"
    elif row.controls and CONTROLS not in row.damage:
        listed = ", ".join(f"{name} {count}" for name, count in sorted(row.controls.items(), key=lambda it: -it[1])[:5])
        where = f", the first in line {row.control_places[0].line}, character {row.control_places[0].character}" if row.control_places else ""
        yield f"{name}: {quantity(sum(row.controls.values()), 'control characters')} ({listed}){where}"


class Counts:
    """How many files there are of each outcome, and errors; and by encoding how many errors and characters, and which bytes are
    wrong, by which a wrong rule is seen."""

    def __init__(self) -> None:
        self._of = {DONE: 0, FOUND: 0, PASSED: 0, REFUSED: 0}
        self._errors: Counter[str] = collections.Counter()
        self._characters: Counter[str] = collections.Counter()
        self._bytes: Dict[str, Counter[str]] = {}

    def add(self, row: Checked) -> None:
        """Counts a row."""
        self._of[row.outcome] += 1
        if row.encoding:
            self._errors[row.encoding] += row.errors
            self._characters[row.encoding] += row.characters
        if row.places:
            self._bytes.setdefault(row.encoding, collections.Counter()).update(it.bytes or "none" for it in row.places)

    def __str__(self) -> str:
        errors = sum(self._errors.values())
        parts = [f"{quantity(self._of[DONE], 'files')} clean", f"{self._of[FOUND]} damaged, with {quantity(errors, 'errors')}"]
        parts += [f"{self._of[REFUSED]} not checked"] if self._of[REFUSED] else []
        parts += [f"{self._of[PASSED]} without a rule, or links"] if self._of[PASSED] else []
        return "\n".join(["; ".join(parts), *self._evidence()])

    def _evidence(self) -> Iterator[str]:
        for encoding, errors in self._errors.most_common(10):
            if errors:
                share = f"{100 * errors / self._characters[encoding]:.2g} % of {quantity(self._characters[encoding], 'characters')}"
                bytes_ = ", ".join(f"{it} {count}" for it, count in self._bytes.get(encoding, collections.Counter()).most_common(5))
                yield f"{encoding}: {quantity(errors, 'errors')}, {share}{'; bytes ' + bytes_ if bytes_ else ''}"

    @property
    def status(self) -> int:
        """The status of the command; if no file has a rule, nothing could be checked."""
        nothing = self._of[PASSED] and not (self._of[DONE] or self._of[FOUND])
        return 2 if self._of[REFUSED] or nothing else 1 if self._of[FOUND] else 0
