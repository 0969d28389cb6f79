"""An edited text saved into the legacy bytes that it was read from, by `gate`: what the edit doesn't name is unchanged, byte for byte.

    before = read(gate, "shift_jis", path.read_bytes())
    after = save(gate, "shift_jis", before, text)
    path.write_bytes(after.raw)

The difference becomes edits of the bytes (`changes`); lines that were moved, copied or restored come as the bytes that they
are known by. Nothing is taken on trust: bytes are handed back only once `gate` has decoded them to the text that was to be
saved. If there are none, `Refused` says why, for a person.

A call opens one document of `gate`'s 64 at a time, and closes it, unless it is to be left open as the `last` one. If `gate` ends in between, `Gone` is raised; nothing
is lost, and the call can be made again over another `Gate`."""
import base64
import contextlib
import errno
import itertools
import operator
import re
import unicodedata
from array import array
from typing import Any, Callable, ContextManager, Dict, Iterable, Iterator, List, NamedTuple, Optional, Sequence, Set, Tuple

from gate import Fault, Gate, Reply
from legacy.arrangement import LETTERS, Content, Run, arrange
from legacy.difference import BAD, Difference, Range, join_edits
from legacy.documents import PAGE, Document, Last, open_document
from legacy.excerpts import Part, behind_feeds, excerpt, part
from legacy.lines import Lines, blocks, starts_after
from legacy.sequences import Edit

UNIT = "utf-32"
# The most bytes of a document.
LARGEST = 1 << 24
# The most changes of a list, and about the most bytes of its line.
CHANGES, LINE = 1000, 3_500_000
# The most code points of a text that are put in by one change.
PIECE = 250_000
# The most edits whose bytes are asked for with each, so that no second question is needed.
FEW = 8
# From how many code points of lines that differ on it is asked which lines have bytes to lose.
MANY = 100_000
# How often a single edit that is refused is made wider.
WIDER = 6
# The longest line that is looked for in a known text without a table of its lines, and how many are.
SHORT, SOME = 1000, 8

_ESCAPE = re.compile(rb"\x1b(?:\([BJI]|\$[@B])")


class Known(NamedTuple):
    """A content of a file, as bytes and as the text that they are: what an edited text is compared with, or what lines of
    it are taken from."""

    raw: bytes
    text: str
    encoding: str  # the name of the one in force
    bom: int  # the length of its byte order mark


class Refused(OSError):
    """Why a text was not saved. `errno` is for a program: EILSEQ, the encoding can't have it; EFBIG, it is too long;
    ENOMEM; or EIO. `reason` is for a person; `line` and `character` say where in the new text, counted from 1, or are 0."""

    def __init__(self, number: int, reason: str, line: int = 0, character: int = 0):
        super().__init__(number, reason)
        self.reason, self.line, self.character = reason, line, character

    def __str__(self) -> str:
        return f"line {self.line}, character {self.character}: {self.reason}" if self.line else self.reason


def read(gate: Gate, label: str, raw: bytes, last: Optional[Last] = None) -> Known:
    """A content as `gate` decodes it. Raises `Refused` if that isn't possible."""
    try:
        with open_document(gate, label, raw, last) as document:
            found = _read([document], [raw])[0]
        return found
    except Fault as fault:
        raise _refusal(fault) from fault


def read_all(gate: Gate, contents: Sequence[Tuple[str, bytes]]) -> List[Known]:
    """Some contents, each by its label, in less time than one after the other; for each a document is open meanwhile. Raises
    `Refused` if one of them isn't possible."""
    try:
        with contextlib.ExitStack() as held:
            documents = [held.enter_context(Document(gate, *it)) for it in contents]
            found = _read(documents, [raw for _, raw in contents])
        return found
    except Fault as fault:
        raise _refusal(fault) from fault


def _read(documents: Sequence[Document], raws: Sequence[bytes]) -> List[Known]:
    stats = [it.ask("stat") for it in documents]
    for it in documents:
        it.wait_until_open()
    told = [it.get() for it in stats]
    texts = [document.pages(stat["utf32"]) for document, stat in zip(documents, told)]
    return [Known(raw, "".join([page.get()["text"] for page in pages]), stat["encoding"], stat["bom"])
            for raw, pages, stat in zip(raws, texts, told)]


def save(gate: Gate, label: str, base: Known, new: str, others: Sequence[Known] = (), last: Optional[Last] = None) -> Known:
    """The base with the difference to the new text made in its bytes. Lines that aren't in the base are looked for in
    `others`, as the last contents of the file or of files read recently, the newest last. For a new file the base has no
    bytes, or those of a byte order mark. Raises `Refused`."""
    if new == base.text:
        return base
    if len(new) > LARGEST:
        raise _refusal(Fault({"fault": "TooLarge"}))
    try:
        others = [it for it in others if it.encoding == base.encoding]
        return _Saving(lambda raw: open_document(gate, label, raw, last), base, new, others).save()
    except Fault as fault:
        raise _refusal(fault, base.encoding) from fault


class _Start:
    """Bytes that edits are made in, and how their text differs from the one that is to be saved."""

    def __init__(self, raw: bytes, text: str, new: str):
        self.raw, self.text, self.difference = raw, text, Difference(text, new)

    def letters(self) -> int:
        """How many code points the lines have that differ."""
        ranges = map(self.difference.range_of, self.difference.hunks)
        return sum(it.end - it.start + it.new_end - it.new_start for it in ranges)


class _Rejected(Exception):
    """An edit that `gate` refused."""

    def __init__(self, edit: Optional[Edit], fault: Fault, refused: Refused):
        super().__init__(str(fault))
        self.edit, self.fault, self.refused = edit, fault, refused


class _Saving:
    """One text that is to be saved: what is tried, the finest way first, until one is accepted."""

    def __init__(self, open_document: Callable[[bytes], ContextManager[Document]], base: Known, new: str, others: Sequence[Known]):
        self.open_document, self.base, self.new, self.others = open_document, base, new, others
        self.one_form = _has_one_form(base.encoding)
        self.same = BAD
        self.base_errors: Optional[int] = None

    def save(self) -> Known:
        """The content that has the new text."""
        first: Optional[Refused] = None
        for start, lines in self._ways():
            try:
                return Known(self._try_edits(start, lines), self.new, self.base.encoding, self.base.bom)
            except _Rejected as rejected:
                first = first or rejected.refused
                if not self._is_worth_another(rejected):
                    break
        assert first
        raise first

    def _is_worth_another(self, rejected: _Rejected) -> bool:
        """Whether another way could be accepted: not where a character is nowhere in what is known."""
        code = rejected.fault.members.get("code_point")
        known = code is None or any(chr(code) in it.text for it in [self.base, *self.others])
        return known and rejected.refused.errno == errno.EILSEQ

    def _ways(self) -> Iterator[Tuple[_Start, bool]]:
        """What to begin with, and whether whole lines are replaced."""
        here = _Start(self.base.raw, self.base.text, self.new)
        there = self._arrangement(here.difference, False) if self._has_known_lines(here.difference, here.letters()) else None
        if there:
            yield there, False
        yield here, False
        anywhere = self._arrangement(here.difference, True)
        if anywhere:
            yield anywhere, False
            yield anywhere, True
        yield here, True

    def _typed_lines(self, it: Difference) -> List[str]:
        """The lines that were typed, as it seems, and aren't ASCII: some of them, and one more if there are more."""
        typed = (it.new_lines[n] for hunk in it.hunks for n in range(hunk.new_start, hunk.new_end))
        return list(itertools.islice((line for line in typed if not line.isascii()), SOME + 1))

    def _has_known_lines(self, it: Difference, letters: int) -> bool:
        """Whether it may be that a line was moved, copied or restored, or is like one that is gone."""
        wanted = self._typed_lines(it)
        if not _are_few(wanted):
            return letters <= LETTERS or self._has_equal_lines(it)
        gone = (it.lines[n] for hunk in it.hunks for n in range(hunk.start, hunk.end))
        return bool(wanted) and (len(it.hunks) > 1 and not all(map(str.isascii, gone)) or any(
            line.rstrip("\r") in known.text for known in [self.base, *self.others] for line in wanted))

    def _has_equal_lines(self, it: Difference) -> bool:
        """Whether a line that was typed, as it seems, is one that is known."""
        typed: Set[int] = set()
        for hunk in it.hunks:
            typed.update(it.new_lines.hashes[hunk.new_start : hunk.new_end])
        around = (Lines(it.old, *ends) for ends in ((0, it.head), (len(it.old) - it.tail, len(it.old))))
        others = (Lines(known.text) for known in self.others)
        return any(_has_letters(lines, typed) for lines in itertools.chain([it.lines], around, others))

    def _arrangement(self, it: Difference, anywhere: bool) -> Optional[_Start]:
        """The known lines of which the new text is made, or None if those of the base, unchanged, are best."""
        wanted = self._typed_lines(it)
        parts = self._parts(it, wanted) if self.one_form and not anywhere and _are_few(wanted) else None
        return self._arrangement_of(it, parts) if parts else self._whole_arrangement(it, anywhere)

    def _parts(self, it: Difference, wanted: Sequence[str]) -> Optional[List[Part]]:
        """The lines of the base that differ, and of all others those that are wanted, the newest last; or None if these
        aren't easily found."""
        base, tail = self.base, len(it.old) - it.tail
        start = behind_feeds(base.raw, it.old.count("\n", 0, it.head), base.bom)
        end = behind_feeds(base.raw, len(it.lines) - 1, start) if it.tail else len(base.raw)
        places = [*((known, 0, len(known.text)) for known in self.others), (base, 0, it.head), (base, tail, len(it.old))]
        around = [excerpt(known.text, known.raw, known.bom, wanted, *ends) for known, *ends in places]
        found = [part(it.lines, base.raw, start, end), *filter(None, around)]
        return found if len(found) == len(places) + 1 and len(found[0].starts) == len(it.lines.starts) else None

    def _arrangement_of(self, it: Difference, parts: Sequence[Part]) -> Optional[_Start]:
        """What is between the unchanged ends, made of the lines of these parts."""
        runs = arrange([Content(it.lines, ()) for it in parts], it.new_lines, it.hunks, True, False, self.same)
        if runs is None:
            return None
        found = [(_text(parts[run.content].lines, run), parts[run.content].raws(run.first, run.last))
                 if run.content < len(parts) else _literal(it.new_lines, run) for run in runs]
        starts = parts[0].starts
        raw = b"".join([self.base.raw[: starts[0]], b"\n".join(raw for _, raw in found), self.base.raw[starts[-1] - 1 :]])
        text = "".join([it.old[: it.head], "\n".join(text for text, _ in found), it.old[len(it.old) - it.tail :]])
        return _Start(raw, text, self.new)

    def _whole_arrangement(self, it: Difference, anywhere: bool) -> Optional[_Start]:
        """The wanted lines, found by tables of all lines."""
        tables = [table for table in map(_table, [self.base, *self.others]) if table]
        if not tables or tables[0].of is not self.base:
            return None
        new = Lines(self.new)
        before = self.new.count("\n", 0, it.head)
        hunks = [hunk.shift(before, before) for hunk in it.hunks]
        runs = arrange([Content(table.lines, table.fixed) for table in tables], new, hunks, self.one_form, anywhere, self.same)
        if runs is None:
            return None
        raws: List[bytes] = []
        texts: List[str] = []
        for run in runs:
            text, raw = tables[run.content].cut(run) if run.content < len(tables) else _literal(new, run)
            texts.append(text)
            raws.append(raw)
        raw = self.base.raw[: self.base.bom] + _feed(self.base.encoding).join(raws)
        return _Start(raw, "\n".join(texts), self.new)

    def _try_edits(self, start: _Start, lines: bool) -> bytes:
        """The bytes, where need be with single edits made wider. Raises `_Rejected`."""
        precious = None if lines or start.letters() < MANY else self._precious(start)
        found = start.difference.by_lines() if lines else start.difference.edits(self.one_form, self.same, precious)
        first: Optional[_Rejected] = None
        for _ in range(WIDER):
            try:
                return self._apply(start, found)
            except _Rejected as rejected:
                first = first or rejected
                wider = None if lines else self._wider(start, found, precious, rejected)
                if wider is None or wider == found:
                    break
                found = wider
        assert first
        raise first

    def _wider(self, start: _Start, found: List[Edit], precious: Optional[List[Range]],
               rejected: _Rejected) -> Optional[List[Edit]]:
        """The edits again, with one more character that nobody types, since the encoding lacks it. Or with the refused one
        made wider, if the edit isn't possible between its neighbours."""
        code = rejected.fault.members.get("code_point")
        if code is not None:
            if chr(code) in self.same or chr(code) not in start.text:
                return None
            self.same += chr(code)
            return start.difference.edits(self.one_form, self.same, precious)
        if rejected.fault.name not in ("NotKept", "SplitsItem") or rejected.edit not in found:
            return None
        it = rejected.edit
        before, behind = min(1, it.start), min(1, len(start.text) - it.end)
        wide = Edit(it.start - before, it.end + behind, it.new_start - before, it.new_end + behind)
        return join_edits(start.text, sorted(wide if x == it else x for x in found), self.one_form)

    def _precious(self, start: _Start) -> Optional[List[Range]]:
        """The lines whose bytes aren't those that an encoder gives for their text, or None if that isn't asked for."""
        table = _table(Known(start.raw, start.text, self.base.encoding, self.base.bom))
        if self.base.encoding == "ISO-2022-JP" or not table:
            return None
        found: List[Range] = []
        at, line = table.lines.starts, 0
        with self.open_document(start.raw) as document:
            document.wait_until_open()
            for page in self._encode(document, start.text):
                lines = _split(page, self.base.encoding)
                differ = map(operator.ne, lines, _split(table.raw(line, line + len(lines)), self.base.encoding))
                found += [(at[it], at[it + 1] - 1) for it in itertools.compress(itertools.count(line), differ)]
                line += len(lines)
        return found

    def _encode(self, document: Document, text: str) -> Iterator[bytes]:
        """The text as an encoder gives it, some lines at a time, without the LF of the last."""
        at = 0
        while at <= len(text):
            end = text.find("\n", at + PAGE) + 1 or len(text) + 1
            reply = document.ask("encode", label=self.base.encoding, mode="html", **{"from": at, "to": end - 1})
            yield base64.b64decode(reply.get()["bytes"])
            at = end

    def _apply(self, start: _Start, found: List[Edit]) -> bytes:
        """The bytes with these edits made in them, once `gate` has decoded them to the new text."""
        few = len(found) <= FEW
        sent: List[Tuple[Reply, List[_Change]]] = []
        plans: List[Reply] = []
        with self.open_document(start.raw) as document:
            for listed in _lists(_changes(start.text, self.new, found), 1 if few else CHANGES):
                if few:
                    plans.append(document.ask("plan", unit=UNIT, **listed[0].fields(self.new)))
                    reply = document.edit("change", unit=UNIT, **listed[0].fields(self.new))
                else:
                    reply = document.edit("changes", unit=UNIT, changes=[it.fields(self.new) for it in listed])
                sent.append((reply, listed))
            stat, pages = document.ask("stat"), document.pages(len(self.new))
            document.wait_until_open()
            for reply, listed in sent:
                self._accept(reply, listed)
            told = stat.get()
            if told["utf32"] != len(self.new) or not self._is_new(pages):
                raise self._rejection(None, 0, Fault({"fault": "NotKept"}))
            document.raw = _splice(start.raw, plans) if few else document.source(told["bytes"])
        if not self._keeps_damage(document.raw, told["errors"]):
            raise self._rejection(None, 0, Fault({"fault": "NotKept"}))
        return document.raw

    def _keeps_damage(self, raw: bytes, errors: int) -> bool:
        """Whether the bytes that nobody touched stay. If text was only appended, for example after a torn character, all of them
        have to. If the encoding has U+FFFD itself, an edit might have put that in place of errors, so these are counted."""
        if self.base.text and self.new.startswith(self.base.text) and not raw.startswith(_without_escapes(self.base)):
            return False
        gone = self.base.text.count(BAD) - self.new.count(BAD)
        return BAD not in self.new or not _has_bad(self.base.encoding) or errors >= self._errors() - max(gone, 0)

    def _errors(self) -> int:
        """How many errors the base has."""
        if self.base_errors is None:
            with self.open_document(self.base.raw) as document:
                asked = document.ask("stat")
                document.wait_until_open()
                self.base_errors = int(asked.get()["errors"])
        return self.base_errors

    def _accept(self, reply: Reply, listed: List["_Change"]) -> None:
        try:
            reply.get()
        except Fault as fault:
            it = listed[fault.members.get("change", 0)]
            raise self._rejection(it.edit, it.new_start + fault.members.get("index", 0), fault) from fault

    def _is_new(self, pages: Iterator[Reply]) -> bool:
        """Whether the text that `gate` has is the new one, which is as long."""
        wanted = (self.new[at : at + PAGE] for at in range(0, len(self.new), PAGE))
        return all([reply.get()["text"] == page for reply, page in zip(pages, wanted)])

    def _rejection(self, edit: Optional[Edit], at: int, fault: Fault) -> _Rejected:
        refused = _refusal(fault, self.base.encoding, self.new[at : at + 1])
        if edit is not None:
            refused.line = self.new.count("\n", 0, at) + 1
            refused.character = at - self.new.rfind("\n", 0, at)
        return _Rejected(edit, fault, refused)


class _Change(NamedTuple):
    """A change of a list, or one of several that put in a long text."""

    edit: Edit  # of which it is
    new_start: int  # of its text
    new_end: int
    start: Tuple[int, int]  # a line and a character
    end: Tuple[int, int]

    def fields(self, new: str) -> Dict[str, Any]:
        (line, character), (last, behind) = self.start, self.end
        place = {"start": {"line": line, "character": character}, "end": {"line": last, "character": behind}}
        return {"range": place, "text": new[self.new_start : self.new_end]}


def _are_few(lines: Sequence[str]) -> bool:
    """Whether lines are few and short enough to be looked for one by one."""
    return len(lines) <= SOME and all(len(line) <= SHORT for line in lines)


def _has_letters(lines: Lines, hashes: Set[int]) -> bool:
    """Whether one of the lines has one of these hashes, and isn't ASCII."""
    both = hashes.intersection(lines.hashes)
    return bool(both) and any(it in both and not lines[line].isascii() for line, it in enumerate(lines.hashes))


def _changes(old: str, new: str, found: List[Edit]) -> Iterator[_Change]:
    """The edits as changes, that of the last place first, so that each finds the text before it as it was."""
    whole = [_with_line_ends(old, it) for it in found]
    positions = _positions(old, (at for it in whole for at in (it.start, it.end)))
    for edit, (start, end, new_start, new_end) in zip(reversed(found), reversed(whole)):
        first, last = positions[start], positions[end]
        # The last piece of a long text comes first, too. No piece begins with an LF, whose CR may be before it.
        while new_end - new_start > PIECE:
            at = new_end - PIECE
            while at > new_start and new[at] == "\n":
                at -= 1
            yield _Change(edit, at, new_end, first, last)
            new_end, last = at, first
        yield _Change(edit, new_start, new_end, first, last)


def _with_line_ends(old: str, it: Edit) -> Edit:
    """An edit that neither begins nor ends between CR and LF, which isn't a position. Both are as in the new text."""
    start, end, new_start, new_end = it
    if old[max(start - 1, 0) : start + 1] == "\r\n":
        start, new_start = start - 1, new_start - 1
    if old[max(end - 1, 0) : end + 1] == "\r\n":
        end, new_end = end + 1, new_end + 1
    return Edit(start, end, new_start, new_end)


def _positions(old: str, places: Iterable[int]) -> Dict[int, Tuple[int, int]]:
    """The line and the character of some places, which are in order and not between CR and LF."""
    found: Dict[int, Tuple[int, int]] = {}
    line = begin = at = 0
    for place in places:
        ends = old.count("\n", at, place) + old.count("\r", at, place) - old.count("\r\n", at, place)
        if ends:
            line += ends
            begin = max(old.rfind("\n", at, place), old.rfind("\r", at, place)) + 1
        found[place] = line, place - begin
        at = place
    return found


def _lists(changes: Iterator[_Change], most: int) -> Iterator[List[_Change]]:
    """The changes in lists, each of which has room in a line."""
    listed: List[_Change] = []
    size = 0
    for it in changes:
        # (a character is at most two escapes of six bytes)
        count = 12 * (it.new_end - it.new_start) + 150
        if listed and (len(listed) == most or size + count > LINE):
            yield listed
            listed, size = [], 0
        listed.append(it)
        size += count
    if listed:
        yield listed


def _splice(raw: bytes, plans: List[Reply]) -> bytes:
    """The bytes with what was planned, one change after the other."""
    for it in plans:
        plan, view = it.get(), memoryview(raw)
        raw = b"".join([view[: plan["at"]], base64.b64decode(plan["bytes"]), view[plan["at"] + plan["del"] :]])
    return raw


class _Table(NamedTuple):
    """A content's lines, as text and as bytes."""

    of: Known
    lines: Lines
    starts: "array[int]"  # of the lines' bytes, and of one that would be behind the last
    fixed: Set[int]  # the lines whose bytes are another text elsewhere

    def raw(self, first: int, last: int) -> bytes:
        """The bytes of some lines, without the last LF."""
        return self.of.raw[self.starts[first] : self.starts[last] - len(_feed(self.of.encoding))]

    def cut(self, run: Run) -> Tuple[str, bytes]:
        return _text(self.lines, run), self.raw(run.first, run.last)


def _text(lines: Lines, run: Run) -> str:
    """Some lines, without the last LF."""
    return lines.text[lines.starts[run.first] : lines.starts[run.last] - 1]


def _literal(lines: Lines, run: Run) -> Tuple[str, bytes]:
    """Lines that are ASCII, and each their own bytes."""
    text = _text(lines, run)
    return text, text.encode("ascii")


def _table(of: Known) -> Optional[_Table]:
    """The lines of a content, or None if its bytes don't fall into the lines that its text has."""
    lines, starts = Lines(of.text), _starts(of.raw, of.bom, of.encoding)
    if len(starts) != len(lines.starts):
        return None
    fixed: Set[int] = set()
    if of.encoding == "ISO-2022-JP":
        fixed = _not_in_ascii([of.raw[start:end] for start, end in zip(starts, starts[1:])])
    elif of.encoding.startswith("UTF-16") and len(of.raw) % 2:
        fixed = {len(lines) - 1}
    return _Table(of, lines, starts, fixed)


def _starts(raw: bytes, first: int, encoding: str) -> "array[int]":
    """Where the bytes of each line begin, and where those of one after the last would."""
    feed = _feed(encoding)
    found = array("q", [first])
    if len(feed) == 1:
        for lines in blocks(raw, feed, first, len(raw)):
            found.extend(starts_after(found[-1], lines))
    else:
        found.extend(it.end() for it in re.finditer(feed, raw) if not (it.start() - first) % 2)
        found.append(len(raw) + 2)
    return found


def _split(raw: bytes, encoding: str) -> List[bytes]:
    """The bytes of each line."""
    if len(_feed(encoding)) == 1:
        return raw.split(b"\n")
    starts = _starts(raw, 0, encoding)
    return [raw[start : end - 2] for start, end in zip(starts, starts[1:])]


def _not_in_ascii(raws: Sequence[bytes]) -> Set[int]:
    """The lines of ISO-2022-JP that don't begin and end in ASCII."""
    found, ascii_before = set(), True
    for line, raw in enumerate(raws):
        escapes = _ESCAPE.findall(raw)
        ascii_behind = escapes[-1] == b"\x1b(B" if escapes else ascii_before
        if not (ascii_before and ascii_behind):
            found.add(line)
        ascii_before = ascii_behind
    return found


def _has_one_form(encoding: str) -> bool:
    """Whether an ASCII character is always the byte that it is in ASCII."""
    return not encoding.startswith("UTF-16") and encoding not in ("ISO-2022-JP", "replacement")


def _has_bad(encoding: str) -> bool:
    """Whether U+FFFD is a character of an encoding, too."""
    return encoding == "UTF-8" or encoding.startswith("UTF-16") or encoding == "gb18030"


def _without_escapes(of: Known) -> bytes:
    """A content's bytes without the escapes at their end, which may come to follow what is appended."""
    raw = of.raw
    while of.encoding == "ISO-2022-JP" and _ESCAPE.fullmatch(raw[-3:]):
        raw = raw[:-3]
    return raw


def _feed(encoding: str) -> bytes:
    return {"UTF-16LE": b"\n\0", "UTF-16BE": b"\0\n"}.get(encoding, b"\n")


def _refusal(fault: Fault, encoding: str = "", character: str = "") -> Refused:
    """What a refusal means, for a person."""
    code = fault.members.get("code_point")
    if fault.name == "Unencodable" and code == ord(BAD):
        if character != BAD:
            return Refused(errno.EILSEQ, f"U+{ord(character):04X} is a control that {encoding} keeps to itself")
        return Refused(errno.EILSEQ, f"U+FFFD stands for bytes that are no {encoding}; where it is typed or copied, those bytes "
                                     "can't be made from it")
    if fault.name == "Unencodable" and code is not None:
        name = unicodedata.name(chr(code), "")
        return Refused(errno.EILSEQ, f"U+{code:04X}{' ' if name else ''}{name} has no bytes in {encoding}")
    number, reason = _REASONS.get(fault.name, (errno.EIO, "gate refused it as {fault}"))
    return Refused(number, reason.format(encoding=encoding, fault=fault))


_REASONS = {
    "NotKept": (errno.EILSEQ, "its bytes, beside those that are there, would be another text in {encoding}"),
    "SplitsItem": (errno.EILSEQ, "it lies between two characters that are one pair of bytes in {encoding}"),
    "NoEncoder": (errno.EILSEQ, "{encoding} can only be read"),
    "TooLarge": (errno.EFBIG, "the file would be longer than 16,777,216 bytes"),
    "OutOfMemory": (errno.ENOMEM, "gate ran out of memory"),
    "NoIndex": (errno.EIO, "gate has no index file for it"),
    "UnknownLabel": (errno.EIO, "gate doesn't know the label"),
}
