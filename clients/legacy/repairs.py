"""Repairs by rule: the edits that mend a file, and what they make of its bytes."""
import dataclasses
import hashlib
import re
from typing import Callable, ClassVar, Dict, Iterator, List, Optional, Sequence, Tuple, Type

from gate import Document, Fault, Gate

from legacy import work
from legacy.ends import LINE_END
from legacy.terminals import quantity
from legacy.work import FOUND, LARGEST, Before, Item, PartRow, Refusal, Row
from legacy.work.joints import has_head, move_line, tail_of
from legacy.work.writing import sha256_of

ENDS = {"lf": "\n", "crlf": "\r\n", "cr": "\r"}
CODECS = {"UTF-16LE": "utf-16-le", "UTF-16BE": "utf-16-be"}
# What is beyond ASCII, and no error; and the control characters by which ISO-8859-1 has the bytes that the Standard's windows-1252
# has other characters for. No text has them on purpose.
RUN, CONTROL = re.compile("[^\0-\x7f\ufffd]+"), re.compile("[\x80-\x9f]")


@dataclasses.dataclass
class Edit:
    """A splice at byte `at`: the bytes `old` are replaced by `new`, both in hexadecimal. It has the rule, the line and the
    character, and the text there, before and after."""

    at: int
    old: str
    new: str
    rule: str
    line: int
    character: int
    was: str
    becomes: str

    @property
    def end(self) -> int:
        """The byte after the old ones."""
        return self.at + len(bytes.fromhex(self.old))


@dataclasses.dataclass
class Mended(Row):
    """The SHA-256 of a file, the edits that mend it, and how many runs of characters look as if they were encoded twice and
    aren't mended."""

    sha256: str = ""
    edits: List[Edit] = dataclasses.field(default_factory=list)
    stay: int = 0

    def __post_init__(self) -> None:
        self.edits = [Edit(**it) if isinstance(it, dict) else it for it in self.edits]


@dataclasses.dataclass
class Repairs(work.Job):
    """The job of a plan, by its rules. Errors whose bytes, in hexadecimal, become others. Errors of a single byte that is an
    ASCII letter except for its highest bit. Runs of characters that are text of the file's encoding once they are encoded by
    this label, which is what text becomes that was decoded by it and encoded again. And line ends of other kinds than this
    one."""

    damage: Sequence[Tuple[str, str]] = ()
    high_bit: bool = False
    twice: Optional[str] = None
    line_ends: Optional[str] = None

    rows: ClassVar[Type[Row]] = Mended
    beside: ClassVar[Optional[int]] = 0

    def row(self, gate: Gate, item: Item, content: bytes) -> Mended:
        """The edits that mend a file."""
        made = self._row(gate, item, content)
        if made.edits:
            made.sha256, made.outcome = hashlib.sha256(content).hexdigest(), FOUND
        return made

    def part_row(self, gate: Gate, item: Item, content: bytes) -> PartRow:
        """The edits that mend a part of a long file."""
        part = item.part
        assert part
        made = self._row(gate, item, content, "sniff" if part.is_first else "keep")
        # (a head's line feed isn't the file's)
        made.edits = [it for it in made.edits if it.at >= len(part.head)]
        for it in made.edits:
            it.at += part.start - len(part.head)
            it.line -= has_head(part)
        with gate.open("part", item.label, content, "sniff" if part.is_first else "keep") as document:
            stat, encoding = document.stat(), document.encoding
        tail = 0 if part.is_last else tail_of(gate, encoding, content)
        return PartRow(item.path, item.size, item.label, made=made, lines=stat["lines"] - 1 - has_head(part), tail=tail)

    def join(self, whole: Row, part: Row, before: Before) -> None:
        """Adds the edits of a part."""
        assert isinstance(whole, Mended) and isinstance(part, Mended)
        for it in part.edits:
            move_line(it, before)
        whole.edits += part.edits
        whole.stay += part.stay

    def finish(self, whole: Row) -> None:
        """Looks at a whole file for its SHA-256."""
        assert isinstance(whole, Mended)
        if whole.edits:
            whole.sha256, whole.outcome = sha256_of(whole.path), FOUND

    def _row(self, gate: Gate, item: Item, content: bytes, bom: str = "sniff") -> Mended:
        made = Mended(item.path, len(content), item.label)
        with gate.open("mended", item.label, content, bom) as document:
            text = document.text()
            found = list(self._line_ends(document, text))
            if self.twice:
                twice = Twice(gate, document, self.twice)
                found += twice.edits(text)
                made.stay = twice.stay
            if document.stat()["errors"] and (self.damage or self.high_bit):
                found += self._errors(gate, document)
            made.edits = apart(sorted(found, key=lambda it: it.at))
        if made.edits:
            look_at(gate, item.label, content, apply_edits(content, made.edits), bom)
        return made

    def _errors(self, gate: Gate, document: Document) -> Iterator[Edit]:
        """Errors that a rule mends, the last one first, so that those before it stay where they are. A repair counts where
        it leaves fewer errors. The program alone makes it: the copy that this client has would be copied for each."""
        table = {bytes.fromhex(old): bytes.fromhex(new) for old, new in self.damage}
        trial = Trial(gate, document)
        for (begin, end), (line, character), _ in reversed(document.diagnostics(unit="utf-32")):
            old = document.bytes[begin:end]
            new = table.get(old, self._letter(old))
            becomes = None if new is None else trial.text_of(begin, old, new)
            if new is not None and becomes is not None:
                rule = "damage" if old in table else "high-bit"
                yield Edit(begin, old.hex(), new.hex(), rule, line + 1, character + 1, "\ufffd", becomes)

    def _letter(self, old: bytes) -> Optional[bytes]:
        letter = bytes([old[0] & 0x7F]) if self.high_bit and len(old) == 1 else b""
        return letter if letter.isalpha() else None

    def _line_ends(self, document: Document, text: str) -> Iterator[Edit]:
        """Line ends of another kind."""
        if not self.line_ends:
            return
        wanted, codec = ENDS[self.line_ends], CODECS.get(document.encoding, "ascii")
        found = list(_ends(document.bytes, codec))
        if len(found) != document.stat()["lines"] - 1:
            raise Refusal("behind its errors, which bytes are line ends isn't certain")
        start = 0
        for line, (end, at) in enumerate(zip(LINE_END.finditer(text), found), 1):
            if end[0] != wanted:
                old, new = end[0].encode(codec), wanted.encode(codec)
                yield Edit(at, old.hex(), new.hex(), "line-ends", line, end.start() - start + 1, end[0], wanted)
            start = end.end()


class Trial:
    """Repairs of errors that are tried on a document, the last one first; those that count stay made."""

    def __init__(self, gate: Gate, document: Document):
        self._gate, self._name, self._rev = gate, document.name, document.rev
        self._left = document.stat()["errors"]

    def text_of(self, begin: int, old: bytes, new: bytes) -> Optional[str]:
        """The text of new bytes that replace old ones, or None if they don't leave fewer errors."""
        self._splice(begin, len(old), new)
        asked = [self._gate.send("stat", doc=self._name)]
        asked += [self._gate.send("place", doc=self._name, unit="byte", value=it) for it in (begin, begin + len(new))]
        stat, first, last = (it.get() for it in asked)
        if stat["errors"] >= self._left:
            self._splice(begin, len(new), old)
            return None
        self._left = stat["errors"]
        text: str = self._gate.ask("text", doc=self._name, **{"from": first["utf32"], "to": last["utf32"]})["text"]
        return text

    def _splice(self, at: int, count: int, new: bytes) -> None:
        self._rev = self._gate.ask("splice", doc=self._name, rev=self._rev, at=at, bytes=new, **{"del": count})["rev"]


class Twice:
    """Runs of characters of a document that were decoded by a label once too often, and how many look so and stay."""

    def __init__(self, gate: Gate, document: Document, label: str):
        self._gate, self._document, self._label = gate, document, label
        self._known: Dict[str, Optional[Tuple[bytes, str]]] = {}
        self._suspects: Dict[str, bool] = {}
        self.stay = 0

    def edits(self, text: str) -> Iterator[Edit]:
        """The edits that mend them."""
        for run in RUN.finditer(text):
            if run[0] not in self._known:
                self._known[run[0]] = self._once(run.span(), run[0])
            known = self._known[run[0]]
            if known is None:
                self.stay += self._suspects[run[0]]
                continue
            new, becomes = known
            begin, end = self._document.span(*run.span())
            line, character = self._document.position(run.start(), unit="utf-32")
            yield Edit(begin, self._document.bytes[begin:end].hex(), new.hex(), "twice", line + 1, character + 1, run[0], becomes)

    def _once(self, run: Tuple[int, int], text: str) -> Optional[Tuple[bytes, str]]:
        """The bytes of a run by the label, and their text, if they are shorter text of the document's encoding."""
        new = self._encode(run, text)
        self._suspects[text] = CONTROL.search(text) is not None
        if new is None:
            return None
        with self._gate.open("once", self._document.encoding, new, "keep") as once:
            stat = once.stat()
            is_shorter = stat["utf32"] < run[1] - run[0]
            if is_shorter and not stat["errors"]:
                return new, once.text()
        # (some of its characters would be one, though not all of it is text then)
        self._suspects[text] = self._suspects[text] or is_shorter
        return None

    def _encode(self, run: Tuple[int, int], text: str) -> Optional[bytes]:
        """The bytes of a run by the label. A control character that it has no byte for is its own byte, since who decoded the
        text may have had ISO-8859-1, for which the Standard has another encoding."""
        new = _unless_unencodable(lambda: self._document.encode(self._label, *run))
        controls = [ord(it) for it in CONTROL.findall(text)]
        if new is not None or not controls:
            return new
        # (a line feed, which the run has none of, is one byte and part of no other character)
        with self._gate.open("controls", "utf-8", CONTROL.sub("\n", text).encode(), "keep") as others:
            new = _unless_unencodable(lambda: others.encode(self._label))
        parts = new.split(b"\n") if new is not None else []
        if len(parts) != len(controls) + 1:
            return None
        return b"".join([parts[0], *(bytes([it]) + part for it, part in zip(controls, parts[1:]))])


def _unless_unencodable(encode: Callable[[], bytes]) -> Optional[bytes]:
    """Bytes, or None if a character has none."""
    try:
        return encode()
    except Fault as fault:
        if fault.name != "Unencodable":
            raise
        return None


def _ends(content: bytes, codec: str) -> Iterator[int]:
    """Where line ends are, in bytes. In UTF-16 those count that begin with a code unit; no other hides one, since no line
    end begins with the byte that another has last."""
    unit = len("\n".encode(codec))
    expression = b"|".join(re.escape(it.encode(codec)) for it in ("\r\n", "\r", "\n"))
    return (it.start() for it in re.finditer(expression, content) if it.start() % unit == 0)


def apart(edits: Sequence[Edit]) -> List[Edit]:
    """Those, in order, that don't overlap the one before."""
    found: List[Edit] = []
    for it in edits:
        if not found or it.at >= found[-1].end:
            found.append(it)
    return found


def apply_edits(content: bytes, edits: Sequence[Edit]) -> bytes:
    """The content with all edits made, whose places are those of the content as it is."""
    parts, last = [], 0
    for it in edits:
        parts += [content[last : it.at], bytes.fromhex(it.new)]
        last = it.end
    return b"".join([*parts, content[last:]])


def look_at(gate: Gate, label: str, old: bytes, new: bytes, bom: str = "sniff") -> None:
    """Raises `Refusal` if new bytes have more errors than the old ones, another encoding, or are too many."""
    if len(new) > LARGEST:
        raise Refusal(f"it would have {len(new)} bytes; {LARGEST} are the most")
    with gate.open("old", label, old, bom) as before, gate.open("new", label, new, bom) as after:
        errors, left = (it.stat()["errors"] for it in (before, after))
    if (before.encoding, before.bom) != (after.encoding, after.bom):
        raise Refusal(f"its first bytes would say that it is {after.encoding}")
    if left > errors:
        raise Refusal(f"it would have {quantity(left, 'errors')}, and has {errors}")
