"""The questions that a document of `gate` answers."""
import base64
from typing import Any, Callable, Iterator, List, Optional, Sequence, Tuple

from gate import Fault, Gate, Members
from gate_documents.refusals import Lost

# A line and a character, both counted from 0, or the code points where something begins and ends.
Pair = Tuple[int, int]

# The most entries of a page of errors or of lines.
PAGE = 10_000
# The fewest bytes that a client reads at once if `gate` has no memory for more.
FEWEST = 256


class Questions:
    """What a document says about itself as it is now, which may be at a later revision than the client has seen."""

    name: str
    # The revision of the client's copy.
    rev: int
    gate: Gate

    # The number of the connection on which the document is known to be the copy's, starting at 1.
    _on = 0

    # Whether an answer was of another revision than the copy's.
    _ahead = False

    def _explain(self, fault: Fault) -> Fault:
        """A refusal, or that the document is lost."""
        return Lost() if fault.name == "NoDocument" and self._on != self.gate.count else fault

    def _question(self, op: str, **fields: Any) -> Members:
        """The answer to a question that the client itself asks."""
        try:
            return self.gate.ask(op, doc=self.name, **fields)
        except Fault as fault:
            raise self._explain(fault) from None

    def _ask(self, op: str, **fields: Any) -> Members:
        """The answer to a question of a caller, who may take places from it."""
        return self._note(self._question(op, **fields))

    def _note(self, reply: Members) -> Members:
        """Remembers whether an answer was of another revision than the copy's."""
        self._ahead = self._ahead or reply["rev"] != self.rev
        return reply

    def stat(self) -> Members:
        """The document's lengths, as `gate` has them."""
        return self._ask("stat")

    def text(self, begin: int = 0, end: Optional[int] = None, mode: str = "replacement") -> str:
        """The text from one code point to another, or to its end. An error is U+FFFD, or a refusal if `mode` is "fatal"."""
        text: str = self._ask_of_text("text", begin, end, mode=mode)["text"]
        return text

    def _ask_of_text(self, op: str, begin: int, end: Optional[int], **fields: Any) -> Members:
        """The answer about the text from one code point to another, or to its end, at one revision."""

        def ask(end: int) -> Members:
            return self._ask(op, **{"from": begin, "to": end}, **fields)

        return self._ask_to_the_end("utf32", begin, ask) if end is None else ask(end)

    def _ask_to_the_end(self, length: str, begin: int, ask: Callable[[int], Members]) -> Members:
        """The answer about all from one place, for which the end is needed, at one revision."""
        while True:
            stat = self.stat()
            try:
                reply = ask(stat[length])
            except Fault as fault:
                # (an edit made it shorter in between)
                if fault.name != "OutOfRange" or begin > stat[length]:
                    raise
                continue
            if reply["rev"] == stat["rev"]:
                return reply

    def source(self, at: int = 0, count: Optional[int] = None) -> bytes:
        """The bytes as `gate` has them: so many starting at a place, or all to the end."""

        def ask(end: int) -> Members:
            content, rev = self._source(at, end - at)
            return self._note({"bytes": content, "rev": rev})

        reply = self._ask_to_the_end("bytes", at, ask) if count is None else ask(at + count)
        content: bytes = reply["bytes"]
        return content

    def _source(self, at: int, count: int) -> Tuple[bytes, int]:
        """Bytes as `gate` has them, and their revision. If it has no memory for one reply, they come in parts of one revision."""
        parts: List[bytes] = []
        have, rev, most = 0, None, count
        while True:
            try:
                reply = self._question("source", at=at + have, len=min(most, count - have))
            except Fault as fault:
                if fault.name != "OutOfMemory" or most <= FEWEST:
                    raise
                most //= 2
                continue
            if rev not in (None, reply["rev"]):
                # (another client edited it in between)
                parts, have, rev = [], 0, None
                continue
            rev = reply["rev"]
            parts.append(base64.b64decode(reply["bytes"]))
            have += len(parts[-1])
            if have == count:
                return b"".join(parts), rev

    def encode(self, label: str, begin: int = 0, end: Optional[int] = None, mode: str = "fatal") -> bytes:
        """The text from one code point to another, or to its end, in another encoding."""
        return base64.b64decode(self._ask_of_text("encode", begin, end, label=label, mode=mode)["bytes"])

    def errors(self) -> List[Pair]:
        """The places of all errors, each the first byte and the one after the last."""
        return [(begin, end) for begin, end in self._pages("errors", "total")]

    def diagnostics(
        self, line: Optional[int] = None, most: Optional[int] = None, unit: str = "utf-16"
    ) -> List[Tuple[Pair, Pair, Pair]]:
        """All errors, or at most `most` starting at `line`: the place of each, and the positions where its U+FFFD begins and
        ends."""
        if line is None:
            found = self._pages("diagnostics", "total", most, unit=unit)
        else:
            room = PAGE if most is None else min(PAGE, most)
            found = self._ask("diagnostics", line=line, max=room, unit=unit)["diagnostics"]
            if len(found) == PAGE and most != PAGE:
                # (a page doesn't say the number of its first error, at which the next one would begin)
                found = [it for it in self._pages("diagnostics", "total", unit=unit) if it[2] >= line][:most]
        return [((it[0], it[1]), (it[2], it[3]), (it[4], it[5])) for it in found]

    def lines(self) -> List[Pair]:
        """All lines: the code points where each begins and ends, its line end not included."""
        return [(begin, end) for begin, end in self._pages("lines", "count")]

    def _pages(self, op: str, total: str, most: Optional[int] = None, **fields: Any) -> List[List[int]]:
        """All pages, or those of so many entries, at one revision."""
        found: List[List[int]] = []
        rev: Optional[int] = None
        while True:
            room = PAGE if most is None else min(PAGE, most - len(found))
            try:
                page = self._ask(op, max=room, **{"from": len(found)}, **fields)
            except Fault as fault:
                # (an edit made them fewer in between)
                if fault.name != "OutOfRange" or not found:
                    raise
                found = []
                continue
            if found and page["rev"] != rev:
                # (another client edited it in between)
                found = []
                continue
            rev = page["rev"]
            found += page[op]
            if len(found) >= page[total] or len(found) == most:
                return found

    def position(self, offset: int, unit: str = "utf-16") -> Pair:
        """The line and the character of an offset in code points."""
        reply = self._ask("position", offset=offset, unit=unit)
        return reply["line"], reply["character"]

    def offset(self, position: Pair, unit: str = "utf-16") -> int:
        """The offset in code points of a line and a character."""
        offset: int = self._ask("offset", unit=unit, **position_fields(position))["offset"]
        return offset

    def place(self, value: int, unit: str = "byte") -> Members:
        """The offset that a value names, in each unit, and the place of the code point there, or None."""
        return self._ask("place", unit=unit, value=value)

    def spans(self, ranges: Sequence[Pair]) -> Iterator[Pair]:
        """Yields where the bytes of the code points from one to another begin and end, for each range of at least one."""
        # (the end is that of the last code point, since after the last one of the text there is no place)
        values = [it for begin, end in ranges for it in (begin, end - 1)]
        replies = self.gate.ask_all("place", "value", values, doc=self.name, unit="utf-32")
        places = (self._place_in(it) for it in replies)
        return ((first[0], last[1]) for first, last in zip(places, places))

    def _place_in(self, reply: Members) -> List[int]:
        """The place in an answer, which at the text's end has none."""
        if self._note(reply)["place"] is None:
            raise Fault({"fault": "OutOfRange"})
        place: List[int] = reply["place"]
        return place

    def span(self, begin: int, end: int) -> Pair:
        """Where the bytes of the code points from one to another begin and end, if there is at least one."""
        return next(self.spans([(begin, end)]))


def position_fields(position: Pair) -> Members:
    """The fields of a line and a character."""
    line, character = position
    return {"line": line, "character": character}
