"""A document that follows an editor's text: each edit is made in its bytes, or question marks are there instead."""
from typing import Callable, List, Optional, Sequence, Set, Tuple, TypeVar

from gate import Document, Edit, Fault, Gone, difference
from legacy.lsp.history import History, Splice, Step, apply_all
from legacy.lsp.letters import Letters
from legacy.lsp.programs import Programs
from legacy.lsp.protocol import Position
from legacy.lsp.standing import BAD, NOT_KEPT, UNENCODABLE, Cell, Split, Standing, cells_of, mask, mask_all, shift, unmask

# By how many characters more at each end a range is replaced that can't be replaced alone, in each attempt.
WIDER = (0, 1, 1, 2, 4, 8, 16, 32)
# The most characters that are tried again after an edit next to them.
TRIES = 8
# The refusals of an edit because of the bytes next to it.
BESIDE = ("NotKept", "SplitsItem")

Found = TypeVar("Found")


class Unfollowed(Exception):
    """Why the editor's text can't be followed any longer, for a person."""


class Followed:
    """A document, and what stands for what in it. All places are code points of the document."""

    def __init__(self, programs: Programs, letters: Letters, label: str, raw: bytes, unit: str):
        self._programs, self._letters, self.label, self.unit = programs, letters, label, unit
        self.document = programs.open(label, raw)
        self.standings: Tuple[Standing, ...] = ()
        self._history = History()
        # The edits of the document that one of the editor's has led to so far.
        self._made: List[Edit] = []

    def close(self) -> None:
        """Closes the document."""
        self._programs.close(self.document)

    def on(self, job: Callable[[Document], Found]) -> Found:
        """Does a job with the document. If its program ended, it is done once more in another."""
        try:
            return job(self.document)
        except Gone:
            self.document = self._programs.reopen(self.document, self.label)
            return job(self.document)

    def text(self) -> str:
        """The editor's text."""
        return unmask(self.on(Document.text), self.standings)

    def offsets(self, positions: Sequence[Position]) -> List[int]:
        """The places of positions."""
        return self.on(lambda it: [it.offset(position, self.unit) for position in positions])

    def positions(self, offsets: Sequence[int]) -> List[Position]:
        """The positions of places."""

        def ask(document: Document) -> List[Position]:
            replies = document.gate.ask_all("position", "offset", offsets, doc=document.name, unit=self.unit)
            return [(it["line"], it["character"]) for it in replies]

        return self.on(ask)

    def replace(self, begin: int, end: int, text: str) -> None:
        """Makes an edit of the editor's: by the bytes that the text had if it had been there before, or by a change. Raises
        `Unfollowed` if neither the text nor question marks can be there."""
        at, behind = self.to_text(begin), self.to_text(end)
        old, before = self.read(at, behind), self.standings
        if old == text:
            return
        path = self._history.find(at, behind, text, self.read)
        if path:
            self._go(path)
            return
        self._made.clear()
        try:
            begin, end, count, fresh = self._edit(begin, end, text)
            self.standings = shift(self.standings, begin, end, count, fresh)
        except Split as fault:
            raise Unfollowed("an edit began or ended within one character") from fault
        self._try_again(begin - 1, begin + count + 1)
        self._history.add(Step(Splice(at, old, text), self._all_made(), before, self.standings))

    def take_bytes(self, raw: bytes) -> int:
        """Takes bytes that are those of a file now, as the bytes of this text, and returns how many differ."""
        at, count, new = difference(self.document.bytes, raw)
        made, before = self.on(lambda it: it.splice(at, count, new)), self.standings
        self.standings = ()
        self._history.add(Step(Splice(0, "", ""), Splice(made.at, made.old, made.new), before, ()))
        return max(count, len(new))

    def read(self, begin: int, end: int) -> str:
        """A part of the editor's text, by places in that text."""
        first, last = self.to_document(begin), self.to_document(end)
        if first == last:
            return ""
        within = [it.move(-first) for it in self.standings if first <= it.at < last]
        return unmask(self.on(lambda it: it.text(first, last)), within)

    def _go(self, path: Sequence[Step]) -> None:
        """Goes to another state, by the bytes that it had."""
        begin, end, raw = apply_all([it.raw for it in path], self.document.part)
        self.on(lambda it: it.splice(begin, end - begin, raw))
        self.standings = path[-1].after
        self._history.go(path)

    def _all_made(self) -> "Splice[bytes]":
        """All edits of the document since the last step, as one."""
        back = [Splice(it.at, it.new, it.old) for it in reversed(self._made)]
        begin, end, old = apply_all(back, self.document.part)
        return Splice(begin, old, self.document.part(begin, end))

    def _edit(self, begin: int, end: int, text: str) -> Tuple[int, int, int, List[Standing]]:
        """Makes an edit, and returns the range that was replaced, how many code points replaced it, and what stands for others."""
        shift(self.standings, begin, end, 0, [])
        while True:
            masked, fresh = mask(text, begin, self.unit, self.lacking(text))
            try:
                self._change(begin, end, masked)
                return begin, end, len(masked), fresh
            except Fault as fault:
                if fault.name in BESIDE:
                    return self._force(begin, end, text)
                if fault.name != "Unencodable":
                    raise Unfollowed(_reason(fault)) from fault
                self._letters.note(self.document.encoding, chr(fault.members["code_point"]))

    def lacking(self, text: str) -> Set[str]:
        """The characters of a text that the encoding lacks."""
        return self.on(lambda it: self._letters.lacking(it.gate, it.encoding, text))

    def _change(self, begin: int, end: int, text: str) -> Edit:
        """Replaces a range. (Between CR and LF there is no position, so both are replaced by what they are.)"""
        before, start, last, stop = self.positions([max(begin - 1, 0), begin, max(end - 1, 0), end])
        if begin and before == start:
            text = "\r" + text
        if end and last == stop:
            stop, text = (stop[0] + 1, 0), text + "\n"
        made = self.on(lambda it: it.change(text, start, stop, self.unit))
        self._made.append(made)
        return made

    def _force(self, begin: int, end: int, text: str) -> Tuple[int, int, int, List[Standing]]:
        """Makes an edit by question marks alone, and by more of them, for characters next to it, if it must be."""
        cells = cells_of(text, self.lacking(text))
        for wider in WIDER:
            for _ in range(wider):
                before, after = self._cell(begin - 1), self._cell(end)
                cells = [*before, *cells, *after]
                begin, end = begin - sum(it.units for it in before), end + sum(it.units for it in after)
            masked, fresh = mask_all(cells, begin, self.unit)
            try:
                self._change(begin, end, masked)
                return begin, end, len(masked), fresh
            except Fault as fault:
                if fault.name not in BESIDE:
                    raise Unfollowed(_reason(fault)) from fault
        raise Unfollowed("the bytes next to an edit can't be kept")

    def _cell(self, at: int) -> List[Cell]:
        """The character at a place of the document; none if there is none."""
        found = next((it for it in self.standings if it.at <= at < it.end), None)
        if found or at < 0:
            return [Cell(found.text, found.raw, found.reason, found.units)] if found else []

        def ask(document: Document) -> List[Cell]:
            place = document.place(at, "utf-32")["place"] if at < document.stat()["utf32"] else None
            return [Cell(document.text(at, at + 1), document.part(*place))] if place else []

        return self.on(ask)

    def _try_again(self, begin: int, end: int) -> None:
        """Tries whether characters in a range can be in the document by now."""
        index = tries = 0
        while index < len(self.standings) and self.standings[index].at <= end and tries < TRIES:
            it = self.standings[index]
            if it.end >= begin and it.reason == NOT_KEPT:
                tries += 1
                if self._put(it):
                    self.standings = shift(self.standings, it.at, it.end, len(it.text), [])
                    continue
            index += 1

    def _put(self, it: Standing) -> bool:
        """Replaces question marks by the character that they stand for, if the document can have it: by the bytes that it had, or as
        an edit would put it there. (Damage has no bytes but its own.)"""
        raw = it.raw
        if raw is not None:
            made = self._put_bytes(it, raw)
            self._made += [made] if made else []
            if made or it.text == BAD:
                return made is not None
        try:
            self._change(it.at, it.end, it.text)
            return True
        except Fault as fault:
            if fault.name == "Unencodable":
                self.standings = tuple(other._replace(reason=UNENCODABLE) if other == it else other for other in self.standings)
            elif fault.name not in BESIDE:
                raise Unfollowed(_reason(fault)) from fault
            return False

    def _put_bytes(self, it: Standing, raw: bytes) -> Optional[Edit]:
        """Replaces question marks by the bytes of what they stand for, and returns the edit. None if those bytes would have another
        text there, or would change any other."""
        start, stop = self.positions([it.at, it.end])
        try:
            return self.on(lambda document: document.replace(it.text, raw, start, stop, self.unit))
        except Fault as fault:
            if fault.name not in BESIDE:
                raise Unfollowed(_reason(fault)) from fault
            return None

    def to_document(self, at: int) -> int:
        """The place in the document of a place in the editor's text."""
        for it in self.standings:
            if it.at >= at:
                break
            at += it.units - len(it.text)
        return at

    def to_text(self, at: int) -> int:
        """The place in the editor's text of a place in the document."""
        return at - sum(it.units - len(it.text) for it in self.standings if it.at < at)


def _reason(fault: Fault) -> str:
    """What a refusal means for a text that is followed."""
    reasons = {
        "TooLarge": "it would be longer than 16,777,216 bytes", "OutOfMemory": "gate ran out of memory",
        "NoEncoder": "its encoding can only be read", "SplitsCharacter": "an edit began or ended within one character",
    }
    return reasons.get(fault.name, f"gate refused it as {fault}")
