"""A document of `gate` that this client edits, alone or together with others."""
import base64
from typing import Any, Callable, List, Optional, Sequence, Tuple, Union

from gate import ROOM, Fault, Gone, Members, Reply, TimedOut, start_line
from gate_documents.copies import Copy, parts_of, splice, start_source
from gate_documents.edits import Edit, difference
from gate_documents.finding_out import is_first, unless_refused
from gate_documents.questions import Pair, position_fields
from gate_documents.refusals import Conflict, Lost, Unsure

# A change: its text alone, for the whole text, or its text and the positions where it begins and ends.
Change = Union[Tuple[str], Tuple[str, Pair], Tuple[str, Pair, Pair]]


class Document(Copy):
    """A document of `gate` with a copy of its bytes, which other clients of a live server may edit too.

    `catch_up` takes in what they did. An edit names places of this copy, at the revision `rev`. If others were first, the
    document catches up, and the edit moves. The copy is kept in bytes, and edits replace bytes. So it is right in every
    encoding, even if an edit changes how the bytes after it are decoded. An edit costs what it changes, except that the next
    look at `bytes` copies all of them.

    Other clients may close it and open another document by its name, at any revision. At a server, each edit first compares what
    it removes, the length and some bytes of the document with the copy. If they differ, the edit is a `Conflict`, and the copy is
    read again. `catch_up` and `compare` notice it too.

    Answers to questions are of the document as it is now. Once an answer was of another revision than the copy, the place of an
    edit may be of either revision. So the edit is refused as `Stale`: catch up, and ask then.

    If the connection was made with `again`, a new connection first compares the document with the copy. What others did since
    is taken in, and a document that isn't the copy's any more is read again. An edit names its revision, so if its reply was
    lost, it has become the next revision or none. The bytes and the answer to `since` show which, and then it is made, once.
    If others edited its bytes since, this can't be known, and it is a `Conflict`. (An edit of another client that does the very
    same is treated as this one.) A document that is missing then is `Lost`."""

    def __enter__(self) -> "Document":
        return self

    def _make(
        self, op: str, fields: Members, meant: Callable[[], Edit], *ahead: Tuple[str, Members]
    ) -> Union[Edit, Tuple[Members, List[Reply]]]:
        """Makes an edit of this copy's revision, which is `meant` to do that, after questions: its reply and theirs. If the
        reply is lost and the edit was made, the copy has it, and it is returned. Otherwise it is sent again."""
        if self._unsure:
            raise Unsure()
        line = start_line(op, {"doc": self.name, "rev": self.rev, **fields})
        for _ in self.gate.tries():
            self._meet()
            try:
                if self.gate.is_shared:
                    answers = self._ask_first(ahead)
                    replies = [*answers, *self.gate.send_lines([line], on=self._on)]
                else:
                    before = [start_line(name, {"doc": self.name, **asked}) for name, asked in ahead]
                    replies = self.gate.send_lines([*before, line], on=self._on)
            except TimedOut:
                raise
            except Gone:
                # (nothing was sent)
                continue
            try:
                return replies.pop().get(), replies
            except Gone as fault:
                if not self.gate.again:
                    raise
                self._unsure = meant
                if isinstance(fault, TimedOut):
                    raise Unsure() from fault
            found = self.find_out()
            if found:
                return found
        raise Gone()

    def _meet(self) -> None:
        """Compares the document with the copy if the server came again. A difference is `Stale`."""
        if self._on == self.gate.connection():
            return
        view = self._view(self.rev)
        if (view.stat["rev"], view.content) != (self.rev, self.bytes):
            raise Fault({"fault": "Stale", "rev": view.stat["rev"]})
        self._on = view.on

    def _ask_first(self, asked: Sequence[Tuple[str, Members]]) -> List[Reply]:
        """Asks questions before an edit, and compares what they and others tell with the copy. If the document isn't at the
        copy's revision, or is another one of the same revision, this is `Stale`."""
        place = self._next_place(len(self._content))
        *replies, block, last = self._send([*asked, start_source(*place), ("stat", {})], self._on)
        stat = self._get(last)
        if stat["rev"] == self.rev:
            is_same = self._is_same(self._content, place, self._unless(block, "OutOfRange"), stat)
            self._differs = not is_same or not all(self._has(fields, it) for (_, fields), it in zip(asked, replies))
        if stat["rev"] != self.rev or self._differs:
            raise Fault({"fault": "Stale", "rev": stat["rev"]})
        return replies

    def _has(self, fields: Members, reply: Reply) -> bool:
        """Whether the copy has the bytes that a `source` returned, or those that a `plan` would remove."""
        try:
            answer = reply.get()
        except Fault:
            # (the edit is refused by itself, or the program had no memory for the reply)
            return True
        at, old = answer.get("at", fields.get("at")), base64.b64decode(answer.get("old", answer["bytes"]))
        return answer["rev"] == self.rev and self.part(at, at + len(old)) == old

    def find_out(self) -> Optional[Edit]:
        """Finds out whether an edit was made that was `Unsure`, once a server listens again. If so, the copy has it, at the
        revision that it made, and it is returned. None if it wasn't made: then it may be made again. If others edited the same
        bytes after it, or made more edits than `gate` knows, this can't be known: it is a `Conflict` that is `unsure`."""
        meant = self._unsure
        if meant is None:
            return None
        theirs: List[Edit] = []
        try:
            view = self._view(self.rev, self.rev + 1)
            mine = unless_refused(meant) if view.stat["rev"] > self.rev else None
            made = mine and is_first(self.bytes, mine, self.rev, view)
            if mine and made:
                mine = self._take_made(mine, view.content, view.stat, view.on)
            elif mine and made is None:
                theirs = self._update()
        except Lost:
            self._unsure = None
            raise
        except (Gone, Fault) as fault:
            raise Unsure() from fault
        self._unsure = None
        if mine and self._report(theirs):
            raise Conflict(self.rev, mine, theirs[-1], unsure=True)
        return mine if made else None

    def _take_made(self, mine: Edit, now: bytes, stat: Members, on: int) -> Edit:
        """Takes in an edit that was found to be made, and no later one, and returns it as an edit of the copy."""
        content = splice(self.bytes, mine.at, len(mine.old), mine.new)
        opened = stat if now == content else self._ask_aside(content, [], Unsure())[0]
        self._take({**opened, "rev": self.rev + 1})
        self._on = on
        return self._replace(mine.at, len(mine.old), mine.new)

    def splice(self, at: int, count: int, new: bytes) -> Edit:
        """Replaces `count` bytes at a place, and returns the edit. If others were first, catches up, and replaces these bytes at
        their place now, or raises `Conflict`."""
        mine, content = self._edit(at, count, new)
        if len(mine.old) < count:
            # (at a later revision others may have added so many)
            raise Fault({"fault": "OutOfRange"})
        while True:
            try:
                made = self._make("splice", {"at": mine.at, "del": count, "bytes": new}, lambda: mine, start_source(mine.at, mine.at + count))
                if isinstance(made, Edit):
                    return made
                self._take(made[0])
                self._have(content)
                return mine
            except Fault as fault:
                moved, _ = self._move(mine, fault)
                mine, content = self._edit(moved.at, count, new)

    def change(self, text: str, start: Optional[Pair] = None, end: Optional[Pair] = None, unit: str = "utf-16") -> Edit:
        """Replaces the text from one position, a line and a character, to another; without positions the whole text. Returns
        the edit. A change of the whole text encodes all of it again, and so bytes that nobody meant: send the smallest range
        that differs.

        If others were first, catches up, and replaces the same text at its place now, or raises `Conflict`. A document of this
        copy's bytes, which is open for that moment, says which bytes were meant. So this costs as much as opening the document
        did, and is rare if a client catches up first. A change of the whole text is `Stale` then."""
        try:
            return self._change(_change_fields(text, start, end), unit)
        except Fault as fault:
            if start is None or fault.name != "Stale" or self._ahead or isinstance(fault, Conflict):
                raise
            stale = fault
        mine, replaced = self._plan_aside(stale, text, start, start if end is None else end, unit)
        while True:
            mine, theirs = self._move(mine, stale)
            try:
                where = self._range(mine, replaced, unit)
                if where:
                    return self._change(_change_fields(text, *where), unit)
            except Fault as fault:
                stale = fault
            else:
                raise Conflict(self.rev, mine, theirs) from stale

    def _change(self, change: Members, unit: str) -> Edit:
        """Makes a change of this copy's revision."""
        fields = {"unit": unit, **change}
        made = self._make("change", fields, lambda: self._planned_change(fields), ("plan", fields))
        if isinstance(made, Edit):
            return made
        try:
            reply = made[1][0].get()
        except Fault:
            # (there was no memory for the plan, and the change is made all the same)
            return self._accepted_edit()
        self._take(made[0])
        return self._replace(reply["at"], reply["del"], base64.b64decode(reply["bytes"]))

    def _planned_change(self, fields: Members) -> Edit:
        """What a change would do to this copy. Raises the refusal if there would be one."""
        plan = self._ask_aside(self.bytes, [("plan", fields)], Unsure())[1]
        if not plan["kept"]:
            raise Fault({"fault": "NotKept"})
        return _edit_in(plan)

    def _planned_list(self, fields: Members) -> Edit:
        """What a list of changes would do to this copy."""
        content = self.bytes
        rev = parts_of(content, ROOM) - 1
        asked = [("changes", {"rev": rev, **fields}), ("since", {"rev": rev})]
        since = self._ask_aside(content, asked, Unsure())[2]
        at, count = since["at"], since["ins"]
        source = self._ask_aside(content, [*asked, ("source", {"at": at, "len": count})], Unsure())[3]
        return Edit(at, content[at : at + since["del"]], base64.b64decode(source["bytes"]))

    def _given_edit(self, fields: Members) -> Edit:
        """What given bytes would do to this copy. Raises the refusal if there would be one."""
        content = self.bytes
        made = self._ask_aside(content, [("replace", {"rev": parts_of(content, ROOM) - 1, **fields})], Unsure())[1]
        return Edit(made["at"], content[made["at"] : made["at"] + made["del"]], fields["bytes"])

    def _plan_aside(self, stale: Fault, text: str, start: Pair, end: Pair, unit: str) -> Tuple[Edit, str]:
        """What a change would have done to this copy's bytes, and the text that it would have replaced."""
        content = self.bytes
        places = [("offset", position_fields(it)) for it in (start, end)]
        asked: List[Tuple[str, Members]] = [("plan", _change_fields(text, start, end)), *places]
        _, plan, first, last = self._ask_aside(content, [(op, {"unit": unit, **fields}) for op, fields in asked], stale)
        where = {"from": first["offset"], "to": last["offset"]}
        replaced = "" if where["from"] == where["to"] else self._ask_aside(content, [("text", where)], stale)[1]["text"]
        return _edit_in(plan), replaced

    def _move(self, mine: Edit, fault: Fault) -> Tuple[Edit, Edit]:
        """An edit that was refused because others were first, at its place now, and what they did. Raises all other refusals."""
        if fault.name != "Stale" or self._ahead or isinstance(fault, Conflict):
            raise fault
        theirs = Edit(0, b"", b"")
        for theirs in self.catch_up():
            at = theirs.moves(mine.at, len(mine.old), mine.shifts)
            if at is None:
                raise Conflict(self.rev, mine, theirs) from fault
            mine = Edit(at, mine.old, mine.new, shifts=mine.shifts)
        return mine, theirs

    def _range(self, mine: Edit, replaced: str, unit: str) -> Optional[Tuple[Pair, Pair]]:
        """The positions of an edit's bytes, if they have the text that is to be replaced."""
        begin, end = (it["utf32"] for it in self._ask_now("place", "value", [mine.at, mine.at + len(mine.old)], unit="byte"))
        text = self._ask_now("text", "to", [end], **{"from": begin})[0]["text"]
        offsets = [max(begin - 1, 0), begin, max(end - 1, 0), end]
        found = [(it["line"], it["character"]) for it in self._ask_now("position", "offset", offsets, unit=unit)]
        # (between CR and LF the only position is the one before both, which does for what is inserted)
        is_cut = begin < end and (begin > 0 and found[0] == found[1] or found[2] == found[3])
        return None if is_cut or text != replaced else (found[1], found[3])

    def _ask_now(self, op: str, field: str, values: Sequence[int], **fields: Any) -> List[Members]:
        """Answers of this copy's revision; `Stale` if the document has another by now."""
        try:
            replies = list(self.gate.ask_all(op, field, values, doc=self.name, **fields))
        except Fault as fault:
            # (an edit made it shorter in between)
            replies = [self._question("stat")]
            if fault.name != "OutOfRange" or replies[0]["rev"] == self.rev:
                raise
        for it in replies:
            if it["rev"] != self.rev:
                raise Fault({"fault": "Stale", "rev": it["rev"]})
        return replies

    def plan(self, text: str, start: Optional[Pair] = None, end: Optional[Pair] = None, unit: str = "utf-16") -> Tuple[Edit, bool]:
        """The edit that `change` would make, and whether it would: if not, it would be refused as "NotKept"."""
        reply = self._ask("plan", unit=unit, **_change_fields(text, start, end))
        return _edit_in(reply), reply["kept"]

    def changes(self, listed: Sequence[Change], unit: str = "utf-16") -> Edit:
        """Makes changes in one command, as an editor lists them, or none of them. Each is what `change` takes, and its
        positions are those of the text that the ones before it leave.

        Returns one edit: of all bytes between the first that was edited and the last, with those that others edited right
        after it. If others were first, it is `Stale`."""
        fields = {"unit": unit, "changes": [_change_fields(*it) for it in listed]}
        made = self._make("changes", fields, lambda: self._planned_list(fields))
        return made if isinstance(made, Edit) else self._accepted_edit()

    def replace(self, text: str, new: bytes, start: Optional[Pair] = None, end: Optional[Pair] = None, unit: str = "utf-16") -> Edit:
        """Replaces the text from one position to another, as `change` does, by a text with these bytes, for example those that it
        had before. It is refused as "NotKept" if they would stand for another text there, or change any other.

        If others were first, it is `Stale`."""
        fields = {"unit": unit, "bytes": new, **_change_fields(text, start, end)}
        made = self._make("replace", fields, lambda: self._given_edit(fields))
        if isinstance(made, Edit):
            return made
        self._take(made[0])
        return self._replace(made[0]["at"], made[0]["del"], new)

    def undo(self, edit: Edit) -> Edit:
        """Takes an edit back, by the bytes that it replaced: their text, inserted again, may have others. The edit is the last
        one of the copy, or one moved `behind` all later ones, as `catch_up` returns them. Returns the edit that this is, whose
        undoing is the redo.

        More bytes than a line has room for go back in parts, each a revision of its own. The edit is then of all bytes between
        the first and the last, including those that others edited in between."""
        part = self.splice(edit.at, len(edit.new), edit.old[:ROOM])
        if len(edit.old) <= ROOM:
            return part
        before = self._content.splice(part.at, len(part.new), part.old)
        for at in range(ROOM, len(edit.old), ROOM):
            part = self.splice(part.at + len(part.new), 0, edit.old[at : at + ROOM])
        whole, self._content = difference(before.whole(), self.bytes), before
        return self._replace(*whole)


def _change_fields(text: str, start: Optional[Pair] = None, end: Optional[Pair] = None) -> Members:
    """The fields of a change."""
    where = {} if start is None else {"range": {"start": position_fields(start), "end": position_fields(end or start)}}
    return {"text": text, **where}


def _edit_in(plan: Members) -> Edit:
    """The edit that a plan describes."""
    return Edit(plan["at"], base64.b64decode(plan["old"]), base64.b64decode(plan["bytes"]))
