"""A document of `gate` with a copy of its bytes, which takes in what others do to the document."""
import base64
import binascii
import builtins
import contextlib
import itertools
import secrets
from typing import Any, Callable, List, NamedTuple, Optional, Sequence, Tuple, Type, TypeVar

from gate import ROOM, Fault, Gate, Gone, Members, Reply, TimedOut, start_line, start_opening
from gate_documents.content import Content
from gate_documents.edits import Edit, difference
from gate_documents.questions import Questions
from gate_documents.refusals import Unsure
from gate_documents.states import state

# The most bytes that are compared with the document's at once, before an edit and when a copy catches up.
BLOCK = 1 << 14
# The byte order marks of UTF-8 and UTF-16.
MARKS = (b"\xef\xbb\xbf", b"\xfe\xff", b"\xff\xfe")

SomeCopy = TypeVar("SomeCopy", bound="Copy")


class View(NamedTuple):
    """A document at one revision: the number of the connection that saw it so, its `stat`, its bytes, and the answers to `since`.
    An answer is None if it was refused."""

    on: int
    stat: Members
    content: bytes
    since: List[Optional[Members]]


class Holder:
    """What has bytes. (In a class of its own, since in a class that has `bytes` the type has to be called otherwise.)"""

    _content: Content

    @property
    def bytes(self) -> "builtins.bytes":
        """All bytes of the copy. Reading them after an edit copies all."""
        return self._content.whole()

    def part(self, begin: int, end: int) -> "builtins.bytes":
        """The bytes of a range of the copy. Reading them copies no others."""
        return self._content[begin:end]


class Copy(Holder, Questions):
    """A document as it was when this client last edited it or caught up: its bytes, its revision, its effective encoding and the
    length of its byte order mark. That length is 0 if a mark is kept as text."""

    # A call for each edit of others that the copy takes in, by `catch_up` or before an edit that moves. A client that keeps
    # its own edits, to undo them, moves them so.
    listener: Optional[Callable[[Edit], None]] = None

    # What an edit would do to the copy, if it isn't known whether it was made.
    _unsure: Optional[Callable[[], Edit]] = None

    # Whether this client has closed the document.
    _closed = False

    # Where the bytes begin that are compared next, and whether the document was found to be another one.
    _next = 0
    _differs = False

    def __init__(self, gate: Gate, name: str, label: str, content: bytes, bom: str = "sniff", room: int = ROOM):
        self.gate, self.name, self._content = gate, name, Content(content)
        self._label, self._bom = label, bom
        self._open(room)

    @classmethod
    def join(cls: Type[SomeCopy], gate: Gate, name: str) -> SomeCopy:
        """A document that is open, as another client has left it."""
        document = cls.__new__(cls)
        document.gate, document.name, document._content = gate, name, Content()
        document._on, document._bom = gate.connection(), "sniff"
        document.refresh()
        return document

    def _open(self, room: int) -> None:
        """Opens it from the copy's bytes. If a reply is lost, the document of this name may be what was sent before."""
        gone: Optional[Gone] = None
        # (if it is refused, the document of this name is another client's)
        self._on, self._closed, self._differs = 0, False, False
        for _ in self.gate.tries():
            on = self.gate.connection()
            parts = start_opening(self.name, self._label, self.bytes, self._bom, room)
            try:
                have = self._open_first(next(parts), room, on, gone is not None)
                for reply in [self.gate.send_lines([it], on=on)[0] for it in itertools.islice(parts, have - 1, None)]:
                    self._take(reply.get())
                self._on = on
                return
            except TimedOut:
                raise
            except Gone as fault:
                gone = fault
        raise gone or Gone()

    def _open_first(self, line: List[bytes], room: int, on: int, again: bool) -> int:
        """Sends the first part, perhaps again, and returns how many parts the document has then."""
        try:
            self._take(self.gate.send_lines([line], on=on)[0].get())
            return 1
        except Fault as fault:
            if not again or fault.name != "NameTaken":
                raise
            return self._count_parts(fault, room)

    def _count_parts(self, taken: Fault, room: int) -> int:
        """How many parts of the copy the open document of this name has. Raises that the name is taken if the document doesn't
        begin like the copy, or is in another encoding."""
        content = self.bytes
        count = parts_of(content, room)
        view = self._view(count - 1)
        have: int = min(view.stat["rev"] + 1, count)
        since = view.since[0]
        if have < count:
            is_ours = view.content == content[: have * room]
        else:
            is_ours = since is not None and view.content == patch(content, since, view.content)
        if not is_ours or self._ask_aside(b"", [], taken)[0]["encoding"] != view.stat["given"]:
            raise taken
        self._take(view.stat)
        if have == count:
            self._have(Content(view.content))
        return have

    def reopen(self, room: int = ROOM) -> None:
        """Opens the document again, from the copy's bytes, if it is `Lost`. It is another document then, at revision 0, or at
        one more for each further part that a line has room for. If another client was first, `NameTaken` is raised, and
        `catch_up` then reads that document."""
        self._open(room)
        self._unsure = None

    def refresh(self) -> None:
        """Reads all bytes of the document as it is now. Earlier edits can't be undone then."""
        view = self._view()
        self._take(view.stat)
        self._have(Content(view.content))
        self._on, self._unsure, self._label, self._differs = view.on, None, view.stat["given"], False

    def _have(self, content: Content) -> None:
        """Takes these bytes as the copy's. If they begin with a mark, it is known whether marks are kept."""
        self._content = content
        if content[:3].startswith(MARKS):
            self._bom = "sniff" if self.bom else "keep"

    def _take(self, reply: Members) -> Members:
        """Takes the revision and the encoding of a reply as the copy's."""
        self.rev, self.encoding, self.bom = reply["rev"], reply["encoding"], reply["bom"]
        self._ahead = False
        return reply

    def _view(self, *revs: int) -> View:
        """The document at one revision, on one connection. One write asks for all, so that others rarely come in between."""
        count = self._question("stat")["bytes"]
        while True:
            on = self.gate.count
            asked: List[Tuple[str, Members]] = [("since", {"rev": it}) for it in revs]
            asked += [start_source(0, count), ("stat", {})]
            replies = self._send(asked)
            stat = self._get(replies.pop())
            source = self._unless(replies.pop(), "OutOfRange", "OutOfMemory")
            since = [self._unless(it, "OutOfRange", "Forgotten") for it in replies]
            content, rev = base64.b64decode(source["bytes"]) if source else b"", stat["rev"]
            if not source and stat["bytes"] == count:
                try:
                    content, rev = self._source(0, count)
                except Fault as fault:
                    # (an edit made it shorter in between)
                    if fault.name != "OutOfRange":
                        raise
                    stat = self._question("stat")
            seen = {it["rev"] for it in [*since, source, stat] if it} | {rev}
            if len(seen) == 1 and len(content) == stat["bytes"] and on == self.gate.count:
                return View(on, stat, content, since)
            count = stat["bytes"]

    def _send(self, asked: Sequence[Tuple[str, Members]], on: Optional[int] = None) -> List[Reply]:
        """Asks about the document, by one write, and returns the replies."""
        lines = [start_line(op, {"doc": self.name, **fields}) for op, fields in asked]
        return self.gate.send_lines(lines, again=True, on=on)

    def _get(self, reply: Reply) -> Members:
        """The members of a reply."""
        try:
            return reply.get()
        except Fault as fault:
            raise self._explain(fault) from None

    def _unless(self, reply: Reply, *names: str) -> Optional[Members]:
        """The members of a reply; None if it is a refusal of one of these names."""
        try:
            return self._get(reply)
        except Fault as fault:
            if fault.name not in names:
                raise
            return None

    def catch_up(self) -> List[Edit]:
        """Takes in what was done since this copy's revision, and returns it as edits of the copy: none, or one from the first
        byte that was edited to the last. If more was done than `gate` keeps, or the document was closed and another was opened
        under its name, the copy is read again, and the edit is `anew`.

        Another document of at most 16 KiB is noticed at once. Each call compares 16 KiB of a longer one, so that one of the same
        length is noticed once the call reaches what differs. `compare` compares all. If `Gate.start` has started the program, nobody
        else can replace its documents, and only revisions and lengths are compared."""
        if self._unsure:
            raise Unsure()
        return self._report(self._update())

    def compare(self) -> List[Edit]:
        """Takes in what was done, like `catch_up`, and compares all bytes. Call it before the bytes are saved."""
        if self._unsure:
            raise Unsure()
        return self._report(self._compare())

    def _report(self, edits: List[Edit]) -> List[Edit]:
        for edit in edits:
            if self.listener:
                self.listener(edit)
        return edits

    def _update(self) -> List[Edit]:
        """Takes in what was done since this copy's revision."""
        while self._on == self.gate.connection() and not self._differs:
            place = self._next_place(len(self._content))
            *replies, last = self._send([("since", {"rev": self.rev}), start_source(*place), ("stat", {})])
            # (another document has a lower revision, or is shorter)
            since, source = (self._unless(it, "Forgotten", "OutOfRange") for it in replies)
            stat = self._get(last)
            if since is None:
                return [self._read_again()]
            if since["rev"] != self.rev:
                edits = self._take_in(since)
            elif stat["rev"] == self.rev:
                edits = [] if self._is_same(self._content, place, source, stat) else [self._read_again()]
            else:
                continue
            if edits is not None and self._on == self.gate.count:
                self._ahead = False
                return edits
        return self._compare()

    def _take_in(self, since: Members) -> Optional[List[Edit]]:
        """Takes in what `since` says was done; None if it isn't of the latest revision any more."""
        length = len(self._content) - since["del"] + since["ins"]
        place = self._next_place(length)
        block, last = self._send([start_source(*place), ("stat", {})])
        try:
            new, rev = self._source(since["at"], since["ins"])
        except Fault as fault:
            # (an edit made it shorter in between)
            if fault.name != "OutOfRange":
                raise
            return None
        source, stat = self._unless(block, "OutOfRange"), self._get(last)
        if not since["rev"] == rev == stat["rev"] or self._on != self.gate.count:
            return None
        if not self._is_same(self._content.splice(since["at"], since["del"], new), place, source, stat):
            return [self._read_again()]
        self._take(stat)
        return [self._replace(since["at"], since["del"], new)]

    def _next_place(self, length: int) -> Tuple[int, int]:
        """The byte range of a document of this length that is compared next; an empty one if nobody else can replace it."""
        if not self.gate.is_shared:
            return 0, 0
        begin = self._next if self._next < length else 0
        self._next = min(begin + BLOCK, length)
        return begin, self._next

    @staticmethod
    def _is_same(content: Content, place: Tuple[int, int], source: Optional[Members], stat: Members) -> bool:
        """Whether the document has the length of these bytes, and in a byte range these very bytes. `source` is what it has
        there, or None if it is shorter."""
        if source is None or source["rev"] != stat["rev"] or stat["bytes"] != len(content):
            return False
        # (to encode takes a third of the time)
        same: bool = binascii.b2a_base64(content[slice(*place)], newline=False).decode() == source["bytes"]
        return same

    def _accepted_edit(self) -> Edit:
        """The edit that was just accepted, with what others did after it. (Another document that came under its name just then
        may have this copy's revision.)"""
        return (self._update() or [self._read_again()])[0]

    def _compare(self) -> List[Edit]:
        """Takes in what was done, on another connection than before: all bytes are compared."""
        view = self._view(self.rev)
        since = view.since[0]
        if since is None or view.content != patch(self.bytes, since, view.content):
            return [self._read_again()]
        is_moved = view.stat["rev"] != self.rev
        self._take(view.stat)
        self._on = view.on
        end = since["at"] + since["ins"]
        return [self._replace(since["at"], since["del"], view.content[since["at"] : end])] if is_moved else []

    def _read_again(self) -> Edit:
        """Reads the copy again, and returns what differs."""
        before = self.bytes
        self.refresh()
        at, count, new = difference(before, self.bytes)
        return Edit(at, before[at : at + count], new, anew=True)

    def _edit(self, at: int, count: int, new: bytes) -> Tuple[Edit, Content]:
        """An edit of the copy, and the bytes that it leaves."""
        before = state(self.encoding, self._content, at + count)
        content = self._content.splice(at, count, new)
        shifts = before != state(self.encoding, content, at + len(new))
        return Edit(at, self._content[at : at + count], new, shifts=shifts), content

    def _replace(self, at: int, count: int, new: bytes) -> Edit:
        """Makes an edit of the copy."""
        edit, content = self._edit(at, count, new)
        self._have(content)
        return edit

    def _ask_aside(self, content: bytes, asked: Sequence[Tuple[str, Members]], refused: Exception) -> List[Members]:
        """The reply to the opening of another document, of these bytes, and its answers. One write opens it, asks and closes
        it. So a client would have to be killed just then to leave it open. If the server is killed, the document is closed
        once the server comes again. Raises that it is `refused` if there is no room for one more document."""
        name = secrets.token_hex(16)
        opening = list(start_opening(name, self._label, content, self._bom, ROOM))
        lines = [*opening, *(start_line(op, {"doc": name, **fields}) for op, fields in asked), start_line("close", {"doc": name})]
        gone: Optional[Gone] = None
        for _ in self.gate.tries():
            try:
                if gone:
                    with contextlib.suppress(Fault):
                        self.gate.ask("close", doc=name)
                replies = self.gate.send_lines(lines)
                # (once it is closed, all replies before that have come)
                with contextlib.suppress(Fault):
                    replies.pop().get()
            except TimedOut:
                raise
            except Gone as fault:
                gone = fault
                continue
            return _answers(replies, len(opening), refused)
        raise gone or Gone()

    def close(self) -> None:
        """Closes the document. If the reply is lost and the document is missing then, it is closed."""
        gone: Optional[Gone] = None
        for _ in self.gate.tries():
            try:
                self.gate.ask("close", doc=self.name)
                break
            except TimedOut:
                raise
            except Gone as fault:
                gone = fault
            except Fault as fault:
                if not gone or fault.name != "NoDocument":
                    raise
                break
        else:
            raise gone or Gone()
        self._closed = True

    def __exit__(self, *_: Any) -> None:
        if self._closed:
            # (the document of this name now is another client's)
            return
        with contextlib.suppress(Gone):
            if self.gate.again:
                with contextlib.suppress(Fault):
                    self.close()
            else:
                # (the reply is read with a later one)
                self.gate.send("close", doc=self.name)


def _answers(replies: Sequence[Reply], count: int, refused: Exception) -> List[Members]:
    """The last of the `count` replies to an opening, and the answers after them."""
    try:
        opened = [it.get() for it in replies[:count]]
    except Fault:
        raise refused from None
    return [opened[-1], *(it.get() for it in replies[count:])]


def start_source(begin: int, end: int) -> Tuple[str, Members]:
    """The question for the bytes of a range."""
    return "source", {"at": begin, "len": end - begin}


def parts_of(content: bytes, room: int) -> int:
    """In how many parts bytes are sent, with at most `room` in each."""
    return max(-(-len(content) // room), 1)


def splice(content: bytes, at: int, count: int, new: bytes) -> bytes:
    """Bytes with some of them replaced."""
    return content[:at] + new + content[at + count :]


def patch(content: bytes, since: Members, now: bytes) -> bytes:
    """Earlier bytes with what came since, which is taken from the bytes now."""
    at = since["at"]
    return splice(content, at, since["del"], now[at : at + since["ins"]])
