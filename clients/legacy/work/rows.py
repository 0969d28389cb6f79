"""A row: what a job made of a file, or why it couldn't."""
import base64
import dataclasses
import json
import os
import threading
from typing import Any, ClassVar, Dict, List, NamedTuple, Optional, Sequence, Type, TypeVar

from gate import Gate

from legacy.finding import Found
from legacy.work import reading
from legacy.work.children import CHILD
from legacy.work.cuts import Part
from legacy.work.reading import Item, Program, Refusal, read, read_part, refusals
from legacy.work.walk import UNFOLLOWED, reason

# The outcome of a file. It was looked at and there is nothing to say, or something was found. Or it isn't text, since
# no rule names its encoding, or is a link. Or the job couldn't be done, for the reason that the row has.
DONE, FOUND, PASSED, REFUSED = "done", "found", "passed", "refused"

Restored = TypeVar("Restored", bound="Row")


@dataclasses.dataclass
class Row:
    """What every row has."""

    path: str
    size: int
    label: str
    outcome: str = DONE
    reason: str = ""

    def json(self) -> str:
        """The row as a line of JSON. A path that isn't UTF-8 has the code points U+DC80 to U+DCFF for its other bytes, and
        is there as base64 too, as `path_base64`."""
        raw = os.fsencode(self.path)
        more = {} if is_utf8(raw) else {"path_base64": base64.b64encode(raw).decode()}
        # (what a row has in lists is dataclasses too, and may be thousands of them)
        return json.dumps({**vars(self), **more}, default=vars)

    def weight(self) -> int:
        """How much it takes of memory: one, and what it lists."""
        return 1 + sum(len(it) for it in vars(self).values() if isinstance(it, list))

    @classmethod
    def from_json(cls: Type[Restored], line: str) -> Restored:
        """The row that a line of JSON has."""
        members: Dict[str, Any] = json.loads(line)
        members.pop("path_base64", None)
        return cls(**members)


@dataclasses.dataclass
class PartRow(Row):
    """The row of a part of a long file: what the job made of it, its line ends, and the code points after the last of them, or all."""

    made: Optional[Row] = None
    lines: int = 0
    tail: int = 0

    def weight(self) -> int:
        return self.made.weight() if self.made else 1


class Before(NamedTuple):
    """The line ends before a part of a file, and the code points of the last line there."""

    lines: int = 0
    tail: int = 0


class Job:
    """What is done on each file. It goes to other processes and machines, so it is a dataclass of plain values."""

    rows: ClassVar[Type[Row]] = Row
    # Whether the job may have to be interrupted at a file, for example by `time_limit`.
    is_bounded: ClassVar[bool] = False
    # How many bytes of the parts beside a part the job looks at too, or None if it looks at whole files alone.
    beside: ClassVar[Optional[int]] = None

    def row(self, gate: Gate, item: Item, content: bytes) -> Row:
        """The row of a file. Raises `Refusal` or `gate.Fault` if there is none."""
        raise NotImplementedError

    def part_row(self, gate: Gate, item: Item, content: bytes) -> "PartRow":
        """The row of a part of a long file, if the job looks at parts. The content begins with the part's head."""
        raise NotImplementedError

    def join(self, whole: Row, part: Row, before: "Before") -> None:
        """Adds the row of a part to that of the parts before it."""
        raise NotImplementedError

    def finish(self, whole: Row) -> None:
        """Finishes a row that all parts were added to. Raises `Refusal` if there is none."""

    def row_without_rule(self, found: Found, item: Item) -> Optional[Row]:
        """The row of a file whose encoding no rule names, or that isn't a file, if the job does something with it. Raises
        `Refusal` if it can't."""
        return None

    def stream_row(self, found: Found, item: Item) -> Optional[Row]:
        """The row of a long file, if the job does without a document of it. Raises `Refusal` if it can't."""
        return None

    def sync(self, rows: Sequence[Row]) -> None:
        """Returns once what the job left beside these rows would outlast a loss of power."""

    def holds(self, row: Row) -> bool:
        """Whether what the job left beside the row is still there, as it was."""
        return True


class Task(NamedTuple):
    """A job, and the program to do it by."""

    job: Job
    found: Found

    def rows(self, items: List[Item]) -> List[Row]:
        """The rows of these files. What is done is on the disk, so that a state may say so."""
        if self.job.is_bounded and threading.current_thread() is not threading.main_thread():
            return CHILD.rows(self, items)
        made = [self._row(it) for it in items]
        try:
            self.job.sync(made)
        except OSError as fault:
            made = [self._refusal(it, reason(fault)) if row.outcome in (DONE, FOUND) else row for it, row in zip(items, made)]
        return made

    def row_of_crash(self, item: Item) -> Row:
        """The row of a file at which the process ended, again and again."""
        return self._refusal(item, "the process that looked at it ended")

    def _row(self, item: Item) -> Row:
        if item.part:
            return self._part_row(item, item.part)
        if item.fault or not item.label:
            try:
                with refusals(item.label):
                    row = self.job.row_without_rule(self.found, item)
            except Refusal as fault:
                row = self._refusal(item, str(fault))
            if row:
                return row
            made = self._refusal(item, item.fault or "no rule names its encoding")
            made.outcome = PASSED if item.fault in ("", UNFOLLOWED) else REFUSED
            return made
        try:
            with refusals(item.label):
                is_long = item.content is None and item.size > min(reading.WHOLE, reading.LARGEST)
                row = self.job.stream_row(self.found, item) if is_long else None
                if row:
                    return row
                content = read(item)
                return WORKER.program(self.found).ask(lambda gate: self.job.row(gate, item, content))
        except Refusal as fault:
            return self._refusal(item, str(fault))

    def _part_row(self, item: Item, part: Part) -> Row:
        try:
            with refusals(item.label):
                if item.fault:
                    raise Refusal(item.fault)
                content = read_part(item, part)
                return WORKER.program(self.found).ask(lambda gate: self.job.part_row(gate, item, content))
        except Refusal as fault:
            return self._refusal(item, str(fault))

    def _refusal(self, item: Item, why: str) -> Row:
        if item.part:
            return PartRow(item.path, item.size, item.label, REFUSED, why)
        return self.job.rows(item.path, item.size, item.label, REFUSED, why)


class Worker(threading.local):
    """This thread's own `gate`."""

    _program: Optional[Program] = None

    def program(self, found: Found) -> Program:
        """The program, which is started once."""
        if self._program is None or found != self._program.found:
            self.end()
            self._program = Program(found)
        return self._program

    def end(self) -> None:
        """Ends the program; the next question starts it again."""
        if self._program is not None:
            self._program.end()


WORKER = Worker()


def is_utf8(raw: bytes) -> bool:
    """Whether bytes are UTF-8."""
    try:
        raw.decode()
    except UnicodeDecodeError:
        return False
    return True
