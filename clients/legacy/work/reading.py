"""How a file is read, and `gate` asked about it: what can't be done is a `Refusal`. It imports little, since git starts it for each
file."""
import contextlib
import io
import os
import signal
import stat
import sys
from typing import IO, Callable, Iterator, List, NamedTuple, Optional, TypeVar

from gate import Fault, Gate, Gone

from legacy.finding import Found
from legacy.work.cuts import Part
from legacy.work.walk import reason

# The most bytes of a document of `gate`, and the most of a file that is looked at as a whole if parts of it will do.
LARGEST = 16_777_216
WHOLE = 1 << 22

# What a refusal of `gate` means for a file, where it isn't the job's own.
FAULTS = {
    "NoIndex": "gate has no index file of {label}", "UnknownLabel": "gate has no encoding named {label}",
    "TooLarge": f"larger than {LARGEST} bytes", "OutOfMemory": "gate is out of memory"}

Answer = TypeVar("Answer")


class Item(NamedTuple):
    """A file to do a job on: its path, what it was when the tree was walked, and the label that its rule names. It has its bytes
    if no file has them, for example those of standard input and of an archive's member. If these are many, it has the first, and
    `rest`, from which the others are read. If it is a part of a long file, it has that part, and the size is the file's."""

    path: str
    size: int
    time: int
    label: str
    fault: str = ""
    content: Optional[bytes] = None
    part: Optional[Part] = None
    rest: Optional[IO[bytes]] = None


class Refusal(Exception):
    """The job can't be done on this file: the reason, in a few words."""


class TooLong(Refusal):
    """A refusal after which what was done was interrupted, perhaps in the middle of a question."""


@contextlib.contextmanager
def refusals(label: str) -> Iterator[None]:
    """Whatever a file of this label can't be looked at or written for becomes a `Refusal`."""
    try:
        yield
    except Fault as fault:
        known = FAULTS.get(fault.name)
        raise Refusal(known.format(label=label) if known else f"gate refused it: {fault}") from fault
    except OSError as fault:
        raise Refusal(reason(fault)) from fault
    except MemoryError as fault:
        raise Refusal("out of memory") from fault


@contextlib.contextmanager
def time_limit(seconds: float, why: str) -> Iterator[None]:
    """Bounds the time of what is done in here, in a process's first thread; what takes longer is a `TooLong`, which says why. If Ctrl-C
    comes at the same time, that counts: this mustn't become a refusal of one file, after which the next one is read."""

    def ends(*_: object) -> None:
        # (the signal of Ctrl-C has the smaller number, so it is handled first, and this comes while its exception is on the way)
        if not isinstance(sys.exc_info()[1], KeyboardInterrupt):
            raise TooLong(why)

    before = signal.signal(signal.SIGALRM, ends)
    signal.setitimer(signal.ITIMER_REAL, seconds)
    try:
        yield
    finally:
        signal.setitimer(signal.ITIMER_REAL, 0)
        signal.signal(signal.SIGALRM, before)


class Program:
    """A `gate` that is started once something is asked. It is started again if it ended or a document may have stayed
    open."""

    def __init__(self, found: Found):
        self.found = found
        self._gate: Optional[Gate] = None

    def ask(self, question: Callable[[Gate], Answer]) -> Answer:
        """The answer to a question. A program that ends at it is asked once more."""
        for last in (False, True):
            try:
                self._gate = self._gate or self.found.start()
                return question(self._gate)
            except Gone:
                self.end()
                if last:
                    raise Refusal("gate ended at it")
            except (Fault, MemoryError, TooLong):
                self.end()
                raise
        raise AssertionError

    def end(self) -> None:
        """Ends the program; the next question starts it again."""
        if self._gate is not None:
            self._gate.close()
        self._gate = None

    def __enter__(self) -> "Program":
        return self

    def __exit__(self, *_: object) -> None:
        self.end()


def read(item: Item) -> bytes:
    """All bytes of a file, unless it isn't one, is too large, or changes during the call. Nothing blocks: neither a FIFO
    that replaced the file, nor a device."""
    if item.content is not None:
        return item.content
    if item.size > LARGEST:
        raise Refusal(f"{item.size} bytes; {LARGEST} are the most")
    with open(open_file(item.path), "rb", buffering=0) as file:
        before = os.fstat(file.fileno())
        content = _read_all(file, min(before.st_size, LARGEST) + 1)
        after = os.fstat(file.fileno())
    if _signature(before) != _signature(after) or len(content) != after.st_size:
        raise Refusal("it changed while it was read")
    return content


def read_part(item: Item, part: Part) -> bytes:
    """The bytes to look at of a part of a file, with its head, unless the file isn't any more what it was when the tree was walked."""
    if item.content is not None:
        return part.head + item.content
    with open(open_file(item.path), "rb", buffering=0) as file:
        file.seek(part.start)
        content = _read_all(file, part.stop - part.start)
        after = os.fstat(file.fileno())
    if (after.st_size, after.st_mtime_ns) != (item.size, item.time) or len(content) != part.stop - part.start:
        raise Refusal("it changed while it was read")
    return part.head + content


def open_file(path: str) -> int:
    """A descriptor of a file. Raises `Refusal` if it isn't one any more."""
    number = os.open(path, os.O_RDONLY | os.O_NONBLOCK | os.O_NOCTTY | os.O_CLOEXEC)
    if stat.S_ISREG(os.fstat(number).st_mode):
        return number
    os.close(number)
    raise Refusal("no file any more")


def _read_all(file: io.FileIO, size: int) -> bytes:
    """So many bytes, or what there is. (One read is all of it, unless the system gives less.)"""
    content: bytes = file.read(size) or b""
    while 0 < len(content) < size:
        piece = file.read(size - len(content))
        if not piece:
            break
        content += piece
    return content


def _signature(status: os.stat_result) -> List[int]:
    return [status.st_size, status.st_mtime_ns, status.st_ctime_ns]
