"""Short questions to `gate`, asked from the loop that serves the kernel, which continues with other requests until the
replies come. What is longer goes to a process of its own (workers.py)."""
import base64
import contextlib
import errno
import fcntl
import itertools
import json
import os
import subprocess
import time
from typing import Any, AsyncIterator, Awaitable, Callable, Dict, List, Optional, Sequence, Set, TypeVar

import trio

from gate import Fault, Gone
from legacy.mount.interrupts import waits
from legacy.mount.letters import Letters
from legacy.mount.snapshots import Lengths, Text
from legacy.saving import Refused

# The room of a pipe to gate, where the system gives it, and how it is asked for.
ROOM, SET_ROOM = 1 << 18, 1031
# The most bytes of a document that fit in it as base64, and in a pipe that keeps its first room.
LONG, SHORT = 180_000, 45_000
# The seconds after which a gate that doesn't reply is ended. (It is looked at every few seconds, so a program waits for 20.)
PATIENCE = 15.0
# How many processes answer.
PROCESSES = 2

Members = Dict[str, Any]
Found = TypeVar("Found")


class Answering:
    """A `gate` that is asked by pipes. Commands are written at once, since they fit in the pipe, and then their replies are read."""

    def __init__(self, words: Sequence[str]):
        # (Ctrl-C at a terminal is the mount's alone, which then still saves what is under way)
        self._process = subprocess.Popen(words, stdin=subprocess.PIPE, stdout=subprocess.PIPE, bufsize=0, start_new_session=True)
        assert self._process.stdin and self._process.stdout
        self._to, self._from = self._process.stdin.fileno(), self._process.stdout.fileno()
        os.set_blocking(self._from, False)
        self.longest = SHORT
        with contextlib.suppress(OSError):
            if fcntl.fcntl(self._to, SET_ROOM, ROOM) >= ROOM:
                self.longest = LONG
        self.lock = trio.Lock()
        self.since: Optional[float] = None

    async def ask(self, *commands: bytes) -> List[Members]:
        """The replies to some commands. Raises `Gone`, and is then of no more use."""
        self.since = time.monotonic()
        try:
            os.write(self._to, b"\n".join(commands) + b"\n")
            replies = [json.loads(line) for line in await self._lines(len(commands))]
        except (OSError, ValueError) as fault:
            raise Gone() from fault
        self.since = None
        return replies

    async def _lines(self, count: int) -> List[bytes]:
        come: List[bytes] = []
        while count > 0:
            await trio.lowlevel.wait_readable(self._from)
            with contextlib.suppress(BlockingIOError):
                part = os.read(self._from, 1 << 20)
                if not part:
                    raise Gone()
                come.append(part)
                count -= part.count(b"\n")
        return b"".join(come).splitlines()

    @property
    def is_over(self) -> bool:
        """Whether the process has ended."""
        return self._process.poll() is not None

    def end(self) -> None:
        """Ends the process, on which whoever waits for it is answered `Gone`."""
        self._process.kill()

    def close(self) -> None:
        """Ends the process, and what was opened for it."""
        self._process.kill()
        self._process.wait()
        for pipe in self._process.stdin, self._process.stdout:
            if pipe:
                pipe.close()


class Questions:
    """What is asked of a few processes, each of which has one question at a time."""

    def __init__(self, words: Sequence[str]):
        self._words = words
        self._answering: List[Answering] = []
        self._starts = trio.Lock()
        self._turns = itertools.count()
        self._encodings: Dict[str, str] = {}
        self._letters: Dict[str, Letters] = {}
        self.longest = SHORT

    async def start(self) -> None:
        """Starts the processes, so that no question has to wait for that."""
        while len(self._answering) < PROCESSES:
            await self._start_one()

    async def _start_one(self) -> None:
        """Starts a process, if there are few. (In a thread: that takes long, and the program may be a file of the mount.)"""
        async with self._starts:
            if len(self._answering) < PROCESSES:
                found = await trio.to_thread.run_sync(Answering, self._words)
                self._answering.append(found)
                self.longest = found.longest

    @contextlib.asynccontextmanager
    async def _one(self, again: bool) -> AsyncIterator[Answering]:
        """One of the processes, which is this question's alone; a new one if it is asked again."""
        if again:
            self._end_idle()
        found = await self._take()
        try:
            yield found
        except Refused:
            raise  # (its document is closed)
        except BaseException:
            # (it may have more to say, which the next question would take for its own)
            self._answering.remove(found)
            found.close()
            raise
        finally:
            found.lock.release()

    async def _take(self) -> Answering:
        """A process whose lock is held: a free one, or a new one if there are few, or the one that was waited for."""
        while True:
            found = next((it for it in self._answering if not it.lock.locked()), None)
            if found and found.is_over:
                self._answering.remove(found)
                found.close()
                continue
            if found:
                found.lock.acquire_nowait()
                return found
            if len(self._answering) < PROCESSES:
                await self._start_one()
                continue
            waited = self._answering[next(self._turns) % PROCESSES]
            await waits.during(waited.lock.acquire)
            if waited in self._answering:
                return waited
            waited.lock.release()

    def _end_idle(self) -> None:
        """Ends those that have nothing to do. (What ended one, or holds it up, may have done so to them.)"""
        for it in [it for it in self._answering if not it.lock.locked()]:
            self._answering.remove(it)
            it.close()

    def look_after(self) -> None:
        """Ends a process that keeps a question waiting."""
        for it in self._answering:
            if it.since is not None and time.monotonic() - it.since > PATIENCE:
                it.end()

    def close(self) -> None:
        """Ends the processes."""
        for it in self._answering:
            it.close()

    async def encoding(self, label: str) -> str:
        """The name of the encoding that a label stands for."""
        if label not in self._encodings:
            opened, _ = await self._ask(opening(label, b""), CLOSE)
            self._encodings[label] = opened["encoding"]
        return self._encodings[label]

    async def lengths(self, raw: bytes, label: str) -> Lengths:
        """How long the text of these bytes is."""
        _, counts, _ = await self._ask(opening(label, raw), STAT, CLOSE)
        return Lengths(counts["utf8"], counts["errors"])

    async def text(self, raw: bytes, label: str) -> Text:
        """The text of these bytes."""

        async def read(gate: Answering) -> Text:
            _, counts = accept(await gate.ask(opening(label, raw), STAT))
            text, _ = accept(await gate.ask(b'{"id":0,"op":"text","doc":"q","from":0,"to":%d}' % counts["utf32"], CLOSE))
            return Text(text["text"].encode(), counts["encoding"], counts["bom"])

        return await self._with(read)

    def letters(self, label: str) -> Letters:
        """The characters that the encoding is known to have."""
        return self._letters.setdefault(label, Letters())

    async def lacking(self, letters: Set[str], label: str) -> Optional[str]:
        """One of these characters for which the encoding has no bytes, if there is one."""
        known = self.letters(label).known
        asked = "".join(letters - known)
        if asked:
            whole = b'{"id":0,"op":"encode","doc":"q","from":0,"to":%d,"label":"%b"}' % (len(asked), label.encode())
            _, encoded, _ = await self._ask(opening("utf-8", asked.encode(), "keep"), whole, CLOSE, but="Unencodable")
            if "fault" in encoded:
                return asked[encoded["index"]]
            known.update(asked)
        return None

    async def _ask(self, *commands: bytes, but: str = "") -> List[Members]:
        async def ask(gate: Answering) -> List[Members]:
            return accept(await gate.ask(*commands), but)

        return await self._with(ask)

    async def _with(self, job: Callable[[Answering], Awaitable[Found]]) -> Found:
        """Does a job with one of the processes, and once more with another where that one ended."""
        for again in False, True:
            with contextlib.suppress(Gone):
                async with self._one(again) as gate:
                    return await waits.during(job, gate)
        raise Refused(errno.EIO, "gate ended before it replied")


STAT, CLOSE = b'{"id":0,"op":"stat","doc":"q"}', b'{"id":0,"op":"close","doc":"q"}'


def opening(label: str, raw: bytes, mark: str = "sniff") -> bytes:
    """The command that opens the one document of a process."""
    return b'{"id":0,"op":"open","doc":"q","label":"%b","bom":"%b","bytes":"%b"}' % (label.encode(), mark.encode(), base64.b64encode(raw))


def accept(replies: List[Members], but: str = "") -> List[Members]:
    """The replies, of which none is a refusal, except those of one name."""
    for it in replies:
        if it.get("fault", but) != but:
            raise Refused(errno.EIO, f"gate answered {Fault(it)}")
    return replies
