"""The process that serves a mount, from before it is mounted until all is saved."""
import argparse
import contextlib
import gc
import logging
import os
import resource
import signal
import subprocess
import sys
import time
from typing import Callable, List, NamedTuple, Optional

import pyfuse3
import trio

from legacy.finding import Found
from legacy.mount.ahead import AT_ONCE
from legacy.mount.below import Source
from legacy.mount.copies import state_folder
from legacy.mount.interrupts import waits
from legacy.mount.logs import Reopened, logs_to
from legacy.mount.notices import tell
from legacy.mount.operations import Operations
from legacy.mount.places import fuse_options
from legacy.mount.questions import Questions
from legacy.mount.reading import Reader
from legacy.mount.refusals import Refusals, printable
from legacy.mount.saves import Saves
from legacy.mount.starting import clear, hint
from legacy.mount.status import Status, rules_of
from legacy.mount.threads import ABANDON
from legacy.mount.view import Options, View
from legacy.mount.waiting import Requests, shorten
from legacy.mount.workers import Workers
from legacy.rules import rules_from

log = logging.getLogger("legacy.mount")

DONE, FAILED = 0, 1
# The seconds between two looks at what nobody waits for.
PERIOD = 5.0
# The signals that end it. With a log in a file SIGHUP has that opened again.
ENDS = signal.SIGTERM, signal.SIGINT, signal.SIGHUP
# The seconds that saves have once it ends, and those in which requests are still taken that came before a signal.
GRACE, LATE = 20.0, 5.0
# After how many new objects, and how many such searches, what can be freed is looked for. (What a list of a large folder makes stays.)
COLLECTIONS = 10_000, 20, 20


class Helpers(NamedTuple):
    """The processes that decode and save for the one that serves the kernel."""

    questions: Questions
    workers: Workers
    for_small: Workers

    def close(self) -> None:
        """Ends all."""
        self.questions.close()
        self.for_small.close()
        self.workers.close()


class Served(NamedTuple):
    """A mount: its words, what answers the kernel and what waits for it, its helpers, and its log, if that is a file."""

    words: argparse.Namespace
    operations: Operations
    requests: Requests
    helpers: Helpers
    log: Optional[Reopened]

    @property
    def ends(self) -> List[signal.Signals]:
        """The signals that end it."""
        return [it for it in ENDS if not (it == signal.SIGHUP and self.log)]


def serve(words: argparse.Namespace, found: Found, mounted: Callable[[], None]) -> int:
    """Serves the mount until it ends."""
    prepare()
    served = mount_of(words, found)
    # (a signal between the mounting and the loop would leave a mount that nobody serves, and a second one texts unsaved)
    earlier: List[int] = []
    for number in served.ends:
        signal.signal(number, lambda number, _: earlier.append(number))
    try:
        pyfuse3.init(served.operations, words.mountpoint, fuse_options(words))
    except RuntimeError:
        print(f"legacy mount: {words.mountpoint} can't be mounted on", file=sys.stderr)
        return FAILED
    # (what is there by now stays, so that no search for what can be freed looks at it)
    gc.freeze()
    gc.set_threshold(*COLLECTIONS)
    try:
        trio.run(Course(served, mounted, earlier).run)
    finally:
        with contextlib.ExitStack() as ends:
            for end in served.helpers.close, lambda: pyfuse3.close(unmount=True):
                ends.callback(end)
            served.operations.saves.reject_unsaved(served.operations.tree.nodes.values())
    return DONE


def prepare() -> None:
    """Makes the process one that serves a mount."""
    os.umask(0)
    sys.setswitchinterval(0.001)
    # A program may be a file of the mount. If one is started by vfork(2), Python holds all threads until that is read.
    setattr(subprocess, "_USE_VFORK", False)
    # (a file that programs write has a descriptor here)
    most = resource.getrlimit(resource.RLIMIT_NOFILE)[1]
    resource.setrlimit(resource.RLIMIT_NOFILE, (most, most))


def mount_of(words: argparse.Namespace, found: Found) -> Served:
    """All that a mount needs. What is to be known before it is mounted is said."""
    file = logs_to(words.log, words.foreground)
    requests = shorten()
    source = Source(os.fsencode(words.source))
    source.state = None if words.read_only else state_folder()
    rules = rules_from(words, source.descriptor, found.labels, log.warning)
    helpers = Helpers(Questions(found.words()), Workers(found.words()), Workers(found.words(), AT_ONCE))
    reader = Reader(source, *helpers)
    reader.parts.watch()
    refusals = Refusals(source, os.fsencode(words.rejected) if words.rejected else None)
    text = hint(source, rules, reader.parts, bool(words.encoding or words.default))
    if text:
        log.warning("%s", text)
        if not words.foreground:
            print(f"legacy mount: {text}", file=sys.stderr)

    async def forget_pages(ino: int) -> None:
        # (in a thread: it waits for pages that are being read, which the loop serves)
        with contextlib.suppress(OSError):
            await trio.to_thread.run_sync(pyfuse3.invalidate_inode, ino)

    saves = Saves(reader, helpers.workers, refusals, not words.no_sync, forget_pages)
    options = Options(words.read_only, words.large == "bytes", words.show_git, words.editorconfig, words.allow_other)
    operations = Operations(View(source, rules, reader, options), saves)
    requests.is_free = lambda: not operations.under_way
    status = Status(words)
    operations.status = lambda: status.text(refusals.texts())
    return Served(words, operations, requests, helpers, file)


class Course:
    """What happens while a mount is served. It is mounted and looked after, until somebody unmounts it, a signal comes, or it was idle
    for some time."""

    def __init__(self, served: Served, mounted: Callable[[], None], earlier: List[int]):
        self._served, self._mounted, self._earlier = served, mounted, earlier
        self._operations, self._helpers = served.operations, served.helpers
        self._by_signal = trio.Event()
        self._why = "it was unmounted"
        # How many requests had come when that was looked at last, and since when there have been no more.
        self._taken, self._since = 0, time.monotonic()

    async def run(self) -> None:
        """Serves the kernel until it is unmounted, or a signal comes, or has come earlier."""
        async with trio.open_nursery() as nursery:
            tasks = self._ended_by_a_signal, self._reopen, self._looked_after, self._save_late, self._begin, waits.watch
            for task in (*tasks, *[self._operations.reader.ahead.serve] * AT_ONCE):
                nursery.start_soon(task)
            await pyfuse3.main()
            tell("STOPPING=1")
            # Nobody waits any more for what is decoded ahead.
            self._helpers.for_small.stop()
            nursery.start_soon(self._stopped_late)
            await self._operations.saves.close(self._operations.tree.nodes.values(), self._by_signal.is_set())
            log.info("ended: %s", self._why)
            nursery.cancel_scope.cancel()

    async def _ended_by_a_signal(self) -> None:
        with trio.open_signal_receiver(*self._served.ends) as signals:
            number = self._earlier[0] if self._earlier else await signals.__anext__()
        self._why = f"signal {signal.Signals(number).name}"
        # That a file was closed is said afterwards. (Programs that never rest are not waited for.)
        with trio.move_on_after(LATE):
            while self._operations.under_way or not self._served.requests.is_quiet:
                await trio.sleep(0.005)
        self._by_signal.set()
        pyfuse3.terminate()
        await self._stopped_late()

    async def _stopped_late(self) -> None:
        # What is being saved still is; what takes too long is refused.
        await trio.sleep(GRACE)
        self._helpers.workers.stop()

    async def _reopen(self) -> None:
        """Opens the log again whenever somebody says that it was moved away."""
        if self._served.log:
            with trio.open_signal_receiver(signal.SIGHUP) as signals:
                async for _ in signals:
                    self._served.log.reopen()
                    log.info("the log was opened again")

    async def _looked_after(self) -> None:
        while True:
            await trio.sleep(PERIOD)
            self._helpers.questions.look_after()
            self._helpers.for_small.look_after()
            if self._helpers.workers.look_after():
                await in_a_thread(self._helpers.workers.start)
            if self._served.words.idle:
                await self._unmounted_if_idle(self._served.words.idle)

    async def _save_late(self) -> None:
        while True:
            await trio.sleep(1.0)
            # (the kernel may know of many other files)
            await self._operations.saves.save_late({it.node for it in self._operations.handles.values()})

    async def _unmounted_if_idle(self, seconds: float) -> None:
        """Unmounts it if no program has asked anything for so long, and none is in it."""
        taken, now = self._operations.taken, time.monotonic()
        if taken != self._taken or self._operations.handles or self._operations.folders:
            self._taken, self._since = taken, now
        elif now - self._since >= seconds:
            before, self._why = self._why, f"nobody has used it for {seconds:g} seconds"
            ran = await trio.to_thread.run_sync(unmount, self._served.words.mountpoint)
            if ran:
                self._why, self._since = before, now

    async def _begin(self) -> None:
        await self._operations.mounted.wait()
        words = self._served.words
        rules = " ".join(rules_of(words)) or "none"
        log.info("mounted: %s at %s, process %d, rules: %s", *(printable(os.fsencode(it)) for it in (words.source, words.mountpoint)), os.getpid(), rules)
        self._mounted()
        tell("READY=1", f"STATUS={words.source} at {words.mountpoint}", f"MAINPID={os.getpid()}")
        await in_a_thread(self._helpers.workers.start)
        with contextlib.suppress(OSError):
            await self._helpers.questions.start()
        await trio.to_thread.run_sync(clear, self._operations.view, **ABANDON)


async def in_a_thread(start: Callable[[], None]) -> None:
    """Starts a process, which may take long. If it can't be started, that is tried again when one is needed."""
    with contextlib.suppress(OSError):
        await trio.to_thread.run_sync(start)


def unmount(point: str) -> int:
    """Unmounts what nobody uses, and returns the status of that."""
    by_root = ["umount", "--", point] if os.geteuid() == 0 else None
    line = by_root or ["fusermount3", "-u", "--", point]
    return subprocess.run(line, stdin=subprocess.DEVNULL, stdout=subprocess.DEVNULL, stderr=subprocess.DEVNULL).returncode
