"""The workers of a task: this process, some processes of this machine, or a Dask cluster. Lists of files go in, and
their rows come out in the same order, with a bounded number of lists under way."""
import concurrent.futures
import contextlib
import importlib
import itertools
import logging
import multiprocessing
import multiprocessing.util
import os
import signal
import socket
import sys
import threading
import time
import traceback
from concurrent.futures.process import BrokenProcessPool
from typing import Any, Callable, Iterator, List

from legacy.finding import Missing
from legacy.work.reading import Item
from legacy.work.rows import WORKER, Task
from legacy.work.window import TURN, Crew, Lists, Rows, Sent, Window

Pool = Callable[[Task, Lists], Rows]

# The lists under way for each process.
AHEAD = 4
# The seconds for which a scheduler may be away, and a cluster without a worker, before a run ends.
AWAY, IDLE = 10.0, 60.0


def processors() -> int:
    """How many processors this process may use."""
    return len(os.sched_getaffinity(0)) if hasattr(os, "sched_getaffinity") else os.cpu_count() or 1


def here(task: Task, lists: Lists) -> Rows:
    """This process."""
    try:
        for items in lists:
            yield task.rows(items)
    finally:
        WORKER.end()


def processes(count: int) -> Pool:
    """Processes of this machine, each with a `gate` of its own; this one alone if there is little to do."""

    def rows(task: Task, lists: Lists) -> Rows:
        lists = iter(lists)
        first = list(itertools.islice(lists, 2))
        if count == 1 or len(first) < 2:
            return here(task, itertools.chain(first, lists))
        # (what a forked process has of this one's pipes must not stay)
        WORKER.end()
        return Window(task, Processes(count), count * AHEAD).rows(itertools.chain(first, lists))

    return rows


class Processes(Crew):
    """Processes of this machine."""

    def __init__(self, count: int):
        # (a forked process needs no module of the caller's imported again)
        method = "fork" if "fork" in multiprocessing.get_all_start_methods() else None
        self._count, self._context = count, multiprocessing.get_context(method)

    def start(self) -> concurrent.futures.Executor:
        return concurrent.futures.ProcessPoolExecutor(self._count, self._context, _begin)

    def submit(self, executor: concurrent.futures.Executor, task: Task, items: List[Item]) -> Sent:
        with _without_interrupts():
            return super().submit(executor, task, items)

    def is_end(self, fault: BaseException) -> bool:
        return isinstance(fault, BrokenProcessPool)

    def stop(self, executor: concurrent.futures.Executor, is_idle: bool) -> None:
        """Ends the processes. What they are at, such as an expression that doesn't end, isn't waited for."""
        started = [] if is_idle else list((getattr(executor, "_processes", None) or {}).values())
        executor.shutdown(wait=is_idle)
        for it in started:
            it.kill()


def _begin() -> None:
    """Begins a process: Ctrl-C is its parent's, where that one is gone it ends, and its `gate` ends with it."""
    signal.signal(signal.SIGINT, signal.SIG_IGN)
    signal.pthread_sigmask(signal.SIG_UNBLOCK, {signal.SIGINT})
    multiprocessing.util.Finalize(None, WORKER.end, exitpriority=0)
    threading.Thread(target=_end_with_parent, daemon=True).start()


@contextlib.contextmanager
def _without_interrupts() -> Iterator[None]:
    """Ctrl-C comes once this is done. A process that is started in here has it wait until it has begun."""
    before = signal.pthread_sigmask(signal.SIG_BLOCK, {signal.SIGINT})
    try:
        yield
    finally:
        signal.pthread_sigmask(signal.SIG_SETMASK, before)


def _end_with_parent() -> None:
    parent = multiprocessing.parent_process()
    if parent:
        parent.join()
        os._exit(1)


def dask(address: str) -> Pool:
    """The workers of a Dask cluster, by its scheduler's address, on which this package is installed too. All see the
    files by the same paths."""

    def rows(task: Task, lists: Lists) -> Rows:
        cluster = Cluster(address)
        try:
            yield from Window(task, cluster, cluster.size() * AHEAD).rows(lists)
        finally:
            cluster.close()

    return rows


class Cluster(Crew):
    """The workers of a Dask cluster. Raises `Missing` if no scheduler replies at the address."""

    def __init__(self, address: str):
        self._distributed: Any = importlib.import_module("distributed")
        self._address = address
        # When it was looked for workers, since when there has been none, and whether that was said.
        self._looked, self._idle, self._is_said = 0.0, 0.0, False
        # (what it says of a connection that is lost is said in one line by this module)
        logging.getLogger("distributed").setLevel(logging.CRITICAL)
        try:
            # (a busy scheduler may take its time, a missing one is refused at once)
            socket.create_connection(self._distributed.comm.get_address_host_port(address), timeout=10).close()
            self._client = self._distributed.Client(address, timeout="60s", set_as_default=False)
        except (OSError, ValueError, TypeError, TimeoutError) as fault:
            raise Missing(f"no Dask scheduler replies at {address}: {fault}") from fault

    def size(self) -> int:
        """How many threads its workers have, once there are any."""
        while not self._threads():
            self.look()
            time.sleep(0.1)
        return self._threads()

    def _threads(self) -> int:
        """How many threads its workers have, as far as the scheduler says it in time."""
        with contextlib.suppress(OSError, TimeoutError, self._distributed.TimeoutError):
            found: Any = self._client.sync(self._client.scheduler.ncores, callback_timeout=5)
            return sum(found.values())
        return 0

    def start(self) -> concurrent.futures.Executor:
        executor: concurrent.futures.Executor = self._client.get_executor(pure=False)
        return executor

    def idle(self, executor: concurrent.futures.Executor) -> concurrent.futures.Executor:
        # (the scheduler doesn't know that a worker stalls, and may give it the list again)
        with contextlib.suppress(OSError, TimeoutError, self._distributed.TimeoutError):
            found: Any = self._client.sync(self._client.scheduler.processing, workers=None, callback_timeout=5)
            least = min(map(len, found.values()), default=0)
            workers = [worker for worker, tasks in found.items() if len(tasks) == least]
            idle: concurrent.futures.Executor = self._client.get_executor(pure=False, workers=workers)
            return idle
        return executor

    def is_end(self, fault: BaseException) -> bool:
        # (what was under way is cancelled when the connection to the scheduler is lost)
        return isinstance(fault, (self._distributed.KilledWorker, concurrent.futures.CancelledError)) or is_unpacked(fault)

    def look(self) -> None:
        """Raises `Missing` if the scheduler is gone, which is waited for, or no worker comes."""
        until = time.monotonic() + AWAY
        while self._client.status != "running":
            if self._client.status in ("closing", "closed") or until < time.monotonic():
                raise Missing(f"the Dask scheduler at {self._address} is gone; --resume continues a run that has a STATE")
            time.sleep(0.1)
        if self._looked + TURN > time.monotonic():
            return
        self._looked = time.monotonic()
        if self._threads():
            self._idle = 0.0
            return
        self._idle = self._idle or time.monotonic()
        if self._idle + IDLE < time.monotonic():
            raise Missing(f"the Dask scheduler at {self._address} has had no worker for {IDLE:.0f} seconds")
        if not self._is_said:
            self._is_said = True
            print(f"legacy: the Dask scheduler at {self._address} has no worker; one is waited for", file=sys.stderr)

    def stop(self, executor: concurrent.futures.Executor, is_idle: bool) -> None:
        if self._client.status == "running":
            executor.shutdown(wait=is_idle)

    def close(self) -> None:
        """Ends the connection, without a wait for one that is lost."""
        with contextlib.suppress(OSError, TimeoutError, self._distributed.TimeoutError):
            self._client.close(timeout=0.5)


def is_unpacked(fault: BaseException) -> bool:
    """Whether a fault from Dask is the result of unpacking rows as one. Its executor does that if a worker ends between
    their arrival and its look at their state."""
    frames = traceback.extract_tb(fault.__traceback__)
    return isinstance(fault, (AttributeError, TypeError, ValueError)) and bool(frames) and frames[-1].name == "_cascade_future"
