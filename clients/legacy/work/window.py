"""Lists of files under way at an executor, whose rows come out in the order in which the lists went in."""
import collections
import concurrent.futures
import statistics
import time
from typing import TYPE_CHECKING, Any, Deque, Generator, Iterable, Iterator, List, Optional

from legacy.work.reading import Item
from legacy.work.rows import Row, Task

Lists = Iterable[List[Item]]
Rows = Generator[List[Row], None, None]
if TYPE_CHECKING:
    Sent = concurrent.futures.Future[Any]
else:
    Sent = concurrent.futures.Future

# The seconds within which it is known what was lost with a process.
PATIENCE = 60.0
# The rows, and what they list, that wait for those before them, at most.
HELD = 20_000
# The seconds and the times that a list takes at least before it is sent again, while others arrive. The times are of the
# middle one of the last. The third number is how often it is sent at most.
STALLED, TIMES, TRIES = 5.0, 8, 3
# The seconds after which it checks whether there is still a worker.
TURN = 1.0


class Crew:
    """A crew of workers: an executor that can be started again when one of its processes ended."""

    def start(self) -> concurrent.futures.Executor:
        """Starts an executor."""
        raise NotImplementedError

    def submit(self, executor: concurrent.futures.Executor, task: Task, items: List[Item]) -> Sent:
        """Sends a list."""
        return executor.submit(task.rows, items)

    def idle(self, executor: concurrent.futures.Executor) -> concurrent.futures.Executor:
        """An executor of those who have the least to do, for a list that another stalls at."""
        return executor

    def is_end(self, fault: BaseException) -> bool:
        """Whether a list's fault says that the process ended which had it."""
        raise NotImplementedError

    def look(self) -> None:
        """Raises `Missing` if nobody will ever do what is under way."""

    def stop(self, executor: concurrent.futures.Executor, is_idle: bool) -> None:
        """Ends an executor, at once unless it `is_idle`."""
        executor.shutdown(wait=is_idle)


class Part:
    """A list under way: the futures of its rows, more than one if it was sent again."""

    def __init__(self, items: List[Item], future: Sent):
        self.items, self.futures = items, [future]
        self.since = time.monotonic()
        self._weight: Optional[int] = None

    def is_done(self) -> bool:
        """Whether its rows have arrived, or nothing is left that could bring them."""
        return self.ready_rows() is not None or all(it.done() for it in self.futures)

    def ready_rows(self) -> Optional[List[Row]]:
        """The rows, if one of the futures has them."""
        return next((it.result() for it in self.futures if it.done() and not it.cancelled() and not it.exception()), None)

    def rows(self) -> List[Row]:
        """The rows. Raises what the first future did if none has them."""
        made = self.ready_rows()
        found: List[Row] = self.futures[0].result() if made is None else made
        return found

    def weight(self) -> int:
        """How many rows it has, with what they list."""
        if self._weight is None:
            self._weight = sum(row.weight() for row in self.ready_rows() or ())
        return self._weight


class Window:
    """Lists under way. Finished lists wait for the ones before them, as far as `HELD` says, so that a slow one delays no other. One
    that stalls is sent again, to an idle worker. If a process ends, the first list goes to another alone, since it isn't known at
    which of the lost ones the process ended. A list at which it ends again is done file by file. Then the others follow."""

    def __init__(self, task: Task, crew: Crew, size: int):
        self._task, self._crew, self._size = task, crew, size
        self._executor = crew.start()
        self._under_way: Deque[Part] = collections.deque()
        self._lists: Iterator[List[Item]] = iter(())
        self._times: Deque[float] = collections.deque(maxlen=64)
        self._last = 0.0  # (when a list came last)
        self._doubles: List[Sent] = []  # (of lists that were sent again, perhaps still under way when the rows are there)

    def rows(self, lists: Lists) -> Rows:
        """The rows of each list, in order."""
        self._lists = iter(lists)
        is_idle = False
        try:
            self._fill()
            while self._under_way:
                yield self._next()
                self._fill()
            is_idle = True
        finally:
            self._crew.stop(self._executor, is_idle and all(it.done() for it in self._doubles))

    @property
    def _waiting(self) -> List[Sent]:
        return [future for part in self._under_way for future in part.futures if not future.done()]

    def _fill(self) -> None:
        """Sends lists while there is room for them."""
        while self._has_room():
            items = next(self._lists, None)
            if items is None:
                return
            self._under_way.append(Part(items, self._send(items)))

    def _has_room(self) -> bool:
        done = [it for it in self._under_way if it.is_done()]
        waiting = len(self._under_way) - len(done)
        # (rows that may go out do so before many more are held, for example if a state has them all)
        if self._under_way and self._under_way[0].is_done() and len(done) > waiting + self._size:
            return False
        return waiting < self._size and sum(it.weight() for it in done) < HELD

    def _send(self, items: List[Item], executor: Optional[concurrent.futures.Executor] = None) -> Sent:
        future: Sent = concurrent.futures.Future()
        if not items:
            future.set_result([])
            return future
        since = time.monotonic()
        try:
            future = self._crew.submit(executor or self._executor, self._task, items)
        except Exception as fault:
            if not self._crew.is_end(fault):
                raise
            future.set_exception(fault)
            return future
        future.add_done_callback(lambda _: self._note(time.monotonic() - since))
        return future

    def _note(self, seconds: float) -> None:
        self._times.append(seconds)
        self._last = time.monotonic()

    def _next(self) -> List[Row]:
        """The rows of the first list."""
        while not self._under_way[0].is_done():
            concurrent.futures.wait(self._waiting, TURN, concurrent.futures.FIRST_COMPLETED)
            self._crew.look()
            self._send_stalled()
            self._fill()
        part = self._under_way.popleft()
        try:
            return part.rows()
        except Exception as fault:
            self._crew.look()
            if not self._crew.is_end(fault):
                raise
        return self._recover(part)

    def _send_stalled(self) -> None:
        """Sends lists again that take much longer than others do which have come since."""
        now = time.monotonic()
        bound = max(STALLED, TIMES * statistics.median(self._times)) if self._times else STALLED
        stalled = [
            it for it in self._under_way if it.since + bound * 2 ** (len(it.futures) - 1) < now and it.since < self._last
            and len(it.futures) < TRIES and not it.is_done()]
        idle = self._crew.idle(self._executor) if stalled else None
        for part in stalled:
            part.futures.append(self._send(part.items, idle))
            self._doubles += part.futures

    def _recover(self, first: Part) -> List[Row]:
        """The rows of a list that was lost, after which those that were lost with it are under way again."""
        self._start_again()
        made = self._alone(first.items)
        for part in self._under_way:
            if self._is_lost(part):
                part.futures, part.since = [self._send(part.items)], time.monotonic()
        return made

    def _alone(self, items: List[Item]) -> List[Row]:
        """The rows of a list that was lost, while no other is under way."""
        part = Part(items, self._send(items))
        while not part.is_done():
            concurrent.futures.wait(part.futures, TURN)
            self._crew.look()
        try:
            return part.rows()
        except Exception as fault:
            self._crew.look()
            if not self._crew.is_end(fault):
                raise
        self._start_again()
        return [self._task.row_of_crash(items[0])] if len(items) == 1 else [row for it in items for row in self._alone([it])]

    def _start_again(self) -> None:
        """Starts an executor, once it is known of all lists whether they were lost."""
        self._executor.shutdown(wait=False)
        concurrent.futures.wait(self._waiting, PATIENCE)
        self._crew.stop(self._executor, is_idle=False)
        self._executor = self._crew.start()

    def _is_lost(self, part: Part) -> bool:
        if not part.is_done():
            return True
        if part.ready_rows() is not None:
            return False
        return any(it.cancelled() or self._crew.is_end(it.exception() or AssertionError()) for it in part.futures)
