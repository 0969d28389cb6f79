"""How the tasks that serve the kernel wait for its next request. By pyfuse3 as it comes each request takes two turns of
trio's and a lock, which is most of what a short one costs. Here a request that has come already is taken at once, for some
time, and whoever has to wait leaves the others out of it.

pyfuse3 finds trio by a name of its own module, where its pyfuse3_asyncio puts another library; so does `shorten`."""
import select
import time
from typing import Any, Callable

import pyfuse3
import trio

# The seconds for which requests are taken one after the other before other tasks have their turn.
TURN = 0.002
# The descriptors that select(2) knows, which takes a time that is shorter than poll(2) does.
MOST = 1024


class Requests(trio.abc.Instrument):  # type: ignore[misc]
    """The kernel's requests, of one mount. Between the end of `wait_readable` and the reading of the request no other task
    runs; so what is there is still there."""

    def __init__(self) -> None:
        self._others = trio.lowlevel.ParkingLot()
        self._poll = select.poll()
        self._known = -1
        self._until = 0.0
        self._waits = self._over = False
        # Whether no request has been taken that isn't answered.
        self.is_free: Callable[[], bool] = lambda: False

    def _is_there(self, descriptor: int, soon: bool = False) -> bool:
        """Whether a request can be read, or the end of the mount. `soon`: or comes while this task has its turn, if no other task needs
        that. A program that looks at many files sends a request right after each answer, and to wait by the loop takes longer."""
        if descriptor != self._known:
            self._poll.register(descriptor, select.POLLIN)
            self._known = descriptor
            trio.lowlevel.add_instrument(self)
        if soon and self.is_free() and descriptor < MOST:
            return bool(select.select([descriptor], [], [], max(0.0, self._until - time.monotonic()))[0])
        return bool(self._poll.poll(0))

    @property
    def is_quiet(self) -> bool:
        """Whether no request has come that isn't taken."""
        return self._known < 0 or not self._is_there(self._known)

    async def wait_readable(self, descriptor: int) -> None:
        """Waits until there is a request."""
        while not self._over:
            if time.monotonic() > self._until:
                await trio.lowlevel.checkpoint()
                self._until = time.monotonic() + TURN
            elif self._is_there(descriptor, soon=True):
                return
            elif self._waits:
                await self._others.park()
            else:
                await self._wait(descriptor)
        raise trio.ClosedResourceError

    async def _wait(self, descriptor: int) -> None:
        """Waits for all tasks."""
        self._waits = True
        try:
            await trio.lowlevel.wait_readable(descriptor)
            self._until = time.monotonic() + TURN
        finally:
            self._waits = False

    def notify_closing(self, descriptor: int) -> None:
        """The mount ends: nobody waits any more, nor does whoever has a turn now and would wait next."""
        self._over = True
        self._others.unpark_all()
        trio.lowlevel.notify_closing(descriptor)

    def after_task_step(self, task: Any) -> None:
        """The task that took a request has to wait for something else, so another task waits for the next one."""
        if self._others and not self._waits:
            self._others.unpark()


class _NoLock:
    """Instead of the lock for which pyfuse3 has one task wait at a time."""

    async def __aenter__(self) -> None:
        pass

    async def __aexit__(self, *_: object) -> None:
        pass


class _Trio:
    """What pyfuse3 has for trio, or for its lowlevel: that, except some names."""

    def __init__(self, of: Any, **names: Any):
        self.__dict__.update(names)
        self._of = of

    def __getattr__(self, name: str) -> Any:
        return getattr(self._of, name)


def shorten() -> Requests:
    """Has pyfuse3 wait by `Requests`, which need no lock, and end their waiting."""
    requests = Requests()
    lowlevel = _Trio(trio.lowlevel, wait_readable=requests.wait_readable, notify_closing=requests.notify_closing)
    pyfuse3.trio = _Trio(trio, lowlevel=lowlevel, Lock=_NoLock)
    return requests
