"""The processes that do what is long (worker.py): some of them, so that what takes long holds up nothing else."""
import contextlib
import errno
import fcntl
import os
import pathlib
import pickle
import select
import signal
import subprocess
import sys
import threading
import time
from typing import Any, List, Sequence, Set

from legacy.mount.questions import SET_ROOM
from legacy.mount.sending import Sender
from legacy.saving import Refused

# The most of them at once.
MOST = 3
# The seconds after which one that has nothing to do is ended, and after which one that doesn't reply is.
IDLE, PATIENCE = 30.0, 600.0
# The seconds after which one is ended that spends no processor time at a job. (It is looked at every few seconds: so a program
# waits for 20 seconds at most.)
SILENCE = 13.0
# The fields of proc_pid_stat(5), after the name, that have the time in user mode and in the kernel.
TIMES = slice(11, 13)
# The room of a pipe to one, where the system gives it.
ROOM = 1 << 20
PACKAGES = pathlib.Path(__file__).resolve().parent.parent.parent


def spent_by(process: int) -> int:
    """The processor time of a process and of those that it started, in ticks."""
    spent = 0
    with contextlib.suppress(OSError, ValueError, IndexError):
        with open(f"/proc/{process}/task/{process}/children", "rb") as file:
            children = [int(it) for it in file.read().split()]
        for number in process, *children:
            with open(f"/proc/{number}/stat", "rb") as file:
                spent += sum(int(it) for it in file.read().rpartition(b")")[2].split()[TIMES])
    return spent


class Gone(Exception):
    """A process ended before it replied."""


class Worker:
    """One process."""

    def __init__(self, words: Sequence[str]):
        path = os.pathsep.join([str(PACKAGES), *filter(None, [os.environ.get("PYTHONPATH")])])
        self._process = subprocess.Popen(
            [sys.executable, "-m", "legacy.mount.worker", *words], stdin=subprocess.PIPE, stdout=subprocess.PIPE,
            env={**os.environ, "PYTHONPATH": path}, start_new_session=True)
        for pipe in self._process.stdin, self._process.stdout:
            with contextlib.suppress(OSError):
                fcntl.fcntl(pipe.fileno() if pipe else -1, SET_ROOM, ROOM)
        # (which has no bound for the number of a descriptor, as select has)
        self._comes = select.poll()
        self._comes.register(self._process.stdout or -1, select.POLLIN)
        self.since, self.used = time.monotonic(), False
        # The processor time that it and its gate had spent when that was looked at last, and when that was more than before.
        self._spent, self._at_work = -1, 0.0
        # The numbers of the contents that it keeps.
        self._kept: Set[int] = set()

    def do(self, name: str, given: Sequence[Any]) -> Any:
        """What the job returns or raises."""
        to, come = self._process.stdin, self._process.stdout
        assert to and come
        self.used, self._spent, self._at_work = True, -1, time.monotonic()
        try:
            Sender(to, self._kept).dump((name, given))
            to.flush()
            if not self._comes.poll(1000 * PATIENCE):
                self.kill()
            outcome, found, self._kept = pickle.load(come)
        except (OSError, EOFError, pickle.UnpicklingError) as fault:
            raise Gone() from fault
        self.since = time.monotonic()
        if outcome == "refused":
            raise Refused(*found)
        return found

    def is_silent(self) -> bool:
        """Whether it has a job, and neither it nor its gate has done anything for some time. (Who computes is at work, however
        long that takes.)"""
        spent, now = spent_by(self._process.pid), time.monotonic()
        if self._spent not in (-1, spent):
            self._at_work = now
        self._spent = spent
        return now - self._at_work > SILENCE

    def kill(self) -> None:
        """Ends it and its gate, on which whoever waits for it learns that it is gone."""
        if self._process.returncode is None:
            with contextlib.suppress(ProcessLookupError):
                os.killpg(self._process.pid, signal.SIGKILL)

    def close(self) -> None:
        """Ends it, and what was opened for it."""
        self.kill()
        self._process.wait()
        for pipe in self._process.stdin, self._process.stdout:
            with contextlib.suppress(OSError):
                if pipe:
                    pipe.close()


class Workers:
    """The processes, which are started once they are needed."""

    def __init__(self, words: Sequence[str], most: int = MOST):
        self._words = words
        self._places = threading.BoundedSemaphore(most)
        self._idle: List[Worker] = []
        self._busy: Set[Worker] = set()
        self._over = False

    def do(self, name: str, *given: Any) -> Any:
        """Does a job, whose outcome it waits for; once more, by a new process, where one ended. (What ends one may have ended
        those that wait next to it.)"""
        with self._places:
            for anew in False, True:
                if self._over:
                    break
                worker = self._take(anew)
                self._busy.add(worker)
                if self._over:
                    worker.kill()  # (`stop` may have looked just before)
                try:
                    found = worker.do(name, given)
                except Refused:
                    self._idle.append(worker)
                    raise
                except Gone:
                    worker.close()
                else:
                    self._idle.append(worker)
                    return found
                finally:
                    self._busy.discard(worker)
        raise Refused(errno.EIO, "the process that saves ended before it had an answer")

    def _take(self, anew: bool) -> Worker:
        """One that has nothing to do, or a new one."""
        # (several threads take from the list)
        with contextlib.suppress(IndexError):
            if not anew:
                return self._idle.pop()
        return Worker(self._words)

    def start(self) -> None:
        """Starts one, so that the next job finds it."""
        self._idle.append(Worker(self._words))

    def look_after(self) -> bool:
        """Ends what has had nothing to do for long, with all that it holds, and returns whether something was. One that is
        silent at a job is ended too."""
        for worker in list(self._busy):
            if worker.is_silent():
                worker.kill()
        late = [it for it in self._idle if it.used and time.monotonic() - it.since > IDLE]
        for worker in late:
            with contextlib.suppress(ValueError):
                self._idle.remove(worker)
                worker.close()
        return bool(late)

    def stop(self) -> None:
        """Ends those that are at work, and has no other begin: what they do is refused."""
        self._over = True
        for worker in list(self._busy):
            worker.kill()

    def close(self) -> None:
        """Ends all."""
        while self._idle:
            self._idle.pop().close()
