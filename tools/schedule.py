"""Which crate is proved next, and by how many processors.

The longest row of crates that wait for one another decides how long all takes. So one crate of this row at a time is
proved by all processors that a check gains from. Another one is proved by the rest, which is more than one of four. The
other one comes after the first if both want a processor, unless the row will soon wait for it. If there are two
processors, the first leaves too little, so only crates that the row can wait for are proved at the same time."""
import os
import pathlib
import re
from typing import Collection, Dict, List, NamedTuple, Optional

# What more processors don't make faster, in shares of a check by one; and what each of them costs more.
ALONE, DEARER = 0.18, 0.07
# The most processors that a check gains from, and how many checks run together. If there are more processors than FEW, the
# second check takes none from the first.
MOST, TOGETHER, FEW = 4, 2, 2
# The `nice` of a check after the first of the row that has more time than AMPLE times its work until the row waits for it.
# Such a check was seen to take that long if the first has all processors.
BEHIND, AMPLE = 19, 4.0
# The memory that is free for a check by one processor, and for each further one: more than any here was seen to take.
FIRST, FURTHER = 3.2e9, 0.8e9
# The limit of the control group, and what it holds, in the two versions of Linux.
GROUPS = (
    ("/sys/fs/cgroup/memory.max", "/sys/fs/cgroup/memory.stat", r"anon (\d+)"),
    ("/sys/fs/cgroup/memory/memory.limit_in_bytes", "/sys/fs/cgroup/memory/memory.stat", r"total_rss (\d+)"))


class Turn(NamedTuple):
    """A crate to be proved now, and by how many processors. `beside` says whether it is proved together with the first of the
    row, and `nice` by how much its priority is lower."""

    crate: str
    jobs: int
    beside: bool = False
    nice: int = 0

    @property
    def memory(self) -> float:
        return FIRST + FURTHER * (self.jobs - 1)


def number(path: str, form: str) -> Optional[int]:
    """A number that a file of the system has, if it has one."""
    try:
        found = re.search(form, pathlib.Path(path).read_text(encoding="utf-8"))
    except OSError:
        return None
    return int(found[1]) if found else None


def free() -> float:
    """The memory that can be used, in bytes."""
    found = [1024.0 * (number("/proc/meminfo", r"MemAvailable:\s+(\d+)") or 0)]
    for limit, held, form in GROUPS:
        most, taken = number(limit, r"^(\d+)"), number(held, form)
        found += [most - taken] if most is not None and taken is not None else []
    return 0.85 * min(found)


def processors() -> int:
    """The processors to use: those that this may run on, or as many as RT_JOBS says."""
    named = os.environ.get("RT_JOBS", "")
    return max(1, int(named) if named.isdigit() else len(os.sched_getaffinity(0)))


def seconds(work: float, jobs: int) -> float:
    """How long a check takes by `jobs` processors that takes `work` by one."""
    return work * (ALONE + (1 - ALONE) / jobs) * (1 + DEARER * (jobs - 1))


def jobs_within(most: int, memory: float) -> int:
    """How many processors a check gets, of at most so many, that has so much memory."""
    return max(1, min(most, int(1 + (memory - FIRST) / FURTHER)))


class Schedule:
    """The order for these crates, lowest first, by the libraries among them that each waits for and the seconds that each
    takes by one processor."""

    def __init__(self, libraries: Dict[str, List[str]], work: Dict[str, float], lanes: int, memory: float) -> None:
        self.libraries, self.work, self.lanes, self.memory = libraries, work, lanes, memory
        self.most = min(lanes, MOST)
        # The longest row that begins with each.
        self.row: Dict[str, float] = {}
        for name in reversed(list(libraries)):
            behind = [self.row[it] for it, those in libraries.items() if name in those]
            self.row[name] = seconds(work[name], self.most) + max(behind, default=0.0)

    def next(self, left: Collection[str], running: Collection[Turn], lone: Collection[str] = ()) -> Optional[Turn]:
        """What begins now together with what is running, of the crates that are left; one that is `lone` is proved by
        itself, by one processor."""
        waited = {*left, *(it.crate for it in running)}
        ready = sorted((it for it in left if not waited.intersection(self.libraries[it])), key=lambda it: -self.row[it])
        room = self.memory - sum(it.memory for it in running)
        if not ready or (running and (ready[0] in lone or any(it.crate in lone for it in running))):
            return None
        if not any(not it.beside for it in running):
            jobs = 1 if ready[0] in lone else jobs_within(self.most, room)
            return Turn(ready[0], jobs) if not running or room >= FIRST else None
        if len(running) >= min(self.lanes, TOGETHER) or room < FIRST:
            return None
        longest = max(self.row[it] for it in waited)
        time = {it: longest - self.row[it] for it in ready if it not in lone}
        spare = (it for it in time if self.lanes > FEW or self.work[it] <= time[it])
        jobs = jobs_within(min(self.most, self.lanes - 1), room)
        return next((Turn(it, jobs, True, BEHIND if AMPLE * self.work[it] < time[it] else 0) for it in spare), None)
