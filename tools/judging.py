"""CI's judge over a copy of crates, and at the same time their mutants: each crate's as soon as its libraries are proved."""
import pathlib
import re
import threading
from concurrent.futures import Future, ThreadPoolExecutor
from typing import Callable, Dict, List, NamedTuple

import verdicts
from crates import TOP, below
from rooms import Judge, proved_crate
from schedule import processors
from mutants import CONTROLS, Trial

# The last line of the judge.
ENDED = re.compile(r"(\d+) passed, (\d+) failed")
PRINTING = threading.Lock()


class Count(NamedTuple):
    """How many passed, and how many didn't."""

    passed: int
    failed: int

    def __str__(self) -> str:
        return f"{self.passed} passed, {self.failed} failed"


def total(counts: List[Count]) -> Count:
    return Count(sum(it.passed for it in counts), sum(it.failed for it in counts))


def say(text: str) -> None:
    with PRINTING:
        print(text, flush=True)


class Trials:
    """Trials of the mutants in `edits`, a crate a lane, each crate's as soon as the libraries that it depends on are
    proved. Those are in the folders that `place` gives."""

    def __init__(self, edits: Dict[str, List[pathlib.Path]], place: Callable[[str], pathlib.Path]) -> None:
        self.edits, self.place = edits, place
        self.lacking = {it: set(below(it)) for it in edits}
        self.trials: Dict[str, "Future[Count]"] = {}
        self.lanes = ThreadPoolExecutor(processors())

    def try_crate(self, crate: str) -> Count:
        counts = [Count(0, 0)]
        for it in Trial(crate, self.edits[crate], {name: self.place(name) for name in below(crate)}).results():
            say(f"{'control' if it.is_control else 'mutant'} {crate}/{it.edit.name}: {it.verdict()}: {it.said}")
            counts.append(Count(1, 0) if it.is_passed() else Count(0, 1))
        return total(counts)

    def begin(self, *crates: str) -> None:
        """Begins the trials for which the libraries of these crates were the last that lacked, or that need none."""
        for it, names in self.lacking.items():
            names.difference_update(crates)
            if not names and it not in self.trials:
                self.trials[it] = self.lanes.submit(self.try_crate, it)

    def bodies(self) -> Count:
        """The result of the trials, once they have ended. If a library isn't proved, they fail."""
        untried = {it: names for it, names in self.lacking.items() if it not in self.trials}
        for it, names in untried.items():
            say(f"{it}: its mutants weren't tried, since libraries of its aren't proved: {' '.join(sorted(names))}")
        lost = Count(0, sum(len(self.edits[it]) for it in untried))
        return total([lost, *(it.result() for it in self.trials.values())])


class Judging(Trials):
    """The judge over the crates that are laid out in `room`, together with trials over the libraries that it proves."""

    def __init__(self, room: pathlib.Path, edits: Dict[str, List[pathlib.Path]]) -> None:
        super().__init__(edits, lambda crate: room / "crates" / crate / "out" / "rlib")
        self.room = room

    def crates(self) -> Count:
        """What the judge reports of the crates, which is printed except for its last line."""
        judge, last, proof = Judge(self.room), "", ""
        for line in judge.lines():
            done = proved_crate(line)
            if done:
                self.begin(done)
            if done and proof:
                # (there is no such line of a crate that an earlier run proved)
                verdicts.keep(done, self.room / "crates" / done, proof)
            if line.startswith((b"rt: ", b"logic=proved ")):
                proof = line.decode() if line.startswith(b"logic") else ""
            if last:
                say(last)
            last = line.decode(errors="replace").rstrip("\n")
        ended = ENDED.match(last)
        if not ended:
            say(last)
            return Count(0, 1)
        return Count(int(ended[1]), max(int(ended[2]), int(judge.status != 0)))


def tried_by_ci(crate: str) -> List[pathlib.Path]:
    """The mutants and controls of a crate that CI tries."""
    return [edit for folder in ("must-fail", CONTROLS) for edit in edits_in(TOP / "crates" / crate / folder)]


def edits_in(folder: pathlib.Path) -> List[pathlib.Path]:
    return sorted(folder.glob("*.edit"))
