"""Checks of one crate over libraries that were proved before: what the prover is asked, and what of its words a person needs."""
import pathlib
import re
import subprocess
import sys
import time
from typing import List, NamedTuple, Optional, Set

import prover
from crates import TOP, below
from progress import clock
from proving import library_folder
from schedule import MOST, free, jobs_within, processors

# What the prover says of a part of a crate, at the end of a run, and of how far a long check has come.
PART = re.compile(r"(?P<kind>\w+) (?P<name>\S+): (?P<verdict>proved|no holes|not proved|no proof|could not tell|depends on|assumed|not assumed)\b")
LAST = re.compile(r"(?:logic|only|holes|started)=")
SO_FAR = re.compile(r"so far: (?:(?P<count>\d+ of \d+ functions) checked)?")
# What it says besides: of the logic, and how many modules it took from where.
BESIDES = re.compile(r"logic /|statements \w+: |crate \w+: |by-macro: |hides |rt: |calls ")
# A file of the crate, as the prover names it in the crate's folder.
PLACE = re.compile(r"(?<![\w./])(?:\./)?(?=(?:src|specs|proofs)/)")
DONE = ("proved", "no holes")


class Wanted(NamedTuple):
    """What of a crate is checked: these functions, or all if there are none. It names the functions whose proofs are to be
    started, and says whether the crate's tests are read as well."""

    crate: str
    only: List[str]
    start: List[str]
    has_tests: bool

    def words(self) -> List[str]:
        """The prover's command."""
        made = prover.words("check", self.crate, {name: library_folder(name) for name in below(self.crate)})
        # (a check of few functions is no faster by several processors)
        jobs = 1 if self.only or self.start else jobs_within(min(processors(), MOST), free())
        made += ["--jobs", str(jobs), "--links", f"{self.crate}=", *["--test"] * self.has_tests]
        made += [word for name in self.only for word in ("--only", name)]
        made += [word for name in self.start for word in ("--start", name)]
        # What is checked once isn't checked again while it stays the same. So this run proves nothing to others.
        memory = self.folder() / "out" / ("checked_tests" if self.has_tests else "checked")
        return [*made, *["--allow-holes"] * bool(self.start), "--incremental", str(memory)]

    def folder(self) -> pathlib.Path:
        return TOP / "crates" / self.crate


class Report:
    """What is printed of the prover's words: open goals, errors, the lines to write, each path from the top of the repository."""

    def __init__(self, crate: str) -> None:
        self.crate, self.began = crate, time.monotonic()
        self.functions, self.has_ended = 0, False
        self.open_ones: List[str] = []
        self.notes: Set[str] = set()

    def message(self, line: str) -> Optional[str]:
        """The line as it is printed, if it is."""
        part, so_far = PART.match(line), SO_FAR.match(line)
        if so_far:
            if so_far["count"]:
                print(f"check: {self.crate}: {so_far['count']}", file=sys.stderr, flush=True)
            return None
        if LAST.match(line):
            self.has_ended = True
            return None
        if part:
            self.functions += part["kind"] == "fn"
            self.open_ones += [] if part["verdict"] in DONE else [part["name"]]
        if BESIDES.match(line) or (part and part["verdict"] in DONE) or line in self.notes:
            return None
        if line.startswith("note: "):
            # (advice is given with each goal, and once is enough)
            self.notes.add(line)
        return PLACE.sub(f"crates/{self.crate}/", line)

    def summary(self, status: int) -> str:
        """The last line."""
        took = clock(time.monotonic() - self.began)
        if not self.has_ended:
            return f"check: {self.crate}: the prover gave no verdict, after {took}"
        if self.open_ones:
            return f"check: {self.crate}: {len(self.open_ones)} open of {self.functions} functions, after {took}: {' '.join(self.open_ones)}"
        end = "nothing is open" if status == 0 else "no function is open, but what is said above is"
        return f"check: {self.crate}: {self.functions} functions, {end}, after {took}"


def check(wanted: Wanted) -> int:
    """Has the prover check what is wanted, prints what is open, and returns its status."""
    report = Report(wanted.crate)
    how = {"stdin": subprocess.DEVNULL, "stdout": subprocess.PIPE, "stderr": subprocess.STDOUT}
    with subprocess.Popen(wanted.words(), cwd=wanted.folder(), encoding="utf-8", errors="replace", **how) as run:  # type: ignore[call-overload]
        try:
            for line in run.stdout:
                shown = report.message(line.rstrip("\n"))
                if shown is not None:
                    print(shown, flush=True)
        except BaseException:
            run.kill()
            raise
    print(report.summary(run.returncode), flush=True)
    return int(run.returncode)
