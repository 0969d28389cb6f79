"""Runs modules of tests side by side, each in a process of its own, and counts what came of them. A command that ends with its
count, as 'N passed, M failed', may be run among them."""
import concurrent.futures
import contextlib
import json
import os
import pathlib
import re
import resource
import signal
import subprocess
import sys
import tempfile
import threading
import time
import unittest
from typing import Any, Callable, Dict, List, NamedTuple, Set

TOP = pathlib.Path(__file__).resolve().parent.parent
# The seconds of those that take longest: they begin first, so that none is left over at the end.
DEAR = {
    **{f"tests/program/test_{name}": seconds for name, seconds in (
        ("growths", 70), ("op", 70), ("changes", 55), ("compaction", 40), ("traces", 30), ("records", 30), ("splices", 22), ("budget", 20))},
    **{f"tests/clients/test_{name}": seconds for name, seconds in (
        ("mount_runs", 50), ("unreadable", 40), ("mount_meanwhile", 25), ("mount", 20), ("work", 20), ("together", 15), ("rules", 13))},
    "tests/editors/run": 60, "tests/hostile": 25,
}
# The seconds that a module may take, and those that its process may take to end once its tests have: one that waits for a thread
# or a process that it left behind would wait for ever.
LIMIT, ENDING = 3600, 60
# Modules that measure time or memory, so that nothing runs beside them.
ALONE = {"tests/program/test_serve", "tests/program/test_memory"}


class Outcome(NamedTuple):
    """What came of a module: how long it took, by the clock and of the processors; how many tests it has, the names of those that
    failed, and a line for each that was skipped."""

    module: str
    seconds: float
    processor: float
    tests: int
    failed: List[str]
    skipped: List[str]
    said: str

    def line(self) -> str:
        end = f"{len(self.failed)} FAILED" if self.failed else "ok"
        left = f", {len(self.skipped)} skipped" if self.skipped else ""
        taken = f", {self.processor:.1f} of processors" if self.processor else ""
        return f"{self.module}: {self.tests} tests, {end}{left}, {self.seconds:.1f} s{taken}"


def modules(*folders: str) -> List[str]:
    """The modules of tests in these folders, which are named from the top of the repository. One without modules is a command."""
    found = [(folder, sorted((TOP / folder).glob("test_*.py"))) for folder in folders]
    return [name for folder, paths in found for name in [f"{folder}/{path.stem}" for path in paths] or [folder]]


def command(name: str) -> List[str]:
    """The words of what isn't a module of tests but a command: a file, or a folder of Python; none for a module."""
    path = TOP / name
    return [str(path)] if path.is_file() else [sys.executable, str(path)] if path.is_dir() else []


def rows_of(name: str, text: str, status: int) -> Dict[str, Any]:
    """What came of a command, by what it printed."""
    counts = re.findall(r"^(\d+) passed, (\d+) failed", text, re.MULTILINE)
    passed, failed = map(int, counts[-1]) if counts else (int(status == 0), int(status != 0))
    skipped = [f"{name}: {line}" for line in re.findall(r"^\d+ skipped, .*|.*: skipped, .*", text, re.MULTILINE)]
    names = re.findall(r"^FAILED +(.*)", text, re.MULTILINE)[:failed]
    bad = names + [f"{name} ended with {status}"] * (max(failed, int(status != 0)) - len(names))
    return {"tests": passed + len(bad) + len(skipped), "failed": bad, "skipped": skipped}


class Lanes:
    """Processes that run modules, as many at once as there are lanes. `tell` is called with each outcome as it comes."""

    def __init__(self, lanes: int, tell: Callable[[Outcome], None], **variables: str) -> None:
        self.lanes, self.tell, self.environment = lanes, tell, {**os.environ, **variables}
        self.running: Set["subprocess.Popen[bytes]"] = set()
        self.lock, self.is_ended = threading.Lock(), False

    def run_one(self, module: str) -> Outcome:
        """Runs one module."""
        began = time.monotonic()
        if self.is_ended:
            return Outcome(module, 0.0, 0.0, 1, [f"{module} wasn't run"], [], "")
        with tempfile.TemporaryDirectory(prefix="gate-tests-") as folder:
            found, said = pathlib.Path(folder, "found"), pathlib.Path(folder, "said")
            with open(said, "wb") as to:
                words = command(module) or [sys.executable, __file__, module, str(found), str(ENDING)]
                # (a session of its own, so that what it starts can be ended with it)
                nobody, errors = subprocess.DEVNULL, subprocess.STDOUT
                process = subprocess.Popen(words, env=self.environment, stdin=nobody, stdout=to, stderr=errors, start_new_session=True)
            self.wait_for(process)
            with contextlib.suppress(ProcessLookupError):
                # (what it left behind)
                os.killpg(process.pid, signal.SIGKILL)
            text = said.read_text(encoding="utf-8", errors="replace")
            try:
                rows = rows_of(module, text, process.returncode) if command(module) else json.loads(found.read_text(encoding="utf-8"))
            except (OSError, ValueError):
                rows = {"tests": 0, "failed": [], "skipped": []}
            if process.returncode and not command(module):
                rows["tests"] += 1
                rows["failed"].append(f"{module} ended with {process.returncode}")
        taken = time.monotonic() - began, rows.get("processor", 0.0)
        outcome = Outcome(module, *taken, rows["tests"], rows["failed"], rows["skipped"], text)
        with self.lock:
            self.tell(outcome)
        return outcome

    def wait_for(self, process: "subprocess.Popen[bytes]") -> None:
        """Waits until a process has ended, and ends it if it takes too long."""
        with self.lock:
            self.running.add(process)
        try:
            process.wait(LIMIT)
        except subprocess.TimeoutExpired:
            os.killpg(process.pid, signal.SIGKILL)
            process.wait()
        finally:
            with self.lock:
                self.running.discard(process)

    def run(self, names: List[str]) -> List[Outcome]:
        """Runs these modules, and those that nothing may run beside after all others."""
        order = sorted(names, key=lambda it: -DEAR.get(it, 0))
        with concurrent.futures.ThreadPoolExecutor(self.lanes) as pool:
            try:
                outcomes = list(pool.map(self.run_one, [it for it in order if it not in ALONE]))
            except BaseException:
                # (the pool waits for what runs)
                self.end()
                raise
        outcomes += map(self.run_one, [it for it in order if it in ALONE])
        return outcomes

    def end(self) -> None:
        """Ends what is running, with all that it started, and has no more run."""
        with self.lock:
            self.is_ended = True
            for process in self.running:
                os.killpg(process.pid, signal.SIGKILL)


def tell(outcome: Outcome) -> None:
    """Prints what came of a module, and all that it printed if a test failed."""
    print(f"{outcome.said}{outcome.line()}" if outcome.failed else outcome.line(), flush=True)


def count_of(outcomes: List[Outcome]) -> str:
    """The line that a run ends with."""
    failed = sum(len(it.failed) for it in outcomes)
    passed = sum(it.tests - len(it.skipped) for it in outcomes) - failed
    return f"{passed} passed, {failed} failed"


def run_here(module: str, found: str, ending: str) -> None:
    """Runs a module in this process, and writes what came of it to a file. Then this process has so many seconds to end."""
    path = TOP / f"{module}.py"
    sys.path.insert(0, str(path.parent))
    result = unittest.TextTestRunner().run(unittest.defaultTestLoader.loadTestsFromName(path.stem))
    bad = [*result.failures, *result.errors, *((it, "") for it in result.unexpectedSuccesses)]
    used = [resource.getrusage(it) for it in (resource.RUSAGE_SELF, resource.RUSAGE_CHILDREN)]
    rows = {
        "tests": result.testsRun,
        # (a test whose parts are tried one by one is one test)
        "failed": sorted({getattr(it, "test_case", it).id() for it, _ in bad}),
        "skipped": [f"{module.rpartition('/')[0]}/{test.id()}: {reason}" for test, reason in result.skipped],
        "processor": round(sum(it.ru_utime + it.ru_stime for it in used), 1),
    }
    pathlib.Path(found).write_text(json.dumps(rows), encoding="utf-8")
    signal.signal(signal.SIGALRM, signal.SIG_DFL)
    signal.alarm(int(ending))


if __name__ == "__main__":
    signal.signal(signal.SIGTERM, lambda number, _: sys.exit(128 + number))
    run_here(*sys.argv[1:])
