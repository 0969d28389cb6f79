#!/usr/bin/env python3
"""Looks whether `legacy` finds in a tree of tree.py what was put there, and loses no byte of it.

    bench/archives/verify.py [--only NAME ..] [--gate GATE] [--indexes DIR] [--labels FILE] TOP

TOP is tree.py's, made by the user who runs this. A line is printed for each thing that is looked at, and the status is 1
where one of them isn't so. The tree is as it was afterwards; what runs write beside it is gone. Dask is left out where
Debian's python3-distributed isn't installed. `gate` and its files are found as `legacy` finds them."""
import argparse
import hashlib
import itertools
import json
import os
import pathlib
import random
import subprocess
import sys
import tempfile
import time
from typing import Any, Callable, Dict, Iterator, List, NamedTuple, Optional, Tuple

sys.path.insert(0, str(pathlib.Path(__file__).resolve().parent))
import runs  # noqa: E402
import tree  # noqa: E402

CLIENTS = pathlib.Path(__file__).resolve().parent.parent.parent / "clients"
ENVIRONMENT = {**os.environ, "PYTHONPATH": str(CLIENTS)}
# The faults of one kind that are printed, at most.
MOST = 10
# How often a run is killed before it is let end.
KILLS = 3
# The words that are `legacy`'s own.
PASSED_ON = ("gate", "indexes", "labels")


class Seen(NamedTuple):
    """What was counted, in words, and what isn't as it should be."""

    counted: str
    faults: List[str]


class Tree:
    """A tree of tree.py, and runs of `legacy` over it."""

    def __init__(self, top: pathlib.Path, found: List[str], work: pathlib.Path):
        self.top, self.path, self.work, self._found = top, top / "tree", work, found
        self.made: List[Dict[str, Any]] = [json.loads(it) for it in (top / "made.jsonl").read_text().splitlines()]
        self.rules = (top / "words").read_text().split()
        # What `check` of one process says, and how long it took.
        since = time.monotonic()
        self.rows = self.ran("check", "--json", "--jobs", "1", *self.rules, str(self.path))
        self.seconds = time.monotonic() - since

    def command(self, subcommand: str, *words: str, python: str = sys.executable) -> List[str]:
        """A command line of `legacy`."""
        return [python, "-m", "legacy", subcommand, *self._found, *words]

    def ran(self, subcommand: str, *words: str) -> List[str]:
        """What a run of `legacy` printed, a line each; what it said beside is passed on where it could do nothing."""
        ran = subprocess.run(self.command(subcommand, *words), env=ENVIRONMENT, stdout=subprocess.PIPE, stderr=subprocess.PIPE)
        if not ran.stdout:
            sys.stderr.write(ran.stderr.decode(errors="replace"))
        return ran.stdout.decode().splitlines()

    def read(self, it: Dict[str, Any]) -> bytes:
        """The bytes of a file that was made."""
        return (self.path / it["path"]).read_bytes()

    def sums(self) -> Dict[str, str]:
        """The SHA-256 of each file that can be read."""
        return {it["path"]: hashlib.sha256(self.read(it)).hexdigest() for it in self.made if not it.get("why")}

    def differences(self, rows: List[str]) -> Iterator[str]:
        """Where other rows differ from those of one process."""
        for one, other in itertools.zip_longest(self.rows, rows):
            if one != other:
                yield f"{other} instead of {one}"


def check_tree(it: Tree) -> Seen:
    """Each file's damaged places with their bytes, line ends and mark, and the reason where it can't be looked at."""
    faults = []
    for line, made in itertools.zip_longest(it.rows, it.made):
        row = json.loads(line or "{}")
        is_same = bool(row and made) and os.path.relpath(row["path"], it.path) == made["path"] and (
            _is_refused(row, made) if made.get("why") else _row_found(row) == _row_expected(it, made))
        faults += [] if is_same else [f"{line} instead of {made}"]
    places = [len(made.get("errors", [])) for made in it.made]
    closed = sum(made.get("why") == tree.DENIED for made in it.made)
    return Seen(
        f"{len(it.rows)} rows, {sum(places)} damaged places in {sum(map(bool, places))} files, "
        f"{sum(bool(made.get('why')) for made in it.made)} that can't be looked at, of which {closed} may not be", faults)


def _is_refused(row: Dict[str, Any], made: Dict[str, Any]) -> bool:
    return made["why"] in row["reason"] and row["outcome"] == ("passed" if "symlink" in made["why"] else "refused")


def _row_found(row: Dict[str, Any]) -> Tuple[Any, ...]:
    places = [(place["begin"], place["end"], place["bytes"]) for place in row["places"]]
    return places, row["errors"], row["ends"], row["bom"], "line-ends" in row["damage"]


def _row_expected(it: Tree, made: Dict[str, Any]) -> Tuple[Any, ...]:
    content = it.read(made) if made.get("errors") else b""
    places = [(begin, end, content[begin:end].hex(" ")) for begin, end in made.get("errors", [])]
    return places, len(places), made["ends"], made["mark"], sum(count > 0 for count in made["ends"].values()) > 1


def of_processes(it: Tree) -> Seen:
    """The rows of four processes."""
    return Seen("", list(it.differences(it.ran("check", "--json", "--jobs", "4", *it.rules, str(it.path)))))


def of_killed(it: Tree) -> Seen:
    """The rows of a run that was killed at random moments, and resumed."""
    draw = random.Random()
    words = ["--json", "--jobs", "2", "--resume", str(it.work / "state"), *it.rules, str(it.path)]
    quiet = {"env": ENVIRONMENT, "stdout": subprocess.DEVNULL, "stderr": subprocess.DEVNULL}
    moments = [draw.uniform(0.1, 0.9) * it.seconds / KILLS for _ in range(KILLS)]
    kills = sum(runs.run_and_kill(it.command("check", *words), seconds, **quiet) for seconds in moments)
    return Seen(f"killed {kills} times", list(it.differences(it.ran("check", *words))))


def of_cluster(it: Tree) -> Optional[Seen]:
    """The rows of three Dask workers, of which one is killed in the middle."""
    python = runs.python_with("distributed")
    if not python:
        return None
    with runs.cluster(python, it.work, env=ENVIRONMENT) as (address, workers):
        words = it.command("check", "--json", "--dask", address, *it.rules, str(it.path), python=python)
        with subprocess.Popen(words, env=ENVIRONMENT, stdout=subprocess.PIPE, stderr=subprocess.DEVNULL) as run:
            assert run.stdout
            rows = [line.decode().rstrip("\n") for line in itertools.islice(run.stdout, len(it.rows) // 3)]
            went_on = run.poll() is None
            workers[1].kill()
            rows += [line.decode().rstrip("\n") for line in run.stdout]
    return Seen("a worker was killed" if went_on else "it had ended before", list(it.differences(rows)))


def there_and_back(it: Tree) -> Seen:
    """Each clean file in UTF-8, and by that in its own encoding again; no damaged one in any."""
    there, back = it.work / "there", it.work / "back"
    it.ran("convert", "--json", "--to", "utf-8", "--keep-mark", *it.rules, str(it.path), str(there))
    for label in sorted({made["label"] for made in it.made if made.get("utf8")}):
        it.ran("convert", "--json", "--to", label, "--keep-mark", "-e", f"*.{label}=utf-8", str(there), str(back))
    faults, clean = [], 0
    for made in it.made:
        if made.get("errors") and (there / made["path"]).exists():
            faults.append(f"{made['path']} is damaged, and was converted")
        if made.get("utf8"):
            clean += 1
            mark = b"\xef\xbb\xbf" if made["mark"] else b""
            new, again = (_content(folder / made["path"]) for folder in (there, back))
            if not new.startswith(mark) or hashlib.sha256(new[len(mark) :]).hexdigest() != made["utf8"]:
                faults.append(f"{made['path']} has another text in UTF-8")
            faults += [] if again == it.read(made) else [f"{made['path']} comes back with other bytes"]
    return Seen(f"{clean} files", faults)


def _content(path: pathlib.Path) -> bytes:
    return path.read_bytes() if path.exists() else b""


def mend_tree(it: Tree) -> Seen:
    """All bytes of the tree, once what a plan mends is taken back; line ends in the first folder alone, which has many."""
    bad = {raw[begin:end].hex() for encoding in tree.ENCODINGS for raw, places in encoding.damage for begin, end in places}
    damage = [word for old in sorted(bad | {"fe"}) for word in ("--damage", f"{old}=3f")]
    before, changed, faults = it.sums(), 0, []
    for number, words in enumerate([[*damage, str(it.path)], ["--line-ends", "lf", str(it.path / "000")]]):
        plan = str(it.work / f"{number}.plan")
        it.ran("mend", "--json", "--plan", plan, *it.rules, *words)
        for row in map(json.loads, it.ran("mend", "--json", "--apply", plan)):
            may = os.access(os.path.dirname(row["path"]), os.W_OK)
            if (row["outcome"], row["reason"]) != (("done", "") if may else ("refused", tree.DENIED)):
                faults.append(f"--apply: {row['path']}: {row['outcome']} {row['reason']}")
        changed += sum(sum_ != before[path] for path, sum_ in it.sums().items())
        it.ran("mend", "--json", "--undo", plan)
        faults += [f"{path} has other bytes behind --undo" for path, sum_ in it.sums().items() if sum_ != before[path]]
    return Seen(f"{changed} files changed", faults if changed else ["nothing was mended"])


LOOKS: List[Tuple[str, Callable[[Tree], Optional[Seen]]]] = [
    ("check finds what was put there, and nothing else", check_tree), ("four processes: the same rows", of_processes),
    ("killed and resumed: the same rows", of_killed), ("Dask, a worker killed: the same rows", of_cluster),
    ("convert, there and back: the same bytes", there_and_back), ("mend and undo: the same bytes", mend_tree)]


def main() -> int:
    """Looks at all, and returns the status."""
    parser = argparse.ArgumentParser(description="Look whether legacy finds in a tree what tree.py put there, and loses no byte of it.")
    parser.add_argument("top", metavar="TOP", type=pathlib.Path)
    parser.add_argument("--only", metavar="NAME", nargs="+", default=[], help="what is looked at, by words of its line")
    for word in PASSED_ON:
        parser.add_argument(f"--{word}")
    words = parser.parse_args()
    found = [f"--{name}={value}" for name, value in vars(words).items() if name in PASSED_ON and value]
    failed = False
    with tempfile.TemporaryDirectory(dir=words.top) as work:
        it = Tree(words.top.resolve(), found, pathlib.Path(work).resolve())
        for about, look in LOOKS:
            if words.only and not any(word in about for word in words.only):
                continue
            since = time.monotonic()
            seen = look(it)
            state = "left out, without python3-distributed" if not seen else f"{len(seen.faults)} faults" if seen.faults else "so"
            counted = f" ({seen.counted})" if seen and seen.counted else ""
            print(f"{about}: {state}{counted}, {time.monotonic() - since:.0f} s", flush=True)
            for fault in seen.faults[:MOST] if seen else ():
                print(f"    {fault}"[:2000])
            failed = failed or bool(seen and seen.faults)
    return 1 if failed else 0


if __name__ == "__main__":
    sys.exit(main())
