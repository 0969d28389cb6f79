#!/usr/bin/env python3
"""Measures edits over pipes without a record, with one, and with one that is on the disk before each reply. Prints a table.

    bench/record.py --indexes DIR --labels FILE [--gate GATE] [--folder FOLDER] [--times N]

A letter is put behind a line end of a document of 64 KiB, or taken out again, by a `splice` or a `change`, each waited for
before the next. FOLDER is where the record is, and so which disk it is on. Of each run the figure is the median of its
edits, of several runs in turn the best."""
import argparse
import os
import pathlib
import subprocess
import tempfile
from typing import Callable, Iterator, List, NamedTuple, Tuple

from live import HERE, SIZE, command, microseconds, opening, run_over_pipes
from sessions import document, line_starts

# How many edits there are, and how many where each waits for the disk.
EDITS, SYNCED = 20_000, 1_000


def splices(count: int) -> Iterator[bytes]:
    """A letter that is put in and taken out again."""
    places = line_starts("utf-8", document("utf-8", SIZE))
    for number in range(count // 2):
        at = places[number * 7 % len(places)]
        yield command("splice", rev=2 * number, at=at, bytes="YQ==", **{"del": 0})
        yield command("splice", rev=2 * number + 1, at=at, bytes="", **{"del": 1})


def changes(count: int) -> Iterator[bytes]:
    """The same as changes of the text."""
    lines = len(line_starts("utf-8", document("utf-8", SIZE)))
    for number in range(count // 2):
        start, end = ({"line": number * 7 % lines, "character": it} for it in (0, 1))
        yield command("change", rev=2 * number, range={"start": start, "end": start}, text="a")
        yield command("change", rev=2 * number + 1, range={"start": start, "end": end}, text="")


class Way(NamedTuple):
    """A way to keep a record, by the program's words in front of its file, and how many edits are made."""

    name: str
    words: Tuple[str, ...]
    edits: int


WAYS = [Way("without", (), EDITS), Way("--record", ("--record",), EDITS), Way("--record --sync", ("--sync", "--record"), SYNCED)]
KINDS: List[Tuple[str, Callable[[int], Iterator[bytes]]]] = [("splice", splices), ("change", changes)]


def measure_way(gate: List[str], folder: str, way: Way, lines: Callable[[int], Iterator[bytes]]) -> Tuple[float, int]:
    """Microseconds of an edit, by the median, and the bytes of the record for each."""
    with tempfile.TemporaryDirectory(dir=folder) as kept:
        record = os.path.join(kept, "record")
        with run_over_pipes([*gate, *way.words, *([record] if way.words else [])]) as connect, connect() as talk:
            talk.ask(opening(SIZE))
            before = os.path.getsize(record) if way.words else 0
            took = microseconds(talk, list(lines(way.edits)))
            assert b'"rev":%d,' % way.edits in talk.ask(command("stat")), "an edit was refused"
            size = os.path.getsize(record) - before if way.words else 0
        return took[len(took) // 2], size // way.edits


def main() -> None:
    words = argparse.ArgumentParser(description=__doc__.split("\n")[0])
    words.add_argument("--gate", default=str(HERE.parent / "crates" / "gate" / "out" / "gate"))
    words.add_argument("--indexes", required=True)
    words.add_argument("--labels", required=True)
    words.add_argument("--folder", default=".", help="where the record is (%(default)s)")
    words.add_argument("--times", type=int, default=5, help="runs of each measure (%(default)s)")
    chosen = words.parse_args()
    gate = [chosen.gate, "stdio", "--indexes", chosen.indexes, "--labels", chosen.labels]
    disk = subprocess.run(["df", "--output=fstype", chosen.folder], stdout=subprocess.PIPE, check=True).stdout.decode().split()[-1]
    print(f"Microseconds; the record is on {disk}, in {pathlib.Path(chosen.folder).resolve()}\n")
    print("| |", " | ".join(f"`{it.name}`" if it.words else it.name for it in WAYS), "| times | bytes recorded |")
    print("| --- |" + " ---: |" * (len(WAYS) + 2))
    for name, lines in KINDS:
        found: List[List[Tuple[float, int]]] = [[] for _ in WAYS]
        for _ in range(chosen.times):
            for figures, way in zip(found, WAYS):
                figures.append(measure_way(gate, chosen.folder, way, lines))
        best = [min(it)[0] for it in found]
        print(f"| `{name}` in 64 KiB |", " | ".join(f"{it:.1f}" for it in best), f"| {best[1] / best[0]:.2f} | {found[1][0][1]} |", flush=True)


if __name__ == "__main__":
    main()
