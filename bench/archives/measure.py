#!/usr/bin/env python3
"""Measures `legacy` beside what else reads files in legacy encodings, over a tree of tree.py, and prints a table.

    bench/archives/measure.py [--folders N] [--least BYTES] [--rounds N] [--only NAME ..] TOP

makes the tree, of 20,000 files, where TOP has none, and takes all of its folders, or the first N (of 250 files each), and of
these all files, or those of BYTES at least. `gate` and the index files are those that the command `legacy` finds.
Others are Debian's: iconv (glibc), file, uchardet, ripgrep; one that isn't installed is left out. All files are read once
before, so that the system has them in memory.

A row has the files and megabytes a second of wall time, and the megabytes a second of processor time, of all processes; of
several rounds, of the fastest."""
import argparse
import os
import pathlib
import resource
import shlex
import shutil
import subprocess
import sys
import tempfile
import time
from typing import Iterator, List, Optional, Tuple

sys.path.insert(0, str(pathlib.Path(__file__).resolve().parent))
import tree  # noqa: E402

CLIENTS = pathlib.Path(__file__).resolve().parent.parent.parent / "clients"
# What stands in damaged files alone, so that a search is measured and not what it prints.
RARE = "damaged here"
# iconv's name of an encoding, where it isn't the label.
ICONV = {"shift_jis": "cp932", "windows-1253": "cp1253", "windows-1252": "cp1252"}


def commands(folders: List[str], words: List[str], out: str) -> Iterator[Tuple[str, str]]:
    """The name and the command line of each measure, for a shell."""
    where = " ".join(map(shlex.quote, folders))
    legacy = f"{shlex.quote(sys.executable)} -m legacy"
    rules = " ".join(map(shlex.quote, words)) + " --no-attributes"
    yield "legacy check --jobs 1", f"{legacy} check --jobs 1 {rules} {where}"
    yield "legacy check --jobs 4", f"{legacy} check --jobs 4 {rules} {where}"
    yield "legacy search --jobs 1", f"{legacy} search '{RARE}' --jobs 1 {rules} {where}"
    yield "legacy convert --jobs 1", f"{legacy} convert --to utf-8 --jobs 1 {rules} {where} {shlex.quote(out)}"
    loops, searches = [], []
    for it in tree.ENCODINGS:
        name = ICONV.get(it.label, it.label)
        loops.append(f"find {where} -name '*.{it.label}' | while read -r it; do iconv -f {name} -t utf-8 \"$it\"; done")
        searches.append(f"rg -j 1 --encoding {it.label} -g '*.{it.label}' '{RARE}' {where}")
    yield "iconv in a shell loop", "; ".join(loops)
    yield "file --mime-encoding", f"find {where} -type f -print0 | xargs -0 file --mime-encoding"
    yield "uchardet", f"find {where} -type f -print0 | xargs -0 uchardet"
    yield "rg -j 1 --encoding", "; ".join(searches)


def program(name: str) -> str:
    """The program that a measure needs."""
    return {"legacy": sys.executable}.get(name.split()[0], name.split()[0])


def measure_line(line: str, beside: str) -> Tuple[float, float]:
    """The wall time and the processor time of a command line; what an earlier one wrote is removed first."""
    shutil.rmtree(os.path.join(beside, "out"), ignore_errors=True)
    before, since = resource.getrusage(resource.RUSAGE_CHILDREN), time.monotonic()
    quiet = {"stdout": subprocess.DEVNULL, "stderr": subprocess.DEVNULL}
    ran = subprocess.run(["sh", "-c", line], env={**os.environ, "PYTHONPATH": str(CLIENTS)}, **quiet)
    if "-m legacy" in line and ran.returncode > 1:
        raise SystemExit(f"status {ran.returncode}: {line[:200]}")
    after = resource.getrusage(resource.RUSAGE_CHILDREN)
    return time.monotonic() - since, after.ru_utime + after.ru_stime - before.ru_utime - before.ru_stime


def choose_folders(top: pathlib.Path, count: Optional[int], least: int, beside: pathlib.Path) -> List[pathlib.Path]:
    """The folders of the tree that are measured; where not all files are, folders of links to those that are."""
    folders = sorted(it for it in (top / "tree").iterdir() if it.name.isdecimal())[:count]
    if not least:
        return folders
    for folder in folders:
        (beside / folder.name).mkdir()
        for it in folder.iterdir():
            if it.stat().st_size >= least:
                os.link(it, beside / folder.name / it.name)
    return [beside / it.name for it in folders]


def read_all(folders: List[pathlib.Path]) -> Tuple[int, float]:
    """Reads all files, and returns how many there are, and their megabytes."""
    sizes = [len(it.read_bytes()) for folder in folders for it in folder.iterdir()]
    return len(sizes), sum(sizes) / 1e6


def main() -> int:
    """Prints the table."""
    parser = argparse.ArgumentParser(description="Measure legacy beside other programs over a tree of files.")
    parser.add_argument("top", metavar="TOP", type=pathlib.Path)
    parser.add_argument("--folders", metavar="N", type=int)
    parser.add_argument("--least", metavar="BYTES", type=int, default=0)
    parser.add_argument("--rounds", metavar="N", type=int, default=1)
    parser.add_argument("--only", metavar="NAME", nargs="+", default=[])
    words = parser.parse_args()
    if not (words.top / "made.jsonl").exists():
        tree.make(words.top, 20_000)
    rules = (words.top / "words").read_text().split()
    with tempfile.TemporaryDirectory(dir=words.top) as beside:
        folders = choose_folders(words.top, words.folders, words.least, pathlib.Path(beside))
        count, megabytes = read_all(folders)
        print(f"{count} files, {megabytes:.0f} MB\n\n| | files a second | MB a second | MB a second of a processor |\n| --- | ---: | ---: | ---: |")
        for name, line in commands([str(it) for it in folders], rules, os.path.join(beside, "out")):
            if shutil.which(program(name)) and (not words.only or any(it in name for it in words.only)):
                wall, used = min(measure_line(line, beside) for _ in range(words.rounds))
                print(f"| `{name}` | {count / wall:.0f} | {megabytes / wall:.0f} | {megabytes / used:.0f} |", flush=True)
    return 0


if __name__ == "__main__":
    sys.exit(main())
