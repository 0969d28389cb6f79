#!/usr/bin/env python3
"""Measures `gate convert` and `gate check` compared with iconv, and with a stream over encoding_rs, and prints the table of
docs/SPEED.md.

    bench/streams.py --indexes DIR [--gate GATE] [--peer STREAM] [--times N] [--size MB]

Each text is the ordinary one of crates/oracle in one encoding, repeated to the size. All programs convert the same file to UTF-8, and its text back,
to /dev/null, in turn. A figure is the MB of source that one processor converts in a second, with the start of the process. It is the
best of several runs. Below the table are the most memory of `gate` and its time for an empty stream. The last figure is the time
from the first bytes of a pipe to the first byte of output. Without --peer, encoding_rs is the program of bench/peer; it has no encoder for UTF-16."""
import argparse
import ast
import os
import pathlib
import re
import resource
import select
import shutil
import subprocess
import sys
import tempfile
import time
from typing import Dict, List, Sequence

HERE = pathlib.Path(__file__).resolve().parent
SOURCE = HERE.parent / "crates" / "oracle" / "src" / "texts.rt"
# iconv's names, if they differ from the Standard's.
ICONV = {"Shift_JIS": "CP932", "EUC-KR": "CP949", "Big5": "BIG5-HKSCS", "windows-1252": "CP1252"}
HEAD = ("", "to UTF-8", "iconv", "encoding_rs", "back", "iconv", "encoding_rs", "`check`")
# The least that the figures are held to: `gate` compared with each other program, and `check` with `convert`.
LEAST = {"iconv to UTF-8": 2.5, "iconv back": 1.8, "encoding_rs to UTF-8": 1.0, "encoding_rs back": 1.0, "check": 0.6}

Lines = Dict[str, List[str]]


def texts() -> Dict[str, bytes]:
    """The texts of crates/oracle: the English one, and the ordinary one of each encoding."""
    source = re.sub(r"\\\n\s*", "", SOURCE.read_text(encoding="ascii"))
    found = {"windows-1252": re.findall(r'const ENGLISH: &\[u8\] = b"(.*?[^\\])";', source, re.S)[0]}
    for name, text in re.findall(r'name: "([^"]*)".*?ordinary: b"(.*?[^\\])",\n', source, re.S):
        found[name] = text
    return {name: ast.literal_eval(f'b"{text}"') for name, text in found.items()}


def seconds(words: Sequence[str], source: pathlib.Path) -> float:
    """The processor time of a program over a file."""
    before = resource.getrusage(resource.RUSAGE_CHILDREN)
    with source.open("rb") as file:
        subprocess.run(words, stdin=file, stdout=subprocess.DEVNULL, check=True)
    after = resource.getrusage(resource.RUSAGE_CHILDREN)
    return after.ru_utime + after.ru_stime - before.ru_utime - before.ru_stime


def best(programs: Lines, source: pathlib.Path, times: int) -> Dict[str, float]:
    """MB a second of each program, all of which run in turn."""
    size = source.stat().st_size / 1e6
    runs = [{name: seconds(words, source) for name, words in programs.items()} for _ in range(times)]
    return {name: size / max(min(run[name] for run in runs), 1e-4) for name in programs}


def peak(words: Sequence[str], source: pathlib.Path) -> int:
    """The most KiB that a program has, by GNU time; 0 without that."""
    measure = shutil.which("time")
    if not measure:
        return 0
    with source.open("rb") as file:
        ran = subprocess.run([measure, "-f", "%M", *words], stdin=file, stdout=subprocess.DEVNULL, stderr=subprocess.PIPE, check=True)
    return int(ran.stderr.split()[-1])


def first_byte(words: Sequence[str]) -> float:
    """The seconds from the start of a program, and the first bytes in its pipe, to its first byte of output."""
    started = time.monotonic()
    with subprocess.Popen(words, stdin=subprocess.PIPE, stdout=subprocess.PIPE, bufsize=0) as program:
        assert program.stdin and program.stdout
        program.stdin.write(b"a" * 60)
        select.select([program.stdout], [], [])
        passed = time.monotonic() - started
        program.stdin.close()
        program.stdout.read()
    return passed


class Measure:
    """What is measured of each encoding, in a folder for the texts."""

    def __init__(self, words: argparse.Namespace, folder: pathlib.Path) -> None:
        self.words, self.folder = words, folder
        self.memory: List[int] = []
        self.short: List[str] = []

    def gate(self, command: str, *more: str) -> List[str]:
        return [self.words.gate, command, "--indexes", self.words.indexes, *more]

    def programs(self, names: Sequence[str], iconv: Sequence[str]) -> Lines:
        """The command lines from one encoding to another."""
        found = {
            "gate": self.gate("convert", "--from", names[0], "--to", names[1]),
            "iconv": ["iconv", "-f", iconv[0], "-t", iconv[1]],
        }
        if names[1] != "UTF-16LE" and os.access(self.words.peer, os.X_OK):
            found["encoding_rs"] = [self.words.peer, *names]
        return found

    def direction(self, name: str, way: str, programs: Lines, source: pathlib.Path) -> List[str]:
        """The cells of one direction."""
        rates = best(programs, source, self.words.times)
        self.memory.append(peak(programs["gate"], source))
        for other in "iconv", "encoding_rs":
            if other in rates:
                self.hold(f"{name} {other} {way}", rates["gate"] / rates[other], LEAST[f"{other} {way}"])
        if "check" in rates:
            self.memory.append(peak(programs["check"], source))
            self.hold(f"{name} check", rates["check"] / rates["gate"], LEAST["check"])
        return [f"{rates[it]:,.0f}" if it in rates else "" for it in ("gate", "iconv", "encoding_rs", "check")]

    def hold(self, what: str, times: float, least: float) -> None:
        """Notes a figure that is below its least."""
        if times < least:
            self.short.append(f"{what}: {times:.2f}, not {least}")

    def row(self, name: str, text: bytes) -> List[str]:
        """What one encoding takes, there and back."""
        there, back = self.folder / "source", self.folder / "text"
        there.write_bytes(text * (self.words.size * 1_000_000 // len(text) + 1))
        with there.open("rb") as file, back.open("wb") as out:
            subprocess.run(self.gate("convert", "--from", name, "--to", "UTF-8"), stdin=file, stdout=out, check=True)
        iconv = ICONV.get(name, name)
        programs = self.programs((name, "UTF-8"), (iconv, "UTF-8"))
        programs["check"] = self.gate("check", "--from", name)
        *first, check = self.direction(name, "to UTF-8", programs, there)
        second = self.direction(name, "back", self.programs(("UTF-8", name), ("UTF-8", iconv)), back)[:3]
        return [name if name != "windows-1252" else "windows-1252, ASCII alone", *first, *second, check]


def main() -> int:
    parser = argparse.ArgumentParser(description=__doc__, formatter_class=argparse.RawDescriptionHelpFormatter)
    parser.add_argument("--indexes", metavar="DIR", required=True)
    parser.add_argument("--gate", default=str(HERE.parent / "crates" / "gate" / "out" / "gate"))
    parser.add_argument("--peer", default=str(HERE / "peer" / "target" / "release" / "stream"), metavar="STREAM")
    parser.add_argument("--times", type=int, default=5)
    parser.add_argument("--size", type=int, default=33, help="MB of source")
    words = parser.parse_args()
    with tempfile.TemporaryDirectory() as name:
        measure, empty = Measure(words, pathlib.Path(name)), pathlib.Path(name) / "empty"
        empty.touch()
        print("|".join(["", *(f" {it} " for it in HEAD), ""]), "|---|" + "---:|" * (len(HEAD) - 1), sep="\n")
        for encoding, text in texts().items():
            print("|".join(["", *(f" {it} " for it in measure.row(encoding, text)), ""]), flush=True)
        starts = {it: measure.gate("convert", "--from", it, "--to", "UTF-8") for it in ("Shift_JIS", "gb18030", "UTF-16LE")}
        print(f"\nmemory at most {max(measure.memory)} KiB")
        for it, line in starts.items():
            print(f"{it}: start {1000 * min(seconds(line, empty) for _ in range(20)):.1f} ms, ", end="")
            print(f"first byte after {1000 * min(first_byte(line) for _ in range(20)):.1f} ms")
        print(f"iconv: start {1000 * min(seconds(['iconv', '-f', 'CP932', '-t', 'UTF-8'], empty) for _ in range(20)):.1f} ms")
    print("\n".join(measure.short) or "no figure is below its least")
    return 1 if measure.short else 0


if __name__ == "__main__":
    sys.exit(main())
