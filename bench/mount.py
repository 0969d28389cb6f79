#!/usr/bin/env python3
"""Measures `legacy mount` and prints a table: what each row took, of several rounds the fastest, the middle and the slowest
one, and what it is to take at most; and, in the middle, the processor time of the process that answers the kernel, of those
that decode and save beside it, each with a `gate`, and of the program.

    bench/mount.py [--rounds N] [--files N] [--entries N] [--only WORD ..] [--keep FOLDER]

`gate` and the index files are those that the command `legacy` finds; ripgrep and sed are Debian's. Each round has a mount of
its own. What programs save is compared with the bytes that are to be there. A row that has something to do with one of the
words is measured, or each one. Files are made in a folder for temporary ones, or in one that is kept and taken again."""
import argparse
import contextlib
import os
import pathlib
import random
import shutil
import statistics
import subprocess
import sys
import tempfile
import time
from typing import Callable, Dict, Iterator, List, NamedTuple, Sequence, Tuple

TOP = pathlib.Path(__file__).resolve().parent.parent
CLIENTS = TOP / "clients"
sys.path[:0] = [str(CLIENTS), str(TOP / "tests" / "clients")]
from legacy import finding  # noqa: E402
from mounts import WHY, Mount  # noqa: E402

RULE = ["-e", "*.txt=shift_jis", "--no-attributes"]
TICK = os.sysconf("SC_CLK_TCK")
LARGEST = 1 << 24
# Words of lines, those with bytes that no encoder gives, and damage.
WORDS = [it.encode("cp932") for it in "計画 資料 図書館 これは 東京都 お知らせ について ください ﾃｽﾄ 第１章".split()] + [
    b"note", b"see page 12", b"(1998)", b"item"]
DUPLICATES, DAMAGE = [b"\x87\x90", b"\xed\x40"], [b"\xff!", b"\x82!", b"\xa0!"]
RARE = "図書館"


class Row(NamedTuple):
    """What is measured, and what it is to be at most."""

    name: str
    most: float
    unit: str = "s"


SEARCHES = Row("rg over {files} files, first", 5.5), Row("the same again", 1.5)
# (of all processes: the mount's and the program's)
LISTS = Row("ls -l of a folder of {entries} files, first, in processor time", 10), Row("ls -l of it again, in processor time", 10)
SED = {2: Row("sed -i of a line in 2 MiB", 0.25), 16: Row("sed -i of a line in 16 MiB", 1.5)}
BACK = {2: Row("taken back, 2 MiB", 0.25), 16: Row("taken back, 16 MiB", 1.5)}
COLD = {2: Row("sed -i of a line in 2 MiB, not read before", 0.25), 16: Row("sed -i of a line in 16 MiB, not read before", 1.5)}
WORD = Row("sed -i of a word in each line of 16 MiB", 10)
BESIDE = "{call} of {where} beside a save of 16 MiB, the longest"
READY = "{call} of {where} beside a save of 16 MiB, the longest but for waiting for a processor"
PLAIN = "{call} of {where} beside ten such saves without a mount, the longest"
PLACES = {"the same folder": ".", "another one": "other"}
CALLS: Dict[str, Callable[[pathlib.Path], object]] = {
    "ls": lambda path: os.listdir(path.parent), "stat": lambda path: path.stat(), "cat": lambda path: path.read_bytes()}
LATEST, OWN, WITHOUT = ({(call, where): Row(words.format(call=call, where=where), 50, "ms") for where in PLACES for call in CALLS}
                        for words in (BESIDE, READY, PLAIN))
# What the mount does with a file below, again and again.
SAVES = """
import os, sys
from legacy.mount.below import Place
from legacy.mount.storing import Store
folder, name = os.path.split(os.fsencode(sys.argv[1]))
place = Place(os.open(folder, os.O_PATH | os.O_DIRECTORY), name)
with open(sys.argv[1], "rb") as file:
    content = file.read()
for _ in range(10):
    Store(lambda: None, None, True).put(place, content)
"""
MEMORY = Row("memory of a process at most, in that save", 400, "MiB")


class Spent(NamedTuple):
    """Seconds of processor time, of the process that answers the kernel and of those below it."""

    answers: float = 0.0
    saves: float = 0.0

    def since(self, before: "Spent") -> "Spent":
        """What was spent since then."""
        return Spent(self.answers - before.answers, self.saves - before.saves)


class Sample(NamedTuple):
    """What a row took once, and the processor time of the mount and of the program."""

    value: float
    mount: Spent = Spent()
    program: float = 0.0


class Table:
    """What was measured."""

    def __init__(self) -> None:
        self._of: Dict[Row, List[Sample]] = {}

    def add(self, row: Row, sample: Sample) -> None:
        """Adds a sample, and shows it."""
        self._of.setdefault(row, []).append(sample)
        times = " + ".join(f"{it:.2f}" for it in (*sample.mount, sample.program))
        print(f"  {row.name}: {sample.value:.3f} {row.unit}, processor {times}", file=sys.stderr)

    def lines(self) -> Iterator[str]:
        """The table."""
        yield "| | asked | best | middle | worst | answers | decodes and saves | program |"
        yield "|---|---:|---:|---:|---:|---:|---:|---:|"
        for row, samples in self._of.items():
            values = [it.value for it in samples]
            digits = 2 if row.unit == "s" else 0
            shown = [f"{it:.{digits}f} {row.unit}" for it in (min(values), statistics.median(values), max(values))]
            times = [f"{statistics.median(it):.2f}" for it in zip(*((*it.mount, it.program) for it in samples))]
            yield f"| {row.name} | {row.most:g} {row.unit} | {' | '.join([*shown, *times])} |"


def made_lines(draw: random.Random) -> List[bytes]:
    """Some lines of Shift_JIS, of 60 bytes or so, each with the word that is replaced; in one of ten are bytes that no encoder
    gives, in one of a hundred is damage."""
    found = []
    for number in range(500):
        parts = [draw.choice(WORDS) for _ in range(draw.randrange(4, 9))]
        parts += [draw.choice(DUPLICATES)] * (number % 10 == 3) + [draw.choice(DAMAGE)] * (number % 100 == 4)
        found.append(b" ".join([WORDS[0], *parts]))
    return found


def content(draw: random.Random, lines: Sequence[bytes], size: int, feed: bytes) -> bytes:
    """A text of some size; each line has a number, so that no two are equal."""
    parts: List[bytes] = []
    length = 0
    while length < size:
        parts.append(b"%07d %b%b" % (len(parts), draw.choice(lines), feed))
        length += len(parts[-1])
    return b"".join(parts)[:size].rpartition(feed)[0] + feed


def tree(folder: pathlib.Path, files: int, together: int = 100) -> None:
    """`files` small files, so many together in a folder; some are ASCII, some end in no line feed."""
    draw = random.Random(59)
    lines = made_lines(draw)
    for number in range(files):
        path = folder / f"{number // together:03}" / f"{number:05}.txt"
        path.parent.mkdir(parents=True, exist_ok=True)
        text = content(draw, lines, draw.randrange(600, 4000), b"\r\n" if number % 3 else b"\n")
        if number % 20 == 7:
            text = b"ASCII alone, of which gate isn't asked\n" * (len(text) // 40)
        path.write_bytes(text.rstrip(b"\r\n") if number % 20 == 3 else text)


@contextlib.contextmanager
def mount_folder(source: pathlib.Path, *words: str) -> Iterator[Mount]:
    """A mount of a folder over the Standard's index files."""
    found = finding.find()
    labels = ["--labels", str(found.labels)] if found.labels else []
    mount = Mount(*RULE, *words, "--indexes", str(found.indexes), *labels, source=source, program=found.gate)
    try:
        # (the process that saves has begun)
        time.sleep(1.0)
        yield mount
    finally:
        mount.end()
        shutil.rmtree(mount.kept)


def processes(top: int) -> List[int]:
    """A process and those below it."""
    parents: Dict[int, List[int]] = {}
    for it in filter(str.isdecimal, os.listdir("/proc")):
        with contextlib.suppress(OSError):
            fields = pathlib.Path("/proc", it, "stat").read_text().rpartition(")")[2].split()
            parents.setdefault(int(fields[1]), []).append(int(it))
    found = [top]
    for it in found:
        found += parents.get(it, [])
    return found


def processor(top: int) -> Spent:
    """The processor time that a process has had and those below it, ended ones too."""
    ticks = []
    for it in processes(top):
        with contextlib.suppress(OSError):
            user, system, *ended = map(int, pathlib.Path(f"/proc/{it}/stat").read_text().rpartition(")")[2].split()[11:15])
            ticks.append((user + system, sum(ended)))
    own, *others = ticks
    return Spent(own[0] / TICK, (own[1] + sum(map(sum, others))) / TICK)


def peaks(top: int) -> Dict[int, Tuple[str, float]]:
    """The most memory that each process has held, in MiB."""
    found = {}
    for it in processes(top):
        with contextlib.suppress(OSError, StopIteration):
            lines = pathlib.Path(f"/proc/{it}/status").read_text().splitlines()
            words = pathlib.Path(f"/proc/{it}/cmdline").read_bytes().split(b"\0")
            name = "saves" if b"legacy.mount.worker" in words else "answers" if b"mount" in words else "gate"
            found[it] = name, next(int(line.split()[1]) / 1024 for line in lines if line.startswith("VmHWM:"))
    return found


def time_program(mount: Mount, words: Sequence[object]) -> Sample:
    """What a program takes in a mount."""
    before, began = processor(mount.process.pid), time.monotonic()
    with subprocess.Popen(list(map(str, words)), stdout=subprocess.DEVNULL) as program:
        _, status, used = os.wait4(program.pid, 0)
        program.returncode = os.waitstatus_to_exitcode(status)
    took = time.monotonic() - began
    if program.returncode:
        raise SystemExit(f"status {program.returncode}: {' '.join(map(str, words))}\n{mount.log()}")
    # (what the kernel tells the mount behind the program's end is the program's too)
    time.sleep(0.3)
    return Sample(took, processor(mount.process.pid).since(before), used.ru_utime + used.ru_stime)


def measure_search(table: Table, source: pathlib.Path, files: int) -> None:
    """The rows of a search over many files."""
    with mount_folder(source) as mount:
        for row in SEARCHES:
            table.add(row._replace(name=row.name.format(files=f"{files:,}")), time_program(mount, ["rg", "-c", RARE, mount.point]))


def measure_list(table: Table, source: pathlib.Path, entries: int) -> None:
    """The rows of a long list of a large folder."""
    with mount_folder(source) as mount:
        folder = mount.point / "000"
        for row in LISTS:
            sample = time_program(mount, ["ls", "-l", folder])
            row = row._replace(name=row.name.format(entries=f"{entries:,}"))
            table.add(row, sample._replace(value=sum(sample.mount) + sample.program))
        for path in sorted(folder.iterdir())[::997]:
            if path.stat().st_size != len(path.read_bytes()):
                raise SystemExit(f"{path} isn't as long as its text")


def same(path: pathlib.Path, wanted: bytes, what: str) -> None:
    """Ends where a file doesn't have the bytes that it is to have."""
    if path.read_bytes() != wanted:
        raise SystemExit(f"{what}: {path} has other bytes than it is to have")


def measure_edit(table: Table, source: pathlib.Path, mega: int, raw: bytes, cold: bool) -> None:
    """The rows of one line that is edited, and taken back."""
    path = source / "large.txt"
    path.write_bytes(raw)
    number = b"%07d" % (raw.count(b"\n") // 2)
    with mount_folder(source) as mount:
        if not cold:
            (mount.point / path.name).read_bytes()
        for old, new, rows in (number, b"edited!", COLD if cold else SED), (b"edited!", number, BACK):
            if rows is not BACK or not cold:
                sample = time_program(mount, ["sed", "-i", f"s/^{old.decode()} /{new.decode()} /", mount.point / path.name])
                table.add(rows[mega], sample)
                same(path, raw if rows is BACK else raw.replace(old, new), "sed -i")


def measure_replacing(table: Table, source: pathlib.Path, raw: bytes) -> None:
    """The row of a word that is replaced in each line, and of memory."""
    path = source / "large.txt"
    path.write_bytes(raw)
    with mount_folder(source) as mount:
        (mount.point / path.name).read_bytes()
        table.add(WORD, time_program(mount, ["sed", "-i", f"s/ {WORDS[0].decode('cp932')} / 企画 /g", mount.point / path.name]))
        same(path, raw.replace(b" %b " % WORDS[0], " 企画 ".encode("cp932")), "sed -i of each line")
        found = peaks(mount.process.pid)
    print("  " + ", ".join(f"{name} {size:.0f} MiB" for name, size in found.values()), file=sys.stderr)
    table.add(MEMORY, Sample(max(size for _, size in found.values())))


Waits = Dict[Tuple[str, str], float]


def time_queued(*pids: int) -> float:
    """For how many milliseconds the first threads of some processes could have gone on and had no processor."""
    found = 0.0
    for it in pids:
        with contextlib.suppress(OSError, IndexError):
            found += int(pathlib.Path(f"/proc/{it}/schedstat").read_text().split()[1]) / 1e6
    return found


def waits(saving: "subprocess.Popen[bytes]", top: pathlib.Path, *pids: int) -> Tuple[Waits, Waits]:
    """The longest wait of each call in milliseconds, as long as a program saves; and the longest but for what this process
    and those who answer it waited for a processor."""
    found, own = dict.fromkeys(LATEST, 0.0), dict.fromkeys(LATEST, 0.0)
    while saving.poll() is None:
        for key in LATEST:
            call, where = key
            before, began = time_queued(os.getpid(), *pids), time.monotonic()
            CALLS[call](top / PLACES[where] / "small.txt")
            took = 1000 * (time.monotonic() - began)
            found[key] = max(found[key], took)
            own[key] = max(own[key], took - time_queued(os.getpid(), *pids) + before)
        time.sleep(0.002)
    if saving.returncode:
        raise SystemExit(f"status {saving.returncode} of the program that saves")
    return found, own


def beside(table: Table, source: pathlib.Path, raw: bytes) -> None:
    """The rows of what others wait for while a text is saved, in the mount and without one."""
    path, number = source / "large.txt", b"%07d" % (raw.count(b"\n") // 2)
    path.write_bytes(raw)
    for it in PLACES.values():
        (source / it).mkdir(exist_ok=True)
        (source / it / "small.txt").write_bytes(raw[:2000])
    with mount_folder(source) as mount:
        text = (mount.point / path.name).read_bytes().replace(number, b"edited!")
        copy = mount.kept / "text"
        copy.write_bytes(text)
        before = processor(mount.process.pid)
        with subprocess.Popen(["sh", "-c", 'cat "$0" > "$1"', copy, mount.point / path.name]) as saving:
            found, own = waits(saving, mount.point, mount.process.pid)
        took = processor(mount.process.pid).since(before)
        same(path, raw.replace(number, b"edited!"), "a save in place")
    for rows, longest in (LATEST, found), (OWN, own):
        for key, row in rows.items():
            table.add(row, Sample(longest[key], took))
    with subprocess.Popen([sys.executable, "-c", SAVES, path], env={**os.environ, "PYTHONPATH": str(CLIENTS)}) as saving:
        found, _ = waits(saving, source)
    for key, row in WITHOUT.items():
        table.add(row, Sample(found[key]))


def main() -> None:
    parser = argparse.ArgumentParser(description="Measures legacy mount.")
    parser.add_argument("--rounds", type=int, default=3)
    parser.add_argument("--files", type=int, default=10_000)
    parser.add_argument("--entries", type=int, default=100_000, help="how many files the large folder has")
    parser.add_argument("--only", nargs="*", default=[], help="words of which a row has one")
    parser.add_argument("--keep", type=pathlib.Path, help="the folder for the files")
    words = parser.parse_args()
    if WHY:
        raise SystemExit(WHY)
    with contextlib.ExitStack() as held:
        top = words.keep or pathlib.Path(held.enter_context(tempfile.TemporaryDirectory()))
        measure(top, words.rounds, words.files, words.entries, words.only)


def measure(top: pathlib.Path, rounds: int, files: int, entries: int, only: Sequence[str]) -> None:
    """Measures the rows that are asked for."""
    def is_wanted(*rows: Row) -> bool:
        return not only or any(word in row.name for word in only for row in rows)

    small, many, large = top / f"files-{files}", top / f"entries-{entries}", top / "large"
    if is_wanted(*SEARCHES) and not small.exists():
        tree(small, files)
    if is_wanted(*LISTS) and not many.exists():
        tree(many, entries, entries)
    large.mkdir(parents=True, exist_ok=True)
    draw = random.Random(16)
    raws = {mega: content(draw, made_lines(draw), (mega << 20) - 100_000, b"\r\n") for mega in SED}
    table = Table()
    for number in range(rounds):
        print(f"round {number + 1} of {rounds}, load {os.getloadavg()[0]:.1f}", file=sys.stderr)
        if is_wanted(*SEARCHES):
            measure_search(table, small, files)
        if is_wanted(*LISTS):
            measure_list(table, many, entries)
        for mega, raw in raws.items():
            for cold, rows in (False, (SED[mega], BACK[mega])), (True, (COLD[mega],)):
                if is_wanted(*rows):
                    measure_edit(table, large, mega, raw, cold)
        if is_wanted(WORD, MEMORY):
            measure_replacing(table, large, raws[16])
        if is_wanted(*LATEST.values(), *OWN.values(), *WITHOUT.values()):
            beside(table, large, raws[16])
    print("\n".join(table.lines()))


if __name__ == "__main__":
    main()
