#!/usr/bin/env python3
"""Bounds the program's memory in each way in which it can be started, and plays documents to it that want more.

    tests/hostile/budget.py [PROGRAM] [--memory MIB] [--size MIB] [--documents N] [--way WAY]

PROGRAM is crates/gate/out/gate where it isn't given. The documents are ISO-2022-JP, 1B 24 over and over, in four states one
after the other, for which the program remembers the most. Each grows to an eighth of its size, and then to all of it, as far
as the program lets it: what is refused has to be refused as OutOfMemory. Then each has to be readable, with the bytes of the
edits that were accepted, and where one is closed another takes its memory. A line a way; the status is 1 where one fails.
Of the plugin the documents are UTF-8, and tests/editors/budget_test.lua plays them. CI plays small ones
(tests/program/test_budget.py)."""
import argparse
import contextlib
import os
import pathlib
import shutil
import subprocess
import sys
import tempfile
import time
from typing import Callable, Dict, Iterator, List, Set

TOP = pathlib.Path(__file__).resolve().parent.parent.parent
sys.path.insert(0, str(TOP / "clients"))

from gate import Fault, Gate
from legacy.finding import Found

# What the documents are filled with, and the escapes that bring them into another state each.
UNIT = b"\x1b\x24"
ESCAPES = (b"\x1b(B", b"\x1b(J", b"\x1b(I", b"\x1b$B")
# The most bytes that are put in at once.
PART = 1 << 20
# And where memory is free in short stretches alone.
SHORT = 1 << 13
INDEXES = TOP / "examples" / "indexes"
NVIM = TOP / "editors" / "nvim"


class Fails(Exception):
    """What isn't as it should be."""


class Document:
    """A document of the program, with what it has to have by the edits that were accepted: an escape, or none, and the
    beginning of what all are filled with."""

    def __init__(self, name: str):
        self.name, self.rev, self.front, self.length = name, 0, b"", 0

    def bytes(self) -> bytes:
        return self.front + fill(self.length)


def fill(length: int) -> bytes:
    return (UNIT * (length // len(UNIT) + 1))[:length]


class Player:
    """Plays documents to a program, and counts what was accepted."""

    def __init__(self, gate: Gate, size: int, documents: int):
        self.gate, self.size = gate, size
        self.accepted = self.refused = 0
        self.documents = [Document(f"d{number}") for number in range(documents)]

    def edit(self, op: str, **fields: object) -> bool:
        """Whether an edit is accepted; it may be refused for memory, and for nothing else."""
        try:
            self.gate.ask(op, **fields)
        except Fault as fault:
            if fault.name != "OutOfMemory":
                raise Fails(f"{op} is refused: {fault}") from fault
            self.refused += 1
            return False
        self.accepted += 1
        return True

    def splice(self, it: Document, at: int, count: int, new: bytes) -> bool:
        accepted = self.edit("splice", doc=it.name, rev=it.rev, at=at, bytes=new, **{"del": count})
        it.rev += accepted
        return accepted

    def open(self) -> None:
        """Opens all documents, empty."""
        for it in self.documents:
            if not self.edit("open", doc=it.name, label="iso-2022-jp", bytes=b""):
                raise Fails("there is no memory for empty documents")

    def grow(self, most: int) -> None:
        """Makes each document as long as that, by parts in turn, until all are or a part is refused of each."""
        grows = list(self.documents)
        while grows:
            grows = [it for it in grows if it.length < most and self.part(it, min(PART, most - it.length))]

    def part(self, it: Document, length: int) -> bool:
        """Whether `length` bytes are put in at the end."""
        accepted = self.splice(it, len(it.front) + it.length, 0, fill(length))
        it.length += length if accepted else 0
        return accepted

    def turn(self) -> None:
        """Brings each document into each state."""
        for front in ESCAPES:
            for it in self.documents:
                if self.splice(it, 0, len(it.front), front):
                    it.front = front

    def read(self, it: Document) -> None:
        """Sees that a document has the bytes and the revision of the accepted edits, and that its text can be read."""
        found = self.gate.join(it.name)
        if (found.bytes, found.rev) != (it.bytes(), it.rev):
            raise Fails(f"{it.name} isn't as the accepted edits leave it: revision {found.rev}, not {it.rev}, and {len(found.bytes)} bytes")
        found.text(0, 1)

    def close(self) -> None:
        """Closes the longest document, in whose place a short one is opened and edited."""
        longest = max(self.documents, key=lambda it: it.length)
        self.gate.ask("close", doc=longest.name)
        self.documents.remove(longest)
        it = Document("new")
        opened = self.edit("open", doc=it.name, label="iso-2022-jp", bytes=b"")
        # (in parts as short as its pieces are: what was given back lies among what others have)
        while opened and it.length < longest.length // 8:
            if not self.part(it, min(SHORT, longest.length // 8 - it.length)):
                raise Fails(f"of the memory of a document of {longest.length} bytes that was closed {it.length} are used again")
        if not opened:
            raise Fails("there is no memory for an empty document where one was closed")
        self.documents.append(it)

    def play(self) -> None:
        self.open()
        for most in self.size // 8, self.size:
            self.grow(most)
            self.turn()
        if not self.refused:
            raise Fails("nothing is refused")
        for it in self.documents:
            self.read(it)
        self.close()
        for it in self.documents:
            self.read(it)

    def length(self) -> int:
        return sum(len(it.front) + it.length for it in self.documents)


@contextlib.contextmanager
def bound_environment(memory: int) -> Iterator[None]:
    """An environment that bounds what is started."""
    os.environ["GATE_MEMORY"] = str(memory)
    try:
        yield
    finally:
        del os.environ["GATE_MEMORY"]


def checkout(program: pathlib.Path, folder: pathlib.Path) -> pathlib.Path:
    """`./gate` of a checkout in which this program was built."""
    out = folder / "checkout" / "crates" / "gate" / "out"
    out.mkdir(parents=True)
    (folder / "checkout" / "tools").mkdir()
    for name in "gate", "tools/budget":
        shutil.copy(TOP / name, folder / "checkout" / name)
    (folder / "checkout" / "crates.txt").touch()
    (out / "gate").symlink_to(program)
    (out / "gate.ready").touch()
    return folder / "checkout" / "gate"


def install_launcher(program: pathlib.Path, folder: pathlib.Path) -> pathlib.Path:
    """`gate` as tools/install puts it into bin."""
    words = [str(folder / "installed"), "--gate", str(program)]
    subprocess.run([sys.executable, str(TOP / "tools" / "install"), *words], check=True, stdout=subprocess.DEVNULL)
    return folder / "installed" / "bin" / "gate"


def by_checkout(program: pathlib.Path, folder: pathlib.Path, memory: int) -> Gate:
    with bound_environment(memory):
        return Gate.start(checkout(program, folder), "stdio", "--indexes", INDEXES)


def by_installed(program: pathlib.Path, folder: pathlib.Path, memory: int) -> Gate:
    with bound_environment(memory):
        return Gate.start(install_launcher(program, folder), "stdio", "--indexes", INDEXES)


def by_client(program: pathlib.Path, folder: pathlib.Path, memory: int) -> Gate:
    return Gate.start(program, "stdio", "--indexes", INDEXES, memory=memory)


def by_legacy(program: pathlib.Path, folder: pathlib.Path, memory: int) -> Gate:
    return Found(str(program), INDEXES, None, memory).start()


# The ways in which a program is started that this one speaks to.
WAYS: Dict[str, Callable[[pathlib.Path, pathlib.Path, int], Gate]] = {
    "./gate": by_checkout,
    "tools/install": by_installed,
    "clients/gate.py": by_client,
    "legacy": by_legacy,
}
PLUGIN = "editors/nvim"


def children() -> Set[str]:
    """The processes that this one has started, where the system says which these are."""
    path = pathlib.Path(f"/proc/self/task/{os.getpid()}/children")
    return set(path.read_text(encoding="ascii").split()) if path.exists() else set()


def peaks(process: str) -> str:
    """What a process had at its peak, of memory and of addresses."""
    lines = pathlib.Path(f"/proc/{process}/status").read_text(encoding="utf-8").splitlines()
    found = {name: int(value.split()[0]) // 1024 for name, _, value in (it.partition(":") for it in lines) if name in ("VmHWM", "VmPeak")}
    return f"{found['VmHWM']} MiB resident and {found['VmPeak']} of addresses at the peak"


def play(way: str, program: pathlib.Path, memory: int, size: int, documents: int) -> str:
    """Plays documents of `size` bytes to a program that is started in this way, and returns what came."""
    with tempfile.TemporaryDirectory(prefix="gate-budget-") as kept:
        folder = pathlib.Path(kept)
        others = children()
        with WAYS[way](program, folder, memory) as gate:
            player = Player(gate, size, documents)
            player.play()
            counts = f"{player.accepted} accepted, {player.refused} refused, {player.length() >> 10} KiB of documents read"
            return "; ".join([counts, *map(peaks, children() - others)])


def play_plugin(program: pathlib.Path, memory: int, size: int, documents: int) -> str:
    """Has the plugin's own test play documents, and returns what it says."""
    with tempfile.TemporaryDirectory(prefix="gate-budget-") as folder:
        numbers = f"{memory} {size} {documents}"
        kept = {"LEGACY_TEST_GATE": str(program), "LEGACY_TEST_INDEXES": "", "LEGACY_TEST_WORK": folder, "LEGACY_TEST_BUDGET": numbers}
        paths = [f"set runtimepath^={NVIM}", f"lua package.path = '{TOP}/tests/editors/?.lua;' .. package.path"]
        ends = "lua require('budget_test'); vim.cmd(require('harness').summary() and 'qall!' or 'cquit!')"
        words = ["nvim", "--clean", "-n", "--headless", *(it for path in paths for it in ("--cmd", path)), "-c", ends]
        ran = subprocess.run(words, env={**os.environ, **kept}, stdin=subprocess.DEVNULL, stdout=subprocess.PIPE, stderr=subprocess.PIPE)
    said = ran.stdout.decode().strip().replace("\n", "; ")
    if ran.returncode or not said.endswith(" 0 failed"):
        raise Fails(said or ran.stderr.decode(errors="replace").strip())
    return said


def arguments() -> argparse.Namespace:
    parser = argparse.ArgumentParser(prog="budget", description=(__doc__ or "").partition("\n")[0])
    parser.add_argument("program", nargs="?", type=pathlib.Path, default=TOP / "crates" / "gate" / "out" / "gate")
    parser.add_argument("--memory", type=int, default=4096, metavar="MIB", help="what the program may have (%(default)s)")
    parser.add_argument("--size", type=int, default=16, metavar="MIB", help="how long each document would be (%(default)s)")
    parser.add_argument("--documents", type=int, default=64, metavar="N", help="how many there are (%(default)s)")
    parser.add_argument("--way", choices=[*WAYS, PLUGIN], help="this way alone")
    given = parser.parse_args()
    if not os.access(given.program, os.X_OK):
        parser.error(f"there is no program {given.program}")
    return given


def main() -> int:
    given, status = arguments(), 0
    ways: List[str] = [given.way] if given.way else [*WAYS, *([PLUGIN] if shutil.which("nvim") else [])]
    # (a document has at most 16 MiB, with an escape)
    numbers = given.program.resolve(), given.memory, (given.size << 20) - 64, given.documents
    for way in ways:
        begun = time.monotonic()
        try:
            came = play_plugin(*numbers) if way == PLUGIN else play(way, *numbers)
        except (Fails, Fault) as why:
            status, came = 1, f"FAILED: {why}"
        print(f"{way}, {given.memory} MiB: {came}; {time.monotonic() - begun:.0f} s", flush=True)
    return status


if __name__ == "__main__":
    sys.exit(main())
