#!/usr/bin/env python3
"""Weighs hostile documents: how many bytes of memory a byte of a document costs, and how many milliseconds a command takes.

    tests/hostile/weigh.py [PROGRAM] [--size MIB] [--only WORD] [--bounds]

PROGRAM is crates/gate/out/gate where it isn't given. A document has 16 MiB, or as many as --size says, and a program of
its own. Memory is the peak that the system counted for the process (VmHWM), less that of the program without the
document; a time is the best of a few. A line a case: what it costs, and what it may cost; with --bounds the status is 1
where one costs more. The index files are made here, so that none is needed: each of their pointers has a code point."""
import argparse
import base64
import itertools
import json
import os
import random
import shutil
import subprocess
import sys
import tempfile
import time
from typing import List, NamedTuple, Optional, Tuple

TOP = os.path.dirname(os.path.dirname(os.path.dirname(os.path.realpath(__file__))))

# The most bytes of a document that one line brings.
PART = 3_000_000

# How often a command is timed, of which the fastest counts.
TIMES = 5


def put_indexes(folder):
    """The index files of this program's documents, and the small ones of examples/ for the others. No pointer names a surrogate."""
    shutil.copytree(os.path.join(TOP, "examples", "indexes"), folder, dirs_exist_ok=True)
    for name, count, first in (it.index for it in ENCODINGS.values() if it.index):
        rows = (f"{pointer}\t0x{0x3041 + (pointer + first - 0x3041) % 0x9000 if first > 0x3000 else first + pointer:04X}\n" for pointer in range(count))
        with open(os.path.join(folder, f"index-{name}.txt"), "w", encoding="ascii") as file:
            file.writelines(rows)


class Gate:
    """A program of its own for a document, whose commands wait for their replies."""

    def __init__(self, program, folder):
        self.program = subprocess.Popen([program, "stdio", "--indexes", folder], stdin=subprocess.PIPE, stdout=subprocess.PIPE)
        self.doc = "d"
        self.rev = 0
        self.ask("stat")
        self.bare = self.peak()

    def __enter__(self):
        return self

    def __exit__(self, *_):
        self.program.stdin.close()
        self.program.stdout.close()
        self.program.wait()

    def ask(self, op, **fields):
        """The reply to a command on the document, and how many milliseconds it took."""
        line = json.dumps({"id": 1, "op": op, "doc": self.doc, **fields}).encode() + b"\n"
        begun = time.perf_counter()
        self.program.stdin.write(line)
        self.program.stdin.flush()
        reply = self.program.stdout.readline()
        took = (time.perf_counter() - begun) * 1000
        members = json.loads(reply)
        self.rev = members.get("rev", self.rev)
        return members, took

    def accepted(self, op, **fields):
        members, took = self.ask(op, **fields)
        if "fault" in members:
            sys.exit(f"weigh: {op} is refused: {members}")
        return members, took

    def open(self, label, data):
        """Opens the document by parts, each within a line."""
        first, *parts = (data[at : at + PART] for at in range(0, len(data), PART))
        self.accepted("open", label=label, bytes=base64.b64encode(first).decode())
        at = len(first)
        for part in parts:
            self.splice(at, 0, part)
            at += len(part)

    def splice(self, at, length, data):
        return self.accepted("splice", rev=self.rev, at=at, **{"del": length}, bytes=base64.b64encode(data).decode())[1]

    def peak(self):
        with open(f"/proc/{self.program.pid}/status", encoding="ascii") as lines:
            return next(int(line.split()[1]) * 1024 for line in lines if line.startswith("VmHWM:"))

    def further(self):
        """From here on another document is meant, and only what it takes beside those before it is counted."""
        self.doc += "d"
        self.rev = 0
        self.bare = self.peak()

    def memory(self):
        """Bytes of memory beyond those of the program without the document."""
        return self.peak() - self.bare


def fill(unit, size):
    """`size` bytes of one unit, over and over."""
    return (unit * (size // len(unit) + 1))[:size]


def ordinary(units, size, longest=29):
    """Lines of words, drawn from these units and ASCII as text is: runs of three units up to the longest, and of a few letters."""
    draws = random.Random(7)
    line = b"".join(
        b"".join(draws.choice(units) for _ in range(draws.randrange(3, longest + 1))) + draws.choice((b" ", b", 12 ", b"\n", b": gate "))
        for _ in range(4000)
    )
    return fill(line, size)


def pairs(leads, trails):
    return [bytes((lead, trail)) for lead in leads for trail in trails]


class Encoding(NamedTuple):
    """An encoding whose documents are weighed."""

    # Its index file of many rows: its name, the number of its pointers, and the code point of the first.
    index: Optional[Tuple[str, int, int]] = None  # type: ignore[assignment]
    # What ordinary text is drawn from, as many bytes each as the encoding has for them.
    units: Optional[List[bytes]] = None
    # The bytes of an error and of an ASCII character.
    error: Optional[bytes] = None
    # A document in which a change isn't kept that takes a character out: the bytes that it begins with, those over and over behind
    # them, and which character.
    unkept: Optional[Tuple[bytes, bytes, int]] = None


ENCODINGS = {
    "utf-8": Encoding(units=[chr(it).encode() for it in range(0x3041, 0x3097)], error=b"\x61\xff"),
    "shift_jis": Encoding(("jis0208", 11104, 0x3041), pairs(range(0x88, 0x98), range(0x9F, 0xFC)), b"\x81\x20"),
    "gb18030": Encoding(("gb18030", 23940, 0x3041), pairs(range(0xB0, 0xD0), range(0xA1, 0xFE))),
    "euc-kr": Encoding(("euc-kr", 23750, 0x3041), pairs(range(0xB0, 0xC8), range(0xA1, 0xFE)), b"\xfe\x41", (b"\x81\x20", b"\xb0\xb0", 1)),
    "big5": Encoding(("big5", 19782, 0x3041), pairs(range(0xA4, 0xC0), range(0xA1, 0xFE))),
    "iso-2022-jp": Encoding(error=b"\x1b\x24"),
    "utf-16le": Encoding(units=[chr(it).encode("utf-16le") for it in range(0x3041, 0x3097)]),
    "windows-1251": Encoding(("windows-1251", 128, 0x0400), [bytes((it,)) for it in range(0xC0, 0x100)], unkept=(b"\x61\xff\xfe", b"\xe0", 0)),
    "windows-874": Encoding(("windows-874", 96, 0x0E00)),
}
# Ordinary text by encoding, and the encodings of pairs among them.
ORDINARY = {label: it.units for label, it in ENCODINGS.items() if it.units}
OF_PAIRS = [label for label, units in ORDINARY.items() if ENCODINGS[label].index and len(units[0]) == 2]

# Escapes that leave ISO-2022-JP in four states, one after the other.
ESCAPES = [b"\x1b(B", b"\x1b(J", b"\x1b(I", b"\x1b$B"]
# Byte order marks that put three encodings in force, and none.
MARKS = [b"\xef\xbb\xbf", b"\xfe\xff", b"\xff\xfe", b""]


def in_turn(gate, fronts):
    """Puts each of these bytes at the front, in the place of the one before, twice."""
    length = 0
    for front in fronts + fronts:
        gate.splice(0, length, front)
        length = len(front)


def in_states(gate, label, data, fronts):
    """A document whose bytes are entered in one state after another, and then a further one, which finds the memory free
    that the first took while its edits were made."""
    for begin in (lambda: None, gate.further):
        begin()
        gate.open(label, data)
        in_turn(gate, fronts)


def by_splices(gate, unit, size):
    """Puts the units in by many small splices, at places that are drawn."""
    draws = random.Random(7)
    each = fill(unit, max(len(unit), size // 31000 // len(unit) * len(unit)))
    gate.open("utf-8", each)
    length = len(each)
    while length + len(each) <= size:
        gate.splice(draws.randrange(length // len(unit)) * len(unit), 0, each)
        length += len(each)


def weights(size):
    """What is weighed: a name, what makes the document, and the most bytes of memory that a byte of it may cost."""
    for label, units in ORDINARY.items():
        yield f"ordinary {label}", lambda gate, label=label, units=units: gate.open(label, ordinary(units, size)), 4
        # Korean has a space behind each few pairs.
        yield f"{label} in short words", lambda gate, label=label, units=units: gate.open(label, ordinary(units, size, 4)), 4
    for label, unit in ((label, it.error) for label, it in ENCODINGS.items() if it.error):
        yield f"{label}: an error and ASCII in turn", lambda gate, label=label, unit=unit: gate.open(label, fill(unit, size)), 6
    for label, unit in (("shift_jis", b"\xa0\xb1"), ("windows-874", b"\xdb\xa1")):
        name = f"{label}: an error and three bytes of UTF-8 in turn"
        yield name, lambda gate, label=label, unit=unit: gate.open(label, fill(unit, size)), 8
    yield "utf-8: FF 0A by 31,000 splices", lambda gate: by_splices(gate, b"\xff\x0a", size), 8
    yield "gb18030: 81 30 FF", lambda gate: gate.open("gb18030", fill(b"\x81\x30\xff", size)), 8
    yield "big5: 88 62 and FF", lambda gate: gate.open("big5", fill(b"\x88\x62\xff", size)), 8
    # Of four states the peak has what was remembered and what is computed anew, since the edit may yet be refused.
    for unit in (b"\x1b\x24", b"\x0e", b"\x21\x21", b"\x31\x20"):
        name = f"iso-2022-jp: {unit.hex(' ')} in four states"
        yield name, lambda gate, unit=unit: (gate.open("iso-2022-jp", fill(unit, size)), in_turn(gate, ESCAPES)), 10
        yield f"{name}, a further document", lambda gate, unit=unit: in_states(gate, "iso-2022-jp", fill(unit, size), ESCAPES), 8
    for name, data in (("81 20", lambda: fill(b"\x81\x20", size)), ("ordinary", lambda: ordinary(ORDINARY["shift_jis"], size))):
        yield f"shift_jis: {name} under three marks", lambda gate, data=data: (gate.open("shift_jis", data()), in_turn(gate, MARKS)), 10
        yield f"shift_jis: {name} under three marks, a further document", lambda gate, data=data: in_states(gate, "shift_jis", data(), MARKS), 8


def fastest(call, times=TIMES):
    return min(call() for _ in range(times))


def time_refusal(gate, op, start, end, **fields):
    """How long a change takes that takes a character out and isn't kept."""
    range_ = {"start": {"line": 0, "character": start}, "end": {"line": 0, "character": end}}
    members, took = gate.ask(op, range=range_, text="", **fields)
    if members.get("fault") != "NotKept" and members.get("kept", True):
        sys.exit(f"weigh: {op} is kept: {str(members)[:200]}")
    return took


def time_entering(gate, label, data, fronts):
    """How long a splice at the front takes where all behind it is entered in one of these states after the other."""
    gate.open(label, data)
    in_turn(gate, fronts)
    length, times = len(fronts[-1]), []
    for front in fronts * TIMES:
        times.append(gate.splice(0, length, front))
        length = len(front)
    return min(max(times[at : at + len(fronts)]) for at in range(0, len(times), len(fronts)))


def undone(gate, label, data, front):
    """How long it takes to take what was put in at the front out again, where all behind it was entered anew."""
    gate.open(label, data)

    def undo():
        gate.splice(0, 0, front)
        return gate.splice(0, len(front), b"")

    return fastest(undo)


def not_kept(gate, op, label, data, start, end):
    gate.open(label, data)
    fields = {"rev": gate.rev} if op == "change" else {}
    return fastest(lambda: time_refusal(gate, op, start, end, **fields))


def time_diagnostics(gate, label, data):
    gate.open(label, data)
    return fastest(lambda: gate.accepted("diagnostics", **{"from": 0, "max": 10000, "unit": "utf-16"})[1])


def times(size):
    """What is timed: a name, what takes how many milliseconds, and the most that it may take."""
    yield "iso-2022-jp: a splice at 0 over two states", lambda gate: time_entering(gate, "iso-2022-jp", fill(b"\x21\x21", size), ESCAPES[:2]), 15
    # What four states of these bytes give has no room together, so each of these splices decodes the whole document.
    yield "iso-2022-jp: 1B 24, a splice at 0 that is not remembered", lambda gate: time_entering(gate, "iso-2022-jp", fill(b"\x1b\x24", size), ESCAPES), 2000
    for label in OF_PAIRS:
        name = f"{label}: a byte order mark in front of ordinary text taken out again"
        yield name, lambda gate, label=label: undone(gate, label, ordinary(ORDINARY[label], size), MARKS[0]), 15
    yield "utf-16le: a splice of a byte at 0", lambda gate: time_entering(gate, "utf-16le", ordinary(ORDINARY["utf-16le"], size), [b"a", b""]), 15
    unkept = [(label, it.unkept) for label, it in ENCODINGS.items() if it.unkept]
    for op, (label, (front, unit, at)) in itertools.product(("change", "plan"), unkept):
        data = lambda front=front, unit=unit: front + fill(unit, size - len(front))
        name = f"{label}: a {op} that is not kept"
        yield name, lambda gate, op=op, label=label, data=data, at=at: not_kept(gate, op, label, data(), at, at + 1), 0.2
    yield "utf-8: 10,000 diagnostics, an error and ASCII in turn", lambda gate: time_diagnostics(gate, "utf-8", fill(b"\x61\xff", size)), 6
    yield "shift_jis: 10,000 diagnostics, 81 20", lambda gate: time_diagnostics(gate, "shift_jis", fill(b"\x81\x20", size)), 6


def arguments():
    parser = argparse.ArgumentParser(prog="weigh", description=__doc__.split("\n")[0])
    parser.add_argument("program", nargs="?", default=os.path.join(TOP, "crates", "gate", "out", "gate"))
    parser.add_argument("--size", type=int, default=16, metavar="MIB", help="how long each document is (%(default)s)")
    parser.add_argument("--only", default="", metavar="WORD", help="the cases alone whose names have this in them")
    parser.add_argument("--bounds", action="store_true", help="end with status 1 where a case costs more than it may")
    given = parser.parse_args()
    if not os.access(given.program, os.X_OK):
        parser.error(f"there is no program {given.program}")
    return given


def main():
    given = arguments()
    size = given.size * 1024 * 1024 - 64
    above = 0

    def tell(name, cost, unit, most):
        nonlocal above
        above += cost > most
        print(f"{'ABOVE ' if cost > most else 'within'} {cost:8.2f} of {most:g} {unit}  {name}", flush=True)

    with tempfile.TemporaryDirectory(prefix="gate-weigh-") as folder:
        put_indexes(folder)
        for name, make, most in weights(size):
            if given.only in name:
                with Gate(given.program, folder) as gate:
                    make(gate)
                    tell(name, gate.memory() / size, "bytes a byte", most)
        for name, take, most in times(size):
            if given.only in name:
                with Gate(given.program, folder) as gate:
                    tell(name, take(gate), "milliseconds", most)
    print(f"{above} above what they may cost")
    return 1 if above and given.bounds else 0


if __name__ == "__main__":
    sys.exit(main())
