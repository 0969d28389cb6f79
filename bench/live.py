#!/usr/bin/env python3
"""Measures live clients of gate, at a Unix socket, beside gate over pipes and beside a peer, and prints a table.

    bench/live.py --indexes DIR --labels FILE [--gate GATE] [--peers FOLDER] [--times N]

The peer is that of bench/peer by the word `live`: a thread for each client, one lock over all documents, and encoding_rs.
The floor is that of the same package: it makes the calls of the system that gate makes, and writes the same reply to each
line, so what it takes more at a socket than over pipes is what the system does.
Lines are prepared before they are sent, and replies aren't parsed, so that little of the time is the client's. A single
client waits for each reply before the next command. Many clients are processes: each sends all of its commands, as fast as
they are taken, and counts the replies meanwhile. Of several runs in turn each figure is the best."""
import argparse
import contextlib
import functools
import json
import multiprocessing
import os
import pathlib
import select
import socket
import subprocess
import sys
import tempfile
import time
from multiprocessing.synchronize import Barrier
from typing import Callable, ContextManager, Iterator, List, NamedTuple, Tuple

from sessions import LIMIT, b64, document, line_starts, open_session

HERE = pathlib.Path(__file__).resolve().parent
sys.path.insert(0, str(HERE.parent / "clients"))
from gate import Ends, Gate  # noqa: E402

# The document of a single client, and the one that is asked for as a whole.
SIZE, WHOLE = 65_536, 100_000
# How many commands a single client sends, and how many each of many.
ALONE, EACH = 20_000, 50_000
# How many edits of a document `gate` knows.
LOG = 1_024
# How many clients there are, and how often a neighbour asks beside one that asks for whole texts.
CLIENTS, ASKED = 16, 5_000

READ = 1 << 20

# What connects to a program, until it is closed; and what starts one to which is connected so.
Connecting = Callable[[], ContextManager["Talk"]]
Program = Callable[[], ContextManager[Connecting]]


class Talk:
    """A program's input and output, by their descriptors."""

    def __init__(self, reading: int, writing: int):
        self.reading, self.writing = reading, writing

    def ask(self, line: bytes) -> bytes:
        """The reply to a line, waited for."""
        os.write(self.writing, line)
        parts = [os.read(self.reading, READ)]
        while not parts[-1].endswith(b"\n"):
            parts.append(os.read(self.reading, READ))
        return b"".join(parts)

    def flood(self, lines: bytes) -> None:
        """Sends lines as fast as they are taken, and reads until each has its reply."""
        left, missing = memoryview(lines), lines.count(b"\n")
        os.set_blocking(self.writing, False)
        both = select.poll()
        both.register(self.writing, select.POLLIN | select.POLLOUT)
        while left:
            for _, event in both.poll():
                if event & select.POLLIN:
                    missing -= os.read(self.reading, READ).count(b"\n")
                if event & select.POLLOUT:
                    left = left[os.write(self.writing, left) :]
        os.set_blocking(self.writing, True)
        while missing:
            missing -= os.read(self.reading, READ).count(b"\n")


def command(op: str, **fields: object) -> bytes:
    return json.dumps({"id": 1, "op": op, "doc": "d", **fields}).encode() + b"\n"


def opening(size: int) -> bytes:
    return command("open", label="utf-8", bytes=b64(document("utf-8", size)))


STAT = command("stat")


@contextlib.contextmanager
def run_over_pipes(words: List[str]) -> Iterator[Connecting]:
    """A program over pipes."""
    with subprocess.Popen(words, stdin=subprocess.PIPE, stdout=subprocess.PIPE, bufsize=0) as program:
        assert program.stdin and program.stdout
        talk = Talk(program.stdout.fileno(), program.stdin.fileno())
        yield lambda: contextlib.nullcontext(talk)
        program.stdin.close()


@contextlib.contextmanager
def connect_to(path: str) -> Iterator[Talk]:
    """A connection to a socket, as soon as somebody listens there."""
    with contextlib.closing(socket.socket(socket.AF_UNIX)) as it:
        while it.connect_ex(path):
            time.sleep(0.01)
        yield Talk(it.fileno(), it.fileno())


@contextlib.contextmanager
def listening(words: List[str]) -> Iterator[Connecting]:
    """A program that listens at a socket, whose path is its last word."""
    with tempfile.TemporaryDirectory() as folder:
        path = os.path.join(folder, "socket")
        with subprocess.Popen([*words, path]) as program:
            try:
                yield functools.partial(connect_to, path)
            finally:
                program.kill()


def microseconds(talk: Talk, lines: List[bytes]) -> List[float]:
    """How long each line waits for its reply, in order of the times."""
    took = []
    for line in lines:
        begun = time.perf_counter()
        talk.ask(line)
        took.append((time.perf_counter() - begun) * 1e6)
    return sorted(took)


def stats(connect: Connecting) -> float:
    """Microseconds of a short question, by the median."""
    with connect() as talk:
        talk.ask(opening(SIZE))
        return microseconds(talk, [STAT] * ALONE)[ALONE // 2]


def sinces(behind: int) -> Callable[[Connecting], float]:
    """Microseconds of the question what was done since a revision, with `behind` edits behind it, by the median."""

    def call(connect: Connecting) -> float:
        with connect() as talk:
            talk.ask(opening(SIZE))
            for rev in range(behind):
                talk.ask(command("splice", rev=rev, at=rev, bytes="YQ==", **{"del": 0}))
            return microseconds(talk, [command("since", rev=0)] * ALONE)[ALONE // 2]

    return call


def splices(connect: Connecting) -> float:
    """Microseconds of a letter that is put behind a line end, or taken out again, by the median."""
    places = line_starts("utf-8", document("utf-8", SIZE))
    lines = []
    for number in range(ALONE // 2):
        at = places[number * 7 % len(places)]
        lines.append(command("splice", rev=2 * number, at=at, bytes="YQ==", **{"del": 0}))
        lines.append(command("splice", rev=2 * number + 1, at=at, bytes="", **{"del": 1}))
    with connect() as talk:
        talk.ask(opening(SIZE))
        took = microseconds(talk, lines)
        assert json.loads(talk.ask(STAT))["rev"] == len(lines)
        return took[len(took) // 2]


def splices_in_python(connect: Connecting) -> float:
    """The same by the client in Python, which writes and reads JSON."""
    places = line_starts("utf-8", document("utf-8", SIZE))
    took = []
    with connect() as talk:
        nothing = lambda: None  # noqa: E731
        client = Gate(Ends(talk.reading, talk.writing, functools.partial(os.write, talk.writing), nothing, nothing, nothing))
        edited = client.open("d", "utf-8", document("utf-8", SIZE))
        for number in range(ALONE // 4):
            at = places[number * 7 % len(places)]
            begun = time.perf_counter()
            edit = edited.splice(at, 0, b"a")
            edited.undo(edit)
            took.append((time.perf_counter() - begun) / 2 * 1e6)
    return sorted(took)[len(took) // 2]


def longest(op: str, **fields: object) -> Callable[["Connecting"], float]:
    """Milliseconds of a command on the whole of a document of the most bytes."""

    def call(connect: Connecting) -> float:
        content, session = open_session("utf-8", LIMIT)
        with connect() as talk:
            for line in session.sent_bytes().splitlines(True):
                talk.ask(line)
            end = json.loads(talk.ask(STAT))["utf32"]
            return microseconds(talk, [command(op, to=end, **{"from": 0}, **fields)] * 5)[0] / 1e3

    return call


def flooding(connect: Connecting, start: Barrier) -> None:
    """One of many clients, which is connected before they begin."""
    with connect() as talk:
        talk.ask(STAT)
        start.wait()
        talk.flood(STAT * EACH)


def together(connect: Connecting) -> float:
    """Thousands of commands a second of all clients together, each of which has all of its commands in flight."""
    with connect() as talk:
        talk.ask(opening(SIZE))
    start = multiprocessing.Barrier(CLIENTS + 1)
    with start_processes(CLIENTS, flooding, connect, start) as clients:
        start.wait()
        begun = time.perf_counter()
        for it in clients:
            it.join()
        return CLIENTS * EACH / (time.perf_counter() - begun) / 1e3


def asking_for_all(connect: Connecting, start: Barrier) -> None:
    """A client that asks for a whole text again and again."""
    with connect() as talk:
        end = json.loads(talk.ask(STAT))["utf32"]
        whole = command("text", to=end, **{"from": 0})
        start.wait()
        while True:
            talk.ask(whole)


def neighbours(connect: Connecting) -> float:
    """Microseconds of a short question beside a client that asks for a whole text in a loop: of 100 the 99 shortest."""
    with connect() as talk:
        talk.ask(opening(WHOLE))
        start = multiprocessing.Barrier(2)
        with start_processes(1, asking_for_all, connect, start) as (busy,):
            start.wait()
            took = microseconds(talk, [STAT] * ASKED)
            busy.terminate()
        return took[ASKED * 99 // 100]


@contextlib.contextmanager
def start_processes(count: int, call: Callable[..., None], *words: object) -> Iterator[List[multiprocessing.Process]]:
    """Processes of a call."""
    processes = [multiprocessing.Process(target=call, args=words) for _ in range(count)]
    for it in processes:
        it.start()
    yield processes
    for it in processes:
        it.join()


class Measure(NamedTuple):
    """What is measured, of a program that has just begun, whether pipes do for it, whether more is better, and whether the
    peer and the floor can it."""

    name: str
    call: Callable[[Connecting], float]
    by_pipes: bool = False
    is_rate: bool = False
    by_peer: bool = True
    by_floor: bool = False

    def can(self, program: str) -> bool:
        """Whether it is measured of a program by its name in the table."""
        kind, way = program.split(", ")
        return (self.by_pipes or way != "pipes") and {"peer": self.by_peer, "floor": self.by_floor}.get(kind, True)


MEASURES = [
    Measure("`stat`, one client, in microseconds", stats, by_pipes=True, by_floor=True),
    Measure("`since` the last edit, one client, in microseconds", sinces(1), by_pipes=True, by_peer=False),
    Measure("`since` the edit 1,024 before, in microseconds", sinces(LOG), by_pipes=True, by_peer=False),
    Measure("`splice` in 64 KiB, one client, in microseconds", splices, by_pipes=True),
    Measure("the same by clients/gate.py", splices_in_python, by_pipes=True),
    Measure("sixteen clients, 50,000 commands each in flight, in thousands a second", together, is_rate=True),
    Measure("`stat` beside a client that asks for texts of 100 KB, 99 of 100, in microseconds", neighbours),
    Measure("a `text` of 16 MiB, in milliseconds", longest("text")),
    Measure("an `encode` of 16 MiB, in milliseconds", longest("encode", label="utf-16le")),
]


def main() -> None:
    words = argparse.ArgumentParser(description=__doc__.split("\n")[0])
    words.add_argument("--gate", default=str(HERE.parent / "crates" / "gate" / "out" / "gate"))
    words.add_argument("--peers", default=str(HERE / "peer" / "target" / "release"), help="the folder of `peer` and `floor`")
    words.add_argument("--indexes", required=True)
    words.add_argument("--labels", required=True)
    words.add_argument("--times", type=int, default=5, help="runs of each measure (%(default)s)")
    chosen = words.parse_args()
    peer, floor = (os.path.join(chosen.peers, it) for it in ("peer", "floor"))
    files = ["--indexes", chosen.indexes, "--labels", chosen.labels]
    programs: List[Tuple[str, Program]] = [
        ("gate, pipes", functools.partial(run_over_pipes, [chosen.gate, "stdio", *files])),
        ("gate, socket", functools.partial(listening, [chosen.gate, "serve", *files, "--socket"])),
        ("peer, pipes", functools.partial(run_over_pipes, [peer, "typed"])),
        ("peer, socket", functools.partial(listening, [peer, "live"])),
        ("floor, pipes", functools.partial(run_over_pipes, [floor])),
        ("floor, socket", functools.partial(listening, [floor])),
    ]
    print("| |", " | ".join(name for name, _ in programs), "|\n| --- |" + " ---: |" * len(programs))
    for measure in MEASURES:
        found: List[List[float]] = [[] for _ in programs]
        for _ in range(chosen.times):
            for figures, (name, program) in zip(found, programs):
                if measure.can(name):
                    with program() as connect:
                        figures.append(measure.call(connect))
        best = max if measure.is_rate else min
        print(f"| {measure.name} |", " | ".join(f"{best(it):.1f}" if it else "" for it in found), "|", flush=True)


if __name__ == "__main__":
    main()
