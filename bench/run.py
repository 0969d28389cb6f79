#!/usr/bin/env python3
"""Runs gate and both peers in turn on the same sessions, compares every reply, and prints what each took.

By time, by the instructions that valgrind counts, which are the same in each run, however busy the machine is, by page
faults, or by the most memory that was held. Beside them runs the floor, which reads the lines and says the same to each.
What the peers don't know, and documents that are too long for them, gate alone is measured with; with --no-peer so is all.
"""

import argparse
import os
import re
import subprocess
import sys
import tempfile
import time
from typing import Callable, Dict, List, Tuple

from sessions import KINDS, PEER_SIZES, SAMPLES, SIZES


# Counts instructions alone: no cache, no profile. The C library's copies and fills run by vector loops, since an
# instruction that repeats itself for each byte would be counted for each.
NEVER = 1 << 30
TUNABLES = f"GLIBC_TUNABLES=glibc.cpu.x86_rep_movsb_threshold={NEVER}:glibc.cpu.x86_rep_stosb_threshold={NEVER}"
COUNTING = ["env", TUNABLES, "valgrind", "--tool=cachegrind", "--cache-sim=no", "--cachegrind-out-file=/dev/null"]

# The peers, with the words that they are started with: one reads a line into a tree of JSON, one into a type.
PEERS: Dict[str, List[str]] = {"peer": [], "typed": ["typed"]}

# Where sessions and replies are kept: in memory, if there is such a folder, so that no disk is measured.
FOLDER = next(filter(os.path.isdir, ["/dev/shm"]), None)

# The kind by which memory is measured, of documents that stay open, a round for each.
HELD = "many"

# What a run of a program on a session costs, its peak memory in megabytes, and its replies.
Measured = Tuple[float, float, bytes]


def measure_time(words: List[str], session: str) -> Measured:
    """Microseconds, peak memory in megabytes, and the replies."""
    with tempfile.NamedTemporaryFile("r") as peak:
        # Measured by `time`: a child of this program would begin with this program's own peak.
        begun = time.monotonic()
        replies = replies_of(["/usr/bin/time", "-f", "%M", "-o", peak.name, *words], session)
        took = time.monotonic() - begun
        return took * 1e6, int(peak.read()) * 1024 / 1e6, replies


def count_instructions(words: List[str], session: str) -> Measured:
    """Thousands of instructions, no memory, and the replies."""
    with tempfile.NamedTemporaryFile("r") as log:
        replies = replies_of([*COUNTING, f"--log-file={log.name}", *words], session)
        counts = re.findall(r"I +refs: +([\d,]+)", log.read())
        return int(counts[0].replace(",", "")) / 1e3, 0, replies


def count_faults(words: List[str], session: str) -> Measured:
    """Page faults that needed no disk, no memory, and the replies."""
    with tempfile.NamedTemporaryFile("r") as faults:
        replies = replies_of(["/usr/bin/time", "-f", "%R", "-o", faults.name, *words], session)
        return int(faults.read()), 0, replies


def measure_peak(words: List[str], session: str) -> Measured:
    """The most KiB that were held, the same in megabytes, and the replies."""
    _, memory, replies = measure_time(words, session)
    return memory * 1e6 / 1024, memory, replies


def read_replies(words: List[str], session: str) -> Measured:
    """Nothing but the replies."""
    return 0, 0, replies_of(words, session)


def replies_of(words: List[str], session: str) -> bytes:
    with tempfile.TemporaryFile(dir=FOLDER) as replies, open(session, "rb") as lines:
        status = subprocess.call(words, stdin=lines, stdout=replies)
        if status:
            sys.exit(f"{words[0]} ended with status {status}")
        replies.seek(0)
        return replies.read()


def main() -> None:
    words = argparse.ArgumentParser(description=__doc__)
    words.add_argument("--gate", default="../crates/gate/out/gate")
    words.add_argument("--peer", default="peer/target/release/peer")
    words.add_argument("--floor", default="peer/target/release/floor")
    words.add_argument("--no-peer", action="store_true", help="measure gate alone")
    words.add_argument("--indexes", required=True)
    words.add_argument("--labels", required=True)
    words.add_argument("--kinds", nargs="*", choices=KINDS, help=f"all but `{HELD}`, and with --memory that alone, unless named")
    words.add_argument("--encodings", nargs="*", choices=SAMPLES, default=list(SAMPLES))
    words.add_argument("--sizes", nargs="*", choices=SIZES, default=list(SIZES))
    words.add_argument("--times", type=int, default=5, help="runs of each session, of which the fastest counts")
    way = words.add_mutually_exclusive_group()
    way.add_argument("--instructions", action="store_true", help="count instructions, over a fifth of the rounds")
    way.add_argument("--faults", action="store_true", help="count page faults, over a fifth of the rounds")
    way.add_argument("--memory", action="store_true", help="the most memory, for each document that is open")
    way.add_argument("--replies", action="store_true", help="compare replies alone, those of every kind")
    chosen = words.parse_args()
    gate = [chosen.gate, "stdio", "--indexes", chosen.indexes, "--labels", chosen.labels]
    peers = [[chosen.peer, *words] for words in PEERS.values()]
    cases = [
        Case(name, encoding, size)
        for name in chosen.kinds or [it for it in KINDS if (it == HELD) == chosen.memory]
        for encoding in chosen.encodings
        for size in chosen.sizes
        if encoding in KINDS[name].encodings and size in KINDS[name].sizes
    ]
    if chosen.replies:
        for case in cases:
            if case.is_known:
                compare_replies(case, gate, peers)
        return
    unit, meter = "us", Meter(measure_time, chosen.times, 1)
    if chosen.instructions:
        unit, meter = "instructions", Meter(count_instructions, 1, 5)
    elif chosen.faults:
        unit, meter = "faults", Meter(count_faults, chosen.times, 5)
    elif chosen.memory:
        unit, meter = "KiB", Meter(measure_peak, chosen.times, 1)
    figures = [f"{name}_{unit}" for name in ("gate", *PEERS)]
    memory = [f"{name}_MB" for name in ("gate", *PEERS)]
    print("kind", "encoding", "bytes", *figures, "ratio", f"floor_{unit}", *memory, sep="\t")
    for case in cases:
        is_met = case.is_known and KINDS[case.kind].rounds.peer and not chosen.no_peer
        compare(case, gate, [] if chosen.no_peer else [[chosen.floor]], peers if is_met else [], meter)


class Case:
    """A kind of session in an encoding, over a document of a size."""

    def __init__(self, kind: str, encoding: str, size: str):
        self.kind, self.encoding, self.bytes = kind, encoding, SIZES[size]
        # Whether the peers know such documents.
        self.is_known = size in PEER_SIZES

    def session(self, rounds: int) -> bytes:
        return KINDS[self.kind].session(self.encoding, self.bytes, rounds)

    def __str__(self) -> str:
        return f"{self.kind} {self.encoding} {self.bytes}"


def compare(case: "Case", gate: List[str], floor: List[List[str]], peers: List[List[str]], meter: "Meter") -> None:
    """One line: the cost of a round, beyond the start and the open, how many times that the faster peer takes, and memory."""
    # gate's rounds are short: it and the floor take more of them, of which the peers' are the first.
    many, few = (max(1, count // meter.rounds_by) for count in KINDS[case.kind].rounds)
    own = [gate, *floor]
    before = meter.measure([*own, *peers], case.session(0))
    ours = meter.measure(own, case.session(many))
    theirs = meter.measure(peers, case.session(few)) if peers else []
    tell_refusal(case, ours[0].replies)
    for run in theirs:
        tell_difference(case, ours[0].replies, run.replies)
    rounds = [many] * len(ours) + [few] * len(theirs)
    costs = [(run.cost - bare.cost) / count for run, bare, count in zip([*ours, *theirs], before, rounds)]
    of_peers = costs[len(ours) :]
    ratio = f"{min(of_peers) / costs[0]:.2f}" if peers else ""
    none = [""] * (len(PEERS) - len(peers))
    figures = [f"{costs[0]:.1f}", *(f"{cost:.1f}" for cost in of_peers), *none]
    least = f"{costs[1]:.3f}" if floor else ""
    memory = [*(f"{run.peak:.1f}" for run in (ours[0], *theirs)), *none]
    print(case.kind, case.encoding, case.bytes, *figures, ratio, least, *memory, sep="\t", flush=True)


def compare_replies(case: "Case", gate: List[str], peers: List[List[str]]) -> None:
    """One line: how many replies are the same, also of a kind that the peers aren't measured with."""
    rounds = max(3, KINDS[case.kind].rounds.gate // 100)
    ours, *theirs = Meter(read_replies, 1, 1).measure([gate, *peers], case.session(rounds))
    tell_refusal(case, ours.replies)
    for run in theirs:
        tell_difference(case, ours.replies, run.replies)
    print(case.kind, case.encoding, case.bytes, ours.replies.count(b"\n"), sep="\t", flush=True)


class Run:
    """The cheapest of some runs of a program on a session."""

    def __init__(self) -> None:
        self.cost, self.peak, self.replies = float("inf"), 0.0, b""


class Meter:
    """How a run is measured, how often, and by how much its rounds are fewer."""

    def __init__(self, once: Callable[[List[str], str], Measured], times: int, rounds_by: int):
        self.once, self.times, self.rounds_by = once, times, rounds_by

    def measure(self, programs: List[List[str]], session: bytes) -> List[Run]:
        runs = [Run() for _ in programs]
        with tempfile.NamedTemporaryFile(dir=FOLDER) as lines:
            lines.write(session)
            lines.flush()
            for _ in range(self.times):
                for run, words in zip(runs, programs):
                    cost, run.peak, run.replies = self.once(words, lines.name)
                    run.cost = min(run.cost, cost)
                    if run.replies.count(b"\n") != session.count(b"\n"):
                        sys.exit(f"{words[0]} hasn't a reply for each line")
        return runs


def tell_refusal(case: Case, replies: bytes) -> None:
    """Ends the program where a command was refused: what is measured would be the refusals."""
    for number, reply in enumerate(replies.splitlines(), 1):
        if b'"fault":' in reply:
            sys.exit(f"{case}, reply {number}\ngate: {reply[:200]!r}")


def tell_difference(case: Case, ours: bytes, theirs: bytes) -> None:
    """Ends the program where a peer's replies aren't the first of gate's."""
    if ours.startswith(theirs):
        return
    for line, (our, their) in enumerate(zip(ours.splitlines(), theirs.splitlines())):
        if our != their:
            sys.exit(f"{case}, reply {line + 1}\ngate: {our[:200]!r}\npeer: {their[:200]!r}")
    sys.exit(f"{case}: gate has fewer replies than the peer")


if __name__ == "__main__":
    main()
