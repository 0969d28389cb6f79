"""Attacks the program as it was built, from outside: hostile words, files, streams, lines, traces and peers.

    python3 tests/hostile [PROGRAM] [--connections N]

PROGRAM is crates/gate/out/gate where it isn't given. Each row of the tables beside this file says what is sent and
what has to come, by docs/PROTOCOL.md and docs/gate.1: the status, the replies to the byte, the text on standard error, and that the
documents of the other lines are as they were. A line a case, and last 'N passed, M failed'; the status is 1 where a
case failed. Takes less than a minute."""
import argparse
import itertools
import os
import sys

sys.dont_write_bytecode = True  # (the tables below leave nothing behind in the repository)

import files
import lines
import peers
import streams
import traces
import words
from program import Folder, Gate

TOP = os.path.dirname(os.path.dirname(os.path.dirname(os.path.realpath(__file__))))


def arguments():
    parser = argparse.ArgumentParser(prog="hostile", description=__doc__.split("\n")[0])
    parser.add_argument("program", nargs="?", default=os.path.join(TOP, "crates", "gate", "out", "gate"))
    parser.add_argument("--connections", type=int, default=10000, help="how many connections are made one after another (%(default)s)")
    given = parser.parse_args()
    if not os.access(given.program, os.X_OK):
        parser.error(f"there is no program {given.program}; 'tools/build' builds it")
    if given.connections < peers.WARM + 2:
        parser.error(f"--connections takes a number above {peers.WARM + 1}")
    return given


def cut(value):
    """The value as a text that fits on a line."""
    text = repr(value)
    return text if len(text) <= 300 else f"{text[:150]} .. {text[-150:]}"


def passes(case):
    """Tries one case, and prints its line."""
    try:
        came = case.call()
    except Exception as error:  # one that can't be tried fails, and the others go on
        came = error
    if came == case.wanted:
        print(f"ok      {case.name}", flush=True)
        return True
    print(f"FAILED  {case.name}: {cut(came)} came, {cut(case.wanted)} was wanted", flush=True)
    return False


def main():
    given = arguments()
    with Folder() as empty:
        gate = Gate(os.path.abspath(given.program), empty.path)
        tables = [it.cases(gate) for it in (words, files, streams, lines, traces)]
        tried = [passes(it) for it in itertools.chain(*tables, peers.cases(gate, given.connections))]
    failed = tried.count(False)
    print(f"{len(tried) - failed} passed, {failed} failed")
    return 1 if failed else 0


if __name__ == "__main__":
    sys.exit(main())
