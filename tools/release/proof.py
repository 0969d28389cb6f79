"""PROOF.txt: what was proved of a version, by which toolchain and on which premises, so that anyone who has the toolchain can
repeat it and compare."""
import os
import pathlib
from typing import Iterator

import prover
import verdicts
from crates import TOP, below
from release import Refused, Release, sum_of
from mutants import PARTS

NAME = "PROOF.txt"
FIRST = "What was proved of gate "
PROGRAM = "gate"
# What a package for a test says of a crate that `rt ci` took from an earlier run.
EARLIER = "an earlier run on this machine proved it; what the prover printed isn't kept"

REPEAT = f"""\
To repeat it, check out this commit, put the toolchain on PATH, and run at the top of the repository

    tools/package --proof | diff - PROOF.txt

It proves each crate, unless a folder out/ shows that the same sources were proved before. Then it builds the program. A crate's sum
below is that of a list of the sums of its files, in the order of their paths:

    cd crates/CRATE && find {' '.join(PARTS)} -type f | LC_ALL=C sort | xargs sha256sum | sha256sum
"""

PREMISES = """\
The proof has these premises:

- The toolchain: its logic, its prover and the contracts of its libraries. In the lines below `logic-built=trusted`,
  `libraries-built=trusted` and `statements=trusted` say that the logic and the libraries came built with the toolchain, and weren't
  proved again.
- The compiler that makes the program from the proved source, the C library, the kernel and the processor.
- The definitions in crates/*/specs say what the Encoding Standard and LSP say. docs/reference/ lists them.
- Answers are those of the index files and labels that are loaded.

docs/PROMISES.md says what is proved, and what is only tested. The clients in Python, the plugins and the scripts are tested and not
proved. CI, which `.ci/run` repeats, proves all crates from nothing and has the prover reject mutants.
"""


def row(crate: str) -> str:
    """A crate, its sum, and what the prover printed of it."""
    said = verdicts.line_of(crate)
    if said is None and not os.environ.get("GATE_UNCOMMITTED"):
        raise Refused(f"what the prover printed of {crate} wasn't kept: remove crates/*/out/proved and run tools/build")
    if said is not None and prover.why_unproved(said):
        raise Refused(f"{verdicts.place(crate)} isn't the line of a proved crate")
    return f"{crate}\n  sources {verdicts.sources(TOP / 'crates' / crate)}\n  {said or EARLIER}\n"


def lines(release: Release) -> Iterator[str]:
    yield f"{FIRST}{release.version}\n\n"
    yield f"commit     {release.commit}\n"
    yield f"program    {sum_of(release.program)} (SHA-256 of libexec/gate)\n"
    yield f"toolchain  {prover.ask('version')}\n"
    yield f"handles    {pathlib.Path(TOP / 'HANDLES').read_text(encoding='utf-8').strip()}\n\n"
    yield f"{REPEAT}\n{PREMISES}\nThe crates that the program is made of, lowest first:\n\n"
    for crate in [*below(PROGRAM), PROGRAM]:
        yield row(crate)


def text(release: Release) -> str:
    return "".join(lines(release))
