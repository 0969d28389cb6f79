"""A repository of some crates alone, without their mutants and controls, what CI's judge, `rt ci`, reports, and the program that is made there."""
import os
import pathlib
import re
import shutil
import subprocess
from typing import Iterator, List, Optional

from crates import TOP, libraries
from mutants import CONTROLS

# What the judge says of a crate that it is done with.
PROVED = re.compile(rb"rt: (\w+) (?:proved|is kept: )")


def lay_out(room: pathlib.Path, crates: List[str]) -> None:
    """Lays a repository of these crates alone into the folder."""
    # (which has to be the top of one)
    (room / ".git").mkdir()
    named = libraries()
    (room / "crates.txt").write_text("".join(f"{it}: {' '.join(named[it])}\n" for it in crates), encoding="utf-8")
    shutil.copyfile(TOP / "HANDLES", room / "HANDLES")
    for name in crates:
        shutil.copytree(TOP / "crates" / name, room / "crates" / name, ignore=shutil.ignore_patterns("out", "must-fail", CONTROLS))


def proved_crate(line: bytes) -> Optional[str]:
    """The crate that a line of the judge says is proved, now or, by a kit that keeps proofs between runs, before."""
    found = PROVED.match(line)
    return found[1].decode() if found else None


class Judge:
    """`rt ci` over such a repository: the lines that it says, and its status once these have ended."""

    def __init__(self, room: pathlib.Path) -> None:
        self.room = room
        self.status = 0

    def lines(self) -> Iterator[bytes]:
        with subprocess.Popen(["rt", "ci"], cwd=self.room, stdin=subprocess.DEVNULL, stdout=subprocess.PIPE, stderr=subprocess.STDOUT) as judge:
            assert judge.stdout
            try:
                yield from judge.stdout
            except BaseException:
                judge.terminate()
                raise
        self.status = judge.returncode


def take(room: pathlib.Path, program: str, began: float, made_from: str = "") -> None:
    """Puts a program in its folder `out`, as a whole, even if the previous one is running. It adds a sum of what the
    program was made from, and the time at which that was copied."""
    out = TOP / "crates" / program / "out"
    out.mkdir(exist_ok=True)
    (out / f"{program}.sum").unlink(missing_ok=True)
    shutil.copy(room / "crates" / program / "out" / program, out / f"{program}.new")
    os.replace(out / f"{program}.new", out / program)
    (out / f"{program}.sum").write_text(made_from, encoding="utf-8")
    ready(program, began)


def ready(program: str, since: float) -> None:
    """Notes that the program is that of the sources that were there at this time."""
    file = TOP / "crates" / program / "out" / f"{program}.ready"
    file.touch()
    os.utime(file, (since, since))
