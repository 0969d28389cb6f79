"""The program compiled without a proof, which takes a minute, and kept until one of its sources changes.

`rt try` compiles it, with checks that stop it at an index out of bounds, an overflow and the like, and runs it. So it is run
with words that have it wait, and copied while it does, with what starts it."""
import contextlib
import fcntl
import hashlib
import os
import pathlib
import shlex
import shutil
import subprocess
import tempfile
import time
from typing import IO, Callable, Iterator, List, Optional

import prover
from crates import TOP, below

NAME = "gate"
# Where it is put: what starts it, the program itself, a sum of what it was made from.
PLACE = TOP / "crates" / NAME / "out" / "unproved"
PROGRAM = PLACE / NAME
# The seconds that it may take on a machine that has much else to do.
PATIENCE = 1800


class Uncompiled(Exception):
    """Why there is no program."""


def sum_of_sources() -> str:
    made = hashlib.sha256(repr((prover.ask("version"), (TOP / "crates.txt").read_bytes())).encode())
    for crate in [*below(NAME), NAME]:
        for path in sorted(it for it in (TOP / "crates" / crate / "src").rglob("*") if it.is_file()):
            made.update(repr((str(path.relative_to(TOP)), path.read_bytes())).encode())
    return made.hexdigest()


def is_compiled(made_from: str) -> bool:
    try:
        return PROGRAM.exists() and (PLACE / "program").exists() and (PLACE / "sum").read_text(encoding="utf-8") == made_from
    except OSError:
        return False


def starter(words: List[str]) -> Optional[List[str]]:
    """The arguments before these by which a process runs, if one runs by a file of its own."""
    for place in pathlib.Path("/proc").glob("[0-9]*"):
        try:
            found = (place / "cmdline").read_bytes().decode(errors="replace").split("\0")[:-1]
        except OSError:
            continue
        before = found[: -len(words)]
        # (rt itself has the same arguments, after one of its own)
        if found[-len(words) :] == words and before and os.path.isfile(before[-1]):
            return before
    return None


def keep(before: List[str], made_from: str) -> None:
    """Copies the program of a process that this command started, and writes what starts the copy."""
    PLACE.mkdir(parents=True, exist_ok=True)
    (PLACE / "sum").unlink(missing_ok=True)
    shutil.copy(before[-1], PLACE / "program.new")
    os.replace(PLACE / "program.new", PLACE / "program")
    line = " ".join(map(shlex.quote, [*before[:-1], str(PLACE / "program")]))
    (PLACE / "gate.new").write_text(f'#!/bin/sh\nexec {line} "$@"\n', encoding="utf-8")
    (PLACE / "gate.new").chmod(0o755)
    os.replace(PLACE / "gate.new", PROGRAM)
    (PLACE / "sum").write_text(made_from, encoding="utf-8")


@contextlib.contextmanager
def trial(words: List[str], said: IO[bytes]) -> Iterator["subprocess.Popen[bytes]"]:
    """Runs `rt try` with these arguments, and ends it."""
    command = ["rt", "try", "--seconds", str(PATIENCE), "--", *words]
    with subprocess.Popen(command, cwd=TOP / "crates" / NAME, stdin=subprocess.DEVNULL, stdout=said, stderr=subprocess.STDOUT) as run:
        try:
            yield run
        finally:
            run.terminate()


def compile_anew(made_from: str) -> None:
    with tempfile.TemporaryDirectory(prefix="gate-", dir="/tmp") as folder, tempfile.TemporaryFile() as said:
        # (a path that no other process has among its words)
        words, end = ["serve", "--indexes", folder, "--socket", f"{folder}/socket"], time.monotonic() + PATIENCE
        with trial(words, said) as run:
            while run.poll() is None and time.monotonic() < end:
                before = starter(words)
                if before:
                    keep(before, made_from)
                    return
                time.sleep(0.2)
        said.seek(0)
        raise Uncompiled(said.read().decode(errors="replace").rstrip("\n"))


def program(tell: Callable[[str], None]) -> pathlib.Path:
    """What starts the program, which is compiled first if a source has changed since it was; that is told."""
    made_from = sum_of_sources()
    if not is_compiled(made_from):
        PLACE.mkdir(parents=True, exist_ok=True)
        with open(PLACE / "lock", "wb") as held:
            # (another may be compiling)
            fcntl.flock(held, fcntl.LOCK_EX)
            if not is_compiled(made_from):
                tell("compiling without a proof, for a minute or so; ./gate is the proved program")
                compile_anew(made_from)
    return PROGRAM
