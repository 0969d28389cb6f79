"""Proves crates, each by a command of the prover, in the order of tools/schedule.py, and builds a program of them.

The sources are read once, from a copy. A proved crate's library stays in its folder out/proved, with a sum of all that it
was made from. If that is the same, the crate is not proved again. A check's last line has to be that of a proved crate,
with no handle except those that HANDLES allows (tools/prover.py). Only `rt ci` refuses a crate for its text, or for a
contract that no call can meet."""
import contextlib
import fcntl
import hashlib
import os
import pathlib
import shutil
import signal
import subprocess
import tempfile
from typing import IO, Dict, Iterator, List, NamedTuple

import prover
import verdicts
from crates import TOP, below, libraries, own_libraries
from progress import Progress, say
from rooms import lay_out
from schedule import Schedule, Turn, free, processors
from mutants import PARTS

SECONDS = 120  # that a program has for its session


class Unproved(Exception):
    """Why a crate isn't proved, or what a program does otherwise than its session says."""


class Group:
    """Processes that end with this one, however it ends, and stop and continue with it."""

    def __init__(self) -> None:
        ends, self.held = os.pipe()
        # It reads until this process ends, and then ends all.
        with open(os.devnull, "wb") as none:
            self.guard = subprocess.Popen(["sh", "-c", "read _; kill -9 0"], stdin=ends, stdout=none, stderr=none, preexec_fn=os.setpgrp)
        os.close(ends)
        signal.signal(signal.SIGTSTP, self.pause)

    def pause(self, *_: object) -> None:
        os.killpg(self.guard.pid, signal.SIGSTOP)
        os.kill(self.guard.pid, signal.SIGCONT)
        os.kill(os.getpid(), signal.SIGSTOP)
        os.killpg(self.guard.pid, signal.SIGCONT)

    def start(self, words: List[str], folder: pathlib.Path, said: IO[bytes], nice: int) -> "subprocess.Popen[bytes]":
        """Starts a command, with a priority as low as `nice` says."""

        def join() -> None:
            os.setpgid(0, self.guard.pid)
            os.nice(nice)

        return subprocess.Popen(words, cwd=folder, stdin=subprocess.DEVNULL, stdout=said, stderr=subprocess.STDOUT, preexec_fn=join)

    def end(self) -> None:
        signal.signal(signal.SIGTSTP, signal.SIG_DFL)
        os.killpg(self.guard.pid, signal.SIGKILL)
        self.guard.wait()
        os.close(self.held)


class Check(NamedTuple):
    """A check that runs."""

    turn: Turn
    process: "subprocess.Popen[bytes]"
    said: IO[bytes]

    def text(self) -> str:
        self.said.seek(0)
        return self.said.read().decode(errors="replace")


def library_folder(crate: str) -> pathlib.Path:
    """Where a crate's library is, once it is proved."""
    return TOP / "crates" / crate / "out" / "proved"


def sums(room: pathlib.Path, crates: List[str]) -> Dict[str, str]:
    """A sum for each crate, lowest first, of all that its library is made from."""
    found: Dict[str, str] = {}
    for name in crates:
        made = hashlib.sha256(repr((prover.ask("version"), libraries()[name], [found[it] for it in own_libraries()[name]])).encode())
        for path in sorted(it for part in PARTS for it in (room / "crates" / name / part).rglob("*") if it.is_file()):
            made.update(repr((str(path.relative_to(room)), path.read_bytes())).encode())
        found[name] = made.hexdigest()
    return found


def is_made(crate: str, made_from: str) -> bool:
    """Whether a crate's result exists and was made from this: its library, or the program."""
    out = TOP / "crates" / crate / "out"
    made, found = (out / crate, out / f"{crate}.sum") if prover.is_program(crate) else (library_folder(crate), library_folder(crate) / "sum")
    try:
        return made.exists() and found.read_text(encoding="utf-8") == made_from
    except OSError:
        return False


class Proving:
    """Proves these crates, lowest first, whose sources are laid out in `room`."""

    def __init__(self, room: pathlib.Path, crates: List[str], group: Group) -> None:
        self.room, self.group = room, group
        self.sums = sums(room, crates)
        self.left = [it for it in crates if not is_made(it, self.sums[it])]
        own = own_libraries()
        schedule = lambda work: Schedule({it: own[it] for it in self.left}, work, processors(), free())
        self.progress = Progress(crates, self.left, schedule)
        self.running: Dict[int, Check] = {}
        self.lone: List[str] = []

    def words(self, turn: Turn) -> List[str]:
        crate = turn.crate
        made = prover.words("build", crate, {it: library_folder(it) for it in below(crate)}) + ["--jobs", str(turn.jobs), "--links", f"{crate}="]
        out = self.room / "crates" / crate / "out"
        if prover.is_program(crate):
            out.mkdir(exist_ok=True)
            return [*made, "--toolchain", f"{prover.kit()}/toolchain", "--backend", "llvm", "-o", f"{out / crate}.o"]
        shutil.rmtree(library_folder(crate), ignore_errors=True)
        library_folder(crate).mkdir(parents=True)
        return [*made, "--statements", "-o", f"{library_folder(crate) / crate}.rlib"]

    def begin(self) -> None:
        """Begins all that can begin now."""
        while True:
            turn = self.progress.schedule.next(self.left, [it.turn for it in self.running.values()], self.lone)
            if turn is None:
                return
            said = tempfile.TemporaryFile()
            process = self.group.start(self.words(turn), self.room / "crates" / turn.crate, said, turn.nice)
            self.running[process.pid] = Check(turn, process, said)
            self.left.remove(turn.crate)
            self.progress.begin(turn)

    def end(self, check: Check, status: int) -> None:
        """Looks what came of a check."""
        crate = check.turn.crate
        if os.WIFSIGNALED(status) and os.WTERMSIG(status) == signal.SIGKILL and crate not in self.lone:
            # (most likely for lack of memory)
            self.lone.append(crate)
            self.left.append(crate)
            self.progress.again(crate)
            return
        said = check.text()
        ended = "the prover refuses it" if os.WIFEXITED(status) else f"its check was ended, by signal {os.WTERMSIG(status)}"
        why = prover.why_unproved(said) if status == 0 else ended
        if why:
            raise Unproved(f"{said}\ngate: {crate} is not proved: {why}\n")
        verdicts.keep(crate, self.room / "crates" / crate, said)
        if not prover.is_program(crate):
            (library_folder(crate) / "sum").write_text(self.sums[crate], encoding="utf-8")
        self.progress.end(crate)

    def run(self) -> None:
        self.begin()
        while self.running:
            number, status, _ = os.wait3(0)
            check = self.running.pop(number, None)
            if check:
                # (which it can't ask for any more)
                check.process.returncode = status
                self.end(check, status)
                self.begin()


def prove(crates: List[str]) -> List[str]:
    """Proves these crates, lowest first, those of them that aren't proved as they are; says why one isn't, and returns those."""
    with tempfile.TemporaryDirectory(prefix="gate-build-") as made:
        room, group = pathlib.Path(made), Group()
        try:
            lay_out(room, crates)
            proving = Proving(room, crates, group)
            proving.run()
        except Unproved as why:
            print(why, end="", flush=True)
        finally:
            group.end()
        return [it for it in crates if not is_made(it, proving.sums[it])]


def play(room: pathlib.Path, program: str) -> None:
    """Links a program that is proved, and holds it to its session."""
    crate, kit = room / "crates" / program, prover.kit()
    words = [f"{kit}/bin/rattle-link", "--target", "x86_64-unknown-linux-gnu", "--toolchain", f"{kit}/toolchain", "-o", f"out/{program}"]
    words += [f"out/{program}.o", f"{kit}/c/libos_c.a", f"{kit}/c/liblibc_c.a"]
    linked = subprocess.run(words, cwd=crate, stdout=subprocess.PIPE, stderr=subprocess.STDOUT, check=False)
    if linked.returncode:
        raise Unproved(f"{linked.stdout.decode(errors='replace')}\ngate: {program} is proved, but can't be linked\n")
    streams = {it: (crate / it).read_bytes() if (crate / it).exists() else b"" for it in ("stdin", "stdout")}
    try:
        ran = subprocess.run([crate / "out" / program], input=streams["stdin"], cwd=crate / "out", stdout=subprocess.PIPE, timeout=SECONDS, check=False)
    except subprocess.TimeoutExpired:
        raise Unproved(f"gate: {program} is proved, but its session hadn't ended after {SECONDS} seconds\n") from None
    if (ran.returncode, ran.stdout) != (0, streams["stdout"]):
        raise Unproved(f"gate: {program} is proved, but as it was compiled it replies otherwise than its session says\n")


@contextlib.contextmanager
def alone() -> Iterator[None]:
    """Waits until no other is proving in this repository, and keeps others out."""
    folder = TOP / "crates" / "gate" / "out"
    folder.mkdir(parents=True, exist_ok=True)
    with open(folder / "proving", "wb") as held:
        try:
            fcntl.flock(held, fcntl.LOCK_EX | fcntl.LOCK_NB)
        except BlockingIOError:
            say("another build is running here; this waits until it has ended")
            fcntl.flock(held, fcntl.LOCK_EX)
        yield
