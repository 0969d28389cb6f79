"""The program with a record, as tests start and stop it, and clients that edit until they are to rest."""
import contextlib
import functools
import multiprocessing
import os
import pathlib
import random
import resource
import signal
import socket
import subprocess
import sys
import tempfile
import time
import unittest
from typing import NamedTuple

from program import PROGRAM, SMALL, TOP, with_first_stack
from base import LIMIT

sys.path += [str(TOP / "clients"), str(TOP / "tests" / "clients")]
from gate import Conflict, Fault, Gate, Unsure  # noqa: E402


def has(word):
    """Whether the program takes a word of `gate serve`."""
    if not os.access(PROGRAM, os.X_OK):
        return False
    return word in subprocess.run([PROGRAM, "serve", "--help"], stdout=subprocess.PIPE).stdout.decode()


recording = unittest.skipUnless(has("--resume"), f"{PROGRAM} isn't there, or keeps no record")

# The documents that clients edit, by their encodings, what Python calls each, and a character of it that the small index
# files have.
DOCUMENTS = [
    ("utf-8", "utf-8", "あ"), ("shift_jis", "shift_jis", "あ"), ("iso-2022-jp", "iso2022_jp", "あ"), ("utf-16le", "utf-16-le", "😀"),
    ("windows-1252", "cp1252", "»"),
]
# What may be refused of what an author does at random.
REFUSALS = ("OutOfMemory", "Stale", "NotKept", "SplitsItem", "SplitsCharacter", "OutOfRange")
# The bytes that a document has at most, about, and the seconds that a client thinks at most between two edits.
LARGE, THINKING = 4_000, 0.002


# The bytes that a disk has room for, in whole pages.
DISK = 64 * resource.getpagesize()


class Made(NamedTuple):
    """An edit that a client knows to be made: which revision of a document it made, where, and of which bytes which."""

    name: str
    rev: int
    at: int
    old: bytes
    new: bytes

    def made_in(self, content):
        """The bytes that it leads to from others; None where these don't have what it took out."""
        end = self.at + len(self.old)
        return content[: self.at] + self.new + content[end:] if content[self.at : end] == self.old else None


class Told(NamedTuple):
    """What a client tells in the end: the edits that it knows to be made, those that may have been, since others edited the
    same bytes behind them, how many were refused for want of memory, how many met another's, and, by the documents' names,
    its copies with their revisions."""

    made: list
    unsure: list
    refused: int
    met: int
    copies: dict


class Author:
    """A client that edits documents at random. What it puts in nobody else does, so that each edit shows whose it is."""

    def __init__(self, gate, number, documents, changes):
        self.rng, self.name, self.changes = random.Random(number), f"{number}", changes
        self.documents = [(gate.join(label), character) for label, _, character in DOCUMENTS if label in documents]
        self.made, self.unsure, self.refused, self.met, self.count = [], [], 0, 0, 0

    def step(self):
        document, character = self.rng.choice(self.documents)
        time.sleep(self.rng.random() * THINKING)
        try:
            if self.rng.random() < 0.7:
                document.catch_up()
            self.tried(document, lambda: self.edit(document, character))
        except Fault as fault:
            assert fault.name in REFUSALS, fault
            self.refused += fault.name == "OutOfMemory"

    def tried(self, document, call):
        """Does what may be lost, or meet another's edit."""
        rev = document.rev
        try:
            call()
        except Conflict as fault:
            self.met += 1
            if fault.unsure or fault.theirs.anew:
                self.unsure += [Made(document.name, it, fault.mine.at, fault.mine.old, fault.mine.new) for it in range(rev + 1, document.rev + 1)]
        except Unsure:
            # (there was no memory to look)
            time.sleep(0.01)
            self.tried(document, lambda: self.note(document, document.find_out()))

    def edit(self, document, character):
        """Puts a mark in, in place of some bytes where there are many."""
        self.count += 1
        mark = f"{self.name}.{self.count};"
        if self.changes and self.rng.random() < 0.3:
            place = self.rng.randint(0, 3), self.rng.randint(0, 60)
            edit = document.change(mark + character + "\n"[: self.rng.random() < 0.1], place)
        else:
            at = self.rng.randint(0, len(document.bytes))
            count = min(self.rng.choice([0, 0, 1, 2, LARGE // 2 if len(document.bytes) > LARGE else 3]), len(document.bytes) - at)
            edit = document.splice(at, count, mark.encode())
        self.note(document, edit)

    def note(self, document, edit):
        if edit:
            self.made.append(Made(document.name, document.rev, edit.at, edit.old, edit.new))

    def told(self):
        copies = {}
        for document, _ in self.documents:
            while document.catch_up():
                pass
            copies[document.name] = document.rev, document.bytes
        return Told(self.made, self.unsure, self.refused, self.met, copies)


def write(path, number, documents, changes, over, all_rest, said):
    """A process that edits until it is to end, and says what it knows once all do."""
    with Gate.connect(path=path, patience=LIMIT, again=LIMIT) as gate:
        author = Author(gate, number, documents, changes)
        said.send(None)
        while not over.is_set():
            author.step()
        all_rest.wait(LIMIT)
        said.send(author.told())


class Authors:
    """Processes that edit documents at a socket, and tell in the end what they know."""

    def __init__(self, path, count, documents, changes=True):
        self._over, all_rest = multiprocessing.Event(), multiprocessing.Barrier(count)
        self._told = []
        self._processes = []
        for number in range(count):
            told, said = multiprocessing.Pipe(duplex=False)
            words = (path, number, documents, changes, self._over, all_rest, said)
            self._processes.append(multiprocessing.Process(target=write, args=words, daemon=True))
            self._told.append(told)
            self._processes[-1].start()
            said.close()
        self._next()

    def _next(self):
        """What each says next."""
        assert all(it.poll(LIMIT) for it in self._told), "an author says nothing"
        return [it.recv() for it in self._told]

    def told(self):
        """Ends them."""
        self._over.set()
        return self._next()

    def stop(self):
        for it in self._processes:
            it.kill()
            it.join()


class Recorder:
    """The program as it serves at a socket, with a record that it resumes wherever it is started."""

    def __init__(self, path, record, *words, limits=None):
        self.path, self.record, self.words, self.limits = path, record, words, limits
        self.process = None

    def start(self):
        words = ["serve", "--indexes", str(TOP / "examples" / "indexes"), "--socket", self.path, "--resume", str(self.record), *self.words]
        pipes = {"stdin": subprocess.DEVNULL, "stdout": subprocess.DEVNULL, "stderr": subprocess.PIPE}
        self.process = subprocess.Popen([PROGRAM, *words], preexec_fn=self.limits, **pipes)

    def ended(self):
        """Waits until it has ended: its status, and what it wrote."""
        _, error = self.process.communicate(timeout=LIMIT)
        return self.process.returncode, error.decode()

    def kill(self):
        if self.process:
            self.process.kill()
            self.process.wait()
            self.process.stderr.close()

    def kill_once_grown(self, grown, seconds):
        """Kills it `seconds` behind the moment at which its record has grown by `grown` bytes. It mustn't have ended by
        itself."""
        begun, end = self.size(), time.monotonic() + LIMIT
        while self.size() < begun + grown and self.process.poll() is None:
            assert time.monotonic() < end, "nothing is recorded"
            time.sleep(0.001)
            # (it may have become shorter while it began)
            begun = min(begun, self.size())
        time.sleep(seconds)
        assert self.process.poll() is None, self.ended()
        self.kill()

    def killed(self, grown, seconds):
        """The same, and starts it again."""
        self.kill_once_grown(grown, seconds)
        self.start()

    def listens(self):
        """Whether somebody listens where it does."""
        with socket.socket(socket.AF_UNIX) as peer, contextlib.suppress(OSError):
            peer.connect(self.path)
            return True
        return False

    def size(self):
        return os.path.getsize(self.record) if os.path.exists(self.record) else 0


class Kept(unittest.TestCase):
    """Tests of a record that the program writes by its standard streams."""

    def setUp(self):
        kept = tempfile.TemporaryDirectory()
        self.addCleanup(kept.cleanup)
        self.folder = pathlib.Path(kept.name)
        self.record = self.folder / "record"

    def ran(self, *words, lines=b"", status=0, **how):
        """What it writes to standard output, or, where another status is wanted, to standard error; on the stack that it has
        at its start."""
        how.setdefault("preexec_fn", with_first_stack)
        ran = subprocess.run([PROGRAM, *SMALL, *words], input=lines, stdout=subprocess.PIPE, stderr=subprocess.PIPE, **how)
        self.assertEqual(ran.returncode, status, ran.stderr)
        return ran.stdout if status == 0 else ran.stderr.decode()

    def recorded(self, word, lines, *words):
        """The replies to lines that are recorded."""
        return self.ran(word, str(self.record), *words, lines=lines)

    def played(self):
        """What playing the record prints, without the number of the connection."""
        ran = subprocess.run([PROGRAM, "trace", *SMALL[1:]], input=self.record.read_bytes(), stdout=subprocess.PIPE, check=True)
        return b"".join(it.partition(b" ")[2] + b"\n" for it in ran.stdout.splitlines())


def random_bytes(seed, count):
    """The bytes of a seed, any of all."""
    return random.Random(seed).getrandbits(8 * count).to_bytes(count, "little")


@functools.lru_cache(maxsize=None)
def first_line():
    """The first line of a record that is written with the small index files and without labels."""
    with tempfile.TemporaryDirectory() as folder:
        record = pathlib.Path(folder) / "record"
        subprocess.run([PROGRAM, *SMALL, "--record", str(record)], stdin=subprocess.DEVNULL, check=True)
        return record.read_bytes().splitlines(keepends=True)[0]


def lengthen(record, length):
    """Makes a record this many bytes long, by a line that says nothing."""
    with open(record, "ab") as file:
        if not file.tell():
            file.write(first_line())
        file.write(b"#" * (length - file.tell() - 1) + b"\n")


def a_small_disk(test, folder, room=DISK):
    """A folder that is a disk of its own, with room for these bytes, as long as a test runs."""
    disk = folder / "disk"
    disk.mkdir()
    mounted = subprocess.run(["mount", "-t", "tmpfs", "-o", f"size={room}", "tmpfs", str(disk)], stderr=subprocess.PIPE)
    if mounted.returncode:
        test.skipTest("this user can't mount a disk")
    test.addCleanup(subprocess.run, ["umount", "-l", str(disk)], check=True)
    return disk


def with_a_small_file():
    """What a process does so that it can write no large file, and isn't ended by a signal where it tries."""
    signal.signal(signal.SIGXFSZ, signal.SIG_IGN)
    resource.setrlimit(resource.RLIMIT_FSIZE, (DISK, DISK))
