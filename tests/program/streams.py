"""Streams that look random, in all 40 encodings, and streams that fail: for tests of the commands that read them."""
import contextlib
import ctypes
import functools
import json
import os
import pathlib
import resource
import shutil
import subprocess
import tempfile

from drawing import MARKS, OWN
from program import PROGRAM, TOP, with_first_stack
from base import LIMIT, UNPROVED

INDEXES = ("--indexes", str(TOP / "examples" / "indexes"))

# The encodings whose index files aren't among the small ones, but for windows-1252.
SINGLE = [
    *("IBM866", "ISO-8859-2", "ISO-8859-3", "ISO-8859-4", "ISO-8859-5", "ISO-8859-6", "ISO-8859-7", "ISO-8859-8", "ISO-8859-10"),
    *("ISO-8859-13", "ISO-8859-14", "ISO-8859-15", "ISO-8859-16", "KOI8-R", "KOI8-U", "macintosh", "windows-874", "windows-1250"),
    *("windows-1251", "windows-1253", "windows-1254", "windows-1255", "windows-1256", "windows-1257", "windows-1258", "x-mac-cyrillic"),
]
ALL = [*OWN, *SINGLE, "ISO-8859-8-I", "GBK", "x-user-defined"]

# The index files that an encoding needs, if not one of its own name (Encoding Standard, "Indexes").
FILES = {
    "Shift_JIS": ["jis0208"], "EUC-JP": ["jis0208", "jis0212"], "ISO-2022-JP": ["jis0208", "iso-2022-jp-katakana"],
    **dict.fromkeys(("gb18030", "GBK"), ["gb18030", "gb18030-ranges"]), "ISO-8859-8-I": ["iso-8859-8"],
    **dict.fromkeys(("UTF-8", "UTF-16BE", "UTF-16LE", "replacement", "x-user-defined"), []),
}

# Documents in each encoding, and bytes of the long stream: a few, but as many as are wanted where somebody waits for it.
DOCUMENTS = int(os.environ.get("GATE_STREAM_DOCUMENTS", "1" if UNPROVED else "8"))
LONG = int(os.environ.get("GATE_STREAM_BYTES", str(4 << 20 if UNPROVED else 64 << 20)))
# How many bytes the program reads at once.
PART = 4096


def run(command, words, content, **more):
    """What a command of the program writes and says of a stream, and its status."""
    return subprocess.run([PROGRAM, command, *words], input=content, stdout=subprocess.PIPE, stderr=subprocess.PIPE, timeout=LIMIT,
                          preexec_fn=with_first_stack, **more)


def outcome(ran):
    """A status, what was written, and what was said."""
    return ran.returncode, ran.stdout, ran.stderr.decode()


@functools.lru_cache(None)
def all_indexes():
    """A folder with index files of all encodings: the small ones, and of the others some that are made up."""
    folder = tempfile.TemporaryDirectory(prefix="indexes-")
    for path in (TOP / "examples" / "indexes").iterdir():
        shutil.copy(path, folder.name)
    for number, name in enumerate(SINGLE):
        rows = (f"{pointer}\t0x{0x100 + 128 * number + pointer:04X}\n" for pointer in range(128) if pointer % 9)
        (pathlib.Path(folder.name) / f"index-{name.lower()}.txt").write_text("".join(rows), encoding="ascii")
    return folder


@contextlib.contextmanager
def files_of(*encodings):
    """A folder with the files of these encodings, in which those of all others can't be read."""
    needed = {f"index-{name}.txt" for it in encodings for name in FILES.get(it, [it.lower()])}
    if {"gb18030", "GBK"} & set(encodings):
        needed.add("gb18030-exceptions.txt")
    with tempfile.TemporaryDirectory(prefix="indexes-") as folder:
        for path in pathlib.Path(all_indexes().name).iterdir():
            if path.name in needed:
                shutil.copy(path, folder)
            else:
                (pathlib.Path(folder) / path.name).mkdir()
        yield pathlib.Path(folder)


def without_each(folder):
    """The folder without each of its index files in turn."""
    for path in sorted(folder.glob("index-*.txt")):
        if path.is_file():
            path.rename(folder / "away")
            yield path.name
            (folder / "away").rename(path)


def asked(commands):
    """The replies to commands."""
    words = [PROGRAM, "stdio", "--indexes", all_indexes().name]
    lines = "".join(json.dumps({"id": at, **it}) + "\n" for at, it in enumerate(commands))
    ran = subprocess.run(words, input=lines.encode(), stdout=subprocess.PIPE, check=True)
    return [json.loads(line) for line in ran.stdout.decode().splitlines()]


def parts_of(encoding):
    """What documents of an encoding are made of."""
    return OWN.get(encoding) or [bytes([0x80 + 7 * it % 128]) for it in range(20)] + [b"words", b"\r", b"\r\n"]


def document(rng, encoding):
    """A document of a bit more than one, two or three parts of a stream, with faults around the places where it is cut."""
    faults = b"".join(rng.choice(parts_of(encoding)) for _ in range(40))
    clean = b"".join(it for it in parts_of(encoding) if it.isascii() and it.isalpha()) or b"words"
    made = bytearray(rng.choice(MARKS) if rng.randrange(4) == 0 else b"")
    while len(made) < rng.choice([1, 2, 3]) * PART + rng.randrange(-6, 20):
        left = PART - len(made) % PART
        made += (clean * (left // len(clean) + 1))[: left - 8] if left > 16 and rng.randrange(4) else faults[rng.randrange(len(faults)) :][:24]
    return bytes(made)


class Mapped:
    """A file that has some bytes, and of which a read behind these fails: a page of memory that no other page follows."""

    def __init__(self, content):
        library = ctypes.CDLL(None, use_errno=True)
        library.mmap.restype = ctypes.c_void_p
        library.mmap.argtypes = [ctypes.c_void_p, ctypes.c_size_t, ctypes.c_int, ctypes.c_int, ctypes.c_int, ctypes.c_long]
        library.munmap.argtypes = [ctypes.c_void_p, ctypes.c_size_t]
        size = resource.getpagesize()
        count = -(-len(content) // size) * size
        there = library.mmap(None, count + size, 3, 0x22, -1, 0)
        library.munmap(there + count, size)
        ctypes.memmove(there + count - len(content), content, len(content))
        self.file = open("/proc/self/mem", "rb", buffering=0)
        self.file.seek(there + count - len(content))
