"""Files that are too large for a document of `gate`, converted by its command `convert`, in constant memory."""
import json
import os
import subprocess
import tempfile
from typing import Any, Dict, List, NamedTuple

from legacy.finding import Found
from legacy.work.reading import Refusal

# The bytes that are compared at a time.
BLOCK = 1 << 20


class Conversion(NamedTuple):
    """The labels of the encoding that is read and of the one that is written, the mode of `gate convert`, and whether a byte order
    mark is text."""

    label: str
    to: str
    mode: str = "fatal"
    keep_mark: bool = False


def convert(found: Found, how: Conversion, source: int, target: int) -> None:
    """Writes the file with the descriptor `source` in another encoding to `target`. Raises `Refusal` if it can't be converted, with
    the place of what is wrong."""
    with tempfile.TemporaryFile() as said:
        status = subprocess.run(_arguments(found, how), stdin=source, stdout=target, stderr=said).returncode
        said.seek(0)
        _look_at(status, said.read())


def check(found: Found, label: str, source: int) -> Dict[str, Any]:
    """What `gate check` says of the file with the descriptor `source`, starting at its first byte."""
    os.lseek(source, 0, os.SEEK_SET)
    labels = ["--labels", str(found.labels)] if found.labels else []
    words = [found.gate, "check", "--indexes", str(found.indexes), *labels, "--from", label, "--errors", "1"]
    ran = subprocess.run(words, stdin=source, stdout=subprocess.PIPE, stderr=subprocess.PIPE)
    # (with errors the status is 1, as if it failed, but a failure says so)
    if ran.stderr or not ran.stdout:
        _look_at(ran.returncode or 1, ran.stderr)
    row: Dict[str, Any] = json.loads(ran.stdout)
    return row


def look_for_errors(found: Found, label: str, keep_mark: bool, source: int) -> None:
    """Raises `Refusal` with the place of the first decoding error of a file, if it has one."""
    null = os.open(os.devnull, os.O_WRONLY | os.O_CLOEXEC)
    try:
        convert(found, Conversion(label, "utf-8", keep_mark=keep_mark), source, null)
    finally:
        os.close(null)


def first_difference(found: Found, how: Conversion, source: int, wanted: int) -> int:
    """The first byte at which a file in another encoding differs from a second file, -1 if it doesn't. A file that can't be
    converted ends before it."""
    at = 0
    with subprocess.Popen(_arguments(found, how), stdin=source, stdout=subprocess.PIPE, stderr=subprocess.DEVNULL) as program:
        assert program.stdout
        while True:
            new = program.stdout.read(BLOCK)
            old = os.pread(wanted, max(len(new), 1), at)
            if new != old:
                program.kill()
                return at + next((at for at, (one, other) in enumerate(zip(old, new)) if one != other), min(len(old), len(new)))
            if not new:
                return -1
            at += len(new)


def _arguments(found: Found, how: Conversion) -> List[str]:
    labels = ["--labels", str(found.labels)] if found.labels else []
    kept = ["--keep-mark"] if how.keep_mark else []
    names = ["--from", how.label, "--to", how.to, "--mode", how.mode]
    return [found.gate, "convert", "--indexes", str(found.indexes), *labels, *names, *kept]


def _look_at(status: int, said: bytes) -> None:
    if status:
        lines = said.decode(errors="replace").splitlines() or [f"gate ended with status {status}"]
        raise Refusal(lines[0][len("gate: ") :] if lines[0].startswith("gate: ") else lines[0])
