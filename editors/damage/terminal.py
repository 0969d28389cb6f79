"""Plays keys into a program that wants a terminal, as a person would who looks at the screen before each key."""
import fcntl
import os
import pty
import re
import select
import struct
import subprocess
import termios
import time
from typing import Mapping, Sequence, Tuple

# The terminal's lines and columns, which hold each of the files.
SIZE = (60, 150)
# The seconds after which a screen that shows nothing new is taken for complete, and those that a text is waited for.
QUIET, PATIENCE = 0.15, 20.0

# An expression for what the screen is to show before keys are sent, and these keys.
Step = Tuple[str, str]


class Silent(Exception):
    """A program doesn't show what was waited for, or doesn't end."""


def play(words: Sequence[str], steps: Sequence[Step], environment: Mapping[str, str], folder: str) -> None:
    """Runs the program in a terminal of its own, sends the keys of each step, and waits for its end."""
    master, slave = pty.openpty()
    fcntl.ioctl(slave, termios.TIOCSWINSZ, struct.pack("HHHH", *SIZE, 0, 0))
    program = subprocess.Popen(
        words, stdin=slave, stdout=slave, stderr=slave, env=environment, cwd=folder, start_new_session=True,
        preexec_fn=lambda: fcntl.ioctl(0, termios.TIOCSCTTY, 0))
    os.close(slave)
    try:
        for shown, keys in steps:
            _wait(master, shown)
            os.write(master, keys.encode())
        _until_end(master, program)
    finally:
        program.kill()
        program.wait()
        os.close(master)


def _read(master: int, seconds: float) -> bytes:
    """What the program writes within this time, or nothing."""
    if not select.select([master], [], [], seconds)[0]:
        return b""
    try:
        return os.read(master, 1 << 16)
    except OSError:  # (the program has ended)
        return b""


def _wait(master: int, shown: str) -> None:
    """Waits until the program has written this, and is quiet."""
    until, seen, quiet = time.monotonic() + PATIENCE, b"", False
    while not quiet or not re.search(shown.encode(), seen):
        more = _read(master, QUIET)
        quiet = not more
        seen += more
        if time.monotonic() > until:
            raise Silent(f"{shown!r} isn't shown; the last was {seen[-300:]!r}")


def _until_end(master: int, program: "subprocess.Popen[bytes]") -> None:
    until = time.monotonic() + PATIENCE
    while program.poll() is None:
        _read(master, QUIET)
        if time.monotonic() > until:
            raise Silent("the program doesn't end")
