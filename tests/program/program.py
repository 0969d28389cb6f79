"""How the tests here play commands on the program (tests/base.py says which)."""
import pathlib
import resource
import subprocess
import sys
import unittest

sys.path.insert(0, str(pathlib.Path(__file__).resolve().parent.parent))
from base import BUILT, PROGRAM, TOP, UNPROVED

built = BUILT

# How many bytes of stack Linux gives a process at its start. It may refuse more where memory has run out, which ends the
# process by a signal; so the program has to do with these.
STACK = 128 * 1024

# How many code points of commands are under way at most, four bytes each: a pipe has room for them, so that the program and
# who writes to it don't wait for one another.
UNDER_WAY = 16 * 1024

# The words by which the program serves the standard streams over small index files.
SMALL = ("stdio", "--indexes", str(TOP / "examples" / "indexes"))


def cut(line):
    """The line, or its ends where it is long."""
    return line if len(line) <= 400 else f"{line[:200]} .. {line[-200:]}"


def with_first_stack():
    """What a process does before it becomes the program, so that its stack doesn't grow; with checks in it it has to."""
    if not UNPROVED:
        resource.setrlimit(resource.RLIMIT_STACK, (STACK, STACK))


class Played(unittest.TestCase):
    """Tests by what the program replies."""

    def plays(self, rows, *words):
        """The program, started anew, answers the commands as listed, to the byte, on the stack that it has at its start. A
        row is a command and its reply, neither with its LF."""
        lines = "".join(command + "\n" for command, _ in rows)
        ran = subprocess.run(
            [PROGRAM, *(words or SMALL)],
            input=lines.encode(),
            stdout=subprocess.PIPE,
            stderr=subprocess.PIPE,
            preexec_fn=with_first_stack,
        )
        self.assertEqual((ran.returncode, ran.stderr), (0, b""))
        *replies, rest = ran.stdout.decode().split("\n")
        for (command, wanted), reply in zip(rows, replies):
            if reply != wanted:
                self.fail(f"{cut(command)}\nis answered by {cut(reply)}\ninstead of     {cut(wanted)}")
        self.assertEqual((len(replies), rest), (len(rows), ""))


class Session:
    """The program, started anew, and commands to it, each with the reply that it has to have, to the byte. They are sent many at
    a time. Commands and replies are without their LF."""

    def __init__(self):
        self.program = subprocess.Popen([PROGRAM, *SMALL], stdin=subprocess.PIPE, stdout=subprocess.PIPE)
        self.rows, self.size = [], 0

    def __enter__(self):
        return self

    def __exit__(self, kind, *_):
        try:
            if kind is None:
                self.compare()
        finally:
            rest, _ = self.program.communicate()
        if kind is None and (self.program.returncode, rest) != (0, b""):
            raise AssertionError(f"the program ended with {self.program.returncode}, and {rest} behind its replies")

    def ask(self, command, reply):
        if self.size + len(command) > UNDER_WAY:
            self.compare()
        self.rows.append((command, reply))
        self.size += len(command)

    def compare(self):
        """Sends the commands that were not sent yet, and compares their replies."""
        rows, self.rows, self.size = self.rows, [], 0
        self.program.stdin.write("".join(f"{command}\n" for command, _ in rows).encode())
        self.program.stdin.flush()
        replies = b"".join(self.program.stdout.readline() for _ in rows)
        if replies == "".join(f"{reply}\n" for _, reply in rows).encode():
            return
        for (command, wanted), reply in zip(rows, replies.decode().split("\n")):
            if reply != wanted:
                raise AssertionError(f"{cut(command)}\nis answered by {cut(reply)}\ninstead of     {cut(wanted)}")
        raise AssertionError(f"{len(rows)} commands, the last of them {cut(rows[-1][0])}, have fewer replies")
