"""How the program is run, and what it does: over its standard streams, by a trace, and over TCP."""
import base64
import collections
import contextlib
import os
import pathlib
import socket
import subprocess
import sys
import tempfile

sys.path.insert(0, str(pathlib.Path(__file__).resolve().parent.parent))
from base import LIMIT, connect, free_port

# What a run came to: its exit status, and what it wrote.
Ended = collections.namedtuple("Ended", "status output error")

# One thing that is tried: what it is called, the call that tries it, and what that has to return.
Case = collections.namedtuple("Case", "name call wanted")


def received(peer):
    """All that comes until the other side closes."""
    parts = []
    while True:
        part = peer.recv(1 << 16)
        if not part:
            return b"".join(parts)
        parts.append(part)


def replies_to(port, data):
    """What a client receives that sends these bytes and then shuts its writing side."""
    with connect(port) as peer:
        peer.sendall(data)
        peer.shutdown(socket.SHUT_WR)
        return received(peer)


class Gate:
    """The program, and an empty folder for its index files."""

    def __init__(self, path, empty):
        self.path = path
        self.empty = empty

    def run(self, words, data=b"", **streams):
        """Runs it with these words over this input; `streams` replace its standard streams."""
        given = {} if "stdin" in streams else {"input": data}
        pipes = {"stdout": subprocess.PIPE, "stderr": subprocess.PIPE}
        ran = subprocess.run([self.path, *words], timeout=LIMIT, **given, **{**pipes, **streams})
        return Ended(ran.returncode, ran.stdout or b"", ran.stderr or b"")

    @contextlib.contextmanager
    def started(self, words, **streams):
        """The program while it runs; one that still runs at the end is killed."""
        pipes = {"stdin": subprocess.DEVNULL, "stdout": subprocess.PIPE, "stderr": subprocess.PIPE}
        with subprocess.Popen([self.path, *words], **{**pipes, **streams}) as program:
            try:
                yield program
            finally:
                program.kill()

    @contextlib.contextmanager
    def listening(self, connections):
        """The program over TCP, and its port."""
        port = free_port()
        numbers = ["--port", str(port), "--serve", str(connections)]
        with self.started(["tcp", "--indexes", self.empty, *numbers]) as program:
            yield program, port

    def over_stdio(self, data):
        return self.run(["stdio", "--indexes", self.empty], data)

    def over_trace(self, data):
        """The lines as events of connection 0, and their replies without its number."""
        events = [b"open 0\n"]
        for line in data.splitlines(True):
            for part in range(0, len(line), 4718583):
                events.append(b"bytes 0 " + base64.b64encode(line[part : part + 4718583]) + b"\n")
        ended = self.run(["trace", "--indexes", self.empty], b"".join(events))
        replies = ended.output.split(b"\n")
        return ended._replace(output=b"\n".join(it[2:] if it.startswith(b"0 ") else it for it in replies))

    def over_tcp(self, data):
        with self.listening(1) as (program, port):
            output = replies_to(port, data)
            return ending(program)._replace(output=output)


def ending(program):
    """What the program comes to that was started."""
    output, error = program.communicate(timeout=LIMIT)
    return Ended(program.returncode, output or b"", error or b"")


class Folder:
    """A folder for one case, taken away behind it."""

    def __enter__(self):
        self.held = tempfile.TemporaryDirectory(prefix="gate-hostile-")
        self.path = self.held.name
        return self

    def __exit__(self, *_):
        self.held.cleanup()

    def put(self, name, content):
        """A file of these bytes, or whatever `content`, called with the path, makes there."""
        path = os.path.join(self.path, name)
        if callable(content):
            content(path)
        else:
            with open(path, "wb") as it:
                it.write(content)
        return path
