"""The program as it serves live clients, `gate serve`, and clients of it that a test has in hand."""
import contextlib
import json
import os
import pathlib
import resource
import socket
import statistics
import struct
import subprocess
import tempfile
import time
import unittest

from program import PROGRAM, SMALL
from base import LIMIT, connect

# How many clients are served at once.
PLACES = 16


def line(op, number=0, **fields):
    """A command's line."""
    return json.dumps({"id": number, "op": op, **fields}).encode() + b"\n"


def replayed(commands):
    """What the program, started anew, replies to commands on its standard streams."""
    lines = b"".join(line(number=number, **command) for number, command in enumerate(commands))
    ran = subprocess.run([PROGRAM, *SMALL], input=lines, stdout=subprocess.PIPE, check=True)
    return [json.loads(it) for it in ran.stdout.splitlines()]


class Client:
    """A connection on which a test sends what it likes, and reads replies one by one."""

    def __init__(self, place, patience=LIMIT):
        self.peer = connect(place, patience)
        self.replies = self.peer.makefile("rb", 1 << 16)

    def send(self, data):
        self.peer.sendall(data)

    def reply(self):
        """The next reply; none where the other end has closed."""
        came = self.replies.readline()
        return json.loads(came) if came else None

    def ask(self, op, **fields):
        """The reply to a command, without its number."""
        self.send(line(op, **fields))
        reply = self.reply()
        reply.pop("id", None)
        return reply

    def waits(self, seconds):
        """Whether nothing comes for `seconds`, the end neither. It is asked where no reply is begun."""
        self.peer.settimeout(seconds)
        try:
            self.peer.recv(1, socket.MSG_PEEK)
            return False
        except socket.timeout:
            return True
        finally:
            self.peer.settimeout(LIMIT)

    def ends(self):
        """Says that it sends no more, and returns what still comes."""
        self.peer.shutdown(socket.SHUT_WR)
        return self.replies.read()

    def close(self):
        self.replies.close()
        self.peer.close()

    def reset(self):
        """Closes at once: what is still under way is lost."""
        self.peer.setsockopt(socket.SOL_SOCKET, socket.SO_LINGER, struct.pack("ii", 1, 0))
        self.close()

    def __enter__(self):
        return self

    def __exit__(self, *_):
        self.close()


class Server:
    """The program while it serves at a place."""

    def __init__(self, place, *words, limits=None):
        """A server at a port wants a token if words say so. `limits` is what the process does before it becomes the program."""
        self.place = place
        named = ["--port", str(place)] if isinstance(place, int) else ["--socket", place]
        if isinstance(place, int) and "--token-file" not in words:
            named += [] if "--no-token" in words else ["--no-token"]
        pipes = {"stdin": subprocess.DEVNULL, "stdout": subprocess.PIPE, "stderr": subprocess.PIPE}
        self.process = subprocess.Popen([PROGRAM, "serve", *SMALL[1:], *named, *words], preexec_fn=limits, **pipes)

    def connect(self):
        return Client(self.place)

    def ended(self):
        """Waits until it has ended: its status, and what it wrote."""
        output, error = self.process.communicate(timeout=LIMIT)
        return self.process.returncode, output.decode(), error.decode()

    def resident(self):
        """The resident memory in KiB."""
        text = pathlib.Path(f"/proc/{self.process.pid}/status").read_text(encoding="ascii")
        return next(int(it.split()[1]) for it in text.splitlines() if it.startswith("VmRSS:"))

    def descriptors(self):
        """How many descriptors it has open."""
        return len(os.listdir(f"/proc/{self.process.pid}/fd"))

    def busy(self):
        """The processor's time that it has taken, in seconds."""
        fields = pathlib.Path(f"/proc/{self.process.pid}/stat").read_text(encoding="ascii").rpartition(")")[2].split()
        return (int(fields[11]) + int(fields[12])) / os.sysconf("SC_CLK_TCK")

    def kill(self):
        self.process.kill()
        self.process.communicate()


class Serving(unittest.TestCase):
    """Tests over servers, each of which is gone behind its test."""

    def setUp(self):
        kept = tempfile.TemporaryDirectory()
        self.addCleanup(kept.cleanup)
        self.folder = pathlib.Path(kept.name)
        self.path = str(self.folder / "socket")

    def serve(self, place, *words, **how):
        server = Server(place, *words, **how)
        self.addCleanup(server.kill)
        return server

    @contextlib.contextmanager
    def clients(self, server, count=PLACES):
        """`count` clients, each of which is served already."""
        with contextlib.ExitStack() as kept:
            them = [kept.enter_context(server.connect()) for _ in range(count)]
            for client in them:
                self.assertEqual(client.ask("stat", doc="nobody's"), {"fault": "NoDocument"})
            yield them


def seconds_of(clients, count, **command):
    """How long each of `count` commands waits for its reply, by each of these clients in turn."""
    took = []
    for _ in range(count):
        times = [time.monotonic()]
        for client in clients:
            client.ask(**command)
            times.append(time.monotonic())
        took.append([end - begun for begun, end in zip(times, times[1:])])
    return took


def usual(took):
    """The time that most need at the most: 95 of 100."""
    return statistics.quantiles(took, n=20)[-1]


def at_most_files(count):
    """What a process does so that it has at most `count` descriptors."""

    def limits():
        resource.setrlimit(resource.RLIMIT_NOFILE, (count, count))

    return limits


def more_files(count):
    """Allows this process `count` descriptors, if it may have them, and returns what takes that back."""
    soft, hard = resource.getrlimit(resource.RLIMIT_NOFILE)
    wanted = count if hard == resource.RLIM_INFINITY else min(count, hard)
    resource.setrlimit(resource.RLIMIT_NOFILE, (max(soft, wanted), hard))
    return lambda: resource.setrlimit(resource.RLIMIT_NOFILE, (soft, hard))
