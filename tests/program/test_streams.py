"""The program as it was built, over streams that fail, and over connections one after another."""
import contextlib
import os
import socket
import subprocess
import unittest

from program import PROGRAM, built
from base import LIMIT, connect, free_port

OPEN = '{"id":1,"op":"open","doc":"a","label":"utf-8","bytes":"4oJB"}\n'
OPENED = '{"bom":0,"encoding":"UTF-8","id":1,"rev":0}\n'
TEXT = '{"id":2,"op":"text","doc":"a","from":0,"to":2}\n'
TEXT_REPLY = '{"id":2,"rev":0,"text":"\ufffdA"}\n'

NO_FOLDER = ["--indexes", "/no/such/folder"]

# The words of the runs over an input and an output; the folder isn't there, which is no fault.
RUNS = [[], ["stdio", *NO_FOLDER], ["trace", *NO_FOLDER]]

# What is written by each, by the help and as the version.
WRITING = [([], OPEN), (["stdio", *NO_FOLDER], OPEN), (["trace", *NO_FOLDER], "open 16\n"), (["--help"], ""), (["--version"], "")]

# A session on one document, each line on a connection of its own.
LINES = [
    (OPEN, OPENED),
    (TEXT, TEXT_REPLY),
    ('{"id":3,"op":"errors","doc":"a","from":0,"max":10}\n', '{"errors":[[0,2]],"id":3,"rev":0,"total":1}\n'),
    ('{"id":4,"op":"splice","doc":"a","rev":0,"at":2,"del":0,"bytes":"rA=="}\n', '{"bom":0,"encoding":"UTF-8","id":4,"rev":1}\n'),
    ('{"id":5,"op":"text","doc":"a","from":0,"to":2}\n', '{"id":5,"rev":1,"text":"\u20acA"}\n'),
    ('{"id":6,"op":"splice","doc":"a","rev":1,"at":5,"del":0,"bytes":""}\n', '{"fault":"OutOfRange","id":6}\n'),
]

# Connections one after another: what each sends, and what it receives.
CONNECTIONS = [
    ("the second reads what the first opened", [(OPEN, OPENED), (TEXT, TEXT_REPLY)]),
    ("one ends in mid-line, and one sends nothing", [(OPEN, OPENED), ('{"id":1,"op', ""), ("", ""), (TEXT, TEXT_REPLY)]),
    ("each line comes on a connection of its own", LINES),
]


def sent(port, text):
    """A connection on which this was sent, and on which no more will be."""
    peer = connect(port)
    peer.sendall(text.encode())
    peer.shutdown(socket.SHUT_WR)
    return peer


def received(peer):
    """All that comes until the other side closes."""
    with peer, peer.makefile("rb") as it:
        return it.read().decode()


@built
class Streams(unittest.TestCase):
    def test_input_that_cannot_be_read(self):
        folder = os.open("/", os.O_RDONLY)
        self.addCleanup(os.close, folder)
        for words in RUNS:
            with self.subTest(words):
                ran = subprocess.run([PROGRAM, *words], stdin=folder, stdout=subprocess.PIPE, stderr=subprocess.PIPE)
                self.assertEqual((ran.returncode, ran.stdout, ran.stderr), (1, b"", b"gate: read fault\n"))

    def test_output_that_cannot_be_written(self):
        for words, lines in WRITING:
            with self.subTest(words), open("/dev/full", "wb") as full:
                ran = subprocess.run([PROGRAM, *words], input=lines.encode(), stdout=full, stderr=subprocess.PIPE)
                self.assertEqual((ran.returncode, ran.stderr), (1, b"gate: write fault\n"))

    def test_error_stream_that_cannot_be_written_changes_no_status(self):
        with open("/dev/full", "wb") as full:
            ran = subprocess.run([PROGRAM, "stdio"], input=b"", stdout=subprocess.PIPE, stderr=full)
        self.assertEqual((ran.returncode, ran.stdout), (2, b""))


@built
class Connections(unittest.TestCase):
    @contextlib.contextmanager
    def serving(self, count):
        """The port of the program while it serves `count` connections; it then ends with status 0 and no text."""
        port = free_port()
        words = ["tcp", *NO_FOLDER, "--port", str(port), "--serve", str(count)]
        with subprocess.Popen([PROGRAM, *words], stdin=subprocess.DEVNULL, stdout=subprocess.PIPE, stderr=subprocess.PIPE) as program:
            try:
                yield port
                ended = program.communicate(timeout=LIMIT)
            finally:
                program.kill()
        self.assertEqual((program.returncode, *ended), (0, b"", b""))

    def test_connections_one_after_another(self):
        for shows, rows in CONNECTIONS:
            with self.subTest(shows), self.serving(len(rows)) as port:
                peers = [sent(port, text) for text, _ in rows]
                self.assertEqual([received(peer) for peer in peers], [replies for _, replies in rows])

    def test_a_peer_that_is_gone_before_its_replies(self):
        with self.serving(3) as port:
            first = connect(port)  # is served until it ends: the next is gone when its turn comes
            sent(port, OPEN + TEXT * 3).close()
            following = sent(port, TEXT)
            first.close()
            self.assertEqual(received(following), TEXT_REPLY)


if __name__ == "__main__":
    unittest.main()
