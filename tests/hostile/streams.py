"""Hostile standard streams: closed, full, slow, and broken in the middle."""
import contextlib
import functools
import os
import signal
import subprocess
import threading
import time

from lines import ASK, KEPT, LARGE, OPEN, OPENED
from program import Case, Ended, ending

READ = Ended(1, b"", b"gate: read fault\n")
WRITE = Ended(1, b"", b"gate: write fault\n")


def close_stream(number):
    """Closes a standard stream of the program before it starts."""
    return lambda: os.close(number)


def without_input(gate, words):
    with gate.started(words, preexec_fn=close_stream(0)) as program:
        return ending(program)


def without(gate, words, data, number):
    """The program without its output, or without its error stream."""
    return gate.run(words, data, preexec_fn=close_stream(number))


def feed_stream(gate, words, data, path, mode):
    """The program with a file as the stream: one to read, or one to write."""
    with open(path, mode) as it:
        if mode == "rb":
            return gate.run(words, stdin=it)
        return gate.run(words, data, stdout=it)


def from_a_folder(gate, words):
    folder = os.open(gate.empty, os.O_RDONLY)
    try:
        return gate.run(words, stdin=folder)
    finally:
        os.close(folder)


def to_nobody(gate, words, data, pipe_signal):
    """The reader of its output is gone before the first reply."""
    reading, writing = os.pipe()
    os.close(reading)
    try:
        return gate.run(words, data, stdout=writing, preexec_fn=lambda: signal.signal(signal.SIGPIPE, pipe_signal))
    finally:
        os.close(writing)


def serving(gate, **streams):
    """The program while it serves what is written to its input."""
    return gate.started(["stdio", "--indexes", gate.empty], stdin=subprocess.PIPE, **streams)


def write_all(stream, data):
    try:
        stream.write(data)
        stream.close()
    except BrokenPipeError:
        pass


@contextlib.contextmanager
def feeding(program, data):
    """Writes the input beside what the caller does."""
    stream, program.stdin = program.stdin, None
    thread = threading.Thread(target=write_all, args=(stream, data))
    thread.start()
    yield
    thread.join()


def read_up_to(gate, data, count):
    """Reads `count` bytes of the replies, and closes."""
    with serving(gate) as program:
        with feeding(program, data):
            begun = program.stdout.read(count)
            program.stdout.close()
        program.stdout = None
        return ending(program)._replace(output=begun)


def read_slowly(gate, data):
    """Reads the replies 64 KiB at a time, with a pause before each."""
    parts = []
    with serving(gate) as program:
        with feeding(program, data):
            while not parts or parts[-1]:
                time.sleep(0.002)
                parts.append(os.read(program.stdout.fileno(), 1 << 16))
        return ending(program)._replace(output=b"".join(parts))


def in_step(gate, lines):
    """Sends each line a byte a write, when the reply to the one before has come."""
    replies = []
    with serving(gate, bufsize=0) as program:
        for line in lines:
            for byte in line + b"\n":
                program.stdin.write(bytes([byte]))
            replies.append(program.stdout.readline())
        return ending(program)._replace(output=b"".join(replies))


def cases(gate):
    files = ["--indexes", gate.empty]
    lines = OPEN + b"\n" + ASK + b"\n"
    for way, words, data in ("stdio", ["stdio", *files], lines), ("trace", ["trace", *files], b"open 16\n"):
        yield Case(f"{way}: standard input closed", lambda words=words: without_input(gate, words), READ)
        yield Case(f"{way}: a folder as standard input", lambda words=words: from_a_folder(gate, words), READ)
        yield Case(f"{way}: standard input that can't be read", lambda words=words: feed_stream(gate, words, b"", "/proc/self/mem", "rb"), READ)
        yield Case(f"{way}: no byte of input", lambda words=words: gate.run(words), Ended(0, b"", b""))
        yield Case(f"{way}: standard output closed", lambda words=words, data=data: without(gate, words, data, 1), WRITE)
        yield Case(f"{way}: standard output full", lambda words=words, data=data: feed_stream(gate, words, data, "/dev/full", "wb"), WRITE)
        for name, handler in ("as it is by default", signal.SIG_DFL), ("ignored", signal.SIG_IGN):
            call = functools.partial(to_nobody, gate, words, data, handler)
            yield Case(f"{way}: standard output without a reader, SIGPIPE {name}", call, WRITE)
    yield from closed_cases(gate, lines)
    yield from slow_cases(gate)


def closed_cases(gate, lines):
    yield Case("help: standard output closed", lambda: without(gate, ["--help"], b"", 1), WRITE)
    yield Case("help: standard output full", lambda: feed_stream(gate, ["--help"], b"", "/dev/full", "wb"), WRITE)
    yield Case("stdio: standard error closed, and nothing to tell", lambda: without(gate, [], lines, 2), Ended(0, OPENED + b"\n" + KEPT + b"\n", b""))
    yield Case("stdio: standard error closed, and a text for it", lambda: without(gate, ["stdio"], lines, 2), Ended(2, b"", b""))


def slow_cases(gate):
    """Documents of bytes 00, each of which is six bytes in a reply."""
    zeros = OPEN.replace(b'"4oJB"', b'"' + b"AAAA" * (LARGE // 3) + b'"')
    ask = b'{"id":1,"op":"text","doc":"kept","from":0,"to":%d}' % (LARGE)
    reply = b'{"id":1,"rev":0,"text":"' + b"\\u0000" * (LARGE) + b'"}\n'
    data = zeros + b"\n" + ask + b"\n"
    yield Case("stdio: 12 MiB of a reply to a slow reader", lambda: read_slowly(gate, data), Ended(0, OPENED + b"\n" + reply, b""))
    begun = (OPENED + b"\n" + reply)[:100000]
    yield Case("stdio: a reader that leaves in the middle of a reply", lambda: read_up_to(gate, data, 100000), Ended(1, begun, b"gate: write fault\n"))
    yield Case("stdio: a byte a write, each line after the reply to the last", lambda: in_step(gate, [OPEN, ASK]), Ended(0, OPENED + b"\n" + KEPT + b"\n", b""))
