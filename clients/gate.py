"""A client of `gate`, which keeps documents in legacy encodings as bytes and edits them in place.

    with Gate.start("gate", "stdio", "--indexes", "standard", "--labels", "standard/encodings.json") as gate:
        letter = gate.open("letter", "shift_jis", pathlib.Path("letter.txt").read_bytes())
        print(letter.text(), letter.errors())
        edit = letter.change("東京", (0, 3), (0, 5))
        letter.undo(edit)
        pathlib.Path("letter.txt").write_bytes(letter.bytes)

This file can be used alone. Its class `Gate` sends commands and returns replies, over a program that it starts, a Unix socket
or TCP. Each of its calls ends in a time that the caller sets. On request it connects again after a live server has ended.

The folder gate_documents has the rest, and if it lies next to this file, its names can be imported from here too. `Document`
is one document with a copy of its bytes. So a client can take an edit back byte for byte, and take in what other clients of a
live server do. `Fleet` spreads documents over several servers. docs/PROTOCOL.md says what each command does."""
import binascii
import collections
import contextlib
import errno
import fcntl
import functools
import importlib
import json
import os
import resource
import select
import socket
import struct
import subprocess
import threading
import time
from typing import IO, TYPE_CHECKING, Any, Callable, Collection, Deque, Dict, Iterator, List, NamedTuple, Optional, Sequence, Tuple, Union

if TYPE_CHECKING:
    from gate_documents import ESCAPE, FEWEST, MARKS, PAGE, UNITS, Change, Conflict, Document, Edit, Fleet, Lost, Pair, Place, SharedFile, Unsure, View, difference

__all__ = [
    "Address", "Ends", "Fault", "Gate", "Gone", "Members", "Patience", "Put", "QUESTIONS", "READ", "ROOM", "Reply", "TIMEOUT",
    "TimedOut", "WINDOW",
    # (and of gate_documents)
    "Change", "Conflict", "Document", "ESCAPE", "Edit", "FEWEST", "Fleet", "Lost", "MARKS", "PAGE", "Pair", "Place", "SharedFile",
    "UNITS", "Unsure", "View", "difference",
]

# The members of a reply or a refusal, by the names that docs/PROTOCOL.md has.
Members = Dict[str, Any]
# How many characters a token's file has at most: 64 digits and a line feed.
TOKEN = 65

# An address of a server: the path of its Unix socket, or a host and a port.
Address = Union[str, Tuple[str, int]]
# A call that writes the beginning of some bytes, or raises BlockingIOError, and returns how many it wrote.
Put = Callable[[memoryview], int]
# An attempt that lasts at most so many seconds and returns whether it succeeded.
Attempt = Callable[[float], bool]

# The most bytes of a document that one line has room for: 4 MiB of line, less its other fields, as base64.
ROOM = 3_000_000
# The most commands that wait for a reply. A client that sends more waits for the oldest.
WINDOW = 64
# The most bytes of one read, and the size of the pipe to a program, so that one call writes most lines. Python's library has
# Linux's name for setting that size since 3.10.
READ, PIPE = 1 << 16, 1 << 20
SET_PIPE_SIZE = getattr(fcntl, "F_SETPIPE_SZ", 1031)
# The seconds in which a server must reply by default; and a program that the client has started, which serves nobody else.
TIMEOUT, OWN_TIMEOUT = 30.0, 300.0
# The longest single wait in seconds, and the longest while another thread reads.
SLICE, MOMENT = 1.0, 0.01
# Linux's description of the process at the other end of a Unix socket: its number, its user and its group.
PEER = struct.Struct("iII")
# The commands that change nothing. If a reply to one is lost, the client may ask again.
QUESTIONS = frozenset(
    ("plan", "text", "source", "encode", "errors", "diagnostics", "lines", "position", "offset", "place", "since", "stat", "documents", "hello")
)


def _load(name: str) -> Any:
    """Loads a name of gate_documents."""
    try:
        return getattr(importlib.import_module("gate_documents"), name)
    except ModuleNotFoundError as fault:
        if fault.name != "gate_documents":
            raise
        raise ImportError(f"{name} is in the folder gate_documents, which must be copied with {__file__}") from fault


if not TYPE_CHECKING:

    def __getattr__(name: str) -> Any:
        """Loads a name of gate_documents when it is first used."""
        if name not in __all__:
            raise AttributeError(f"module {__name__!r} has no attribute {name!r}")
        return _load(name)


class Fault(Exception):
    """A refusal: its `name`, such as "NotKept", and its further members in `members`."""

    def __init__(self, reply: Members):
        self.name = reply["fault"]
        self.members = {key: value for key, value in reply.items() if key not in ("fault", "id")}
        super().__init__(" ".join([self.name, *(f"{key}={value}" for key, value in self.members.items())]))

    def __reduce__(self) -> Tuple[Any, ...]:
        # (so a process of a pool returns what it raises; the makers of subclasses take other arguments)
        return type(self).__new__, (type(self), *self.args), self.__dict__


class Gone(Exception):
    """`gate` or the connection to it ended before it replied."""


class TimedOut(Gone):
    """`gate` didn't reply in time. The connection was ended, so that no later command gets the late reply."""


class Patience:
    """The seconds that a call may still wait. While this process is stopped, for example by Ctrl-Z, they don't count, since a
    program that it has started is stopped too."""

    __slots__ = ("left",)

    def __init__(self, seconds: float):
        self.left = seconds

    def spend(self, attempt: Attempt, most: float = SLICE) -> bool:
        """Makes one attempt of at most so many seconds, and returns whether it succeeded."""
        start = time.monotonic()
        is_done = attempt(self.left if self.left < most else most)
        took = time.monotonic() - start
        self.left -= took if took < most else most
        return is_done

    def spend_all(self, attempt: Attempt) -> bool:
        """Makes attempts until one succeeds or no time is left, and returns whether one did."""
        while self.left > 0:
            if self.spend(attempt):
                return True
        return False

    def acquire(self, lock: threading.Lock) -> bool:
        """Waits for a lock, and returns whether this thread has it."""
        return self.spend_all(lambda seconds: lock.acquire(timeout=seconds))


class Reply:
    """The reply to a command that was sent."""

    def __init__(self, gate: "Gate", start: Optional[List[bytes]] = None) -> None:
        """Takes the parts of the command's line up to its `id`, if the command may be sent again."""
        self._gate, self._start = gate, start
        self.line: Optional[bytes] = None

    def get(self) -> Members:
        """Waits for the reply, and returns its members. Raises `Fault` for a refusal, and `Gone` if no reply comes."""
        members: Members = json.loads(self.wait())
        if "fault" in members:
            raise Fault(members)
        return members

    def wait(self) -> bytes:
        """Waits for the reply's line, and returns it. If the connection ended, a question is asked again."""
        if self.line is None:
            self._gate._wait(self)
        if not self.line and self._start is not None:
            for _ in self._gate.tries():
                self._gate._give([self], [self._start])
                self._gate._wait(self)
                if self.line:
                    break
        if not self.line:
            raise Gone()
        return self.line


class Ends(NamedTuple):
    """A connection: its two descriptors and four calls. `put` writes as much as there is room for, `finish` ends the writing,
    `abort` ends both ways at once, and `end` releases the rest."""

    reading: int
    writing: int
    put: Put
    finish: Callable[[], None]
    abort: Callable[[], None]
    end: Callable[[], None]


# A call that connects within so many seconds.
Connect = Callable[[float], Ends]


class Gate:
    """A connection to `gate`, which threads may share. Replies come in the order of the commands, so the next reply is for
    the oldest command that waits. A thread that waits for a reply also reads those before it. A thread that can't send yet
    reads too, so that neither side blocks the other.

    A call waits at most `timeout` seconds for a reply, for room to send, and for other threads, each. Then it ends the
    connection and raises `TimedOut`.

    With `again`, the next call makes a connection that ended again. Questions without a reply are asked again, unless their
    time is over. A command that changes something isn't sent again, since `gate` may have done it: its reply is `Gone`. A
    `Document` then finds out, and so does a client that sends such commands itself, by the revision."""

    def __init__(self, ends: Ends, timeout: float = TIMEOUT):
        self.timeout = timeout
        # How many connections there were until now.
        self.count = 0
        # For how many seconds a lost connection is tried again, and how.
        self.again = 0.0
        self._connect: Optional[Connect] = None
        self._waiting: Deque[Reply] = collections.deque()
        self._reading, self._sending = threading.Lock(), threading.Lock()
        self._next = 0
        self._begin(ends)

    def _begin(self, ends: Ends) -> None:
        self._ends, self._over, self._is_served = ends, False, False
        poll = select.poll()
        poll.register(ends.reading, select.POLLIN)
        self._is_readable: Attempt = lambda seconds: bool(poll.poll(seconds * 1000))
        # The parts of a reply of which the rest is still to come.
        self._partial: List[bytes] = []
        self.count += 1

    @classmethod
    def start(
        cls, *words: Union[str, "os.PathLike[str]"], memory: Optional[int] = None, timeout: float = OWN_TIMEOUT
    ) -> "Gate":
        """Starts the program by these arguments. It ends with the connection, and is killed if it doesn't end in time. With
        `memory`, it has at most so many MiB for itself and its documents. A command that needs more is refused as
        "OutOfMemory", and no document is lost."""
        limit = None if memory is None else _limit_to(memory)
        program = subprocess.Popen(words, stdin=subprocess.PIPE, stdout=subprocess.PIPE, bufsize=0, preexec_fn=limit)
        writing, reading = program.stdin, program.stdout
        assert writing and reading
        os.set_blocking(writing.fileno(), False)
        # (what the system doesn't allow costs speed alone)
        with contextlib.suppress(OSError):
            fcntl.fcntl(writing, SET_PIPE_SIZE, PIPE)
        put, end = functools.partial(_put, writing), functools.partial(_end, program, reading, timeout)
        return cls(Ends(reading.fileno(), writing.fileno(), put, writing.close, program.kill, end), timeout)

    @classmethod
    def connect(
        cls, port: int = 7117, host: str = "127.0.0.1", patience: float = 10.0, path: Union[None, str, "os.PathLike[str]"] = None,
        again: float = 0.0, *, timeout: float = TIMEOUT, users: Collection[int] = (), token_file: Union[None, str, "os.PathLike[str]"] = None
    ) -> "Gate":
        """Connects to a port, for example that of `gate tcp`, or to the Unix socket `path`. `gate` prints nothing when it begins
        to listen, so a client tries for `patience` seconds. If the connection ends later, it tries for `again` seconds to
        connect again, for example to a server that is restarted with its record.

        The process that listens at a Unix socket must belong to this user, to root, or to one of `users`, by their numbers.
        Otherwise nothing is sent and PermissionError is raised. `gate serve --port` wants the token of its `--token-file`:
        `token_file` names that file, whose token is sent first."""
        address: Address = (host, port) if path is None else os.fspath(path)
        connect = functools.partial(_connect, address, users, token_file)
        gate = cls(connect(patience), timeout)
        gate._connect, gate.again = connect, again
        return gate

    @property
    def is_shared(self) -> bool:
        """Whether it is a connection to a server, at which others may edit the same documents."""
        return self._connect is not None

    def tries(self) -> Iterator[None]:
        """Yields once, and then until a server that ended has had its time to come again."""
        until = time.monotonic() + self.again
        yield
        while time.monotonic() < until:
            yield

    def _renew(self) -> None:
        """Connects again if the connection is over. The caller holds the lock for sending."""
        if not self._over:
            return
        if not self.again or self._connect is None:
            raise Gone()
        with self._hold(self._reading, Patience(self.timeout)):
            self._drop()
            self._ends.end()
            try:
                self._begin(self._connect(self.again))
            except OSError as fault:
                raise Gone() from fault

    def _drop(self) -> None:
        """Tells all that still wait that nothing comes."""
        self._over = True
        while self._waiting:
            self._waiting.popleft().line = b""

    def connection(self) -> int:
        """The number of the connection, after a new one was made if the last one was over."""
        if self._over:
            with self._hold(self._sending, Patience(self.timeout)):
                self._renew()
        return self.count

    @contextlib.contextmanager
    def _hold(self, lock: threading.Lock, patience: Patience) -> Iterator[None]:
        """Waits for a lock that another thread holds, and has it meanwhile."""
        if not lock.acquire(blocking=False) and not patience.acquire(lock):
            raise self._lateness()
        try:
            yield
        finally:
            lock.release()

    def _expire(self, ends: Ends) -> TimedOut:
        """Ends a connection on which no reply came in time, and returns what to raise."""
        if ends is self._ends:
            self._over = True
        ends.abort()
        return self._lateness()

    def _lateness(self) -> TimedOut:
        hint = "" if self._is_served else "; it accepted no command yet, so it stands still or serves as many clients as it can"
        return TimedOut(f"gate didn't reply within {self.timeout:g} seconds{hint}")

    def _wait(self, reply: Reply) -> None:
        """Reads until this reply has come. If several threads wait, one reads for all."""
        patience, ends = Patience(self.timeout), self._ends
        while reply.line is None:
            if not self._reading.acquire(blocking=False) and not patience.acquire(self._reading):
                raise self._expire(ends)
            try:
                if reply.line is None:
                    self._read(patience)
            finally:
                self._reading.release()

    def _read(self, patience: Patience) -> None:
        """Reads once, and passes complete replies to those that wait; if nothing can come any more, empty ones."""
        if not self._over and not patience.spend_all(self._is_readable):
            fault = self._expire(self._ends)
            self._drop()
            raise fault
        try:
            # (the descriptor of a connection that is over may belong to another file)
            piece = b"" if self._over else os.read(self._ends.reading, READ)
        except OSError:
            piece = b""
        if not piece:
            self._drop()
        rest, *others = piece.split(b"\n")
        self._partial.append(rest)
        for rest in others:
            self._is_served = True
            # (another program may say what nobody asked for)
            if self._waiting:
                self._waiting.popleft().line = b"".join(self._partial)
            self._partial = [rest]

    def _write(self, line: bytes, patience: Patience) -> None:
        left = memoryview(line)
        while left:
            try:
                left = left[self._ends.put(left) :]
            except BlockingIOError:
                self._make_room(patience)

    def _make_room(self, patience: Patience) -> None:
        """Waits a moment until more can be written. The other side may read no more until its replies are read, by this thread
        or by another one."""
        ends = self._ends
        if patience.left <= 0:
            raise self._expire(ends)
        if not self._reading.acquire(blocking=False):
            patience.spend(lambda seconds: _is_ready(None, ends.writing, seconds), MOMENT)
            return
        try:
            if patience.spend(lambda seconds: _is_ready(ends.reading, ends.writing, seconds)):
                self._read(patience)
        finally:
            self._reading.release()

    def send(self, op: str, **fields: Any) -> Reply:
        """Sends a command, and returns its `Reply` without waiting for it. A field that is bytes is sent as base64."""
        return self.send_lines([start_line(op, fields)], again=op in QUESTIONS)[0]

    def send_all(self, op: str, field: str, values: Sequence[int], **fields: Any) -> List[Reply]:
        """Sends commands that differ in the number in one field, and returns their replies. It writes all of them at once, so
        their replies must be short, and they must be at most `WINDOW`."""
        start, name = start_line(op, fields), json.dumps(field).encode()
        return self.send_lines([[*start, b",%b:%d" % (name, it)] for it in values], again=op in QUESTIONS)

    def send_lines(self, lines: Sequence[List[bytes]], again: bool = False, on: Optional[int] = None) -> List[Reply]:
        """Sends commands, each by the parts of its line up to its `id`. With `again`, they are sent again if a reply is lost.
        Raises `Gone` if none was sent: for example if the connection of number `on` is over."""
        replies = [Reply(self, it if again and self.again else None) for it in lines]
        self._give(replies, lines, on)
        return replies

    def _give(self, replies: List[Reply], lines: Sequence[List[bytes]], on: Optional[int] = None) -> None:
        """Sends commands for these replies."""
        patience = Patience(self.timeout)
        if not self._sending.acquire(blocking=False) and not patience.acquire(self._sending):
            raise self._lateness()
        try:
            while self._waiting and len(self._waiting) + len(lines) > WINDOW:
                with contextlib.suppress(IndexError):
                    self._wait(self._waiting[0])
            if on is None:
                self._renew()
            elif self._over or on != self.count:
                raise Gone()
            for it in replies:
                it.line = None
            self._put_lines(replies, self._number(lines), patience)
        finally:
            self._sending.release()

    def _number(self, lines: Sequence[List[bytes]]) -> List[bytes]:
        """The parts of these lines with their ends, which have the numbers of their commands."""
        parts: List[bytes] = []
        for start in lines:
            parts += [*start, b',"id":%d}\n' % self._next]
            self._next += 1
        return parts

    def _put_lines(self, replies: List[Reply], parts: List[bytes], patience: Patience) -> None:
        """Writes lines, whose replies these are."""
        try:
            self._waiting.extend(replies)
            for part in _join_short(parts):
                self._write(part, patience)
        except OSError:
            # (the other end is gone, or the way to it; the next one to read finds out)
            self._ends.finish()
        except BaseException:
            # (the next line would continue this one, and each reply would be read as that of the command before it)
            self._ends.finish()
            raise

    def send_open(self, name: str, label: str, content: bytes, bom: str = "sniff", room: int = ROOM) -> List[Reply]:
        """Sends the commands that open a document, in parts if a line hasn't room for it, and returns the reply to each."""
        return [self.send_lines([it])[0] for it in start_opening(name, label, content, bom, room)]

    def ask(self, op: str, **fields: Any) -> Members:
        """Sends a command, and returns the members of its reply. Raises `Fault` for a refusal."""
        return self.send(op, **fields).get()

    def ask_all(self, op: str, field: str, values: Sequence[int], **fields: Any) -> Iterator[Members]:
        """Yields the members of the replies to commands that differ in the number in one field, however many there are. Some
        wait while others are read. Raises `Fault` for a refusal."""
        pending: Deque[List[Reply]] = collections.deque()
        for at in range(0, len(values), WINDOW // 2):
            pending.append(self.send_all(op, field, values[at : at + WINDOW // 2], **fields))
            if len(pending) == 2:
                yield from _members_of(pending.popleft())
        for replies in pending:
            yield from _members_of(replies)

    def open(self, name: str, label: str, content: bytes, bom: str = "sniff") -> "Document":
        """Opens a document of these bytes, in parts if one line hasn't room for it. If `bom` is "keep", `gate` doesn't look for
        a byte order mark, and its bytes are text like others."""
        document: Document = _load("Document")(self, name, label, content, bom)
        return document

    def join(self, name: str) -> "Document":
        """A document that is open, as another client has left it."""
        document: Document = _load("Document").join(self, name)
        return document

    def close(self) -> None:
        """Ends the connection, and a program that was started for it. Replies that still come are read, for at most `timeout`
        seconds."""
        patience = Patience(self.timeout)
        self.again = 0.0
        try:
            with self._hold(self._sending, patience):
                self._ends.finish()
            with self._hold(self._reading, patience):
                while not self._over:
                    self._read(patience)
        except TimedOut:
            self._ends.abort()
        self._ends.end()

    def __enter__(self) -> "Gate":
        return self

    def __exit__(self, *_: Any) -> None:
        self.close()


def _limit_to(memory: int) -> Callable[[], None]:
    """A call that a process makes before it becomes the program. It limits the process to `memory` MiB of addresses, unless a
    lower limit holds already. It is a single system call, which is safe if there are threads."""
    if memory < 1:
        raise ValueError("memory takes MiB, a number from 1 on")
    most = min([memory << 20, *(it for it in resource.getrlimit(resource.RLIMIT_AS) if it != resource.RLIM_INFINITY)])
    return functools.partial(resource.setrlimit, resource.RLIMIT_AS, (most, most))


def _put(file: IO[bytes], data: memoryview) -> int:
    """Writes the beginning of some bytes, as `Put` says."""
    if file.closed:
        # (its descriptor may belong to another file)
        raise BrokenPipeError()
    return os.write(file.fileno(), data)


def _end(program: "subprocess.Popen[bytes]", reading: IO[bytes], timeout: float) -> None:
    """Waits until a program has ended, or kills it."""
    with contextlib.suppress(subprocess.TimeoutExpired):
        program.wait(timeout)
    program.kill()
    program.wait()
    reading.close()


def _connect_once(address: Address, users: Collection[int], timeout: float) -> socket.socket:
    """Connects if a server listens there now; at a Unix socket, if it is that of a trusted user."""
    if not isinstance(address, str):
        return socket.create_connection(address, timeout)
    connection = socket.socket(socket.AF_UNIX)
    try:
        connection.settimeout(timeout)
        connection.connect(address)
        _, user, _ = PEER.unpack(connection.getsockopt(socket.SOL_SOCKET, socket.SO_PEERCRED, PEER.size))
        if user not in (os.geteuid(), 0, *users):
            raise PermissionError(errno.EPERM, f"user {user} listens there, who is neither you nor root", address)
        return connection
    except BaseException as fault:
        connection.close()
        if isinstance(fault, BlockingIOError):
            # (Linux says so at once)
            raise ConnectionRefusedError(errno.ECONNREFUSED, "as many clients wait there as the system allows", address) from fault
        raise


def _connect(address: Address, users: Collection[int], token_file: Union[None, str, "os.PathLike[str]"], patience: float) -> Ends:
    """Connects to a server, which may begin to listen within `patience` seconds, and sends it the token of a file, if any."""
    until = time.monotonic() + patience
    while True:
        try:
            connection = _connect_once(address, users, max(until - time.monotonic(), SLICE))
            break
        except (ConnectionRefusedError, FileNotFoundError):
            if time.monotonic() > until:
                raise
            time.sleep(0.05)
    connection.setblocking(True)
    if token_file is not None:
        try:
            with open(token_file, encoding="ascii") as file:
                connection.sendall(json.dumps({"token": file.read(TOKEN).strip()}).encode() + b"\n")
        except BaseException:
            connection.close()
            raise

    def shut(way: int) -> None:
        with contextlib.suppress(OSError):
            connection.shutdown(way)

    def put(data: memoryview) -> int:
        # (a descriptor's mode is the same for reading and writing, so each write says that it doesn't wait)
        return connection.send(data, socket.MSG_DONTWAIT)

    finish, abort = functools.partial(shut, socket.SHUT_WR), functools.partial(shut, socket.SHUT_RDWR)
    return Ends(connection.fileno(), connection.fileno(), put, finish, abort, connection.close)


def start_line(op: str, fields: Members) -> List[bytes]:
    """The parts of a command's line, up to its `id`."""
    content = {key: it for key, it in fields.items() if isinstance(it, bytes)}
    others = {key: it for key, it in fields.items() if key not in content}
    parts = [json.dumps({"op": op, **others}).encode()[:-1]]
    for key, it in content.items():
        parts += [b',"%b":"' % key.encode(), binascii.b2a_base64(it, newline=False), b'"']
    return parts


def start_opening(name: str, label: str, content: bytes, bom: str, room: int) -> Iterator[List[bytes]]:
    """Yields the parts of each line that opens a document, up to its `id`, with at most `room` bytes a line."""
    yield start_line("open", {"doc": name, "label": label, "bytes": content[:room], "bom": bom})
    for rev, at in enumerate(range(room, len(content), room)):
        yield start_line("splice", {"doc": name, "rev": rev, "at": at, "del": 0, "bytes": content[at : at + room]})


def _join_short(parts: Sequence[bytes]) -> Iterator[bytes]:
    """Joins short parts of lines, so that one call writes them. A long part is written alone, without a copy."""
    short: List[bytes] = []
    for it in parts:
        if len(it) < READ:
            short.append(it)
        else:
            yield b"".join(short)
            yield it
            short = []
    yield b"".join(short)


def _members_of(replies: Sequence[Reply]) -> List[Members]:
    """The members of one or more replies, parsed as one text, which takes far less time than parsing each."""
    replies[-1].wait()
    # (if replies before it were lost, they are asked for again)
    found: List[Members] = json.loads(b"[%b]" % b",".join(it.line or it.wait() for it in replies))
    for it in found:
        if "fault" in it:
            raise Fault(it)
    return found


def _is_ready(reading: Optional[int], writing: int, seconds: float) -> bool:
    """Waits until one descriptor can be read from or the other written to, and returns whether the first can be read from. They
    may be the same."""
    waits = select.poll()
    waits.register(writing, select.POLLOUT | (select.POLLIN if reading == writing else 0))
    if reading is not None and reading != writing:
        waits.register(reading, select.POLLIN)
    return any(file == reading and event & ~select.POLLOUT for file, event in waits.poll(seconds * 1000))
