"""Calls that end in time: servers that are stopped, that reply slowly, that are full, or that are another user's."""
import contextlib
import os
import pathlib
import signal
import socket
import subprocess
import sys
import tempfile
import threading
import time
import unittest
from typing import Any, Callable, ContextManager, Iterator, List, Optional, Tuple
from unittest import mock

from checkout import BUILT, CLIENTS, INDEXES, PROGRAM
from gate import Document, Fault, Fleet, Gate, Gone, Patience, TimedOut, Unsure
from test_fleet import served, three_servers
from test_gate import LIMIT

# The seconds in which a server has to reply here, and a time after which none would still come.
SOON, LATE = 0.3, 1000
# A user that is neither root nor the one who runs tests.
STRANGER = 54321
# How many clients a server serves at once.
PLACES = 16
# What a client says that is stopped and continued while it waits.
CLIENT = "import gate, sys; print(gate.Gate.connect(path=sys.argv[1], timeout=float(sys.argv[2])).ask('stat', doc='d')['rev'])"

Serve = Callable[[socket.socket], Any]


@contextlib.contextmanager
def listening(serve: Optional[Serve] = None, backlog: int = 100) -> Iterator[str]:
    """The path of a socket at which each connection is served by this call, or accepted by nobody."""
    with tempfile.TemporaryDirectory() as folder, socket.socket(socket.AF_UNIX) as listener:
        path = os.path.join(folder, "s")
        listener.bind(path)
        listener.listen(backlog)

        def accept() -> None:
            with contextlib.suppress(OSError):
                while serve:
                    connection, _ = listener.accept()
                    threading.Thread(target=serve_one, args=(serve, connection), daemon=True).start()

        threading.Thread(target=accept, daemon=True).start()
        yield path
        with contextlib.suppress(OSError):
            listener.shutdown(socket.SHUT_RDWR)


def serve_one(serve: Serve, connection: socket.socket) -> None:
    with connection, contextlib.suppress(OSError):
        serve(connection)


def stop(process: int) -> None:
    """Stops a child of this process, and waits until it is."""
    os.kill(process, signal.SIGSTOP)
    os.waitid(os.P_PID, process, os.WSTOPPED | os.WNOWAIT)


def trickle(connection: socket.socket) -> None:
    """Sends a byte of a reply that never ends now and then."""
    while True:
        connection.sendall(b" ")
        time.sleep(SOON / 10)


def reply_to_second(connections: List[socket.socket]) -> Serve:
    """Doesn't reply on the first connection, until there is a second one, on which it replies to each line at once."""

    def serve(connection: socket.socket) -> None:
        connections.append(connection)
        with connection.makefile("rb") as lines:
            for number, _ in enumerate(lines, 1):
                while len(connections) == 1:
                    time.sleep(0.01)
                connection.sendall(b'{"rev":%d,"line":%d}\n' % (len(connections), number))

    return serve


class Timed(unittest.TestCase):
    """Tests of calls that end in time."""

    @contextlib.contextmanager
    def in_time(self, most: float = 20 * SOON) -> Iterator[None]:
        """Fails if what is done meanwhile takes longer than that, on a machine that may be busy."""
        start = time.monotonic()
        yield
        self.assertLess(time.monotonic() - start, most + 5)

    def times_out(self, gate: Gate, call: Callable[[], Any]) -> str:
        """Looks that a call ends in time, and later ones at once; returns what the first one says."""
        with self.in_time(), self.assertRaises(TimedOut) as late:
            call()
        with self.in_time(), self.assertRaises(Gone) as gone:
            gate.ask("stat", doc="d")
        self.assertNotIsInstance(gone.exception, TimedOut)
        with self.in_time():
            gate.close()
        return str(late.exception)


class Silent(Timed):
    """Servers that don't reply."""

    def test_a_program_that_does_not_reply_is_ended(self) -> None:
        gate = Gate.start("sleep", str(LATE), timeout=SOON)
        self.assertIn(f"{SOON:g} seconds", self.times_out(gate, lambda: gate.ask("stat", doc="d")))

    def test_a_program_that_does_not_end_is_killed(self) -> None:
        for words in ("sleep", str(LATE)), ("sh", "-c", f"exec >&-; exec sleep {LATE}"):
            with self.subTest(words[0]):
                gate = Gate.start(*words, timeout=SOON)
                with self.in_time():
                    gate.close()

    def test_a_server_that_accepts_nobody(self) -> None:
        with listening() as path:
            gate = Gate.connect(path=path, timeout=SOON)
            self.assertIn("serves as many clients as it can", self.times_out(gate, lambda: gate.ask("stat", doc="d")))

    def test_a_server_that_reads_nothing(self) -> None:
        with listening(lambda connection: time.sleep(LATE)) as path:
            gate = Gate.connect(path=path, timeout=SOON)
            self.times_out(gate, lambda: gate.open("d", "utf-8", b"a" * 10_000_000))

    def test_a_reply_that_never_ends(self) -> None:
        with listening(trickle) as path:
            gate = Gate.connect(path=path, timeout=SOON)
            self.times_out(gate, lambda: gate.ask("stat", doc="d"))

    def test_more_commands_than_may_wait(self) -> None:
        with listening(lambda connection: time.sleep(LATE)) as path:
            gate = Gate.connect(path=path, timeout=SOON)
            self.times_out(gate, lambda: [gate.send("stat", doc="d") for _ in range(1000)])

    def test_a_queue_of_clients_that_is_full(self) -> None:
        with listening(backlog=0) as path, contextlib.ExitStack() as stack:
            with self.in_time(), self.assertRaisesRegex(ConnectionRefusedError, "as many clients wait"):
                for _ in range(10):
                    stack.enter_context(contextlib.closing(Gate.connect(path=path, patience=SOON, timeout=SOON)))

    def test_all_threads_that_wait_are_told(self) -> None:
        with listening(lambda connection: time.sleep(LATE)) as path:
            gate, told = Gate.connect(path=path, timeout=SOON), []

            def ask() -> None:
                with self.assertRaises(Gone) as gone:
                    gate.ask("stat", doc="d")
                told.append(gone.exception)

            threads = [threading.Thread(target=ask, daemon=True) for _ in range(8)]
            with self.in_time():
                for it in threads:
                    it.start()
                for it in threads:
                    it.join(LIMIT)
                gate.close()
            self.assertEqual(len(told), 8)

    def test_a_late_reply_is_not_that_of_another_command(self) -> None:
        connections: List[socket.socket] = []
        with listening(reply_to_second(connections)) as path, Gate.connect(path=path, timeout=SOON, again=LIMIT) as gate:
            with self.in_time(), self.assertRaises(TimedOut):
                gate.ask("text", doc="d")
            gate.timeout = LIMIT
            self.assertEqual(gate.ask("stat", doc="d"), {"rev": 2, "line": 1})

    def test_a_client_that_was_stopped_has_not_waited_meanwhile(self) -> None:
        go = threading.Event()

        def serve(connection: socket.socket) -> None:
            go.wait()
            connection.sendall(b'{"rev":7}\n')

        with listening(serve) as path:
            words = [sys.executable, "-c", CLIENT, path, "4"]
            with subprocess.Popen(words, stdout=subprocess.PIPE, env={**os.environ, "PYTHONPATH": str(CLIENTS)}) as client:
                assert client.stdout
                time.sleep(1)
                client.send_signal(signal.SIGSTOP)
                time.sleep(5)
                client.send_signal(signal.SIGCONT)
                time.sleep(0.5)
                go.set()
                self.assertEqual(client.stdout.read(), b"7\n")

    def test_an_attempt_costs_no_more_than_it_was_to_last(self) -> None:
        patience = Patience(5)
        lengths: List[float] = []

        def attempt(seconds: float) -> bool:
            lengths.append(seconds)
            return False

        with mock.patch("gate.time.monotonic", side_effect=range(0, 10**6, 1000)):
            self.assertFalse(patience.spend_all(attempt))
        self.assertEqual(lengths, [1.0] * 5)


class Strangers(Timed):
    """Sockets at which another user listens."""

    @contextlib.contextmanager
    def stranger(self) -> Iterator[str]:
        """The path of a socket at which another user listens, as far as this process can tell; no byte may come to it."""
        came: List[bytes] = []
        with tempfile.TemporaryDirectory() as folder:
            os.chmod(folder, 0o777)
            path = os.path.join(folder, "s")
            with contextlib.ExitStack() as stack:
                if os.geteuid() == 0:
                    os.seteuid(STRANGER)
                listener = stack.enter_context(socket.socket(socket.AF_UNIX))
                try:
                    listener.bind(path)
                    listener.listen()
                finally:
                    if os.getuid() == 0:
                        os.seteuid(0)
                if os.getuid() != 0:
                    stack.enter_context(mock.patch("gate.os.geteuid", return_value=STRANGER))
                yield path
                listener.setblocking(False)
                with contextlib.suppress(BlockingIOError):
                    while True:
                        connection, _ = listener.accept()
                        with connection:
                            came.append(connection.recv(100))
        self.assertEqual(b"".join(came), b"")

    def user(self) -> int:
        """The user that listens there."""
        return os.getuid() or STRANGER

    def test_nothing_is_sent_to_another_user(self) -> None:
        with self.stranger() as path:
            with self.assertRaisesRegex(PermissionError, f"user {self.user()} listens there"):
                Gate.connect(path=path, timeout=SOON).ask("stat", doc="secret")
            with self.assertRaises(PermissionError), Fleet([path], timeout=SOON) as fleet:
                fleet.open("d", "utf-8", b"secret")

    def test_a_user_that_is_named_is_trusted(self) -> None:
        with self.stranger() as path:
            with Gate.connect(path=path, timeout=SOON, users=[self.user()]), Fleet([path], timeout=SOON, users=[self.user()]) as fleet:
                fleet.gate_of("d")

    def test_nothing_is_sent_to_another_user_who_comes_later(self) -> None:
        def leave(connection: socket.socket) -> None:
            connection.recv(100)

        with listening(leave) as path, Gate.connect(path=path, timeout=SOON, again=SOON) as gate, self.stranger() as other:
            os.rename(other, path)
            with self.assertRaises(Gone) as gone:
                gate.ask("stat", doc="d")
            os.rename(path, other)
        self.assertIsInstance(gone.exception.__cause__, PermissionError)


@BUILT
class StandingStill(Timed):
    """The program as it was built, when it is stopped or full."""

    def test_a_server_that_is_stopped(self) -> None:
        # (what is called, and whether it is an edit, which may have been made)
        rows: List[Tuple[Callable[[Document], Any], bool]] = [
            (Document.text, False), (Document.catch_up, False), (Document.refresh, False), (lambda it: it.splice(0, 0, b"x"), True),
            (lambda it: it.change("x", (0, 0)), True), (lambda it: it.changes([("x", (0, 0))]), True), (Document.close, False),
        ]
        for again in 0.0, float(LIMIT):
            for call, is_edit in rows:
                for is_sent in {False, is_edit}:
                    with self.subTest(again=again, row=rows.index((call, is_edit)), is_sent=is_sent), served() as (path, program):
                        with Gate.connect(path=path, timeout=LIMIT, again=again) as gate:
                            document = gate.open("d", "utf-8", b"ab")
                            with self.stopping(document, program, is_sent):
                                with self.in_time(), self.assertRaises(Unsure if again and is_sent else TimedOut):
                                    call(document)
                            self.assertEqual((document.bytes, document.rev), (b"ab", 0))
                            program.send_signal(signal.SIGCONT)
                            gate.timeout = LIMIT
                            self.goes_on(document, again, is_edit)

    @contextlib.contextmanager
    def stopping(self, document: Document, program: "subprocess.Popen[bytes]", is_sent: bool) -> Iterator[None]:
        """Stops a server at once, or once it has answered the questions before an edit, so that the edit is sent."""
        ask_first = document._ask_first

        def ask_and_stop(asked: Any) -> Any:
            replies = ask_first(asked)
            document.gate.timeout = SOON
            stop(program.pid)
            return replies

        if is_sent:
            with mock.patch.object(document, "_ask_first", ask_and_stop):
                yield
        else:
            document.gate.timeout = SOON
            stop(program.pid)
            yield

    def goes_on(self, document: Document, again: float, is_edit: bool) -> None:
        """Looks that a document is unchanged, or edited once, when the server continues."""
        if not again:
            with self.assertRaises(Gone):
                document.text()
            return
        if is_edit:
            document.find_out() or document.splice(0, 0, b"x")
            self.assertEqual((document.bytes, document.rev), (b"xab", 1))
        with contextlib.suppress(Fault):
            self.assertEqual(document.text(), document.bytes.decode())

    def test_a_fleet_of_which_one_stands_still(self) -> None:
        names = [f"d{number}" for number in range(40)]
        with contextlib.ExitStack() as kept:
            places, programs = kept.enter_context(three_servers())
            token = os.path.join(os.path.dirname(str(places[0])), "token")
            fleet = kept.enter_context(Fleet(places, patience=LIMIT, timeout=LIMIT, token_file=token))
            documents = {name: fleet.open(name, "utf-8", name.encode()) for name in names}
            still = [name for name in names if fleet.place_of(name) == places[1]]
            self.assertTrue(0 < len(still) < len(names))
            fleet.gate_of(still[0]).timeout = SOON
            stop(programs[1].pid)
            with self.in_time():
                for name, document in documents.items():
                    refused: ContextManager[object] = contextlib.nullcontext()
                    if name in still:
                        refused = self.assertRaises(Gone)
                    with refused:
                        self.assertEqual(document.text(), name)
                fleet.remove(places[1])
                for name in still:
                    self.assertEqual(fleet.open(name, "utf-8", b"again").text(), "again")

    def test_a_fleet_is_closed_although_one_stands_still(self) -> None:
        with three_servers() as (places, programs), Fleet(places, patience=LIMIT, timeout=SOON) as fleet:
            for number in range(40):
                fleet.gate_of(str(number))
            stop(programs[2].pid)
            with self.in_time():
                fleet.close()

    def test_the_seventeenth_client(self) -> None:
        with served() as (path, _), contextlib.ExitStack() as stack:
            gates = [stack.enter_context(Gate.connect(path=path, timeout=LIMIT)) for _ in range(PLACES)]
            document = gates[0].open("d", "utf-8", b"ab")
            for gate in gates:
                gate.ask("stat", doc="d")
            one_more = Gate.connect(path=path, timeout=SOON)
            self.assertIn("serves as many clients as it can", self.times_out(one_more, lambda: one_more.join("d")))
            gates.pop().close()
            self.assertEqual(stack.enter_context(Gate.connect(path=path, timeout=LIMIT)).join("d").bytes, document.bytes)

    def test_a_program_that_is_stopped(self) -> None:
        gate = Gate.start(PROGRAM, "stdio", "--indexes", INDEXES, timeout=LIMIT)
        document = gate.open("d", "utf-8", b"ab")
        gate.timeout = SOON
        children = pathlib.Path(f"/proc/self/task/{os.getpid()}/children").read_text(encoding="ascii").split()
        stop(next(int(it) for it in children if b"stdio" in pathlib.Path(f"/proc/{it}/cmdline").read_bytes()))
        self.times_out(gate, document.text)


if __name__ == "__main__":
    unittest.main()
