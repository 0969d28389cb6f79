"""Where the program listens for live clients: the socket's file and who may use it, a second server, and when it ends."""
import contextlib
import os
import signal
import socket
import stat
import subprocess
import time
import unittest

from program import PROGRAM, SMALL, built
from base import LIMIT, free_port
from serving import Client, Server, Serving, line

# The most bytes of a path: a socket's address has room for 107, and while the socket is made its name is longer.
LONGEST_PATH = 96

# How often a server is started while somebody watches the folder.
STARTS = 20

# The user and the group that are nobody's.
NOBODY = 65534


def connects_as_nobody(path):
    """Whether another user may connect to a socket."""
    child = os.fork()
    if child == 0:
        status = 1
        try:
            os.setgroups([])
            os.setgid(NOBODY)
            os.setuid(NOBODY)
            with socket.socket(socket.AF_UNIX) as it:
                it.connect(path)
            status = 0
        except PermissionError:
            pass
        finally:
            os._exit(status)
    return os.waitpid(child, 0)[1] == 0


def open_mask():
    """What a process does so that files that it makes without a mode are everybody's."""
    os.umask(0)


def mode(path):
    return stat.S_IMODE(os.lstat(path).st_mode)


@built
class Places(Serving):
    def listening(self, *words, **how):
        """A server at the path that answers clients already. (Right before that the folder goes in which the socket was made.)"""
        server = self.serve(self.path, *words, **how)
        with server.connect() as client:
            client.ask("stat", doc="nobody's")
        return server

    def is_refused(self, place):
        """A server can't listen at a place, says so, and leaves nothing behind."""
        before = sorted(os.listdir(self.folder))
        ended = self.serve(place).ended()
        named = f"port {place}" if isinstance(place, int) else place
        self.assertEqual(ended, (1, "", f"gate: cannot listen on {named}\n"))
        self.assertEqual(sorted(os.listdir(self.folder)), before)

    def test_only_the_owner_may_use_the_socket(self):
        self.listening(limits=open_mask)
        for name in os.listdir(self.folder):
            self.assertEqual((name, mode(self.folder / name)), (name, 0o600))
        self.assertTrue(stat.S_ISSOCK(os.lstat(self.path).st_mode))

    def test_the_name_appears_with_its_mode(self):
        """Whoever looks without a pause finds no socket, or one that is the owner's alone."""
        for _ in range(STARTS):
            server, end = self.serve(self.path, limits=open_mask), time.monotonic() + LIMIT
            while time.monotonic() < end:
                try:
                    found = mode(self.path)
                    break
                except FileNotFoundError:
                    pass
            self.assertEqual(found, 0o600)
            with Client(self.path):
                server.kill()
            os.unlink(self.path)

    @unittest.skipUnless(os.geteuid() == 0, "only root can try what another user may do")
    def test_another_user_may_not_connect(self):
        os.chmod(self.folder, 0o755)
        anybodys = str(self.folder / "anybody's")
        with socket.socket(socket.AF_UNIX) as it:
            it.bind(anybodys)
            it.listen()
            os.chmod(anybodys, 0o666)
            self.assertTrue(connects_as_nobody(anybodys))
        self.listening(limits=open_mask)
        self.assertFalse(connects_as_nobody(self.path))

    def test_a_second_server_is_refused_and_the_first_serves_on(self):
        first = self.serve(self.path, "--serve", "1")
        with first.connect() as client:
            client.ask("open", doc="d", label="utf-8", bytes="YQ==")
            for _ in range(3):
                self.is_refused(self.path)
            self.assertEqual(client.ask("stat", doc="d")["bytes"], 1)
        self.assertEqual(first.ended(), (0, "", ""))

    def test_a_server_that_was_killed_is_followed_by_another(self):
        for _ in range(3):
            server = self.listening()
            with server.connect() as client:
                self.assertEqual(client.ask("open", doc="d", label="utf-8", bytes="YQ==")["rev"], 0)
                os.kill(server.process.pid, signal.SIGKILL)
                self.assertEqual(server.ended()[0], -signal.SIGKILL)
                self.assertIsNone(client.reply())
            self.assertTrue(os.path.exists(self.path))

    def test_a_server_that_was_stopped_by_a_signal_is_followed_by_another(self):
        server = self.listening()
        server.process.send_signal(signal.SIGTERM)
        self.assertEqual(server.ended(), (-signal.SIGTERM, "", ""))
        self.listening()

    def test_what_is_left_of_a_start_that_was_killed(self):
        left = self.folder / "socket.new"
        left.mkdir()
        with socket.socket(socket.AF_UNIX) as it:
            it.bind(str(left / "socket"))
        self.listening()
        self.assertFalse(left.exists())

    def test_so_many_clients_and_then_the_end(self):
        server = self.serve(self.path, "--serve", "3")
        with server.connect() as first, server.connect() as second, server.connect() as third:
            for client in first, second, third:
                self.assertEqual(client.ask("stat", doc="d"), {"fault": "NoDocument"})
            with server.connect() as behind:
                behind.send(line("stat", doc="d"))
                self.assertTrue(behind.waits(0.1))
                for client in second, first:
                    client.close()
                self.assertEqual(third.ask("stat", doc="d"), {"fault": "NoDocument"})
                third.close()
                self.assertEqual(server.ended(), (0, "", ""))
                self.assertRaises(ConnectionResetError, behind.peer.recv, 1)
        self.assertEqual(os.listdir(self.folder), [])

    def test_the_end_of_an_idle_server(self):
        begun = time.monotonic()
        self.assertEqual(self.serve(self.path, "--idle", "1").ended(), (0, "", ""))
        self.assertGreater(time.monotonic() - begun, 0.9)
        self.assertEqual(os.listdir(self.folder), [])

    def test_a_server_with_a_silent_client_is_not_idle(self):
        server = self.serve(self.path, "--idle", "1")
        # (it may have been idle for long enough before this process came to be its client)
        while not self.lets_in(server):
            self.assertEqual(server.ended(), (0, "", ""))
            server = self.serve(self.path, "--idle", "1")
        with server.connect() as client:
            self.first.ask("open", doc="d", label="utf-8", bytes="YQ==")
            self.first.close()
            time.sleep(1.5)
            self.assertEqual(client.ask("stat", doc="d")["bytes"], 1)
        self.assertEqual(server.ended(), (0, "", ""))

    def lets_in(self, server):
        """Whether a server has this one as its first client, before it ends."""
        while server.process.poll() is None:
            with contextlib.suppress(ConnectionRefusedError, FileNotFoundError):
                self.first = Client(self.path, 0)
                with contextlib.suppress(OSError, AttributeError):
                    if self.first.ask("stat", doc="d"):
                        return True
            time.sleep(0.002)
        return False

    def test_places_where_nothing_can_listen(self):
        too_long = str(self.folder / "x").ljust(LONGEST_PATH + 1, "x")
        for place in "", too_long, str(self.folder / "missing" / "socket"), str(self.folder):
            with self.subTest(place):
                self.is_refused(place)

    def test_files_that_are_no_sockets_stay(self):
        """At the path, or where its lock would be."""
        for name in "socket", "socket.lock":
            file = self.folder / name
            file.write_text("kept")
            self.is_refused(self.path)
            self.assertEqual(file.read_text(), "kept")
            file.unlink()
        elsewhere = self.folder / "elsewhere"
        elsewhere.write_text("")
        os.symlink(elsewhere, self.path)
        self.is_refused(self.path)

    def test_a_lock_is_not_made_through_a_link(self):
        elsewhere, lock = self.folder / "elsewhere", self.folder / "socket.lock"
        lock.symlink_to(elsewhere)
        self.is_refused(self.path)
        self.assertFalse(elsewhere.exists())
        elsewhere.write_text("")
        self.is_refused(self.path)
        lock.unlink()
        os.mkfifo(lock)
        self.is_refused(self.path)

    def test_a_port_that_is_taken(self):
        with socket.create_server(("127.0.0.1", 0)) as it:
            self.is_refused(it.getsockname()[1])

    def test_the_longest_path(self):
        self.path = str(self.folder / "x").ljust(LONGEST_PATH, "x")
        self.listening()

    def test_a_path_from_the_folder_that_the_program_is_in(self):
        words = [PROGRAM, "serve", *SMALL[1:], "--socket", "socket", "--serve", "1"]
        with subprocess.Popen(words, cwd=self.folder) as program:
            with Client(self.path) as client:
                self.assertEqual(client.ask("stat", doc="d"), {"fault": "NoDocument"})
            self.assertEqual(program.wait(LIMIT), 0)

    def test_a_port_can_be_listened_on_again_at_once(self):
        port = free_port()
        for _ in range(5):
            server = Server(port, "--serve", "1")
            self.addCleanup(server.kill)
            with server.connect() as client:
                client.ask("stat", doc="d")
                server.kill()
            self.assertEqual(server.process.returncode, -signal.SIGKILL)


if __name__ == "__main__":
    unittest.main()
