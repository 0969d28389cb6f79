"""Files that clients of different makes share by their paths, and the list of who has them open."""
import hashlib
import os
import pathlib
import subprocess
import sys
import tempfile
import unittest

from checkout import BUILT
from gate import Fault, Gate
from gate_documents import SharedFile
from test_fleet import at_a_socket

LIST = "legacy.editors"


@BUILT
class Sharing(unittest.TestCase):
    def setUp(self) -> None:
        folder = tempfile.TemporaryDirectory()
        self.addCleanup(folder.cleanup)
        self.path = pathlib.Path(folder.name, "a.txt")
        self.path.write_bytes(b"ab\n")
        self.link = pathlib.Path(folder.name, "link")
        self.link.symlink_to(self.path)
        self.name = hashlib.sha256(os.fsencode(os.path.realpath(self.path))).hexdigest()

    def lines(self, gate: Gate) -> "list[str]":
        return gate.join(LIST).bytes.decode().splitlines()

    def is_open(self, gate: Gate) -> bool:
        try:
            gate.ask("stat", doc=self.name)
            return True
        except Fault:
            return False

    def test_two_clients_of_a_file(self) -> None:
        with at_a_socket() as gate:
            with SharedFile(gate, self.path, "utf-8", b"ab\n") as one:
                self.assertEqual((one.name, one.others(), one.document.bytes), (self.name, 0, b"ab\n"))
                with SharedFile(gate, self.link, "utf-8", b"?") as other:
                    self.assertEqual((other.name, other.others(), one.others(), other.document.bytes), (self.name, 1, 1, b"ab\n"))
                    self.assertEqual([it.split(" ")[0] for it in self.lines(gate)], [self.name] * 2)
                    self.assertTrue(all(it.split(" ")[1].startswith(f"{os.getpid()}.") for it in self.lines(gate)))
                self.assertEqual((one.others(), self.is_open(gate)), (0, True))
            self.assertEqual((self.lines(gate), self.is_open(gate)), ([], False))

    def test_who_leaves_first_leaves_it_open(self) -> None:
        with at_a_socket() as gate:
            one = SharedFile(gate, self.path, "utf-8", b"ab\n")
            with SharedFile(gate, self.path, "utf-8", b""):
                one.leave()
                self.assertTrue(self.is_open(gate))
            self.assertFalse(self.is_open(gate))

    def test_an_editor_whose_process_has_ended_is_gone(self) -> None:
        with subprocess.Popen([sys.executable, "-c", ""]) as ended:
            ended.wait()
        with at_a_socket() as gate:
            gate.open(self.name, "utf-8", b"old\n")
            others = f"{self.name} {ended.pid}.1\n{self.name} =1.000000000.3.4\nother {os.getpid()}.x\n"
            gate.open(LIST, "utf-8", others.encode())
            with SharedFile(gate, self.path, "utf-8", b"") as one:
                self.assertEqual((one.others(), one.document.bytes), (0, b"old\n"))
            self.assertTrue(self.is_open(gate), "it was open without an editor")
            self.assertEqual(self.lines(gate), others.splitlines())

    def test_a_line_that_another_adds_meanwhile_stays(self) -> None:
        with at_a_socket() as gate:
            one = SharedFile(gate, self.path, "utf-8", b"ab\n")
            read, added = one._read, [f"{self.name} {os.getpid()}.z\n".encode()]

            def read_and_add() -> object:
                found = read()
                if added:
                    gate.join(LIST).splice(0, 0, added.pop())
                return found

            one._read = read_and_add  # type: ignore
            one.leave()
            self.assertEqual((self.lines(gate), self.is_open(gate)), ([f"{self.name} {os.getpid()}.z"], True))


if __name__ == "__main__":
    unittest.main()
