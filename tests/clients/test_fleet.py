"""The client over Unix sockets, and over several servers."""
import contextlib
import io
import os
import re
import subprocess
import tempfile
import unittest
from typing import Iterator, List, Tuple

from checkout import BUILT, INDEXES, PROGRAM, TOP
from gate import Fault, Fleet, Gate, Gone, Place
from base import LIMIT, free_port


@contextlib.contextmanager
def served() -> "Iterator[Tuple[str, subprocess.Popen[bytes]]]":
    """The path of a socket at which the program serves clients, and its process; it listens already."""
    with tempfile.TemporaryDirectory() as folder:
        path = os.path.join(folder, "gate.sock")
        with subprocess.Popen([PROGRAM, "serve", "--indexes", INDEXES, "--socket", path]) as program:
            try:
                Gate.connect(path=path, patience=LIMIT).close()
                yield path, program
            finally:
                program.kill()


@contextlib.contextmanager
def listening() -> Iterator[str]:
    """The path of a socket at which the program serves clients."""
    with served() as (path, _):
        yield path


@contextlib.contextmanager
def at_a_socket() -> Iterator[Gate]:
    """A connection to the program at a socket."""
    with listening() as path, Gate.connect(path=path) as gate:
        yield gate


@BUILT
class Sockets(unittest.TestCase):
    def test_the_two_clients_of_the_readme(self) -> None:
        found = re.search(r"^```\n(from gate import .*?)^```$", (TOP / "README.md").read_text(encoding="utf-8"), re.MULTILINE | re.DOTALL)
        assert found
        with listening() as path, contextlib.redirect_stdout(io.StringIO()) as printed:
            exec(found[1].replace("gate.sock", path), {})
        self.assertEqual(printed.getvalue(), "caf\ufffd bleu\n")

    def test_a_document_over_a_socket(self) -> None:
        with at_a_socket() as gate:
            document = gate.open("d", "utf-8", b"a\xffb")
            document.change("x", (0, 0), (0, 1))
            self.assertEqual((document.bytes, document.source()), (b"x\xffb", b"x\xffb"))

    def test_who_joins_has_the_document_as_it_is(self) -> None:
        with at_a_socket() as gate:
            mine = gate.open("d", "shift_jis", b"abc")
            yours = gate.join("d")
            self.assertEqual((yours.bytes, yours.rev, yours.encoding, yours.bom), (b"abc", 0, "Shift_JIS", 0))
            yours.splice(1, 1, b"")
            mine.refresh()
            edit = mine.splice(2, 0, b"d")
            self.assertEqual((mine.bytes, mine.rev), (b"acd", 2))
            mine.undo(edit)
            yours.refresh()
            self.assertEqual((yours.bytes, yours.rev), (b"ac", 3))

    def test_nobody_joins_what_is_not_open(self) -> None:
        with at_a_socket() as gate, self.assertRaises(Fault) as refused:
            gate.join("d")
        self.assertEqual(refused.exception.name, "NoDocument")

    def test_a_socket_at_which_nobody_listens(self) -> None:
        with self.assertRaises(FileNotFoundError):
            Gate.connect(path="/no/such/socket", patience=0.0)


class Spreading(unittest.TestCase):
    NAMES = [f"document {number}" for number in range(3000)]

    def test_a_place_more_moves_one_document_in_so_many_and_only_to_it(self) -> None:
        places: List[Place] = ["a", "b", 7117]
        before, after = Fleet(places), Fleet([*places, 7118])
        moved = [name for name in self.NAMES if before.place_of(name) != after.place_of(name)]
        self.assertEqual({after.place_of(name) for name in moved}, {7118})
        self.assertAlmostEqual(len(moved), len(self.NAMES) / 4, delta=150)
        for place in places:
            count = sum(before.place_of(name) == place for name in self.NAMES)
            self.assertAlmostEqual(count, len(self.NAMES) / 3, delta=150)

    def test_the_order_of_places_does_not_matter(self) -> None:
        one, other = Fleet(["a", "b", "c"]), Fleet(["c", "a", "b"])
        self.assertEqual([one.place_of(name) for name in self.NAMES], [other.place_of(name) for name in self.NAMES])


@contextlib.contextmanager
def three_servers() -> "Iterator[Tuple[List[Place], List[subprocess.Popen[bytes]]]]":
    """Servers at sockets, by their paths, and one at a port, with their processes."""
    port = free_port()
    with tempfile.TemporaryDirectory() as folder:
        places: List[Place] = [os.path.join(folder, "one"), os.path.join(folder, "two"), port]
        words = [PROGRAM, "serve", "--indexes", str(INDEXES)]
        at_port = ["--token-file", os.path.join(folder, "token"), "--port"]
        programs = [subprocess.Popen([*words, *(at_port if place == port else ["--socket"]), str(place)]) for place in places]
        try:
            yield places, programs
        finally:
            for program in programs:
                program.kill()
                program.wait()


@BUILT
class Fleets(unittest.TestCase):
    def test_three_servers_of_which_one_dies(self) -> None:
        names = [f"d{number}" for number in range(60)]
        with contextlib.ExitStack() as kept:
            places, programs = kept.enter_context(three_servers())
            token = os.path.join(os.path.dirname(str(places[0])), "token")
            first = kept.enter_context(Fleet(places, patience=LIMIT, token_file=token))
            fleet = kept.enter_context(Fleet(places[::-1], token_file=token))
            for name in names:
                first.open(name, "utf-8", name.encode()).splice(0, 0, b"the ")
            before = {name: fleet.place_of(name) for name in names}
            self.assertEqual(set(before.values()), set(places))
            documents = {name: fleet.join(name) for name in names}
            programs[1].kill()
            programs[1].wait()
            for name, document in documents.items():
                if before[name] == places[1]:
                    with self.assertRaises(Gone):
                        document.refresh()
                else:
                    document.refresh()
                    self.assertEqual(document.bytes, b"the " + name.encode())
            fleet.remove(places[1])
            for name in names:
                if before[name] == places[1]:
                    self.assertEqual(fleet.open(name, "utf-8", name.encode()).stat()["bytes"], len(name))
                else:
                    self.assertEqual(fleet.place_of(name), before[name])
