"""A client whose connection ends, and whose server comes again: questions are asked again, and each edit is made once. Between
both stands a relay that cuts the connection at any command, in front of it, or behind it, so that its reply is lost."""
import concurrent.futures
import contextlib
import itertools
import json
import os
import random
import socket
import subprocess
import tempfile
import threading
import unittest
from typing import Any, Callable, ContextManager, Iterator, List, Tuple

from checkout import BUILT, INDEXES, PROGRAM
from gate import Conflict, Document, Edit, Fault, Fleet, Gate, Gone, Lost, Unsure
from questions import QUESTIONS
from test_fleet import served
from test_gate import LIMIT

# How many edits of a document `gate` keeps.
LOG = 1024
# For how many seconds a client tries to connect again, and for how many where nobody comes.
AGAIN, SHORT = 100.0, 0.1


def without_number(answer: Any) -> Any:
    """An answer without the number of its command."""
    return {**answer, "id": 0} if isinstance(answer, dict) else answer


class Relay:
    """Passes lines and replies on between clients and a server at a socket. It cuts the connection of whoever sends the last
    of `left` commands, in front of it or behind it, and does something before that client can know."""

    def __init__(self, path: str, server: str):
        self.path, self._server = path, server
        self.left, self.is_passed, self.was_cut = 0, False, False
        self.counts_edits = False
        self.meanwhile: Callable[[], Any] = lambda: None
        self.listen()

    def arm(self, left: int, is_passed: bool, counts_edits: bool = False) -> None:
        """Cuts at the last of `left` commands, or of so many edits, or at none where it is 0."""
        self.left, self.is_passed, self.was_cut, self.counts_edits = left, is_passed, False, counts_edits

    def listen(self) -> None:
        self._listening = socket.socket(socket.AF_UNIX)
        self._listening.bind(self.path)
        self._listening.listen()
        threading.Thread(target=self._accept, args=(self._listening,), daemon=True).start()

    def stop(self) -> None:
        """Listens no more."""
        os.unlink(self.path)
        self._listening.shutdown(socket.SHUT_RDWR)
        self._listening.close()

    def _accept(self, listening: socket.socket) -> None:
        with contextlib.suppress(OSError):
            while True:
                client, _ = listening.accept()
                threading.Thread(target=self._pass_on, args=(client,), daemon=True).start()

    def _pass_on(self, client: socket.socket) -> None:
        with client, socket.socket(socket.AF_UNIX) as server, contextlib.suppress(OSError):
            server.connect(self._server)
            with client.makefile("rb") as lines, server.makefile("rb") as replies:
                for line in lines:
                    is_counted = not self.counts_edits or json.loads(line)["op"] in ("splice", "change", "changes")
                    self.left -= is_counted
                    is_last = is_counted and self.left == 0
                    if not is_last or self.is_passed:
                        server.sendall(line)
                        reply = replies.readline()
                    if is_last:
                        self.was_cut = True
                        self.meanwhile()
                        client.shutdown(socket.SHUT_RDWR)
                        return
                    client.sendall(reply)


# A document, and what is done with it: the call, and the bytes that it leads to, with what stands in front by then.
CONTENT = "0\naあb\n0".encode()
EDITS: List[Tuple[str, Callable[[Document], Edit], bytes]] = [
    ("splice", lambda it: it.splice(2, 1, b"A"), "0\nAあb\n0".encode()),
    ("a splice by the same bytes", lambda it: it.splice(2, 1, b"a"), CONTENT),
    ("change", lambda it: it.change("Aい", (1, 0), (1, 2)), "0\nAいb\n0".encode()),
    ("changes", lambda it: it.changes([("い", (1, 1), (1, 2)), ("x", (1, 3))]), "0\naいbx\n0".encode()),
    ("replace", lambda it: it.replace("\ufffdx", b"\xffx", (1, 1), (1, 2)), b"0\na\xffxb\n0"),
    ("no changes", lambda it: it.changes([]), CONTENT),
    ("undo", lambda it: it.undo(Edit(2, b"zz", b"a")), "0\nzzあb\n0".encode()),
]


@BUILT
class Once(unittest.TestCase):
    def setUp(self) -> None:
        stack = contextlib.ExitStack()
        self.addCleanup(stack.close)
        path, _ = stack.enter_context(served())
        self.gate = stack.enter_context(Gate.connect(path=path))
        self.relay = Relay(path + ".relay", path)
        stack.callback(self.relay.stop)

    @contextlib.contextmanager
    def cut_off(self, left: int, is_passed: bool, again: float = AGAIN) -> Iterator[Gate]:
        """A client that is cut off at the last of `left` commands."""
        self.relay.arm(left, is_passed)
        with Gate.connect(path=self.relay.path, again=again) as gate:
            yield gate
        self.relay.meanwhile = lambda: None

    def cuts(self, again: float = AGAIN, at_edits: bool = False) -> Iterator[Tuple[Document, Document]]:
        """A document, by one who is never cut off, and by one who is at the first command of what is done with it, or at the
        first edit, then at the second and so on, as long as there is one; first in front of it, and then behind it."""
        for is_passed in False, True:
            for number in itertools.count(1):
                mine = self.gate.open("d", "utf-8", CONTENT)
                with self.cut_off(0, is_passed, again) as gate:
                    yours = gate.join("d")
                    self.relay.arm(number, is_passed, at_edits)
                    yield mine, yours
                    was_cut = self.relay.was_cut
                    self.relay.arm(0, False)
                with contextlib.suppress(Fault):
                    mine.close()
                if not was_cut:
                    break
            self.assertGreater(number, 1)

    def over(self) -> bool:
        """Whether the connection was cut; from now on it isn't."""
        self.relay.left = 0
        return self.relay.was_cut

    def test_questions_are_asked_again(self) -> None:
        for question in [*QUESTIONS, lambda it: list(it.spans([(0, 1), (1, 3)] * 50)), Document.catch_up]:
            for mine, yours in self.cuts():
                self.assertEqual(without_number(question(yours)), without_number(question(mine)))

    def test_an_edit_is_made_once(self) -> None:
        for name, edit, content in EDITS:
            for mine, yours in self.cuts():
                with self.subTest(name, left=self.relay.left, is_passed=self.relay.is_passed):
                    made = edit(yours)
                    mine.catch_up()
                    self.assertEqual([(it.bytes, it.rev, it.bom) for it in (yours, mine)], [(content, 1, 0)] * 2)
                    yours.undo(made)
                    mine.catch_up()
                    self.assertEqual([(it.bytes, it.rev) for it in (yours, mine)], [(CONTENT, 2)] * 2)

    def test_an_edit_is_made_once_where_another_comes_meanwhile(self) -> None:
        for name, edit, content in EDITS:
            for mine, yours in self.cuts():
                with self.subTest(name, left=self.relay.left, is_passed=self.relay.is_passed):
                    self.relay.meanwhile = lambda: mine.splice(0, 1, b"XY")
                    wanted = content if self.is_made(edit, yours) else CONTENT
                    self.agree(mine, yours, b"XY" + wanted[1:] if self.over() else content)

    def is_made(self, edit: Callable[[Document], Edit], document: Document) -> bool:
        """Whether an edit was made. One that came second has moved, but for a list."""
        try:
            edit(document)
        except Fault as fault:
            self.assertEqual((fault.name, type(fault)), ("Stale", Fault))
            return False
        return True

    def agree(self, mine: Document, yours: Document, content: bytes) -> None:
        for it in mine, yours:
            it.catch_up()
            self.assertEqual((it.bytes, it.source()), (content, content))
        self.assertEqual(mine.rev, yours.rev)

    def test_where_another_edits_the_same_bytes_meanwhile_the_caller_has_both(self) -> None:
        """It can't be known then whether the one whose reply was lost was made in front."""
        for mine, yours in self.cuts(at_edits=True):
            self.relay.meanwhile = lambda: (mine.catch_up(), mine.splice(2, 1, b"B"))
            heard: List[Edit] = []
            yours.listener = heard.append
            if self.relay.left == 1:
                with self.assertRaises(Conflict) as conflict:
                    yours.splice(2, 1, b"A")
                found = conflict.exception
                self.assertEqual((found.mine.new, found.theirs.new, found.unsure), (b"A", b"B", self.relay.is_passed))
                self.assertEqual((heard, yours.rev), ([found.theirs], 1 + self.relay.is_passed))
            else:
                yours.splice(2, 1, b"A")
            self.agree(mine, yours, CONTENT.replace(b"a", b"B" if self.over() else b"A"))

    def test_where_others_edit_more_often_meanwhile_than_is_known_nobody_can_tell(self) -> None:
        for is_passed in False, True:
            mine = self.gate.open("d", "utf-8", CONTENT)
            with self.cut_off(0, False) as gate:
                yours = gate.join("d")
                self.relay.arm(1, is_passed, counts_edits=True)
                self.relay.meanwhile = lambda: [mine.splice(0, 1, b"X") for _ in range(LOG + 1)]
                with self.assertRaises(Conflict) as conflict:
                    yours.splice(2, 1, b"A")
                self.assertEqual((conflict.exception.theirs.anew, conflict.exception.unsure), (True, True))
                self.agree(mine, yours, b"X" + CONTENT[1:].replace(b"a", b"A" if is_passed else b"a"))
            mine.close()

    def test_where_another_edits_beside_it_meanwhile_it_is_known(self) -> None:
        for at, count, new in (3, 0, b"B"), (2, 0, b"B"), (1, 1, b"B"), (3, 3, b""):
            for mine, yours in self.cuts(at_edits=True):
                # (what stands behind the letter has moved where that was replaced by two)
                moved = at + (at > 2 and self.relay.is_passed)
                self.relay.meanwhile = lambda: (mine.catch_up(), mine.splice(moved, count, new))
                heard: List[Edit] = []
                yours.listener = heard.append
                made = yours.splice(2, 1, b"AA")
                if self.over() and self.relay.is_passed:
                    self.assertEqual((made.at, made.old, made.new, heard, yours.rev), (2, b"a", b"AA", [], 1))
                mine.catch_up(), yours.catch_up()
                self.assertEqual((mine.bytes.count(b"AA"), mine.bytes), (1, yours.bytes))

    def test_where_nothing_is_left_of_what_others_did_meanwhile_it_is_known(self) -> None:
        for at in 0, 1, 2, 3, 8:
            for mine, yours in self.cuts():
                with self.subTest(at=at, left=self.relay.left, is_passed=self.relay.is_passed):
                    self.relay.meanwhile = lambda: (mine.catch_up(), mine.splice(at, 0, b"B"), mine.splice(at, 1, b""))
                    yours.splice(2, 1, b"AA")
                    self.over()
                    self.agree(mine, yours, CONTENT.replace(b"a", b"AA"))

    def test_where_another_takes_out_meanwhile_what_was_put_in_the_caller_has_both(self) -> None:
        mine = self.gate.open("d", "utf-8", CONTENT)
        with self.cut_off(0, True) as gate:
            yours = gate.join("d")
            self.relay.arm(1, True, counts_edits=True)
            self.relay.meanwhile = lambda: (mine.catch_up(), mine.splice(2, 1, b""))
            with self.assertRaises(Conflict) as conflict:
                yours.splice(2, 0, b"A")
            self.assertTrue(conflict.exception.unsure)
            self.agree(mine, yours, CONTENT)

    def test_an_edit_that_was_found_to_be_made_is_not_moved_to_where_it_would_be_read_otherwise(self) -> None:
        edits: List[Callable[[Document], Edit]] = [
            lambda it: it.change("", (0, 2), (0, 3)), lambda it: it.changes([("", (0, 2), (0, 3))]), lambda it: it.splice(6, 2, b""),
        ]
        for edit in edits:
            mine = self.gate.open("d", "iso-2022-jp", b'~\x1b$B$"$"\x1b(B')
            with self.cut_off(0, True) as gate:
                yours = gate.join("d")
                self.relay.arm(1, True, counts_edits=True)
                made = edit(yours)
                self.assertTrue(self.over())
                mine.catch_up()
                mine.change("亜b", (0, 2))
                self.assertEqual((made.shifts, made.behind(yours.catch_up())), (False, None))
                self.agree(mine, yours, b'~\x1b$B$"0!\x1b(Bb\x1b(B')
            mine.close()

    def test_an_edit_of_another_isn_t_taken_for_one_s_own(self) -> None:
        # (the splices of the other, whether they meet the one's, and the bytes with both, or with theirs alone where they meet)
        rows: List[Tuple[List[Tuple[int, int, bytes]], bool, bytes]] = [
            ([(2, 1, b"B")], True, b"0\nB"), ([(2, 1, b"")], True, b"0\n"), ([(2, 1, b"AA")], True, b"0\nAA"), ([(1, 2, b"\nA")], True, b"0\nA"),
            ([(0, 1, b"A")], False, b"A\nA"), ([(3, 0, b"A")], False, b"0\nAA"), ([(2, 0, b"A")], False, b"0\nAA"),
            ([(0, 1, b"1"), (0, 1, b"2")], False, b"2\nA"), ([(2, 4, "Bあ".encode()), (2, 1, b"C")], True, b"0\nC"),
        ]
        for splices, is_met, wanted in rows:
            with self.subTest(splices):
                mine = self.gate.open("d", "utf-8", CONTENT)
                with self.cut_off(0, False) as gate:
                    yours = gate.join("d")
                    self.relay.arm(1, False, counts_edits=True)
                    self.relay.meanwhile = lambda: [mine.splice(*it) for it in splices]
                    met: ContextManager[object] = contextlib.nullcontext()
                    if is_met:
                        met = self.assertRaises(Conflict)
                    with met:
                        yours.splice(2, 1, b"A")
                    self.assertTrue(self.over())
                    self.agree(mine, yours, wanted + CONTENT[3:])
                mine.close()

    def test_a_command_that_changes_something_is_not_sent_again(self) -> None:
        for is_passed in False, True:
            mine = self.gate.open("d", "utf-8", CONTENT)
            with self.cut_off(1, is_passed) as gate:
                self.assertRaises(Gone, lambda: gate.ask("splice", doc="d", rev=0, at=0, bytes=b"x", **{"del": 0}))
                self.assertEqual(gate.ask("stat", doc="d")["rev"], is_passed)
            mine.close()

    def test_the_mark_of_an_edit_that_was_made_in_front_of_another(self) -> None:
        for mine, yours in self.cuts(at_edits=True):
            self.relay.meanwhile = lambda: (mine.catch_up(), mine.splice(0, 0, b"\xef\xbb\xbf"))
            yours.splice(2, 1, b"A")
            if self.over() and self.relay.is_passed:
                self.assertEqual((yours.rev, yours.bom), (1, 0))
                yours.catch_up()
                self.assertEqual((yours.rev, yours.bom), (2, 3))

    def test_a_document_is_opened_once(self) -> None:
        for content, room in (CONTENT, 100), (CONTENT, 4), (b"", 4), (b"abcd", 2), (b"\xef\xbb\xbfabc", 3):
            for bom in "sniff", "keep":
                for is_passed in False, True:
                    for number in itertools.count(1):
                        with self.subTest(content=content, bom=bom, is_passed=is_passed, number=number):
                            with self.cut_off(number, is_passed) as gate:
                                document = Document(gate, "e", "utf-8", content, bom, room)
                                was_cut = self.over()
                                found = self.gate.join("e")
                                self.assertEqual([it.bytes for it in (document, found)], [content] * 2)
                                self.assertEqual((document.rev, document.bom), (found.rev, found.bom))
                                self.assertEqual(found.rev, max(-(-len(content) // room) - 1, 0))
                                found.close()
                        if not was_cut:
                            break

    def test_a_name_that_another_client_takes_meanwhile(self) -> None:
        for label, content in ("utf-8", b"abc"), ("windows-1252", b"abcd"):
            self.relay.meanwhile = lambda: self.gate.open("e", label, content)
            with self.cut_off(1, False) as gate:
                with self.assertRaisesRegex(Fault, "NameTaken"):
                    gate.open("e", "utf-8", b"abcd")
            self.gate.ask("close", doc="e")

    def test_a_document_that_was_opened_has_what_another_edited_meanwhile(self) -> None:
        self.relay.meanwhile = lambda: self.gate.join("e").splice(1, 1, b"XY")
        with self.cut_off(1, True) as gate:
            document = gate.open("e", "utf-8", b"abcd")
            self.assertEqual((document.bytes, document.rev), (b"aXYcd", 1))

    def test_a_document_is_closed_once(self) -> None:
        for _, yours in self.cuts():
            yours.close()
            self.assertRaisesRegex(Fault, "NoDocument", lambda: self.gate.ask("stat", doc="d"))
            self.gate.open("d", "utf-8", b"")

    def test_no_document_is_left_open(self) -> None:
        for mine, yours in self.cuts():
            mine.splice(0, 0, b"X")
            yours.change("い", (1, 1), (1, 2))
        others = [self.gate.open(str(number), "utf-8", b"") for number in range(64)]
        self.assertEqual(len(others), 64)

    def test_an_edit_of_which_nothing_is_known_is_found_out_later(self) -> None:
        for name, edit, content in EDITS:
            for mine, yours in self.cuts(SHORT):
                with self.subTest(name, left=self.relay.left, is_passed=self.relay.is_passed):
                    self.relay.meanwhile = self.relay.stop
                    self.assertIsNone(yours.find_out())
                    try:
                        edit(yours)
                    except Unsure:
                        for call in (lambda: edit(yours)), yours.catch_up, yours.find_out:
                            self.assertRaises(Unsure, call)
                        self.relay.listen()
                        self.assertEqual(yours.find_out() is not None, mine.stat()["rev"] == 1)
                    except Gone:
                        # (it had not been sent, or is known to be made)
                        self.relay.listen()
                    self.over()
                    if mine.stat()["rev"] == 0:
                        edit(yours)
                    self.agree(mine, yours, content)
                    self.assertEqual(yours.rev, 1)

    def test_threads_share_a_connection_that_is_cut(self) -> None:
        rng = random.Random(1)

        def rearm() -> None:
            self.relay.arm(rng.randint(2, 30), rng.random() < 0.5)

        def work(number: int) -> Tuple[bytes, int]:
            document = gate.open(f"{number}", "utf-8", b"")
            for step in range(20):
                document.splice(0, 0, b"%d." % step)
                self.assertEqual(document.text(), document.bytes.decode())
            return document.source(), document.rev

        self.relay.meanwhile = rearm
        with self.cut_off(5, False) as gate, concurrent.futures.ThreadPoolExecutor(8) as pool:
            expected = b"".join(b"%d." % step for step in reversed(range(20)))
            self.assertEqual(list(pool.map(work, range(8))), [(expected, 20)] * 8)


class Again(unittest.TestCase):
    """Tests of a server that ends and comes again."""

    # Further words with which it is started.
    words: List[str] = []

    def setUp(self) -> None:
        self.folder = tempfile.TemporaryDirectory()
        self.addCleanup(self.folder.cleanup)
        self.path = os.path.join(self.folder.name, "gate.sock")
        self.start()

    def start(self) -> None:
        self.program = subprocess.Popen([PROGRAM, "serve", "--indexes", INDEXES, "--socket", self.path, *self.words])
        self.addCleanup(self.program.wait)
        self.addCleanup(self.program.kill)

    def start_again(self) -> None:
        self.program.kill()
        self.program.wait()
        self.start()

    def connect(self, again: float = AGAIN) -> Gate:
        gate = Gate.connect(path=self.path, patience=LIMIT, again=again)
        self.addCleanup(gate.close)
        return gate


@BUILT
class AnotherServer(Again):
    """A server that comes again without its documents."""

    def test_a_document_that_is_lost_is_opened_anew_where_that_is_wanted(self) -> None:
        for bom in "sniff", "keep":
            document = self.connect().open("d", "shift_jis", b"\xef\xbb\xbf\x82\xa0a", bom=bom)
            document.splice(4, 0, b"b")
            encoding = document.encoding
            self.start_again()
            calls: List[Callable[[], Any]] = [
                document.text, document.catch_up, document.refresh, lambda: document.splice(0, 0, b""),
                lambda: document.change("x", (0, 0)), lambda: document.changes([]),
            ]
            for call in calls:
                self.assertRaises(Lost, call)
            self.assertEqual((document.bytes, document.rev), (b"\xef\xbb\xbf\x82b\xa0a", 1))
            document.reopen()
            document.splice(5, 1, b"")
            self.assertEqual((document.bytes, document.rev, document.encoding), (b"\xef\xbb\xbf\x82ba", 1, encoding))
            self.assertEqual(document.source(), document.bytes)
            document.close()

    def test_who_joined_opens_it_anew_as_it_was(self) -> None:
        for content, bom in (b"\x82\xa0", "sniff"), (b"\xef\xbb\xbfa", "keep"), (b"\xef\xbb\xbfa", "sniff"):
            self.connect().open("d", "shift_jis", content, bom=bom)
            document = self.connect().join("d")
            found = document.text(), without_number(document.stat())
            self.start_again()
            self.assertRaises(Lost, document.stat)
            document.reopen()
            self.assertEqual((document.text(), without_number(document.stat())), found)
            document.close()

    def test_another_document_under_the_name(self) -> None:
        # (the edits of the one, the bytes and the edits of the other, and whether it is known to be another)
        rows = [
            (0, b"abc", 0, False), (0, b"abd", 0, True), (1, b"abc", 0, True), (1, b"abc", 1, False), (1, b"xbc", 1, True),
            (1, b"abc", 2, False),
        ]
        for before, content, behind, anew in rows:
            with self.subTest(before=before, content=content, behind=behind):
                document = self.connect().open("d", "utf-8", b"abc")
                for _ in range(before):
                    document.splice(0, 0, b"")
                self.start_again()
                with Gate.connect(path=self.path, patience=LIMIT) as other:
                    another = other.open("d", "utf-8", content)
                    for _ in range(behind):
                        another.splice(0, 0, b"")
                    try:
                        document.splice(3, 0, b"!")
                        self.assertFalse(anew)
                    except Conflict as fault:
                        self.assertTrue(anew and fault.theirs.anew)
                    self.assertEqual(document.bytes, content if anew else content + b"!")
                    self.assertEqual(document.source(), document.bytes)
                    another.close()

    def test_where_another_client_was_first_to_open_it_anew_its_bytes_are_read(self) -> None:
        for content in b"abc", b"abd", b"wxyz":
            with self.subTest(content=content):
                document = self.connect().open("d", "utf-8", b"abc")
                self.start_again()
                self.assertRaises(Lost, document.text)
                with Gate.connect(path=self.path, patience=LIMIT) as other:
                    another = other.open("d", "utf-8", content)
                    self.assertRaisesRegex(Fault, "NameTaken", document.reopen)
                    self.assertEqual([it.anew for it in document.catch_up()], [True] * (content != b"abc"))
                    self.assertEqual(document.bytes, content)
                    another.close()

    def test_nobody_comes(self) -> None:
        gate = self.connect(SHORT)
        document = gate.open("d", "utf-8", b"ab")
        self.program.kill()
        self.program.wait()
        calls: List[Callable[[], Any]] = [
            document.catch_up, document.refresh, lambda: document.splice(0, 0, b""), document.text, document.close,
        ]
        for call in calls:
            self.assertRaises(Gone, call)
        self.start()
        # (it is to be there already, since this client hardly waits for it)
        Gate.connect(path=self.path, patience=LIMIT).close()
        self.assertRaises(Lost, document.text)
        document.reopen()
        self.assertEqual((document.text(), document.rev), ("ab", 0))

    def test_whoever_does_not_ask_for_it_is_not_connected_again(self) -> None:
        gate = Gate.connect(path=self.path, patience=LIMIT)
        document = gate.open("d", "utf-8", b"ab")
        self.start_again()
        calls: List[Callable[[], Any]] = [document.text, document.catch_up, lambda: document.splice(0, 0, b"x"), document.reopen]
        for call in calls:
            self.assertRaises(Gone, call)
        gate.close()

    def test_a_connection_that_is_closed_is_not_made_again(self) -> None:
        gate = self.connect()
        gate.close()
        self.assertRaises(Gone, lambda: gate.ask("stat", doc="d"))

    def test_a_fleet_connects_again(self) -> None:
        with Fleet([self.path], again=AGAIN) as fleet:
            document = fleet.open("d", "utf-8", b"ab")
            self.start_again()
            self.assertRaises(Lost, document.text)

    def test_a_program_that_was_started_is_not_started_again(self) -> None:
        gate = Gate.start("sh", "-c", "exit 0")
        self.assertRaises(Gone, lambda: gate.ask("stat", doc="d"))
        gate.close()


def compacts() -> bool:
    """Whether the program compacts records."""
    if not os.access(PROGRAM, os.X_OK):
        return False
    return subprocess.run([PROGRAM, "compact", "--help"], stdout=subprocess.DEVNULL, stderr=subprocess.DEVNULL).returncode == 0


@unittest.skipUnless(compacts(), f"{PROGRAM} isn't there, or compacts no record")
class ShorterRecord(Again):
    """A server that comes again with a record that was compacted meanwhile, so that it knows no edit from before."""

    def start(self) -> None:
        self.record = os.path.join(self.folder.name, "record")
        self.words = ["--resume", self.record]
        super().start()

    def start_again(self) -> None:
        self.program.kill()
        self.program.wait()
        subprocess.run([PROGRAM, "compact", "--indexes", INDEXES, self.record], check=True)
        self.start()

    def test_who_knows_the_last_revision_goes_on(self) -> None:
        for name, edit, content in EDITS:
            with self.subTest(name):
                document = self.connect().open("d", "utf-8", CONTENT)
                heard: List[Edit] = []
                document.listener = heard.append
                self.start_again()
                made = edit(document)
                self.assertEqual((document.bytes, document.source(), document.rev), (content, content, 1))
                self.start_again()
                self.assertEqual(document.catch_up(), [])
                document.undo(made)
                self.assertEqual((document.bytes, document.source(), document.rev, heard), (CONTENT, CONTENT, 2, []))
                document.close()

    def test_a_mark_stays_what_it_was(self) -> None:
        for content, bom in (b"\xef\xbb\xbfa", "keep"), (b"\xef\xbb\xbfa", "sniff"):
            document = self.connect().open("d", "shift_jis", content, bom=bom)
            found = document.text(), without_number(document.stat())
            self.start_again()
            self.assertEqual((document.text(), without_number(document.stat())), found)
            document.close()

    def test_who_has_missed_an_edit_reads_the_document_anew(self) -> None:
        mine = self.connect().open("d", "utf-8", CONTENT)
        yours = self.connect().join("d")
        for rev in range(3):
            mine.splice(0, 1, b"XY")
            self.start_again()
            before = yours.bytes
            [edit] = yours.catch_up()
            self.assertEqual((edit.anew, yours.bytes, yours.rev), (True, mine.bytes, rev + 1))
            self.assertEqual(before[: edit.at] + edit.new + before[edit.at + len(edit.old) :], mine.bytes)
            self.assertEqual(mine.catch_up(), [])

    def test_of_an_edit_that_comes_late_the_caller_has_both(self) -> None:
        for at in 6, 0:
            mine = self.connect().open("d", "utf-8", CONTENT)
            yours = self.connect().join("d")
            mine.splice(0, 1, b"XY")
            self.start_again()
            with self.assertRaises(Conflict) as conflict:
                yours.splice(at, 1, b"Z")
            found = conflict.exception
            self.assertEqual((found.mine.at, found.mine.new, found.theirs.anew, found.unsure), (at, b"Z", True, False))
            self.assertEqual((yours.bytes, yours.rev), (mine.bytes, 1))
            yours.splice(at, 1, b"Z")
            mine.catch_up()
            self.assertEqual((mine.bytes, mine.rev, mine.source()), (yours.bytes, 2, yours.source()))
            mine.close()

    def test_an_edit_whose_reply_is_lost_is_made_once(self) -> None:
        relay = Relay(self.path + ".relay", self.path)
        self.addCleanup(relay.stop)
        relay.meanwhile = self.start_again
        for name, edit, content in EDITS:
            for is_passed in False, True:
                for number in itertools.count(1):
                    with self.subTest(name, is_passed=is_passed, number=number):
                        mine = self.connect().open("d", "utf-8", CONTENT)
                        with Gate.connect(path=relay.path, again=AGAIN) as gate:
                            yours = gate.join("d")
                            relay.arm(number, is_passed)
                            edit(yours)
                            was_cut = relay.was_cut
                            relay.arm(0, False)
                            self.assertEqual((yours.bytes, yours.source(), yours.rev), (content, content, 1))
                        mine.close()
                    if not was_cut:
                        break


if __name__ == "__main__":
    unittest.main()
