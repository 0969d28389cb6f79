"""Two clients in one document of a live server: how edits move, what a copy takes in, and two that type at random at once."""
import contextlib
import multiprocessing
import multiprocessing.connection
import multiprocessing.synchronize
import os
import random
import subprocess
import time
import unittest
from typing import Any, Callable, ContextManager, Dict, Iterator, List, NamedTuple, Optional, Tuple
from unittest import mock

from checkout import BUILT
from gate import UNITS, Conflict, Document, Edit, Fault, Gate, Gone
from gate_documents.content import Content
from gate_documents.states import state
from questions import QUESTIONS
from test_fleet import listening, served

# How many edits of a document `gate` keeps.
LOG = 1024
# The seconds for which two clients type at random in each encoding; GATE_TYPING=60 is a minute.
TYPING = float(os.environ.get("GATE_TYPING", "2"))
# The seconds that each thinks at most, between what it sees and what it types.
THINKING = 0.002
# The encodings in which they do, what Python calls each, and a character that it and the small index files have.
ENCODINGS = [
    ("utf-8", "utf-8", "あ"), ("shift_jis", "shift_jis", "あ"), ("iso-2022-jp", "iso2022_jp", "あ"), ("utf-16le", "utf-16-le", "😀"),
    ("windows-1252", "cp1252", "»"),
]
# The seconds that one wait may take, beside those.
LIMIT = 100

class Moving(unittest.TestCase):
    # Bytes 4 to 6 are replaced by three, two are put in at 4, and 4 to 6 taken out.
    REPLACED, PUT_IN, TAKEN_OUT = Edit(4, b"ab", b"xyz"), Edit(4, b"", b"xy"), Edit(4, b"ab", b"")

    def test_each_way_in_which_two_edits_lie(self) -> None:
        rows = [
            ("in front", self.REPLACED, 0, 3, 0), ("touches the front", self.REPLACED, 2, 2, 2),
            ("behind", self.REPLACED, 7, 1, 8), ("touches the end", self.REPLACED, 6, 2, 7),
            ("meets the front", self.REPLACED, 3, 2, None), ("meets the end", self.REPLACED, 5, 2, None),
            ("the same bytes", self.REPLACED, 4, 2, None), ("around it", self.REPLACED, 3, 4, None), ("within it", self.REPLACED, 5, 1, None),
            ("put in at its front", self.REPLACED, 4, 0, 4), ("put in at its end", self.REPLACED, 6, 0, 7),
            ("put in within it", self.REPLACED, 5, 0, None),
            ("put in at the same place", self.PUT_IN, 4, 0, 6), ("put in around what is put in", self.PUT_IN, 3, 2, None),
            ("put in where it begins", self.PUT_IN, 4, 2, 6), ("put in where it ends", self.PUT_IN, 2, 2, 2),
            ("put in in front of what is put in", self.PUT_IN, 3, 0, 3), ("put in behind it", self.PUT_IN, 5, 0, 7),
            ("put in where bytes went out", self.TAKEN_OUT, 4, 0, 4), ("put in behind those", self.TAKEN_OUT, 6, 0, 4),
            ("both take out the same", self.TAKEN_OUT, 4, 2, None), ("behind what went out", self.TAKEN_OUT, 6, 3, 4),
            ("nothing was edited", Edit(0, b"", b""), 0, 0, 0), ("read anew", Edit(4, b"ab", b"", anew=True), 0, 1, None),
        ]
        for name, edit, at, count, moved in rows:
            with self.subTest(name):
                for shifts in None, False:
                    self.assertEqual(edit.moves(at, count, shifts), moved)

    def test_what_stands_right_behind_a_shift_is_read_otherwise(self) -> None:
        replaced, put_in = Edit(4, b"ab", b"xyz", shifts=True), Edit(4, b"", b"xy", shifts=True)
        rows = [
            # (the edit, where other bytes are and how many, whether these shift, and where they are then)
            (replaced, 6, 1, False, None), (replaced, 6, 0, True, None), (replaced, 6, 1, None, 7), (replaced, 7, 1, False, 8),
            (put_in, 4, 0, False, None), (put_in, 4, 0, None, 6), (put_in, 2, 2, False, 2), (self.PUT_IN, 2, 2, True, None),
            (self.PUT_IN, 1, 2, True, 1), (self.PUT_IN, 4, 2, True, 6), (self.REPLACED, 2, 2, True, None), (self.REPLACED, 6, 2, True, 7),
        ]
        for edit, at, count, shifts, moved in rows:
            with self.subTest(edit=vars(edit), at=at, count=count, shifts=shifts):
                self.assertEqual(edit.moves(at, count, shifts), moved)
                made = Edit(at, b"", b"c" * count, shifts=shifts).behind([edit, Edit(0, b"", b"", shifts=False)])
                self.assertEqual(made and (made.at, made.shifts), None if moved is None else (moved, shifts))

    def test_an_edit_that_was_made_is_found_behind_later_ones(self) -> None:
        made = Edit(10, b"old", b"new words")
        found = made.behind([Edit(0, b"", b"12"), Edit(21, b"x", b""), Edit(5, b"abc", b"d")])
        assert found
        self.assertEqual((found.at, found.old, found.new), (10, b"old", b"new words"))
        for later in Edit(12, b"", b"x"), Edit(18, b"ss", b""), Edit(0, b"", b"", anew=True):
            self.assertIsNone(made.behind([Edit(0, b"", b""), later, Edit(0, b"", b"")]))
        unmoved = made.behind([])
        assert unmoved
        self.assertEqual((unmoved.at, unmoved.old, unmoved.new), (10, b"old", b"new words"))

    def test_both_see_the_same_order(self) -> None:
        """However two edits of one copy lie, the other way round they meet just so."""
        for at in range(6):
            for count in range(3):
                for other_at in range(6):
                    for other_count in range(3):
                        for shifts, others in (False, False), (True, False), (True, True):
                            # (of two that put bytes in at one place either is in front)
                            if not shifts or at != other_at or count or other_count:
                                one, other = Edit(at, b"a" * count, b"x", shifts=shifts), Edit(other_at, b"a" * other_count, b"yz", shifts=others)
                                meet = one.moves(other_at, other_count, others) is None, other.moves(at, count, shifts) is None
                                self.assertEqual(meet[0], meet[1], (at, count, shifts, other_at, other_count, others))


class Pair(NamedTuple):
    """Two clients of one server, with the document that the first has opened and the second joined."""

    mine: Document
    yours: Document
    gate: Gate
    other: Gate

    def agree(self) -> bytes:
        """Both catch up, and have the bytes that the server has."""
        self.mine.catch_up(), self.yours.catch_up()
        content = self.mine.source()
        assert content == self.mine.bytes == self.yours.bytes, (content, self.mine.bytes, self.yours.bytes)
        return content


def quote_path(edits: List[Edit]) -> List[Tuple[Any, ...]]:
    return [(it.at, it.old, it.new, it.anew) for it in edits]


@BUILT
class Together(unittest.TestCase):
    served: ContextManager[Tuple[str, "subprocess.Popen[bytes]"]]
    path: str

    @classmethod
    def setUpClass(cls) -> None:
        cls.served = served()
        cls.path, _ = cls.served.__enter__()

    @classmethod
    def tearDownClass(cls) -> None:
        cls.served.__exit__(None, None, None)

    @contextlib.contextmanager
    def two(self, content: bytes, label: str = "utf-8") -> Iterator[Pair]:
        with Gate.connect(path=self.path) as gate, Gate.connect(path=self.path) as other:
            mine = gate.open("d", label, content)
            try:
                yield Pair(mine, Document.join(other, "d"), gate, other)
            finally:
                with contextlib.suppress(Fault):
                    gate.ask("close", doc="d")

    def refusal_of(self, call: Callable[[], Any], name: str = "Stale") -> Dict[str, Any]:
        with self.assertRaises(Fault) as refused:
            call()
        self.assertEqual((refused.exception.name, type(refused.exception)), (name, Fault))
        return refused.exception.members

    def conflict(self, call: Callable[[], Any]) -> Conflict:
        with self.assertRaises(Conflict) as refused:
            call()
        self.assertEqual(refused.exception.name, "Stale")
        return refused.exception

    def test_a_copy_takes_in_what_another_client_does(self) -> None:
        with self.two(b"one\ntwo\n") as (mine, yours, _, _):
            self.assertEqual(quote_path(yours.catch_up()), [])
            mine.splice(3, 1, b"")
            self.assertEqual(quote_path(yours.catch_up()), [(3, b"\n", b"", False)])
            mine.change("é", (0, 0), (0, 1))
            mine.changes([("x", (0, 1)), ("", (0, 2), (0, 3))])
            self.assertEqual(quote_path(yours.catch_up()), [(0, b"on", "éx".encode(), False)])
            self.assertEqual((yours.bytes, yours.rev), ("éxetwo\n".encode(), 3))
            self.assertEqual(quote_path(yours.catch_up()), [])
            mine.changes([])
            self.assertEqual((quote_path(yours.catch_up()), yours.rev), ([(0, b"", b"", False)], 4))

    def test_edits_far_apart_are_one(self) -> None:
        with self.two(b"0123456789") as (mine, yours, _, _):
            mine.splice(8, 1, b"xy")
            mine.splice(2, 2, b"")
            self.assertEqual(quote_path(yours.catch_up()), [(2, b"2345678", b"4567xy", False)])

    def test_a_mark_that_comes_changes_the_encoding_of_the_copy(self) -> None:
        with self.two(b"a\x80", "windows-1252") as (mine, yours, _, _):
            mine.splice(0, 0, b"\xef\xbb\xbf")
            yours.catch_up()
            self.assertEqual((yours.encoding, yours.bom, yours.bytes), ("UTF-8", 3, b"\xef\xbb\xbfa\x80"))
            mine.splice(0, 0, b"b")
            yours.change("€", (0, 0))
            self.assertEqual((yours.encoding, yours.bom, yours.bytes), ("windows-1252", 0, b"b\xef\xbb\xbf\x80a\x80"))

    def test_where_an_edit_changes_how_bytes_behind_it_are_decoded_the_copy_is_right(self) -> None:
        rows = [("iso-2022-jp", b'A\x1b$B$"$"\x1b(B', 1, 3, b""), ("utf-16le", b"a\0b\0c\0", 0, 0, b"x"), ("shift_jis", b"\x82\xa0AB", 1, 1, b"")]
        for label, content, at, count, new in rows:
            with self.subTest(label), self.two(content, label) as both:
                text = both.yours.text()
                both.mine.splice(at, count, new)
                both.yours.splice(len(content), 0, b"A")
                self.assertEqual(both.agree(), content[:at] + new + content[at + count :] + b"A")
                self.assertNotEqual(both.yours.text()[-1:], text[-1:] + "A")

    def test_a_change_that_comes_too_late_moves(self) -> None:
        # (what the other does first, the range that is changed, the text put there, and the text then)
        rows = [
            (("X", (0, 0), (0, 0)), ((1, 1), (1, 2)), "y", "Xab\ncyあe"), (("X\nY\n", (0, 0), (0, 1)), ((1, 1), (1, 2)), "y", "X\nY\nb\ncyあe"),
            (("X", (0, 0), (0, 0)), ((0, 1), (0, 2)), "y", "Xay\ncdあe"), (("\n", (0, 0), (0, 0)), ((0, 1), (0, 2)), "y", "\nay\ncdあe"),
            (("", (0, 1), (1, 1)), ((1, 2), (1, 4)), "y", "ady"), (("X", (1, 4), (1, 4)), ((0, 0), (0, 1)), "y", "yb\ncdあeX"),
            (("X", (1, 2), (1, 3)), ((1, 1), (1, 2)), "y", "ab\ncyXe"), (("X", (1, 2), (1, 3)), ((1, 3), (1, 4)), "y", "ab\ncdXy"),
            (("X", (1, 0), (1, 0)), ((1, 0), (1, 0)), "y", "ab\nXycdあe"), (("X", (1, 0), (1, 0)), ((1, 0), (1, 1)), "", "ab\nXdあe"),
            (("X", (1, 1), (1, 1)), ((1, 0), (1, 1)), "", "ab\nXdあe"), (("", (1, 0), (1, 1)), ((1, 0), (1, 0)), "y", "ab\nydあe"),
            (("", (1, 0), (1, 1)), ((1, 1), (1, 1)), "y", "ab\nydあe"), (("い", (1, 0), (1, 2)), ((1, 9), (9, 9)), "y", "ab\nいあey"),
        ]
        for theirs, (start, end), text, wanted in rows:
            with self.subTest(theirs=theirs, start=start, end=end), self.two("ab\ncdあe".encode()) as both:
                both.mine.change(*theirs)
                edit = both.yours.change(text, start, end)
                self.assertEqual(both.agree().decode(), wanted)
                both.yours.undo(edit)
                both.agree()
                self.assertEqual(both.mine.rev, 3)

    def test_of_two_that_put_something_in_at_one_place_the_first_one_stays_in_front(self) -> None:
        for label, text in ("utf-8", "é"), ("iso-2022-jp", "あ"), ("shift_jis", "亜"), ("utf-16le", "😀"):
            with self.subTest(label), self.two("ab".encode("utf-16-le" if label == "utf-16le" else "ascii"), label) as both:
                first, second = both.mine.change(text, (0, 1)), both.yours.change("x", (0, 1))
                both.mine.change("y", (0, 1))
                both.agree()
                self.assertEqual([it.text() for it in both[:2]], [f"ay{text}xb"] * 2)
                self.assertLess(first.at, second.at)

    def test_a_splice_that_comes_too_late_moves(self) -> None:
        with self.two(b"0123456789") as both:
            both.mine.splice(2, 1, b"abc")
            self.assertEqual(quote_path([both.yours.splice(5, 2, b"x")]), [(7, b"56", b"x", False)])
            both.mine.splice(0, 1, b"")
            self.assertEqual(both.agree(), b"1abc34x789")
            self.refusal_of(lambda: both.yours.splice(9, 9, b""), "OutOfRange")
            both.mine.splice(10, 0, b"what another puts in")
            self.refusal_of(lambda: both.yours.splice(9, 9, b""), "OutOfRange")
            self.assertEqual(both.agree(), b"1abc34x789what another puts in")

    def test_an_undo_by_parts_where_another_edits_in_between(self) -> None:
        # (what the other puts in behind the first part, and the bytes with both)
        for at, wanted in (0, b"Xa0123456789b"), (5, b"a0123X456789b"), (6, b"a0123456789bX"):
            with self.subTest(at=at), self.two(b"a0123456789b") as both, mock.patch("gate_documents.document.ROOM", 4):
                edit, splice = both.mine.splice(1, 10, b""), both.mine.splice

                def splice_between(*words: Any) -> Edit:
                    part = splice(*words)
                    if part.new == b"0123":
                        both.yours.catch_up(), both.yours.splice(at, 0, b"X")
                    return part

                with mock.patch.object(both.mine, "splice", splice_between):
                    undone = both.mine.undo(edit)
                self.assertEqual(both.agree(), wanted)
                both.mine.undo(undone)
                self.assertEqual(both.agree().strip(b"X"), b"ab")

    def test_edits_that_meet_are_given_to_the_caller(self) -> None:
        with self.two("ab\ncdあe".encode()) as both:
            both.mine.change("XYZ", (0, 1), (1, 1))
            for call in (lambda: both.yours.change("y", (0, 0), (0, 2))), (lambda: both.yours.splice(0, 2, b"y")):
                both.yours.refresh()
                both.mine.splice(1, 3, b"Q")
                both.mine.splice(1, 1, b"XYZ")
                found = self.conflict(call)
                self.assertEqual(quote_path([found.mine, found.theirs]), [(0, b"aX", b"y", False), (1, b"XYZ", b"XYZ", False)])
                self.assertEqual((found.members, both.yours.rev), ({"rev": both.mine.rev}, both.mine.rev))
            self.assertEqual(both.agree(), "aXYZdあe".encode())
            both.yours.change("y", (0, 0), (0, 2))
            self.assertEqual(both.agree(), "yYZdあe".encode())

    def test_a_text_that_is_another_since_is_not_replaced(self) -> None:
        with self.two(b'A\x1b$B$"$"\x1b(B', "iso-2022-jp") as both:
            both.mine.splice(1, 3, b"")
            found = self.conflict(lambda: both.yours.change("x", (0, 2), (0, 3)))
            self.assertEqual(quote_path([found.mine, found.theirs]), [(3, b'$"', b"\x1b(Bx", False), (1, b"\x1b$B", b"", False)])
            self.assertEqual(both.agree(), b'A$"$"\x1b(B')

    def test_bytes_that_a_shift_in_front_would_have_read_otherwise(self) -> None:
        begin = b'~\x1b$B$"$"\x1b(B\n'
        with self.two(begin, "iso-2022-jp") as both:
            # (what is put in at the end goes on in ASCII, and no escape leads back)
            both.yours.change("亜b", (0, 3))
            found = self.conflict(lambda: both.mine.splice(8, 0, b"!!"))
            self.assertEqual(quote_path([found.mine, found.theirs]), [(8, b"", b"!!", False), (8, b"", b"0!\x1b(Bb", False)])
            self.assertEqual(both.agree().decode("iso2022_jp"), "~ああ亜b\n")
            both.yours.change("c", (0, 5))
            # (a text is encoded for the state that it comes into)
            both.mine.change("、", (0, 5))
            self.assertEqual(both.agree().decode("iso2022_jp"), "~ああ亜bc、\n")
        rows: List[Tuple[Tuple[Any, ...], str]] = [(("亜b", (0, 2)), "~あ亜b\n"), (("", (0, 1), (0, 2)), "~\n")]
        for theirs, text in rows:
            with self.subTest(theirs=theirs), self.two(begin, "iso-2022-jp") as both:
                edit = both.mine.change("", (0, 2), (0, 3))
                both.yours.change(*theirs)
                self.assertIsNone(edit.behind(both.mine.catch_up()))
                self.assertEqual(both.agree().decode("iso2022_jp"), text)
        with self.two(begin, "iso-2022-jp") as both:
            # (one escape right behind another is an error)
            edit = both.mine.change("亜b", (0, 3))
            both.yours.catch_up()
            both.yours.change("", (0, 1), (0, 3))
            self.assertIsNone(edit.behind(both.mine.catch_up()))
            self.assertEqual(both.agree(), b"~\x1b$B0!\x1b(Bb\x1b(B\n")
        for label, new in ("iso-2022-jp", b"\x1b(J\x1b$@!!"), ("shift_jis", b"\x1b$B!!\x1b(B"):
            with self.subTest(label), self.two(begin, label) as both:
                # (neither shifts: both are moved)
                edit = both.mine.splice(6, 2, new)
                both.yours.splice(6, 0, b"!#")
                moved = edit.behind(both.mine.catch_up())
                assert moved
                both.mine.undo(moved)
                self.assertEqual(both.agree(), b'~\x1b$B$"!#$"\x1b(B\n')

    def test_a_first_byte_takes_no_letter_of_another_for_its_second(self) -> None:
        for at, undone in (2, None), (3, b"A\x82\nO"):
            with self.subTest(at=at), self.two(b"A\x82\n", "shift_jis") as both:
                edit = both.mine.change("x", (0, 1), (0, 2))
                both.yours.catch_up()
                both.yours.splice(at, 0, b"O")
                moved = edit.behind(both.mine.catch_up())
                self.assertEqual(moved is None, undone is None)
                if moved:
                    both.mine.undo(moved)
                self.assertEqual(both.agree(), undone or b"AxO\n")

    def test_what_bytes_end_in_goes_on_behind_them(self) -> None:
        draw = random.Random(1)
        bytes_of = [*range(0x28, 0x40), *range(0x7E, 0x100), 0x8E, 0x8F]
        with Gate.connect(path=self.path) as gate:

            def text(label: str, content: bytes) -> str:
                with gate.open("begun", label, content, "keep") as document:
                    return document.text()

            for encoding in sorted({*UNITS} - {"ISO-2022-JP"}):
                rests = set()
                for _ in range(200):
                    content, behind = (bytes(draw.choices(bytes_of, k=draw.randrange(1, 7))) for _ in range(2))
                    rest = state(encoding, Content(content), len(content))[0]
                    rests.add(len(rest))
                    whole = content[: len(content) - len(rest)]
                    self.assertEqual(text(encoding, content + behind), text(encoding, whole) + text(encoding, rest + behind), (encoding, content, behind))
                    if rest:
                        self.assertNotEqual(text(encoding, rest + b"\xff"), text(encoding, rest) + text(encoding, b"\xff"), (encoding, rest))
                self.assertEqual(rests, {"EUC-JP": {0, 1, 2}, "GBK": {0, 1, 2, 3}, "gb18030": {0, 1, 2, 3}}.get(encoding, {0, 1}))
        for encoding, content, found in [
            ("UTF-16LE", b"abc", (b"c", False)), ("UTF-16BE", b"ab", (b"", False)), ("windows-1252", b"\x82", (b"", False)), ("UTF-8", b"\xe3", (b"", False)),
            ("ISO-2022-JP", b"a\x1b$B$", (b"\x1b$B$", False)), ("ISO-2022-JP", b'\x1b$B$"\x1b(B', (b"\x1b(B", True)),
        ]:
            self.assertEqual(state(encoding, Content(content), len(content)), found)

    def test_between_cr_and_lf(self) -> None:
        with self.two(b"a\nb") as both:
            both.mine.change("\r", (0, 1))
            self.conflict(lambda: both.yours.change("", (0, 1), (1, 0)))
            self.assertEqual(both.agree(), b"a\r\nb")
        with self.two(b"a\nb") as both:
            both.mine.change("\r", (0, 1))
            both.yours.change("x", (0, 1))
            self.assertEqual(both.agree(), b"ax\r\nb")

    def test_a_late_change_by_parts_with_a_mark_that_is_found_or_kept(self) -> None:
        content = b"\xef\xbb\xbf" + "aあbc".encode()
        for bom, place in ("sniff", (0, 1)), ("keep", (0, 2)):
            with self.subTest(bom), Gate.connect(path=self.path) as gate, Gate.connect(path=self.path) as other:
                with gate.open("d", "utf-8", content, bom=bom) as mine, mock.patch("gate_documents.copies.ROOM", 4):
                    yours = other.join("d")
                    mine.splice(3, 1, b"XY")
                    edit = yours.change("い", place, (place[0], place[1] + 1))
                    self.assertEqual(quote_path([edit]), [(5, "あ".encode(), "い".encode(), False)])
                    self.assertEqual(mine.source(0, 10), b"\xef\xbb\xbf" + "XYいbc".encode())

    def test_a_late_change_behind_a_mark_that_came_and_is_kept(self) -> None:
        with Gate.connect(path=self.path) as gate, Gate.connect(path=self.path) as other, gate.open("d", "utf-8", b"abc", bom="keep") as mine:
            yours = other.join("d")
            mine.splice(0, 0, b"\xef\xbb\xbf")
            yours.catch_up()
            mine.splice(6, 0, b"X")
            self.assertEqual(quote_path([yours.change("!", (0, 1), (0, 2))]), [(3, b"a", b"!", False)])

    def test_a_refusal_of_a_change_that_came_too_late(self) -> None:
        with self.two(b"ab", "windows-1252") as both:
            both.mine.splice(0, 0, b"x")
            self.refusal_of(lambda: both.yours.change("あ", (0, 1)), "Unencodable")
            both.yours.change("€", (0, 1))
            self.assertEqual(both.agree(), b"xa\x80b")

    def test_a_change_of_the_whole_text_and_a_list_are_stale(self) -> None:
        with self.two(b"ab") as both:
            both.mine.splice(0, 0, b"x")
            self.assertEqual(self.refusal_of(lambda: both.yours.change("y")), {"rev": 1})
            self.assertEqual(self.refusal_of(lambda: both.yours.changes([("y", (0, 0))])), {"rev": 1})
            self.assertEqual((both.yours.rev, both.yours.bytes), (0, b"ab"))

    def test_all_bytes_are_those_of_the_document_as_it_is(self) -> None:
        with self.two(b"abc") as both:
            for count, new in (0, b"xy"), (4, b""):
                both.mine.splice(0, count, new)
                for at in 0, 1:
                    self.assertEqual(both.yours.source(at), both.mine.bytes[at:])
            self.assertEqual((both.yours.source(0, 0), both.yours.source(1)), (b"", b""))
            self.refusal_of(lambda: both.yours.source(0, 2), "OutOfRange")

    def test_places_of_two_revisions_are_not_mixed(self) -> None:
        for call in QUESTIONS:
            with self.two(b"ab") as both:
                both.mine.splice(0, 0, b"x")
                call(both.yours)
                for edit in (lambda: both.yours.change("y", (0, 1))), (lambda: both.yours.splice(1, 0, b"y")):
                    self.assertEqual(self.refusal_of(edit), {"rev": 1})
                both.yours.catch_up()
                both.yours.change("y", (0, 1))
                self.assertEqual(both.agree(), b"xyab")

    def test_where_there_is_no_room_for_one_document_more(self) -> None:
        with self.two(b"ab") as both:
            others = [both.gate.open(str(number), "utf-8", b"") for number in range(63)]
            both.mine.splice(0, 0, b"x")
            self.assertEqual(self.refusal_of(lambda: both.yours.change("y", (0, 1))), {"rev": 1})
            others.pop().close()
            both.yours.change("y", (0, 1))
            self.assertEqual(both.agree(), b"xayb")
            # (the document that it opened for a moment is closed)
            for it in [*others, both.gate.open("one more", "utf-8", b"")]:
                it.close()

    def test_who_listens_hears_what_comes_whoever_takes_it_in(self) -> None:
        with self.two(b"0123456789") as both:
            heard: List[Edit] = []
            both.yours.listener = heard.append
            for at in range(4):
                both.mine.catch_up()
                both.mine.splice(at, 0, b"x")
                calls: List[Callable[[], Any]] = [
                    both.yours.catch_up, lambda: both.yours.splice(9, 0, b""), lambda: both.yours.change("", (0, 0)), lambda: both.yours.changes([]),
                ]
                if at == 3:
                    both.yours.catch_up()
                calls[at]()
            self.assertEqual(quote_path(heard), [(at, b"", b"x", False) for at in range(4)])

    def test_the_last_edits_are_remembered_and_older_ones_said_to_be_forgotten(self) -> None:
        for count, anew in (LOG, False), (LOG + 1, True):
            with self.two(b"ab") as both:
                for rev in range(0, count):
                    both.gate.send("splice", doc="d", rev=rev, at=1 + rev, bytes=b"x", **{"del": 0})
                both.mine.refresh()
                self.assertEqual(quote_path(both.yours.catch_up()), [(1, b"", b"x" * count, anew)])
                self.assertEqual((both.yours.rev, both.agree()), (count, b"a" + b"x" * count + b"b"))
        with self.two(b"ab") as both:
            for rev in range(LOG + 1):
                both.gate.send("splice", doc="d", rev=rev, at=0, bytes=b"", **{"del": 0})
            both.mine.refresh()
            found = self.conflict(lambda: both.yours.change("x", (0, 2)))
            self.assertEqual(quote_path([found.mine, found.theirs]), [(2, b"", b"x", False), (2, b"", b"", True)])

    def test_a_document_that_was_closed(self) -> None:
        with self.two(b"ab") as (mine, yours, _, _):
            mine.close()
            calls: List[Callable[[], Any]] = [yours.catch_up, yours.refresh, lambda: yours.splice(0, 0, b""), lambda: yours.change("x", (0, 0))]
            for call in calls:
                self.refusal_of(call, "NoDocument")
            self.assertEqual((yours.bytes, yours.rev), (b"ab", 0))

    def test_another_document_under_the_name(self) -> None:
        rows: List[Tuple[int, bytes, int, bool]] = [
            # (revisions before, the other document, its revisions, and whether it is known to be another)
            (2, b"abd", 0, True), (2, b"abd", 1, True), (1, b"ab", 2, True), (1, b"abd", LOG + 2, True), (2, b"abd", 2, True), (1, b"abd", 2, True),
            (0, b"abd", 0, True), (0, b"xbc", 1, True), (2, b"abc", 2, False), (1, b"abc", 2, False),
        ]
        for before, content, behind, is_known in rows:
            with self.subTest(before=before, content=content, behind=behind), self.two(b"abc") as (mine, yours, gate, _):
                for _ in range(before):
                    mine.splice(0, 0, b"")
                yours.catch_up()
                self.replace(mine, gate, content, behind)
                edits = yours.catch_up()
                self.assertEqual(any(it.anew for it in edits), is_known)
                self.assertEqual((yours.bytes, yours.rev), (content, behind))

    @staticmethod
    def replace(mine: Document, gate: Gate, content: bytes, edits: int) -> Document:
        """Closes a document, and opens another one by its name, with so many edits."""
        mine.close()
        another = gate.open(mine.name, "utf-8", content)
        for _ in range(edits):
            another.splice(0, 0, b"")
        return another

    def test_an_edit_is_not_made_in_another_document_of_this_revision(self) -> None:
        calls: List[Callable[[Document], Any]] = [
            lambda it: it.splice(0, 1, b"x"), lambda it: it.splice(3, 0, b"x"), lambda it: it.change("x", (0, 0), (0, 1)),
            lambda it: it.change("x", (0, 3)), lambda it: it.undo(Edit(0, b"x", b"a")),
        ]
        for number, call in enumerate(calls):
            for before, content in (0, b"abd"), (2, b"abd"), (2, b"abcd"), (2, b"Abc"):
                with self.subTest(call=number, before=before, content=content), self.two(b"abc") as (mine, yours, gate, _):
                    for _ in range(before):
                        mine.splice(0, 0, b"")
                    yours.catch_up()
                    another = self.replace(mine, gate, content, before)
                    self.assertTrue(self.conflict(lambda: call(yours)).theirs.anew)
                    self.assertEqual((yours.bytes, another.source(), another.stat()["rev"]), (content, content, before))
        with self.two(b"abc") as (mine, yours, gate, _):
            another = self.replace(mine, gate, b"abd", 0)
            self.refusal_of(lambda: yours.changes([("x", (0, 0))]))
            self.assertEqual([it.anew for it in yours.catch_up()], [True])
            self.assertEqual((yours.bytes, another.source()), (b"abd", b"abd"))

    @mock.patch("gate_documents.copies.BLOCK", 64)
    def test_another_long_document_under_the_name(self) -> None:
        content = bytes(range(128)) * 2 + b"end"
        for at in 0, 64, len(content) // 2, len(content) - 1:
            other = content[:at] + b"?" + content[at + 1 :]
            with self.subTest(at=at), self.two(content) as (mine, yours, gate, _):
                self.replace(mine, gate, other, 0)
                looks = next(number for number in range(9) if any(it.anew for it in yours.catch_up()))
                self.assertLess(looks, 5)
                self.assertEqual(yours.bytes, other)
            with self.subTest(compared=at), self.two(content) as (mine, yours, gate, _):
                self.assertEqual(yours.compare(), [])
                self.replace(mine, gate, other, 0)
                self.assertEqual([(it.at, it.new, it.anew) for it in yours.compare()], [(at, b"?", True)])
                self.assertEqual(yours.bytes, other)
            with self.subTest(edited=at), self.two(content) as (mine, yours, gate, _):
                another = self.replace(mine, gate, other, 0)
                self.assertTrue(self.conflict(lambda: yours.splice(at, 1, b"!")).theirs.anew)
                self.assertEqual((yours.bytes, another.source()), (other, other))

    def test_another_document_under_a_name_that_is_to_be_opened_anew(self) -> None:
        with self.two(b"abc") as (mine, yours, gate, _):
            mine.close()
            gate.open("d", "utf-8", b"abd")
            self.refusal_of(yours.reopen, "NameTaken")
            self.assertEqual(quote_path([self.conflict(lambda: yours.splice(3, 0, b"!")).theirs]), [(2, b"c", b"d", True)])
            self.assertEqual((yours.bytes, yours.source()), (b"abd", b"abd"))

    def test_an_edit_of_another_document_under_the_name(self) -> None:
        with self.two(b"abc") as (mine, yours, gate, _):
            mine.splice(0, 0, b"")
            yours.catch_up()
            mine.close()
            gate.open("d", "utf-8", b"ab")
            found = self.conflict(lambda: yours.splice(0, 1, b"x"))
            self.assertEqual(quote_path([found.theirs]), [(2, b"c", b"", True)])

    def with_an_edit(self, number: int, new: bytes, call: Callable[[Document], Any], made: Callable[[bytes], bytes]) -> bool:
        """Has another client edit the front in front of command `number` of a call, counted from 0, looks at what comes of
        both, and returns whether the call has that one."""
        with self.two("0\naあb\n0".encode()) as both:
            both.mine.splice(2, 0, b"X")
            send, left = both.other.send_lines, [number]

            def send_between(lines: Any, **how: Any) -> Any:
                if left[0] == 0:
                    both.mine.splice(0, 1, new)
                left[0] -= 1
                return send(lines, **how)

            with mock.patch.object(both.other, "send_lines", send_between):
                call(both.yours)
            front = new if left[0] < 0 else b"0"
            self.assertEqual(both.agree(), made(front + "\nXaあb\n0".encode()))
            return left[0] < 0

    def test_whenever_another_edit_comes(self) -> None:
        """In front of each command that a call sends, another client makes the document longer, or shorter."""
        calls: List[Tuple[str, Callable[[Document], Any], Callable[[bytes], bytes]]] = [
            ("catch_up", Document.catch_up, lambda it: it), ("refresh", Document.refresh, lambda it: it),
            ("source", lambda it: self.assertIn(it.source().decode(), ("0\nXaあb\n0", "W0\nXaあb\n0", "\nXaあb\n0")), lambda it: it),
            ("text", lambda it: self.assertIn(it.text(), ("0\nXaあb\n0", "W0\nXaあb\n0", "\nXaあb\n0")), lambda it: it),
            ("splice", lambda it: it.splice(2, 1, b"A"), lambda it: it.replace(b"a", b"A")),
            ("change", lambda it: it.change("Aい", (1, 0), (1, 2)), lambda it: it.replace("aあ".encode(), "Aい".encode())),
            ("change", lambda it: it.change("c", (1, 3)), lambda it: it.replace(b"b", b"bc")),
        ]
        for name, call, made in calls:
            for new in b"W0", b"":
                number = 0
                while self.with_an_edit(number, new, call, made):
                    number += 1
                self.assertGreater(number, 1, (name, new))

    def test_a_server_that_goes_away(self) -> None:
        with served() as (path, program), Gate.connect(path=path) as gate:
            document = gate.open("d", "utf-8", b"ab")
            program.kill()
            calls: List[Callable[[], Any]] = [document.catch_up, document.refresh, lambda: document.splice(0, 0, b""), lambda: document.change("x", (0, 0))]
            for call in calls:
                with self.assertRaises(Gone):
                    call()
            self.assertEqual((document.bytes, document.rev), (b"ab", 0))


class Typed(NamedTuple):
    """What one who typed did: each edit with the revision that it made, the marks, how many edits were moved, how many met
    another's and were given up, and the bytes in the end."""

    edits: List[Tuple[int, int, bytes, bytes]]
    marks: List[str]
    moved: int
    met: int
    content: bytes


class Typist:
    """A client that types at random, by what it has of a document. Its rows of characters begin with `~`; a mark is a row of
    its own, which nobody edits, so that it is found in the end."""

    def __init__(self, document: Document, name: str, codec: str, character: str):
        self.document, self.name, self.codec, self.character = document, name, codec, character
        self.rng = random.Random(name)
        self.typed = Typed([], [], 0, 0, b"")
        self.last: Optional[Edit] = None
        document.listener = self.hear

    def hear(self, later: Edit) -> None:
        self.last = self.last and self.last.behind([later])

    def step(self) -> None:
        if self.rng.random() < 0.8:
            self.document.catch_up()
        time.sleep(self.rng.random() * THINKING)
        rows = self.document.bytes.decode(self.codec).split("\n")
        row = self.rng.randrange(min(len(rows), self.rng.choice([4, len(rows)])))
        ours = rows[row].startswith("~")
        column = self.rng.randint(1, len(rows[row])) if ours else 0
        # (in units of UTF-16)
        place = row, len(rows[row][:column].encode("utf-16-le")) // 2
        behind = row, len(rows[row][: column + 1].encode("utf-16-le")) // 2
        draw = self.rng.random()
        if draw < 0.3:
            self.mark(row)
        elif draw < 0.4 and self.last:
            edit, self.last = self.last, None
            self.make_edit(lambda: self.document.undo(edit))
        elif draw < 0.5:
            self.last = self.make_edit(lambda: self.document.change(f"~{self.character * 5}abc\n", (row, 0)))
        elif draw < 0.55 and ours and len(rows) > 9:
            self.last = self.make_edit(lambda: self.document.change("", (row, 0), (row + 1, 0)))
        elif draw < 0.7 and ours:
            self.last = self.make_edit(lambda: self.document.change("", place, behind))
        elif ours:
            self.last = self.make_edit(lambda: self.document.change(self.character + self.name, place))

    def mark(self, row: int) -> None:
        """Puts a mark in, sometimes by its bytes."""
        mark = f"{self.name}{len(self.typed.marks)}"
        if self.codec != "utf-16-le" and self.rng.random() < 0.3:
            at = sum(len(it) + 1 for it in self.document.bytes.split(b"\n")[:row])
            made = self.make_edit(lambda: self.document.splice(at, 0, mark.encode() + b"\n"))
        else:
            made = self.make_edit(lambda: self.document.change(mark + "\n", (row, 0)))
        if made:
            self.typed.marks.append(mark)

    def make_edit(self, edit: Callable[[], Edit]) -> Optional[Edit]:
        """Makes an edit, unless it meets another's."""
        before = self.document.rev
        try:
            it = edit()
        except Conflict:
            self.typed = self.typed._replace(met=self.typed.met + 1)
            return None
        self.hear(it)
        self.typed.edits.append((self.document.rev, it.at, it.old, it.new))
        self.typed = self.typed._replace(moved=self.typed.moved + (self.document.rev > before + 1))
        return it


def type_at_random(
    path: str, name: str, codec: str, character: str, both: multiprocessing.synchronize.Barrier, moved: multiprocessing.synchronize.Event,
    said: "multiprocessing.connection.Connection",
) -> None:
    """A process that types for a while, and until it has put in a mark and one of both has moved an edit, and says in the end what
    it did."""
    with Gate.connect(path=path) as gate:
        typist = Typist(gate.join("d"), name, codec, character)
        both.wait(LIMIT)
        until = time.monotonic() + TYPING
        # (a machine that has much else to do gets as far too, later)
        while time.monotonic() < until or not (typist.typed.marks and moved.is_set()) and time.monotonic() < until + LIMIT / 2:
            typist.step()
            if typist.typed.moved:
                moved.set()
        both.wait(LIMIT)
        while typist.document.catch_up():
            pass
        said.send(typist.typed._replace(content=typist.document.bytes))


@BUILT
class Typing(unittest.TestCase):
    def type_at_once(self, path: str, codec: str, character: str) -> List[Typed]:
        """What two processes did that typed at once."""
        barrier, moved, pipes = multiprocessing.Barrier(2), multiprocessing.Event(), [multiprocessing.Pipe(duplex=False) for _ in range(2)]
        for name, (_, into) in zip("ab", pipes):
            process = multiprocessing.Process(target=type_at_random, args=(path, name, codec, character, barrier, moved, into), daemon=True)
            process.start()
            self.addCleanup(process.join)
            self.addCleanup(process.kill)
            into.close()
        for reading, _ in pipes:
            self.assertTrue(reading.poll(TYPING + LIMIT))
        return [reading.recv() for reading, _ in pipes]

    def test_two_processes_type_at_random_into_one_document(self) -> None:
        moved = 0
        for label, codec, character in ENCODINGS:
            with self.subTest(label), listening() as path, Gate.connect(path=path) as gate:
                begin = f"~{character * 20}\n".encode(codec) * 3
                document = gate.open("d", label, begin)
                typed = self.type_at_once(path, codec, character)
                document.refresh()
                self.assertEqual({it.content for it in typed}, {document.bytes})
                self.no_edit_is_lost(begin, document, typed)
                marks = [mark for it in typed for mark in it.marks]
                rows = document.bytes.decode(codec).split("\n")
                self.assertEqual(sorted(marks), sorted(row for row in rows if row and not row.startswith("~")))
                self.assertLessEqual(set("".join(row for row in rows if row.startswith("~"))), {*"~abc", *character})
                self.assertEqual(document.errors(), [])
                moved += sum(it.moved for it in typed)
                self.assertTrue(all(it.marks for it in typed))
        self.assertGreater(moved, 0)

    def no_edit_is_lost(self, begin: bytes, document: Document, typed: List[Typed]) -> None:
        """Each revision is one edit of one of the two, and all edits in their order lead to the document."""
        edits = sorted(edit for it in typed for edit in it.edits)
        self.assertEqual([rev for rev, *_ in edits], list(range(1, document.rev + 1)))
        content = bytearray(begin)
        for rev, at, old, new in edits:
            self.assertEqual(content[at : at + len(old)], old, f"revision {rev}")
            content[at : at + len(old)] = new
        self.assertEqual(bytes(content), document.bytes)
        if "GATE_TYPING" in os.environ:
            counts = [f"{len(it.edits)} edits, {len(it.marks)} marks, {it.moved} moved, {it.met} met another" for it in typed]
            print(f"{document.encoding}: {'; '.join(counts)}; {len(content)} bytes", flush=True)


if __name__ == "__main__":
    unittest.main()
