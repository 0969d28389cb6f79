"""Documents that follow an editor's text, edited at random."""
import os
import random
import unittest
from typing import List, Optional, Tuple

from checkout import BUILT, INDEXES, PROGRAM
from gate import difference
from legacy.finding import Found
from legacy.lsp.followed import Followed
from legacy.lsp.letters import Letters
from legacy.lsp.own_lines import OwnLines
from legacy.lsp.programs import Programs
from legacy.lsp.shown import Shown, way_of_showing
from legacy.lsp.standing import NOT_KEPT, UNENCODABLE, units_of

# The sessions that are tried at random; GATE_SESSIONS=10000 takes some minutes.
SESSIONS = int(os.environ.get("GATE_SESSIONS", "64"))
# A label, a document with damage and other bytes than an encoder writes, and what is typed into it.
DOCUMENTS: List[Tuple[str, bytes, str]] = [
    ("shift_jis", b"ab\x82\xa0\n\xff\x81\nA\n", "aあé亜b\n¥😀\ufffd"), ("utf-8", "aé😀\n".encode() + b"\xff\n", "aé\n😀\ufffd"),
    ("iso-2022-jp", b'A\x1b$B$"$"\x1b(B\n\x1b$B$', "aあ\né亜~\\"), ("euc-jp", b"\xa4\xa2\xa4\n\x8f\xb0a\n", "aあ\né亜"),
    ("windows-1252", b"caf\xe9\n\x81", "aé€あ\n"), ("utf-16le", "a😀\n".encode("utf-16-le") + b"\0", "aé😀\n"),
    ("big5", b"a\x88\x62\n", "aÊ\u0304é\n"), ("gb18030", b"a\x81\x30\n\xff", "aé😀\n0"), ("shift_jis", b"a\r\nb\r\x82\r\n\n", "aあé\r\n"),
]
UNITS = ("utf-8", "utf-16", "utf-32")


def position(text: str, at: int, unit: str) -> Tuple[int, int]:
    """The position of a place in a text, by its line feeds."""
    begin = text.rfind("\n", 0, at) + 1
    return text.count("\n", 0, at), sum(units_of(it, unit) for it in text[begin:at])


class ShownTexts(unittest.TestCase):
    def test_how_an_editor_shows_a_file(self) -> None:
        rows = [
            ("a\nb", "a\nb", Shown()), ("a\r\nb", "a\r\nb", Shown()), ("a\r\nb", "a\nb", Shown("\r\n")), ("a\rb\r", "a\nb\n", Shown("\r")),
            ("a\r\nb\nc\r\n", "a\nb\nc\n", Shown("\r\n", True)), ("a", "a\n", Shown(adds_feed=True)), ("a\r\nb", "a\nb\n", Shown("\r\n", adds_feed=True)),
            ("a\n", "a\n\n", None), ("a", "b", None), ("", "", Shown()), ("", "\n", Shown(adds_feed=True)), ("a\r\n", "a\r\n\n", None),
        ]
        for file, editor, shown in rows:
            with self.subTest(file=file, editor=editor):
                self.assertEqual(way_of_showing(file, editor), shown)
                if shown:
                    self.assertEqual(shown.to_editor(file), editor)

    def test_lines_that_end_at_line_feeds_alone(self) -> None:
        text = "a😀\r\n\rb\n"
        for unit in UNITS:
            lines = OwnLines(text, unit)
            for at in range(len(text) + 1):
                self.assertEqual((lines.position(at), lines.offset(position(text, at, unit))), (position(text, at, unit), at))
            self.assertEqual((lines.offset((0, 99)), lines.offset((1, 99)), lines.offset((9, 0))), (3, 6, 7))


@BUILT
class Following(unittest.TestCase):
    programs: Programs
    letters: Letters

    @classmethod
    def setUpClass(cls) -> None:
        cls.programs, cls.letters = Programs(Found(PROGRAM, INDEXES, None)), Letters()

    @classmethod
    def tearDownClass(cls) -> None:
        cls.programs.end()

    def test_texts_never_diverge(self) -> None:
        for seed in range(SESSIONS):
            label, raw, typed = DOCUMENTS[seed % len(DOCUMENTS)]
            with self.subTest(seed=seed, label=label):
                self.edit_at_random(random.Random(seed), label, raw, typed)

    def edit_at_random(self, rng: random.Random, label: str, raw: bytes, typed: str) -> None:
        """Edits a document at random, and looks that its text is the editor's after each edit."""
        unit = rng.choice(UNITS)
        followed = Followed(self.programs, self.letters, label, raw, unit)
        text = followed.text()
        for _ in range(30):
            begin = rng.randrange(len(text) + 1)
            end, new = min(len(text), begin + rng.choice([0, 0, 0, 1, 1, 2, 5])), "".join(rng.choices(typed, k=rng.choice([0, 1, 1, 2, 4])))
            if "\r" in text:
                places = [followed.to_document(it) for it in (begin, end)]
            else:
                places = followed.offsets([position(text, it, unit) for it in (begin, end)])
            followed.replace(places[0], places[1], new)
            text = text[:begin] + new + text[end:]
            self.assertEqual(followed.text(), text)
        followed.close()

    def test_a_text_that_comes_back_has_the_bytes_that_it_had(self) -> None:
        for seed in range(SESSIONS):
            label, raw, typed = DOCUMENTS[seed % len(DOCUMENTS)]
            with self.subTest(seed=seed, label=label):
                self.undo_at_random(random.Random(seed), label, raw, typed)

    def undo_at_random(self, rng: random.Random, label: str, raw: bytes, typed: str) -> None:
        """Edits a document at random, by groups, takes groups back and makes them again, as one edit or each edit of its own."""
        followed = Followed(self.programs, self.letters, label, raw, "utf-16")
        # The states between groups, each a text with its bytes, and the edits that lead to each from the one before it.
        states, at = [(followed.text(), raw)], 0
        groups: List[List[Tuple[int, str, str]]] = []
        for _ in range(30):
            draw, text = rng.random(), states[at][0]
            if draw < 0.3 and at > 0:
                at -= 1
                edits = [(begin, new, old) for begin, old, new in reversed(groups[at])]
            elif draw < 0.5 and at < len(groups):
                edits = groups[at]
                at += 1
            else:
                edits, whole = [], text
                for _ in range(rng.randrange(1, 4)):
                    begin = rng.randrange(len(whole) + 1)
                    old, new = whole[begin : begin + rng.choice([0, 0, 1, 2, 5])], "".join(rng.choices(typed, k=rng.randrange(4)))
                    edits.append((begin, old, new))
                    whole = whole[:begin] + new + whole[begin + len(old) :]
                del groups[at:], states[at + 1 :]
                groups.append(edits)
                at += 1
            self.make(followed, edits, states[at][0] if at < len(states) and rng.random() < 0.5 else None)
            if at == len(states):
                states.append((followed.text(), followed.document.bytes))
            self.assertEqual((followed.text(), followed.document.bytes), states[at])
        followed.close()

    def make(self, followed: Followed, edits: List[Tuple[int, str, str]], wanted: Optional[str]) -> None:
        """Makes edits one after the other, or as one edit that leads to the text that is wanted."""
        if wanted is not None:
            text = followed.text()
            begin, count, new = difference(text, wanted)
            edits = [(begin, text[begin : begin + count], new)]
        for begin, old, new in edits:
            followed.replace(followed.to_document(begin), followed.to_document(begin + len(old)), new)

    def test_what_is_refused_comes_as_soon_as_it_can_be_there(self) -> None:
        followed = Followed(self.programs, self.letters, "shift_jis", b"\x81\nA", "utf-16")
        followed.replace(1, 2, "")
        self.assertEqual((followed.text(), [it.reason for it in followed.standings]), ("\ufffdA", [NOT_KEPT]))
        followed.replace(1, 1, "\n")
        self.assertEqual((followed.text(), followed.standings, followed.document.bytes), ("\ufffd\nA", (), b"\x81\nA"))
        followed.close()

    def test_an_edit_that_changes_nothing_changes_no_byte(self) -> None:
        for at, text in (1, ""), (2, ""), (0, "a"), (0, "aÊ"), (0, "aÊ\u0304"):
            followed = Followed(self.programs, self.letters, "big5", b"a\x88\x62", "utf-16")
            followed.replace(at, at + len(text), text)
            self.assertEqual((followed.document.bytes, followed.standings, followed.document.rev), (b"a\x88\x62", (), 0))
            followed.close()

    def test_two_characters_that_are_one_pair_of_bytes(self) -> None:
        followed = Followed(self.programs, self.letters, "big5", b"\x88\x62", "utf-16")
        followed.replace(1, 1, "x")
        self.assertEqual((followed.text(), [(it.text, it.reason) for it in followed.standings]), ("Êx\u0304", [("Ê", UNENCODABLE), ("\u0304", UNENCODABLE)]))
        followed.replace(1, 2, "")
        self.assertEqual((followed.text(), followed.standings, followed.document.bytes), ("Ê\u0304", (), b"\x88\x62"))
        followed.close()

    def test_a_program_that_is_killed(self) -> None:
        for number in range(3):
            followed = Followed(self.programs, self.letters, "shift_jis", b"a\xffb", "utf-16")
            followed.replace(0, 1, "é")
            followed.document.gate._ends.abort()
            if number:
                followed.replace(3, 3, "あ")
            self.assertEqual((followed.text(), followed.standings[0].text), ("é\ufffdb" + "あ" * bool(number), "é"))
            followed.close()


if __name__ == "__main__":
    unittest.main()
