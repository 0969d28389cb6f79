"""Bytes that are held in pieces, compared with bytes that aren't."""
import random
import time
import unittest
from unittest import mock

from checkout import BUILT, INDEXES, PROGRAM
from gate import Gate
from gate_documents.content import Content
from gate_documents.states import state

# What contents and edits are made of: escapes and their parts, bytes of pairs, letters.
ALPHABET = b"\x1b$B(JA!\"\x82\xa0\x30\x8f\n"
ENCODINGS = ("UTF-16LE", "ISO-2022-JP", "Shift_JIS", "EUC-JP", "gb18030", "windows-1252")
# A large document, as long as one may be less what is typed, and the most processor time that one change in it may take, in seconds.
LARGE, MOST = (16 << 20) - 4096, 0.001
# What such a document repeats, by encoding; the last one has no escape and no line.
LINES = [("utf-8", "abcあ\n".encode()), ("shift_jis", b"\x82\xa0" * 5000 + b"\n"), ("iso-2022-jp", b"\x1b$B$\"\x1b(Ba\n"), ("iso-2022-jp", b"ascii ")]


def draw(rng: random.Random, count: int) -> bytes:
    return bytes(rng.choices(ALPHABET, k=count))


class Pieces(unittest.TestCase):
    def test_pieces_are_as_one(self) -> None:
        for piece, short in (4, 2), (8, 3), (64, 8):
            sizes = mock.patch.multiple("gate_documents.content", PIECE=piece, SHORT=short)
            with self.subTest(piece=piece), sizes, mock.patch("gate_documents.states.SHORT", short), mock.patch("gate_documents.states.NEAR", 3):
                for seed in range(200):
                    self.edit_at_random(random.Random(seed), ENCODINGS[seed % len(ENCODINGS)], short)

    def edit_at_random(self, rng: random.Random, encoding: str, short: int) -> None:
        """Edits a content at random, and compares it and its states with the same bytes in one piece."""
        plain = draw(rng, rng.randrange(60))
        content = Content(plain)
        for _ in range(30):
            at = rng.randrange(len(plain) + 1)
            count, new = rng.randrange(min(10, len(plain) - at) + 1), draw(rng, rng.choice([0, 0, 1, 2, 5, 30]))
            plain, content = plain[:at] + new + plain[at + count :], content.splice(at, count, new)
            begin, end = sorted(rng.randrange(len(plain) + 1) for _ in range(2))
            self.assertEqual((len(content), content[begin:end], content[end:]), (len(plain), plain[begin:end], plain[end:]))
            self.assertEqual(content.last_escape(end), plain.rfind(b"\x1b", 0, end), (plain, end))
            self.assertEqual(state(encoding, content, end), state(encoding, Content(plain), end), (plain, end))
            self.assertLess(content.count, 4 + 2 * len(plain) / short)
            if rng.random() < 0.1:
                self.assertEqual(content.whole(), plain)

    def test_an_edit_leaves_the_bytes_from_before(self) -> None:
        before = Content(b"abc")
        self.assertEqual((before.splice(1, 1, b"xy").whole(), before.splice(0, 3, b"").whole(), before.whole()), (b"axyc", b"", b"abc"))


@BUILT
class Cost(unittest.TestCase):
    def test_a_change_costs_what_it_changes(self) -> None:
        for label, line in LINES:
            with self.subTest(label, line=line[:10]), Gate.start(PROGRAM, "stdio", "--indexes", INDEXES) as gate:
                document = gate.open("d", label, line * (LARGE // len(line)))
                lines, count = document.stat()["lines"], 100
                rng = random.Random(1)
                document.change("x", (0, 0))
                start = time.process_time()
                for _ in range(count):
                    place = rng.randrange(lines), 0
                    document.change("x", place) if rng.random() < 0.5 else document.changes([("x", place), ("y", place)])
                self.assertLess((time.process_time() - start) / count, MOST)
                self.assertEqual(document.bytes, document.source())


if __name__ == "__main__":
    unittest.main()
