"""What `gate` isn't asked about: rows of files of which stretches of ASCII are taken out are those that `gate` makes of the
whole files."""
import random
import unittest
from unittest import mock

from checkout import BUILT, INDEXES, PROGRAM
from legacy import ascii, finding
from legacy.check import Check
from legacy.damage import MOST
from legacy.work import Item

LABELS = [*MOST, "windows-1252", "x-user-defined", "replacement"]
# Bytes that begin, go on with or end a sequence in one of these encodings, and what ends lines.
PARTS = [bytes([it]) for it in b"\n\n\n\r09A@~!\x0e\x1b\x80\x81\x82\x84\x8e\x8f\xa0\xa1\xa4\xb0\xbb\xbf\xc2\xd8\xe3\xef\xf0\xfe\xff"] + [
    b"\r\n", b"\r\n", b"text", b" of ASCII", b"\x1b$B$\"\x1b(B", b"\x82\xa0", b"\xa4\xa2", b"\xb0\xa1",
    b"\x815\xf47", "あ".encode(), "😀".encode(), b"\0\xd8"]
LINES = [b"a line of ASCII\n", b"\n", b"another\r\n", b"a third\r", b"0123456789\n"]


def drawn(draw):
    """A content in which lines of ASCII and other bytes take turns, perhaps behind a byte order mark."""
    parts = [draw.choice(ascii.MARKS)] if draw.random() < 0.1 else []
    for _ in range(draw.randrange(1, 8)):
        parts += draw.choices(LINES, k=draw.randrange(4)) + draw.choices(PARTS, k=draw.randrange(6))
    return b"".join(parts)


class Stretches(unittest.TestCase):
    def test_where_they_are(self):
        for content, expected in [
            (b"", []), (b"ab\ncd", [(0, 5)]), (b"\xff\n", []), (b"ab\n\xff\nab", [(5, 7)]), (b"\xff\nab\ncd\nef\xff", [(5, 8)]),
            (b"\xffab\ncd\nef", [(4, 9)]), (b"\xffabcdef", []), (b"abcdef\xff", []),
        ]:
            with self.subTest(content), mock.patch.multiple(ascii, BLOCK=2, SHORTEST=1):
                found = list(ascii.stretches(content))
                self.assertEqual(found, expected)

    def test_what_is_left(self):
        with mock.patch.multiple(ascii, BLOCK=2, SHORTEST=1):
            rest = ascii.Rest(b"ab\r\n\xff\nab\ncd\nef\xffg", "Shift_JIS")
        self.assertEqual((rest.content, rest.bom, rest.taken), (b"\xff\nab\nef\xffg", "keep", 7))
        self.assertEqual([rest.before(at) for at in (0, 4, 5, 7)], [(4, 1), (4, 1), (7, 2), (7, 2)])


@BUILT
class Rows(unittest.TestCase):
    def test_they_are_those_of_the_whole_files(self):
        draw = random.Random(63)
        shorter = 0
        with finding.Found(PROGRAM, INDEXES, None).start() as gate, mock.patch.multiple(ascii, BLOCK=4, SHORTEST=1):
            for number in range(4000):
                content, label = drawn(draw), LABELS[number % len(LABELS)]
                item = Item("a", len(content), 0, label)
                found = Check().row(gate, item, content)
                with mock.patch.object(ascii, "stretches", lambda _: iter(())), mock.patch("legacy.check.plain", lambda *_: False):
                    whole = Check().row(gate, item, content)
                self.assertEqual(found, whole, (label, content))
                shorter += ascii.Rest(content, found.encoding).taken > 0 and found.errors > 0
        self.assertGreater(shorter, 1000)


if __name__ == "__main__":
    unittest.main()
