"""A few known lines that are looked for one by one are those that tables of all lines have."""
import random
import unittest
from unittest import mock

from checkout import BUILT
from legacy.excerpts import behind_feeds, excerpt, last_place
from legacy.saving import Refused, _Saving, read, save
from test_saving import OverGate

LINES = [b"ABCD \x82\xa0\xff", b"\x82\xa0\x88\x9f", b"more\xff \x88\x9f", b"ascii", b"", b"\x82\xa0", b"x\x88\x9f\xffy", b"\xff", b"\x88\x9f, of \x82\xa0"]


class Excerpts(unittest.TestCase):
    def test_where_a_line_begins_the_last_time(self):
        for text, line, expected in [
            ("あ\nbあ\nあ", "あ", 5), ("あ\r\nbあ\n", "あ", 0), ("あ", "あ", 0),
            ("あ\r", "あ", 0), ("aあ\nあa", "あ", -1), ("あ\rb\n", "あ", -1), ("", "あ", -1),
        ]:
            with self.subTest(text):
                self.assertEqual(last_place(text, line, 0, len(text)), expected)
        self.assertEqual([last_place("あ\nあ\nあ\n", "あ", *ends) for ends in ((0, 2), (0, 4), (2, 4), (4, 4))], [0, 2, 2, -1])

    def test_a_line_that_is_a_part_of_many(self):
        self.assertIsNone(last_place("あ\n" + "aあ\n" * 3000, "あ", 0, 9002))
        self.assertIsNone(excerpt("aあ\n" * 3000, b"a\x82\xa0\n" * 3000, 0, ["あ"], 0, 9000))

    def test_behind_so_many_line_feeds(self):
        raw = b"".join(b"%d\n" % number for number in range(40_000))
        for number in 0, 1, 9_999, 39_999:
            at = behind_feeds(raw, number, 0)
            self.assertTrue(raw.startswith(b"%d\n" % number, at) and (not at or raw[at - 1 : at] == b"\n"))
        self.assertEqual((behind_feeds(raw, 40_000, 0), behind_feeds(raw, 1, 2)), (len(raw), 4))

    def test_their_bytes(self):
        raw = b"\x82\xa0\xff\r\n\x88\x9f\n\x82\xa0\xfe"
        found = excerpt("あ\ufffd\r\n亜\nあ\ufffd", raw, 0, ["あ\ufffd", "亜\r", "いい"], 0, 5)
        self.assertEqual({found.lines[it]: found.raws(it, it + 1) for it in range(len(found.lines))}, {"あ\ufffd\r": b"\x82\xa0\xff\r", "亜": b"\x88\x9f"})


@BUILT
class Few(OverGate):
    def test_saves_are_those_by_tables_of_all_lines(self):
        draw = random.Random(61)
        with mock.patch.object(_Saving, "_parts", autospec=True, side_effect=_Saving._parts) as asked:
            outcomes = [self.both(draw) for _ in range(400)]
        self.assertGreater(len(asked.mock_calls), 100)
        self.assertEqual(outcomes.count(False), 0)

    def both(self, draw):
        """Whether an edit is saved as the same bytes in both ways. (No two lines of equal text have other bytes.)"""
        contents = [b"\n".join(draw.choice(LINES) + draw.choice([b"", b"", b"\r"]) for _ in range(draw.randrange(1, 30))) for _ in range(3)]
        base, *others = [read(self.gate, "shift_jis", it) for it in contents]
        lines = base.text.split("\n")
        for _ in range(draw.randrange(1, 4)):
            at = draw.randrange(len(lines) + 1)
            lines[at : at + draw.randrange(2)] = draw.choice([[], [draw.choice(draw.choice([base, *others]).text.split("\n"))], ["typed あ"]])
        new = "\n".join(lines)
        found = self.outcome(base, new, others)
        with mock.patch.object(_Saving, "_parts", lambda *_: None):
            return self.outcome(base, new, others) == found

    def outcome(self, base, new, others):
        try:
            return save(self.gate, "shift_jis", base, new, others).raw
        except Refused as refused:
            return str(refused)


if __name__ == "__main__":
    unittest.main()
