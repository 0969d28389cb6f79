"""The difference of two texts: that its edits make the new text, that they are few, and what they never name."""
import pathlib
import random
import re
import sys
import time
import unittest
from unittest import mock

sys.path.insert(0, str(pathlib.Path(__file__).resolve().parent.parent.parent / "clients"))
from legacy import difference, sequences  # noqa: E402
from legacy.difference import BAD, Difference, common_lines, edits  # noqa: E402
from legacy.sequences import Edit  # noqa: E402


def apply_edits(old, new, found):
    """The old text with the edits made in it."""
    parts, at = [], 0
    for it in found:
        parts += [old[at : it.start], new[it.new_start : it.new_end]]
        at = it.end
    return "".join(parts) + old[at:]


def longest(a, b):
    """The length of a longest common subsequence, by the textbook."""
    row = [0] * (len(b) + 1)
    for x in a:
        row = [0, *row]
        before, row = row[1:], [0]
        for n, y in enumerate(b):
            row.append(before[n] + 1 if x == y else max(before[n + 1], row[n]))
    return row[-1]


def draw_texts(rng, alphabet, most=60):
    """A random text, and one of a few edits at random places."""
    old = [rng.choice(alphabet) for _ in range(rng.randrange(most))]
    new = list(old)
    for _ in range(rng.randrange(5)):
        at = rng.randrange(len(new) + 1)
        new[at : at + rng.randrange(4)] = [rng.choice(alphabet) for _ in range(rng.randrange(4))]
    return "".join(old), "".join(new)


class Edits(unittest.TestCase):
    def test_random_texts(self):
        rng = random.Random(59)
        for number in range(700):
            # Now and then all bounds are low, so that what lies beyond them is looked at too.
            bounds = {"PAIRS": rng.choice([1 << 24, 100, 10]), "STEPS": rng.choice([48, 3]), "DEPTH": rng.choice([24, 1])}
            alphabet = rng.choice(["a\ufffd\n", "ab\n", "a\r\nb\ufffd", "abcdefg \n", "図書館の\n\ufffdab", "😀é\n"])
            old, new = draw_texts(rng, alphabet)
            with mock.patch.multiple(sequences, **bounds), mock.patch.object(difference, "WORK", rng.choice([10_000, 50])):
                precious = [(at, at + 3) for at in range(0, len(old), rng.randrange(3, 20))]
                for words in {}, {"one_form": False}, {"same": BAD + "ab"}, {"precious": precious}, None:
                    with self.subTest(number=number, old=old, new=new, bounds=bounds, words=words):
                        it = Difference(old, new)
                        found = it.by_lines() if words is None else it.edits(**words)
                        self.assertEqual(apply_edits(old, new, found), new)
                        self.assertTrue(all(it.start < it.end or it.new_start < it.new_end for it in found))
                        self.assertTrue(all(one.end < other.start for one, other in zip(found, found[1:])))
                        self.assertEqual(bool(found), old != new)

    def test_a_script_is_a_shortest_one(self):
        rng = random.Random(59)
        for number in range(200):
            old, new = draw_texts(rng, rng.choice(["ab", "abc", "abcdefg", "図書館の"]))
            # (both ways of finding one)
            with mock.patch.multiple(sequences, PAIRS=rng.choice([1 << 24, 0]), STEPS=200), \
                    mock.patch.object(difference, "_piece", lambda: re.compile("(?s).")), mock.patch.object(sequences, "_anchors", lambda *_: []):
                found = edits(old, new, one_form=False)
            with self.subTest(number=number, old=old, new=new):
                out = sum(it.end - it.start for it in found)
                self.assertEqual(len(old) - out, longest(old, new))

    def test_whole_lines_in_common(self):
        rng = random.Random(59)
        for _ in range(1000):
            old, new = draw_texts(rng, "ab\r\n", 30)
            head, tail = common_lines(old, new)
            self.assertLessEqual(head + tail, min(len(old), len(new)))
            self.assertEqual((old[:head], old[len(old) - tail :]), (new[:head], new[len(new) - tail :]))
            self.assertTrue(head == 0 or old[head - 1] == "\n")
            self.assertTrue(tail == 0 or old[-tail - 1] == new[-tail - 1] == "\n")

    def test_worked_examples(self):
        for old, new, expected in [
            ("", "", []),
            ("", "a", [Edit(0, 0, 0, 1)]),
            ("a\nb\nc\n", "a\nc\n", [Edit(2, 4, 2, 2)]),
            ("a\nb", "a\nb\nc", [Edit(3, 3, 3, 5)]),
            ("a\nb\nc", "a\nb", [Edit(3, 5, 3, 3)]),
            ("図書館の計画", "図書室の計画", [Edit(2, 3, 2, 3)]),
            # Near edits of ASCII text are one.
            ("one two three", "One two Three", [Edit(0, 9, 0, 9)]),
            # A letter that isn't ASCII is worth more than an ASCII one.
            ("図 é\n書", "図\né 書", [Edit(1, 2, 1, 2), Edit(3, 4, 3, 4)]),
            ("a図b", "x図y", [Edit(0, 1, 0, 1), Edit(2, 3, 2, 3)]),
            # A line that is like one before it is not taken for it.
            ("é1\né2\né3\n", "é1\né3\n", [Edit(3, 6, 3, 3)]),
        ]:
            with self.subTest(old=old, new=new):
                self.assertEqual(edits(old, new), expected)

    def test_damage_is_never_typed(self):
        for old, new in [
            # A shortest script would move a place of damage.
            ("a\ufffdbcd", "bcda\ufffd"),
            ("\ufffd図\ufffd書\ufffd", "図\ufffd書\ufffd館\ufffd"),
            ("x\ufffdab\n\ufffdcd\n", "x\ufffd ab \ufffdc\nd\n"),
            # A line too long for a script as a whole.
            (BAD * 9000, "a".join([BAD * 100] * 90)),
            # One goes; the others have their neighbours.
            ("一\ufffd二\ufffd三\ufffd四", "一\ufffd二三\ufffd四"),
        ]:
            with self.subTest(old=old, new=new):
                self.assertFalse([it for it in edits(old, new) if BAD in new[it.new_start : it.new_end]])

    def test_a_word_replaced_in_each_line_names_no_damage(self):
        # Line 20 has by accident the letters that line 450 then has.
        lines = [f"{number:04d} 図書館 \ufffd is here" for number in range(600)]
        lines[20], lines[450] = "0020 東京 図書館", "0450 図書館 図書館"
        old = "\n".join(lines)
        new = "\n".join(line.replace("図書館", "東京", 1) for line in lines)
        found = edits(old, new)
        self.assertEqual(apply_edits(old, new, found), new)
        self.assertEqual([it for it in found if BAD in old[it.start : it.end]], [])

    def test_the_damage_that_stays_is_the_one_between_the_same_letters(self):
        old, new = "ab\ufffdcd ef\ufffdgh ij\ufffdkl", "ef\ufffdgh"
        self.assertEqual(edits(old, new, one_form=False), [Edit(0, 6, 0, 0), Edit(11, 17, 5, 5)])


def halves(kind, count):
    """Two texts of about `count` code points that are hard to compare."""
    rng = random.Random(59)
    two = "".join(rng.choice("ab\n") for _ in range(count))
    if kind == "two symbols":
        return two, "".join(rng.choice("ab\n") for _ in range(count))
    if kind == "one long line":
        return "図書館の計画 word " * (count // 12), "図書館の計画 other " * (count // 12)
    if kind == "equal lines":
        return "図書\n" * (count // 3), "書図\n" + "図書\n" * (count // 6) + "x\n" + "図書\n" * (count // 6)
    if kind == "short lines":
        return "é\n" * (count // 2), "é\r\n" * (count // 2)
    if kind == "damage alone":
        return BAD * count, BAD * (count // 2) + "a" + BAD * (count // 2)
    if kind == "repeated blocks":
        block = "".join(f"行{n % 7}\n" for n in range(100))
        return block * (count // len(block)), (block * (count // len(block) // 2) + "新\n") * 2
    if kind == "nested anchors":
        # Each line that both have once lets another one be such a line.
        rows = [it for n in range(count // 12, 0, -1) for it in (f"{n}", f"{n + 1}")]
        return "\n".join(it + f"\n-{n}" for n, it in enumerate(rows)), "\n".join(it + f"\n+{n}" for n, it in enumerate(rows))
    raise ValueError(kind)


class Bounds(unittest.TestCase):
    """A text of four times the length takes about four times the time, and not sixteen times."""

    def seconds(self, kind, count):
        old, new = halves(kind, count)
        began = time.process_time()
        found = edits(old, new)
        took = time.process_time() - began
        self.assertEqual(apply_edits(old, new, found), new)
        return took

    def test_never_quadratic(self):
        for kind in ("two symbols", "one long line", "equal lines", "short lines", "damage alone", "repeated blocks",
                     "nested anchors"):
            with self.subTest(kind=kind):
                self.assertLess(self.seconds(kind, 80_000), 9 * self.seconds(kind, 20_000) + 0.3)


if __name__ == "__main__":
    unittest.main()
