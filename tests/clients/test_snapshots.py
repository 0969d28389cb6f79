"""Which contents of files the mount keeps, and how much of them."""
import pathlib
import sys
import tracemalloc
import unittest

sys.path.insert(0, str(pathlib.Path(__file__).resolve().parent.parent.parent / "clients"))
from legacy.mount.below import Signature  # noqa: E402
from legacy.mount.snapshots import MOST_SIZES, Past, Shelf, Sizes, Snapshot, Text  # noqa: E402


def content(raw, text=None, inode=0):
    return Snapshot(signature(inode), raw, "shift_jis", text)


def signature(inode, changed=0):
    """A file's signature, of numbers as large as a system's."""
    return Signature(1 << 40, inode + (1 << 40), 1 << 40, 1 << 60, changed + (1 << 60))


# What a content of one byte costs.
ONE = content(b"0").cost


class Kept(unittest.TestCase):
    def test_the_last_four_contents_of_a_path(self):
        past = Past(most=8 * ONE)
        for number in [0, 1, 2, 1, 3, 4]:
            past.put(b"a", content(b"%d" % number))
        self.assertEqual([it.raw for it in past.of(b"a", "shift_jis")], [b"2", b"1", b"3", b"4"])
        self.assertEqual((past.of(b"a", "utf-8"), past.of(b"b", "shift_jis")), ([], []))

    def test_large_contents_of_one_path_are_fewer(self):
        past = Past(most=2 * ONE + 100)
        for number in range(4):
            past.put(b"a", content(b"%d" % number * 40))
        self.assertEqual([it.raw[:1] for it in past.of(b"a", "shift_jis")], [b"3"])

    def test_texts_that_are_made_later_let_nothing_more_be_kept(self):
        past = Past(most=5 * content(b"0" * 20).cost)
        for number in range(50):
            kept = content(b"%d" % (number % 10) * 20)
            past.put(b"%d" % number, kept)
            kept.text = Text(b"x" * 1000, "Shift_JIS", 0)
        self.assertEqual(sum(bool(past.of(b"%d" % number, "shift_jis")) for number in range(50)), 5)


class Memory(unittest.TestCase):
    """How much is kept of many files."""

    def memory_of(self, build):
        """How many bytes of memory an object takes that is built."""
        tracemalloc.start()
        try:
            before = tracemalloc.get_traced_memory()[0]
            built = build()
            return built, tracemalloc.get_traced_memory()[0] - before
        finally:
            tracemalloc.stop()

    def test_a_shelf_takes_what_its_snapshots_cost(self):
        # (texts that are their bytes, and others; the interpreter's tables grow by leaps)
        for same, lines in (False, False), (True, False), (False, True):
            cost = 0

            def build():
                nonlocal cost
                shelf = Shelf(most=1 << 40)
                for number in range(2000):
                    raw = b"".join(b"%d in line %d\n" % (number, line) for line in range(20))
                    found = content(raw, Text(raw if same else raw + b"\n", "Shift_JIS", 0), number)
                    shelf.put(found)
                    if lines:
                        self.assertEqual(len(found.lines), 20)
                        shelf.weigh_again([found])
                    cost += found.cost
                return shelf

            taken = self.memory_of(build)[1]
            self.assertTrue(0.7 * cost < taken < 1.2 * cost, (same, lines, cost, taken))

    def test_small_snapshots_are_as_few_as_they_cost(self):
        shelf = Shelf(most=10 * ONE)
        for number in range(50):
            shelf.put(content(b"0", inode=number))
        self.assertEqual([number for number in range(50) if shelf.has(signature(number), "shift_jis")], list(range(40, 50)))

    def test_a_shelf_has_fewer_once_their_lines_are_kept_too(self):
        lines = b"".join(b"line %d\n" % number for number in range(20))
        kept = [content(lines, Text(lines, "Shift_JIS", 0), number) for number in range(10)]
        shelf = Shelf(most=sum(it.cost for it in kept))
        for it in kept:
            shelf.put(it)
        self.assertEqual(len(list(shelf.late("shift_jis"))), 10)
        before = kept[-1].cost
        self.assertEqual(len(kept[-1].lines), 20)
        shelf.weigh_again([kept[-1], content(lines)])
        self.assertGreater(kept[-1].cost, 2 * before)
        self.assertEqual(list(shelf.late("shift_jis")), kept[::-1][: 1 + (10 * before - kept[-1].cost) // before])
        # What is put there anew, or known by another signature, counts once.
        for number in range(100):
            shelf.put(kept[-1])
            shelf.now(kept[-1].signature, signature(9, number + 1), "shift_jis")
        self.assertGreater(len(list(shelf.late("shift_jis"))), 1)

    def test_sizes_of_the_last_used_files(self):
        sizes = Sizes(most=3)
        for number in range(3):
            sizes.put(signature(number), "shift_jis", number)
        self.assertEqual(sizes.get(signature(0), "shift_jis"), 0)
        sizes.put(signature(3), "shift_jis", 3)
        self.assertEqual([sizes.get(signature(number), "shift_jis") for number in range(4)], [0, None, 2, 3])
        # A file that changed is in its own place; what it was before is known no more.
        sizes.put(signature(0, changed=1), "shift_jis", 7)
        self.assertEqual([sizes.get(signature(number), "shift_jis") for number in range(4)], [None, None, 2, 3])
        self.assertEqual(sizes.get(signature(0, changed=1), "shift_jis"), 7)

    def test_sizes_of_any_number_of_files_take_a_bounded_memory(self):
        def build():
            sizes = Sizes(most=1000)
            for number in range(5000):
                sizes.put(signature(number), "shift_jis", number)
            return sizes

        self.assertLess(self.memory_of(build)[1], 1000 * 600)
        sizes = Sizes()
        for number in range(MOST_SIZES + 1):
            sizes.put(signature(number), "shift_jis", number)
        self.assertEqual([sizes.get(signature(number), "shift_jis") for number in (0, 1, MOST_SIZES)], [None, 1, MOST_SIZES])


if __name__ == "__main__":
    unittest.main()
