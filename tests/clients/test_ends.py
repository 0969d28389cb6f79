"""Lines of places, counted, beside those that are gone through one by one."""
import random
import unittest

from archives import Folder
from legacy.ends import LINE_END, LinesAt


class Lines(Folder):
    def test_they_are_those_that_line_ends_begin(self):
        draw = random.Random(1)
        for number in range(400):
            text = "".join(draw.choice(("a", "あ", "\n", "\r", "\r\n")) for _ in range(draw.randrange(30)))
            ends = [it.end() for it in LINE_END.finditer(text)]
            lines = LinesAt(text)
            for place in sorted(draw.sample(range(len(text) + 1), draw.randrange(len(text) + 2))):
                before = [it for it in ends if it <= place]
                with self.subTest(number, text=text, place=place):
                    self.assertEqual(lines.at(place), (len(before) + 1, before[-1] if before else 0))


if __name__ == "__main__":
    unittest.main()
