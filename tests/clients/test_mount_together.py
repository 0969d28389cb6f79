"""What small files say that the mount has decoded as one document is what each says alone."""
import os
import random
import signal
import unittest

from checkout import BUILT, INDEXES, PROGRAM
from legacy import finding
from legacy.mount.together import MOST, Together
from legacy.saving import Refused, read
from test_ascii import LABELS, drawn


@BUILT
class Texts(unittest.TestCase):
    def together(self):
        found = Together(finding.Found(PROGRAM, INDEXES, None).words())
        self.addCleanup(found.close)
        return found

    def test_they_are_those_of_each_alone(self):
        draw = random.Random(59)
        joined = 0
        with finding.Found(PROGRAM, INDEXES, None).start() as gate:
            together = self.together()
            for _ in range(150):
                contents = [(draw.choice(LABELS), drawn(draw)) for _ in range(32)]
                contents = [(label, raw + b"\n" if draw.random() < 0.7 else raw) for label, raw in contents]
                found = together.texts(gate, contents)
                self.assertEqual(together.sizes(gate, contents), [len(it.utf8) for it in found], contents)
                for (label, raw), text in zip(contents, found):
                    alone = read(gate, label, raw)
                    self.assertEqual(text, (alone.text.encode(), alone.encoding, alone.bom), (label, raw))
                joined += sum(raw.endswith(b"\n") for _, raw in contents)
        self.assertGreater(joined, 1000)
        self.assertLessEqual(len(together._converters), MOST)

    def test_a_process_that_ended_is_replaced(self):
        contents = [("shift_jis", b"\x82\xa0 \x82\xa0\n"), ("shift_jis", b"\xff\n" * 100_000), ("shift_jis", b"\n\x82\xa0\n")]
        with finding.Found(PROGRAM, INDEXES, None).start() as gate:
            together = self.together()
            for _ in range(3):
                self.assertEqual(together.sizes(gate, contents), [8, 400_000, 5])
                converter, = together._converters.values()
                os.kill(converter._process.pid, signal.SIGKILL)
                converter._process.wait()

    def test_one_that_ends_whenever_it_is_asked_is_a_refusal(self):
        words = ["/bin/sh", "-c", "exit 1", "stdio", "--indexes", "none"]
        with finding.Found(PROGRAM, INDEXES, None).start() as gate, self.assertRaises(Refused):
            Together(words).sizes(gate, [("shift_jis", b"\x82\xa0\n")])


if __name__ == "__main__":
    unittest.main()
