"""The program as it was built, started under limits of memory, from one under which it just starts up to one under
which nothing is refused: index files, exceptions and labels that can't be loaded end it by their text and status, and from then on
lines alone are refused."""
import json
import pathlib
import resource
import subprocess
import tempfile
import unittest

from program import PROGRAM, Played, built
from base import EXACT

# By how many bytes of addresses each limit is greater than the one before.
STEP = 16 * 1024

# How many limits there are at most, and under how many in a row nothing is refused at the end.
LIMITS = 4000
SERVED = 8

# Index files of many rows: the code points of jis0208 count from 4E00, those of the other from AC00.
FILES = [
    ("jis0208", "".join(f"{pointer}\t0x{0x4E00 + pointer:04X}\n" for pointer in range(11000))),
    ("big5", "".join(f"{pointer}\t0x{0xAC00 + pointer:04X}\n" for pointer in range(8000))),
]

# Exceptions of the gb18030 encoder, many as well.
EXCEPTIONS = "".join(f"0x{0xE000 + number:04X}\t{0xAAA1 + number % 94:04X}\n" for number in range(1800))

# A label file of many labels.
LABELS = [{"encodings": [{"name": "Shift_JIS", "labels": ["sjis", *(f"sjis-{number}" for number in range(3000))]}]}]

# Commands, each with its reply; where the first is refused, there is no document for the second.
SESSION = [
    ('{"id":1,"op":"open","doc":"d","label":"sjis-2999","bytes":"gUA="}', '{"bom":0,"encoding":"Shift_JIS","id":1,"rev":0}'),
    ('{"id":2,"op":"text","doc":"d","from":0,"to":1}', '{"id":2,"rev":0,"text":"\u4e00"}'),
]
REFUSED = ['{"fault":"OutOfMemory"}', '{"fault":"NoDocument","id":2}']

OUT_OF_MEMORY = (1, "", "gate: out of memory\n")


def limit_memory(limit):
    """What a process does before it becomes the program, so that it has this many bytes of addresses."""

    def limits():
        resource.setrlimit(resource.RLIMIT_CORE, (0, 0))
        resource.setrlimit(resource.RLIMIT_AS, (limit, limit))

    return limits


@EXACT
@built
class Memory(Played):
    def setUp(self):
        folder = tempfile.TemporaryDirectory()
        self.addCleanup(folder.cleanup)
        self.folder = pathlib.Path(folder.name)
        for name, rows in FILES:
            (self.folder / f"index-{name}.txt").write_text(rows)
        (self.folder / "gb18030-exceptions.txt").write_text(EXCEPTIONS)
        (self.folder / "labels.json").write_text(json.dumps(LABELS))
        self.words = ["stdio", "--indexes", str(self.folder), "--labels", str(self.folder / "labels.json")]

    def ends(self, limit, *words, lines=""):
        """How the program ends under a limit: its status and texts."""
        ran = subprocess.run(
            [PROGRAM, *words], input=lines.encode(), stdout=subprocess.PIPE, stderr=subprocess.PIPE, preexec_fn=limit_memory(limit)
        )
        return ran.returncode, ran.stdout.decode(), ran.stderr.decode(errors="replace")

    def least(self):
        """The least limit under which the program starts without files."""
        for number in range(LIMITS):
            if self.ends(number * STEP) == (0, "", ""):
                return number * STEP
        self.fail("the program doesn't start")

    def test_files_loaded_on_the_first_stack(self):
        self.plays(SESSION, *self.words)

    def test_files_that_cannot_be_loaded(self):
        lines = "".join(command + "\n" for command, _ in SESSION)
        replies = [reply for _, reply in SESSION]
        refused, served, least = 0, 0, self.least()
        for number in range(LIMITS):
            ended = self.ends(least + number * STEP, *self.words, lines=lines)
            if ended == OUT_OF_MEMORY:
                refused += 1
                continue
            status, output, error = ended
            self.assertEqual((status, error), (0, ""), f"under {least} + {number} * {STEP} bytes")
            for wanted, reply in zip(replies, output.splitlines()):
                self.assertIn(reply, [wanted, *REFUSED])
            self.assertEqual(output.count("\n"), len(replies))
            served = served + 1 if output.splitlines() == replies else 0
            if served == SERVED:
                break
        self.assertEqual(served, SERVED)
        self.assertGreater(refused, 10)


if __name__ == "__main__":
    unittest.main()
