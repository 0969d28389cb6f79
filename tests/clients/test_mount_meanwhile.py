"""What programs meet in a mount while others are at work in it."""
import itertools
import os
import subprocess
import sys
import threading
import time
import unittest

from mounts import BYTES, RULES, Mount, Ruled

# The fewest readings that tell something, and of how many versions.
FEW, FEW_VERSIONS = 100, 10
# How many saves there are at most, of which one is to hold up nobody: what a mount does wrong it does each time, and what else
# a machine has to do comes and goes.
TRIES = 4


class Meanwhile(Ruled):
    """What programs meet while others are at work."""

    def test_no_reading_is_torn_while_a_file_is_replaced_below(self):
        # 36,000 readings in all, or as many as there is time for, but no fewer than a few of some versions.
        path, readers, readings, seconds = self.file(), 4, 9000, 30
        words = [sys.executable, "-c", READER, path, str(readings), str(seconds), str(FEW), str(FEW_VERSIONS)]
        self.replace(0)
        reading = [subprocess.Popen(words, stdout=subprocess.PIPE, text=True) for _ in range(readers)]
        number = itertools.count(1)
        while any(it.poll() is None for it in reading):
            self.replace(next(number))
        for it in reading:
            count, versions, torn = map(int, it.communicate()[0].split())
            self.assertEqual(torn, 0)
            self.assertGreater(count, FEW)
            self.assertGreater(versions, FEW_VERSIONS)

    def replace(self, number):
        """Puts another version in the place of the file below."""
        (self.below / "new").write_bytes(f"{number} ".encode() + b"\x82\xa0\xff\n" * (number % 97))
        os.replace(self.below / "new", self.below / "f.sj")
        time.sleep(0.01)

    def test_others_are_answered_while_a_large_text_is_saved(self):
        line = b"a line of text, \x82\xa0\x88\x9f, and more of it, with some damage \xff in it, number %07d\r\n"
        content = b"".join(line % number for number in range(16 * 1024 * 1024 // len(line % 0)))
        large, small = self.file("large.sj", content), self.file()
        # (which waits for the machine alone, as long as this one does)
        other = Mount(*RULES)
        self.addCleanup(other.clear)
        (other.source / "f.sj").write_bytes(BYTES)
        said = []
        for number in range(TRIES):
            old, new = (b"number %07d" % it for it in (100_000 + number, 900_000 + number))
            saving = threading.Thread(target=large.write_bytes, args=[large.read_bytes().replace(old, new)])
            began = time.monotonic()
            saving.start()
            found, usual = self.answers([small, other.point / "f.sj"], lambda: not saving.is_alive())
            took = time.monotonic() - began
            content = content.replace(old, new)
            self.assertEqual((self.below / "large.sj").read_bytes() == content, True)
            worst = ", ".join(f"{name} {1000 * max(times):.0f} ms" for name, times in found.items())
            said.append(f"the longest wait of {3 * len(found['ls'])} beside a save of 16 MiB, {took:.1f} s: {worst}; load {os.getloadavg()[0]:.1f}")
            if self.is_quick(found, usual, took):
                break
        else:
            self.fail(said)
        print(said[-1])

    def is_quick(self, found, usual, took):
        """Whether many answers came meanwhile, within 50 ms, or on a machine that has much else to do about as quickly as those
        of a mount in which nothing is saved; and what took longer is no large part of the time."""
        answers, others = (sorted(itertools.chain(*it.values())) for it in (found, usual))
        most = max(0.05, 4 * others[len(others) * 95 // 100])
        return len(answers) > 10 and answers[len(answers) * 95 // 100] < most and sum(it for it in answers if it > most) < took / 4

    def answers(self, paths, done):
        """How long it takes to list a folder, to look at a file and to read it, again and again, of each of some files."""
        found = [{"ls": [], "stat": [], "cat": []} for _ in paths]
        while not done():
            for path, of in zip(paths, found):
                for times, call in zip(of.values(), (lambda: os.listdir(path.parent), path.stat, path.read_bytes)):
                    start = time.monotonic()
                    call()
                    times.append(time.monotonic() - start)
            time.sleep(0.005)
        return found


READER = """
import os, sys, time
path, most, end, few, few_versions = sys.argv[1], int(sys.argv[2]), time.monotonic() + float(sys.argv[3]), int(sys.argv[4]), int(sys.argv[5])
count, torn, versions, last = 0, 0, set(), end + 600
while time.monotonic() < end and count < most or time.monotonic() < last and (count <= few or len(versions) <= few_versions):
    count += 1
    file = os.open(path, os.O_RDONLY)
    size = os.fstat(file).st_size
    text = b"".join(iter(lambda: os.read(file, 65536), b""))
    torn += (size, size) != (len(text), os.fstat(file).st_size)
    os.close(file)
    number = text.split()[0]
    torn += text.decode() != number.decode() + " " + "\u3042\ufffd\\n" * (int(number) % 97)
    versions.add(number)
print(count, len(versions), torn)
"""


if __name__ == "__main__":
    unittest.main()
