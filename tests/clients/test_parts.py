"""Long files, which are looked at by parts: their rows are those of the same files as a whole."""
import contextlib
import json
import os
import pathlib
import random
import subprocess
import sys
import unittest
from unittest import mock

from archives import Folder, settings
from checkout import BUILT, CLIENTS, EXACT, INDEXES, PROGRAM, UNPROVED
from legacy import plans
from legacy.check import Check, check
from legacy.mend import Repairs
from legacy.search import Search, search
from legacy.work import cuts, parts, reading
from legacy.work import run as run_job
from legacy.work.rows import WORKER, Task

# The encodings of the small index files, each with Python's codec and letters that both have.
ENCODINGS = {
    "shift_jis": ("cp932", "\u56f3\u66f8\u9928\u30a2\u8868"), "euc-jp": ("euc_jp", "\u56f3\u66f8\u9928\u3042"),
    "gb18030": ("gb18030", "\u56fe\u4e66\U00020087\u00e9"), "utf-8": ("utf-8", "\u56f3\u66f8\U0001f600\u00e9"),
    "utf-16le": ("utf-16-le", "\u56f3\U0001f600\u0a0d\u0d0a"), "utf-16be": ("utf-16-be", "\u56f3\U0001f600\u0a0d\u0d0a"),
    "iso-2022-jp": ("iso2022_jp", "\u56f3\u66f8\u9928\u00a5"), "windows-1252": ("cp1252", "\u00e9\u00fc\u20ac")}
# Bytes that are wrong somewhere, or that lead elsewhere.
WRONG = {
    "utf-16le": [b"\x00\xd8", b"\x00\xdc"], "utf-16be": [b"\xd8\x00", b"\xdc\x00"],
    "iso-2022-jp": [b"\xff", b"\x1b(B", b"\x1b", b"\x1b$B", b"\x1b(J", b"\x1b$B\x24"]}
OTHERS = [b"\xff", b"\x81", b"\xe3\x81", b"\x84\x31\xff", b"\x810"]
ENDS = ["\n", "\n", "\r\n", "\r"]
# The files of each encoding. (The program with checks in it takes long.)
DRAWS = 1 if UNPROVED else 12
EXPRESSIONS = [
    {"expression": "[a\u56f3\u56fe\u00e9].b?"}, {"expression": "^a", "above": 1, "below": 2}, {"expression": "a", "is_inverted": True},
    {"expression": "b", "most": 5}, {"expression": "a\\s+b"}, {"expression": "\u56f3\u66f8", "through_damage": True}, {"expression": "A", "folds": True}]


def content_of(rng, label, size, longest):
    """Lines in an encoding, with wrong bytes in some of them."""
    codec, letters = ENCODINGS[label]
    made = []
    while sum(map(len, made)) < size:
        line = ("".join(rng.choice(letters + "ab 0,") for _ in range(rng.randrange(longest))) + rng.choice(ENDS)).encode(codec)
        if rng.random() < 0.2:
            at = rng.randrange(len(line) // 2 + 1) * 2
            line = line[:at] + rng.choice(WRONG.get(label, OTHERS)) + line[at:]
        made.append(line)
    return b"".join(made)


@contextlib.contextmanager
def in_parts(size, beside=400):
    """Looks at files by parts of so many bytes."""
    with mock.patch.object(reading, "WHOLE", 0), mock.patch.object(cuts, "PART", size), mock.patch.object(cuts, "MOST", 4 * size), \
            mock.patch.object(Search, "beside", beside):
        yield


def without_around(row):
    """A row without the texts beside its places, which a part has only if they are in it."""
    for it in [*getattr(row, "places", ()), *getattr(row, "control_places", ()), *getattr(row, "matches", ())]:
        it.before = it.after = ""
        it.above, it.below = [], []
    return row


@BUILT
class Parts(Folder):
    def compare(self, ran, longest=30, keep=lambda row: row, draws=DRAWS):
        refused = 0
        for label in ENCODINGS:
            rng = random.Random(f"{label} {longest}")
            for draw in range(draws):
                path = self.file(f"{draw}.{label}", content_of(rng, label, rng.choice([600, 2000, 4000]), longest))
                whole = [keep(it) for it in ran(path)]
                with in_parts(rng.choice([200, 301, 500])):
                    split = [keep(it) for it in ran(path)]
                if whole[0].outcome == "refused" or "cut" in split[0].reason:
                    refused += 1
                    continue
                with self.subTest(label=label, draw=draw, longest=longest):
                    self.assertEqual(split, whole)
        self.assertLess(refused, len(ENCODINGS) * draws // 3 + 1)

    def test_check(self):
        self.compare(lambda path: check([path], settings()))

    def test_check_of_long_lines(self):
        self.compare(lambda path: check([path], settings()), 400, without_around)

    def test_search(self):
        for words in EXPRESSIONS:
            with self.subTest(words):
                self.compare(lambda path: search(trees=[path], settings=settings(), **words), draws=1 if UNPROVED else 4)

    def test_search_in_long_lines(self):
        for words in EXPRESSIONS[:2]:
            self.compare(lambda path: search(trees=[path], settings=settings(), **words), 400, without_around, 1 if UNPROVED else 4)

    def test_mend(self):
        self.compare(lambda path: run_job(Repairs([("ff", "3f"), ("81", "")], line_ends="lf"), [path], settings()))

    def test_a_mark_is_one_at_the_start_alone(self):
        for label, mark in ("shift_jis", b"\xef\xbb\xbf"), ("utf-8", b"\xff\xfe"), ("utf-8", b"\xef\xbb\xbf"):
            content = mark + "ab\n".encode("utf-16-le" if mark == b"\xff\xfe" else "ascii") * 200
            content += (mark + b"\n" if mark != b"\xff\xfe" else mark) * 300
            path = self.file(f"a.{label}", content)
            whole = list(check([path], settings()))
            with in_parts(100):
                self.assertEqual(list(check([path], settings())), whole)
            self.assertEqual(whole[0].bom, len(mark))

    def test_processes_and_a_state(self):
        rng = random.Random(1)
        for number in range(4):
            self.file(f"in/{number}.shift_jis", content_of(rng, "shift_jis", 3000, 30))
        tree, state = str(self.folder / "in"), str(self.folder / "state")
        with in_parts(500):
            rows = list(check([tree], settings()))
            self.assertEqual(list(check([tree], settings(jobs=3))), rows)
            self.assertEqual(list(check([tree], settings(state=state))), rows)
            with mock.patch.object(cuts, "parts", side_effect=AssertionError):
                self.assertEqual(list(check([tree], settings(state=state))), rows)

    def test_a_plan_of_a_long_file(self):
        content = b"A\xffB\r\n" * 300 + b"\x82\xa0\r\n"
        path, plan = self.file("in/a.shift_jis", content), str(self.folder / "plan")
        with in_parts(200):
            list(plans.plan(plan, [path], Repairs([("ff", "3f")], line_ends="lf"), settings()))
            found = settings().found
            for step, outcomes in (plans.apply, ["done"]), (plans.apply, ["passed"]), (plans.undo, ["done"]), (plans.undo, ["passed"]):
                self.assertEqual([it.outcome for it in plans.status(plan)], ["found" if pathlib.Path(path).read_bytes() == content else "done"])
                self.assertEqual([it.outcome for it in step(plan, found)], outcomes)
                expected = content.replace(b"\xff", b"?").replace(b"\r\n", b"\n") if step is plans.apply else content
                self.assertEqual(pathlib.Path(path).read_bytes(), expected)
            lines = [json.loads(it) for it in pathlib.Path(plan).read_text().splitlines()]
            self.assertEqual([(it["line"], it["character"]) for it in lines[-3:]], [(300, 2), (300, 4), (301, 2)])
            pathlib.Path(plan).write_text(json.dumps({**lines[0], "new": "ffff"}) + "\n")
            self.assertEqual([it.reason for it in plans.apply(plan, found)], ["it would have 301 errors, and has 300"])
            pathlib.Path(plan).write_text(json.dumps({**lines[0], "old": "fe"}) + "\n")
            self.assertEqual([it.reason for it in plans.apply(plan, found)], ["the plan's old bytes aren't there"])
            self.file("in/a.shift_jis", content + b"\n")
            self.assertEqual([it.reason for it in plans.apply(plan, found)], ["it has changed since"])
        self.assertEqual(pathlib.Path(path).read_bytes(), content + b"\n")

    def test_what_cannot_be_cut(self):
        path = self.file("a.euc-jp", b"\xa4\xa2" * 3000)
        with in_parts(200):
            rows = list(check([path], settings()))
        self.assertEqual([it.reason for it in rows], [f"{parts.MOST} bytes of it have no line end, and nothing else at which they can be cut"])

    def test_a_file_that_changes(self):
        path = self.file("a.shift_jis", b"ab\n")
        status = os.stat(path)
        task = Task(Check(), settings().found)
        self.addCleanup(WORKER.end)
        for size, time, reason in (3, status.st_mtime_ns, ""), (4, status.st_mtime_ns, "it changed while it was read"), (3, 1, "it changed while it was read"):
            rows = task.rows([reading.Item(path, size, time, "shift_jis", part=cuts.Part(0, 0, 3, 3, b"", True))])
            self.assertEqual([it.reason for it in rows], [reason])


# Runs the command, and prints on standard error the most KiB that it, or one of its processes, had.
# (What its own usage says begins with that of the process that started it.)
MEASURED = """import re, resource, sys
from legacy.__main__ import main
status = main(sys.argv[1:])
mine = re.search("VmHWM:\\s*(\\d+)", open("/proc/self/status").read())
print(max(int(mine[1]), resource.getrusage(resource.RUSAGE_CHILDREN).ru_maxrss), file=sys.stderr)
sys.exit(status)"""


@BUILT
@EXACT
class Large(Folder):
    def run_measured(self, *words):
        """A row, and the most KiB that a process had."""
        ran = subprocess.run(
            [sys.executable, "-c", MEASURED, *words, "-e", "*.txt=shift_jis", "--gate", PROGRAM, "--indexes", str(INDEXES), str(self.folder / "in")],
            stdout=subprocess.PIPE, stderr=subprocess.PIPE, env={**os.environ, "PYTHONPATH": str(CLIENTS)})
        return json.loads(ran.stdout), int(ran.stderr.split()[-1])

    def test_forty_megabytes_in_sixty_four_mebibytes(self):
        line = "\u3042\u3042\u3042 abc \u3042\n".encode("cp932")
        lines = line * (40_000_000 // len(line))
        middle = len(line) * 1_000_000
        self.file("in/a.txt", lines[:middle] + b"X\xffY\n" + lines[middle:] + b"\x82")
        last = lines.count(b"\n") + 2
        for jobs in "1", "3":
            row, peak = self.run_measured("check", "--json", "--jobs", jobs)
            found = [(it["begin"], it["end"], it["line"], it["character"]) for it in row["places"]]
            self.assertEqual(found, [(middle + 1, middle + 2, 1_000_001, 2), (len(lines) + 4, len(lines) + 5, last, 1)])
            self.assertLess(peak, 64 << 10)
            row, peak = self.run_measured("search", "X.Y", "--json", "--jobs", jobs)
            self.assertEqual([(it["begin"], it["end"], it["line"], it["character"]) for it in row["matches"]], [(middle, middle + 3, 1_000_001, 1)])
            self.assertLess(peak, 64 << 10)
            row, peak = self.run_measured("mend", "--plan", str(self.folder / f"plan{jobs}"), "--damage", "ff=3f", "--json", "--jobs", jobs)
            self.assertEqual([(it["at"], it["line"], it["character"]) for it in row["edits"]], [(middle + 1, 1_000_001, 2)])
            self.assertLess(peak, 64 << 10)


if __name__ == "__main__":
    unittest.main()
