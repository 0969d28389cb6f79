"""Streams that are checked by the program as it was built: rows of what they have, each encoding beside documents of the program and
plain counts, streams that fail, and memory."""
import collections
import json
import random
import resource
import signal
import subprocess
import tempfile
import threading
import unittest

from growths import on_one_processor, played, stopped
from program import PROGRAM, built, with_first_stack
from streams import ALL, DOCUMENTS, INDEXES, LONG, PART, Mapped, all_indexes, asked, document, files_of, outcome, run, without_each
from base import EXACT, base64_of

FROM = ("--from", "shift_jis")

# Each row's name: words, the stream, and what its row has that isn't 0, with the encoding in force if it isn't Shift_JIS.
ROWS = [
    ("an empty stream", FROM, b"", {"lines": 1}),
    ("text", FROM, b"a\x82\xa0", {"bytes": 3, "characters": 2, "lines": 1}),
    ("each kind of line end", FROM, b"a\nb\r\nc\r\rd\r\n", {"bytes": 11, "characters": 11, "lf": 1, "crlf": 2, "cr": 2, "lines": 6}),
    ("a line end at the end", FROM, b"\r", {"bytes": 1, "characters": 1, "cr": 1, "lines": 2}),
    ("an LF before a CR", FROM, b"\n\r", {"bytes": 2, "characters": 2, "cr": 1, "lf": 1, "lines": 3}),
    ("two errors on two lines", FROM, b"abc\x81\xff d\r\n\x82\xa0\xff", {
        "bytes": 12, "characters": 10, "crlf": 1, "lines": 2, "errors": 2, "places": [[3, 5, 0, 3], [11, 12, 1, 1]]}),
    ("a character that is cut off", FROM, b"ab\x82", {"bytes": 3, "characters": 3, "lines": 1, "errors": 1, "places": [[2, 3, 0, 2]]}),
    ("an error at the start", FROM, b"\xffa", {"bytes": 2, "characters": 2, "lines": 1, "errors": 1, "places": [[0, 1, 0, 0]]}),
    ("a mark", FROM, b"\xef\xbb\xbfa", {"bom": 3, "bytes": 4, "characters": 1, "lines": 1, "encoding": "UTF-8"}),
    ("a mark and nothing else", FROM, b"\xfe\xff", {"bom": 2, "bytes": 2, "lines": 1, "encoding": "UTF-16BE"}),
    ("an error right behind a mark", FROM, b"\xff\xfe\x00\xd8", {
        "bom": 2, "bytes": 4, "characters": 1, "lines": 1, "errors": 1, "places": [[2, 4, 0, 0]], "encoding": "UTF-16LE"}),
    ("a mark that is text", (*FROM, "--keep-mark"), b"\xfe\xffa", {
        "bytes": 3, "characters": 3, "lines": 1, "errors": 2, "places": [[0, 1, 0, 0], [1, 2, 0, 1]]}),
    ("a mark that is cut off", ("--from", "utf-8"), b"\xef\xbb", {
        "bytes": 2, "characters": 1, "lines": 1, "errors": 1, "places": [[0, 2, 0, 0]], "encoding": "UTF-8"}),
    ("as many errors as are named", (*FROM, "--errors", "1"), b"\xff\xff\n\xff", {
        "bytes": 4, "characters": 4, "lf": 1, "lines": 2, "errors": 3, "places": [[0, 1, 0, 0]]}),
    ("no error named", (*FROM, "--errors", "0"), b"\xff", {"bytes": 1, "characters": 1, "lines": 1, "errors": 1}),
    ("ten errors where no number is given", FROM, b"\xff" * 12, {
        "bytes": 12, "characters": 12, "lines": 1, "errors": 12, "places": [[at, at + 1, 0, at] for at in range(10)]}),
]

# What isn't checked: words, the status, and what is said.
REFUSALS = [
    ("a label of no encoding", ("--from", "latin9"), 2, "gate: no encoding has the label latin9\n"),
    ("an encoding without its index file", ("--from", "koi8-r"), 2, "gate: an index file of KOI8-R is missing\n"),
    ("a file that isn't there", (*FROM, "/no/such/file"), 2, "gate: cannot read /no/such/file\n"),
]


def row(given):
    """A whole row by what isn't 0 in it."""
    names = ("bom", "bytes", "characters", "cr", "crlf", "encoding", "errors", "lf", "lines", "places")
    return {name: given.get(name, {"encoding": "Shift_JIS", "places": []}.get(name, 0)) for name in names}


def line(given):
    """A row as the program prints it."""
    return (json.dumps(given, separators=(",", ":")) + "\n").encode()


def check(words, content, **more):
    """What the program writes and says of a stream that it checks, and its status."""
    return run("check", words, content, **more)


@built
class Checking(unittest.TestCase):
    def test_what_a_stream_has(self):
        for name, words, content, wanted in ROWS:
            with self.subTest(name):
                ran = check((*INDEXES, *words), content)
                self.assertEqual((ran.returncode, ran.stdout, ran.stderr), (int("errors" in wanted), line(row(wanted)), b""))

    def test_what_is_refused(self):
        for name, words, status, said in REFUSALS:
            with self.subTest(name):
                ran = check((*INDEXES, *words), b"a")
                self.assertEqual((ran.returncode, ran.stdout, ran.stderr.decode()), (status, b"", said))

    def test_no_file_of_another_encoding_is_read(self):
        for given in ALL:
            with self.subTest(given), files_of(given) as folder:
                words = ("--indexes", str(folder), "--from", given)
                self.assertEqual(outcome(check(words, b"")), (0, line(row({"lines": 1, "encoding": given})), ""))
                for name in without_each(folder):
                    self.assertEqual(outcome(check(words, b"")), (2, b"", f"gate: an index file of {given} is missing\n"), name)

    def test_more_errors_than_are_named_are_a_mistake_in_the_words(self):
        self.assertEqual(check((*INDEXES, *FROM, "--errors", "10001"), b"").returncode, 2)
        self.assertEqual(check((*INDEXES, *FROM, "--errors", "10000"), b"").returncode, 0)

    def test_a_named_file_is_read(self):
        with tempfile.NamedTemporaryFile() as file:
            file.write(b"\x82\xa0")
            file.flush()
            ran = check((*INDEXES, *FROM, file.name), b"no")
        self.assertEqual((ran.returncode, ran.stdout, ran.stderr), (0, line(row({"bytes": 2, "characters": 1, "lines": 1})), b""))


@built
class EachEncoding(unittest.TestCase):
    """Documents that look random, with faults around each cut, in all encodings: as the program's documents have them."""

    def compare(self, given, content):
        """Checks a document, and returns how many of its errors lie on both sides of a cut."""
        doc = {"doc": "d"}
        commands = [{"op": "open", **doc, "label": given, "bytes": base64_of(content)}, {"op": "stat", **doc}]
        _, stat = asked(commands)
        commands += [{"op": "diagnostics", **doc, "from": 0, "max": 40, "unit": "utf-32"}]
        commands += [{"op": "text", **doc, "from": 0, "to": stat["utf32"]}]
        _, _, found, text = asked(commands)
        text, pairs = text["text"], text["text"].count("\r\n")
        wanted = {name: stat[name] for name in ("bom", "bytes", "encoding", "errors", "lines")}
        wanted.update(characters=len(text), lf=text.count("\n") - pairs, crlf=pairs, cr=text.count("\r") - pairs)
        wanted["places"] = [it[:4] for it in found["diagnostics"]]
        ran = check(("--indexes", all_indexes().name, "--from", given, "--errors", "40"), content)
        self.assertEqual((ran.returncode, ran.stdout, ran.stderr), (int(stat["errors"] > 0), line(row(wanted)), b""))
        return sum(it[0] // PART < (it[1] - 1) // PART for it in wanted["places"])

    def test_each_row_is_that_of_a_document(self):
        across = 0
        for given in ALL:
            rng = random.Random(f"rows in {given}")
            for number in range(DOCUMENTS):
                content = document(rng, given)
                with self.subTest(f"document {number} in {given}"):
                    across += self.compare(given, content)
        self.assertGreaterEqual(across, DOCUMENTS // 2)


@built
class Failing(unittest.TestCase):
    CONTENT = b"a line of words \x82\xa0\xff\r\n" * 3000

    def test_a_read_that_fails(self):
        for count in 1, 4095, 4096, 4097, 8192, 10000:
            content = (b"a" + self.CONTENT)[:count]
            with self.subTest(count), Mapped(content).file as file:
                ran = subprocess.run([PROGRAM, "check", *INDEXES, *FROM], stdin=file, stdout=subprocess.PIPE, stderr=subprocess.PIPE)
                self.assertEqual((ran.returncode, ran.stdout, ran.stderr), (1, check((*INDEXES, *FROM), content).stdout, b"gate: read fault\n"))

    def test_a_write_that_fails(self):
        def none():
            signal.signal(signal.SIGXFSZ, signal.SIG_IGN)
            resource.setrlimit(resource.RLIMIT_FSIZE, (0, 0))
        with tempfile.TemporaryFile() as out:
            ran = subprocess.run([PROGRAM, "check", *INDEXES, *FROM], input=b"a", stdout=out, stderr=subprocess.PIPE, preexec_fn=none)
        self.assertEqual((ran.returncode, ran.stderr), (1, b"gate: write fault\n"))


@stopped
@built
class Scarce(unittest.TestCase):
    def test_each_allocation_that_fails(self):
        self.addCleanup(on_one_processor())
        words, content = ("check", *INDEXES, *FROM, "--errors", "9"), b"words \x82\xa0\xff\r\n" * 900
        wanted = run(words[0], words[1:], content)
        ran, seen = played(words, content, 0)
        self.assertEqual(ran, (1, wanted.stdout.decode(), ""))
        # (a few are made again in another way, or weren't needed)
        found = collections.Counter(played(words, content, number)[0] for number in range(1, len(seen) + 1))
        self.assertLessEqual(found.keys(), {ran, (1, "", "gate: out of memory\n")})
        self.assertLessEqual(found[ran], 3)
        self.assertGreater(len(seen), 30)


@built
class Memory(unittest.TestCase):
    @EXACT
    def test_a_long_stream_takes_little(self):
        part = b"ordinary words, \x82\xa0\x88\x9f\r\n\xff" * 4000
        count = LONG // len(part) + 1

        def little():
            with_first_stack()
            resource.setrlimit(resource.RLIMIT_AS, (64 << 20, 64 << 20))

        words = [PROGRAM, "check", *INDEXES, *FROM, "--errors", "1"]
        with subprocess.Popen(words, stdin=subprocess.PIPE, stdout=subprocess.PIPE, preexec_fn=little) as program:
            def feed():
                with program.stdin:
                    for _ in range(count):
                        program.stdin.write(part)
            writer = threading.Thread(target=feed)
            writer.start()
            found = program.stdout.read()
            writer.join()
        lines = 4000 * count
        wanted = {"bytes": len(part) * count, "characters": 21 * lines, "crlf": lines, "lines": lines + 1, "errors": lines, "places": [[22, 23, 1, 0]]}
        self.assertEqual((program.wait(), found), (1, line(row(wanted))))


if __name__ == "__main__":
    unittest.main()
