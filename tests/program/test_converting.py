"""Streams that are converted by the program as it was built: what is written and said by how a stream ends, each encoding beside
documents of the program, streams that fail, and memory."""
import collections
import functools
import hashlib
import os
import random
import re
import resource
import select
import signal
import subprocess
import tempfile
import threading
import unittest

from growths import on_one_processor, played, stopped
from program import PROGRAM, built, with_first_stack
from streams import ALL, DOCUMENTS, INDEXES, LONG, Mapped, all_indexes, asked, document, files_of, outcome, run, without_each
from base import EXACT, LIMIT, base64_of

TO = ("--from", "shift_jis", "--to", "utf-8")
BACK = ("--from", "utf-8", "--to", "shift_jis")

# What is said of no file, a mark, an error in each place, a code point that the target lacks, in each mode: words, input,
# status, what is written, and what is said.
ENDS = [
    ("an empty stream", TO, b"", 0, b"", ""),
    ("text", TO, b"a\x82\xa0", 0, "aあ".encode(), ""),
    ("bytes that are no text", TO, b"abc\x81\xff def", 1, b"abc", "gate: line 1, bytes 3 to 5: not Shift_JIS\n"),
    ("bytes that are no text, replaced", (*TO, "--mode", "replacement"), b"abc\x81\xff def", 0, "abc\ufffd def".encode(), ""),
    ("a character that is cut off", TO, b"ab\x82", 1, b"ab", "gate: line 1, bytes 2 to 3: not Shift_JIS\n"),
    ("the first of two errors", TO, b"\xa0\xff", 1, b"", "gate: line 1, bytes 0 to 1: not Shift_JIS\n"),
    ("an error behind each kind of line end", TO, b"a\r\nb\rc\nd\xff", 1, b"a\r\nb\rc\nd", "gate: line 4, bytes 8 to 9: not Shift_JIS\n"),
    ("an error in the encoding of a mark", TO, b"\xef\xbb\xbfa\xff", 1, b"a", "gate: line 1, bytes 4 to 5: not UTF-8\n"),
    ("a mark and nothing else", TO, b"\xef\xbb\xbf", 0, b"", ""),
    ("an error right behind a mark", TO, b"\xff\xfe\x00\xd8", 1, b"", "gate: line 1, bytes 2 to 4: not UTF-16LE\n"),
    ("a mark that is text", (*BACK, "--keep-mark"), b"\xef\xbb\xbfa", 1, b"", "gate: line 1, bytes 0 to 3: U+FEFF isn't in Shift_JIS\n"),
    ("a mark that isn't", BACK, b"\xef\xbb\xbfa", 0, b"a", ""),
    ("a mark that is cut off", BACK, b"\xef\xbb", 1, b"", "gate: line 1, bytes 0 to 2: not UTF-8\n"),
    ("a code point that is lacking", BACK, "x€y".encode(), 1, b"x", "gate: line 1, bytes 1 to 4: U+20AC isn't in Shift_JIS\n"),
    ("one behind others on its line", BACK, "a\nあ😀".encode(), 1, b"a\n\x82\xa0", "gate: line 2, bytes 5 to 9: U+1F600 isn't in Shift_JIS\n"),
    ("one as a reference", (*BACK, "--mode", "html"), "x€y".encode(), 0, b"x&#8364;y", ""),
    ("one in place of bytes that are no text", (*BACK, "--mode", "replacement"), b"x\xff", 1, b"x",
     "gate: line 1, bytes 1 to 2: U+FFFD isn't in Shift_JIS\n"),
    ("the same as a reference", (*BACK, "--mode", "html"), b"x\xff", 0, b"x&#65533;", ""),
    ("the end of ISO-2022-JP", ("--from", "utf-8", "--to", "iso-2022-jp"), "あa".encode(), 0, b"\x1b$B$\"\x1b(Ba", ""),
    ("no return to ASCII at a fault", ("--from", "utf-8", "--to", "iso-2022-jp"), "あ😀".encode(), 1, b"\x1b$B$\"",
     "gate: line 1, bytes 3 to 7: U+1F600 isn't in ISO-2022-JP\n"),
    ("a target without an encoder", ("--from", "utf-8", "--to", "replacement"), b"", 2, b"", "gate: replacement has no encoder\n"),
    ("a label of no encoding", ("--from", "latin9", "--to", "utf-8"), b"a", 2, b"", "gate: no encoding has the label latin9\n"),
    ("a source without its index file", ("--from", "koi8-r", "--to", "utf-8"), b"", 2, b"", "gate: an index file of KOI8-R is missing\n"),
    ("a target without its index file", ("--from", "utf-8", "--to", "ibm866"), b"", 2, b"", "gate: an index file of IBM866 is missing\n"),
    ("a file that isn't there", (*TO, "/no/such/file"), b"", 2, b"", "gate: cannot read /no/such/file\n"),
    ("a folder", (*TO, "/"), b"", 1, b"", "gate: read fault\n"),
    ("standard input by its name", (*TO, "-"), b"a", 0, b"a", ""),
]

# What each of them is converted to beside UTF-8.
TARGETS = ("Shift_JIS", "ISO-2022-JP", "gb18030", "EUC-KR", "Big5", "EUC-JP", "UTF-16BE", "windows-1252")
TARGET = {given: TARGETS[at % len(TARGETS)] for at, given in enumerate(ALL)}

def convert(words, content, **more):
    """What the program writes and says of a stream that it converts, and its status."""
    return run("convert", words, content, **more)


def before_line(text, line, character):
    """The text before a position."""
    starts = [0, *(it.end() for it in re.finditer("\r\n|\r|\n", text))]
    return text[: starts[line] + character]


@built
class Converting(unittest.TestCase):
    def test_how_a_stream_ends(self):
        for name, words, content, status, written, said in ENDS:
            with self.subTest(name):
                ran = convert((*INDEXES, *words), content)
                self.assertEqual(outcome(ran), (status, written, said))

    def test_a_named_file_is_read(self):
        with tempfile.NamedTemporaryFile() as file:
            file.write(b"\x82\xa0")
            file.flush()
            ran = convert((*INDEXES, *TO, file.name), b"no")
        self.assertEqual((ran.returncode, ran.stdout, ran.stderr), (0, "あ".encode(), b""))

    def test_no_file_of_another_encoding_is_read(self):
        for given in ALL:
            target = TARGET[given]
            with self.subTest(given), files_of(given, target) as folder:
                words = ("--indexes", str(folder), "--from", given, "--to", target)
                self.assertEqual(outcome(convert(words, b"")), (0, b"", ""))
                for name in without_each(folder):
                    wanted = [(2, b"", f"gate: an index file of {it} is missing\n") for it in (given, target)]
                    self.assertIn(outcome(convert(words, b"")), wanted, name)

    def test_the_exceptions_are_read_for_gb18030_and_gbk(self):
        for name in "gb18030", "GBK":
            for given, target in (name, "utf-8"), ("utf-8", name):
                with self.subTest((given, target)), files_of(name) as folder:
                    (folder / "gb18030-exceptions.txt").unlink()
                    (folder / "gb18030-exceptions.txt").mkdir()
                    ran = convert(("--indexes", str(folder), "--from", given, "--to", target), b"")
                    self.assertEqual(outcome(ran), (2, b"", "gate: cannot read gb18030-exceptions.txt\n"))

    def test_text_is_written_before_its_stream_ends(self):
        words = [PROGRAM, "convert", *INDEXES, *TO]
        with subprocess.Popen(words, stdin=subprocess.PIPE, stdout=subprocess.PIPE, bufsize=0) as program:
            program.stdin.write(b"\x82\xa0" * 30 + b"\x82")
            self.assertTrue(select.select([program.stdout], [], [], LIMIT)[0])
            self.assertEqual(program.stdout.read(200), "あ".encode() * 30)
            program.stdin.write(b"\xa0")
            self.assertTrue(select.select([program.stdout], [], [], LIMIT)[0])
            self.assertEqual(program.stdout.read(200), "あ".encode())
            program.stdin.close()
            self.assertEqual((program.stdout.read(), program.wait()), (b"", 0))


@built
class EachEncoding(unittest.TestCase):
    """Documents that look random, with faults around each cut, in all encodings: as the program's documents have them."""

    def compare(self, given, content, replies):
        opened, _, errors, text, html, _ = replies
        words = ("--indexes", all_indexes().name, "--from", given, "--to")
        whole = convert((*words, "utf-8", "--mode", "replacement"), content)
        self.assertEqual((whole.returncode, whole.stdout.decode(), whole.stderr), (0, text["text"], b""))
        ran = convert((*words, "utf-8"), content)
        if not errors["total"]:
            self.assertEqual((ran.returncode, ran.stdout, ran.stderr), (0, whole.stdout, b""))
        else:
            start, end, line, character, _, _ = errors["diagnostics"][0]
            said = f"gate: line {line + 1}, bytes {start} to {end}: not {opened['encoding']}\n"
            self.assertEqual((ran.returncode, ran.stderr.decode()), (1, said))
            self.assertEqual(ran.stdout.decode(), before_line(text["text"], line, character))
        ran = convert((*words, TARGET[given], "--mode", "html"), content)
        self.assertEqual((ran.returncode, base64_of(ran.stdout), ran.stderr), (0, html["bytes"], b""))
        return errors["total"]

    def test_each_encoding_is_converted_as_documents_are(self):
        faults = 0
        for given in ALL:
            rng = random.Random(f"streams in {given}")
            for number in range(DOCUMENTS):
                content = document(rng, given)
                count = {"doc": "d"}
                commands = [{"op": "open", "doc": "d", "label": given, "bytes": base64_of(content)}, {"op": "stat", **count}]
                _, stat = asked(commands)
                end = {"from": 0, "to": stat["utf32"]}
                commands += [{"op": "diagnostics", **count, "from": 0, "max": 1, "unit": "utf-32"}, {"op": "text", **count, **end}]
                commands += [{"op": "encode", **count, **end, "label": TARGET[given], "mode": "html"}, {"op": "close", **count}]
                with self.subTest(f"document {number} in {given}"):
                    faults += self.compare(given, content, asked(commands))
        self.assertGreater(faults, DOCUMENTS * 20)


@built
class Failing(unittest.TestCase):
    """Streams that fail midway: all that was written is a front of what a whole stream is converted to."""

    CONTENT = b"a line of words \x82\xa0\x88\x9f\r\n" * 3000

    def test_a_read_that_fails(self):
        for count in 1, 4095, 4096, 4097, 8192, 10000:
            content = (b"a" + self.CONTENT)[:count]
            with self.subTest(count), Mapped(content).file as file:
                ran = subprocess.run([PROGRAM, "convert", *INDEXES, *TO], stdin=file, stdout=subprocess.PIPE, stderr=subprocess.PIPE)
                text = content.decode("shift_jis", errors="ignore").encode()
                self.assertEqual((ran.returncode, ran.stdout, ran.stderr), (1, text, b"gate: read fault\n"))

    def test_a_write_that_fails(self):
        whole = convert((*INDEXES, *TO), self.CONTENT).stdout
        for limit in 0, 1, 4096, 5000, 60000:
            def few(limit=limit):
                signal.signal(signal.SIGXFSZ, signal.SIG_IGN)
                resource.setrlimit(resource.RLIMIT_FSIZE, (limit, limit))
            with self.subTest(limit), tempfile.TemporaryFile() as out:
                ran = subprocess.run([PROGRAM, "convert", *INDEXES, *TO], input=self.CONTENT, stdout=out, stderr=subprocess.PIPE, preexec_fn=few)
                out.seek(0)
                self.assertEqual((ran.returncode, ran.stderr, out.read()), (1, b"gate: write fault\n", whole[:limit]))

    def test_a_pipe_that_is_closed_is_quiet(self):
        read, write = os.pipe()
        os.close(read)
        with open(write, "wb") as out:
            ran = subprocess.run([PROGRAM, "convert", *INDEXES, *TO], input=self.CONTENT, stdout=out, stderr=subprocess.PIPE)
        self.assertEqual((ran.returncode, ran.stderr), (1, b""))


# Streams of three parts whose memory runs out: in each mode, with damage and a code point that the target lacks behind two parts.
SCARCE = [
    (TO, b"words \x82\xa0\r\n" * 900),
    ((*TO, "--mode", "replacement"), b"words \x82\xa0\xff\r\n" * 900),
    (TO, b"words \x82\xa0\r\n" * 900 + b"\xff"),
    (BACK, "words あ\r\n".encode() * 800 + "€".encode()),
    ((*BACK, "--mode", "html"), "words あ€\r\n".encode() * 700),
    (("--from", "utf-8", "--to", "iso-2022-jp"), "words あ\r\n".encode() * 800),
    (("--from", "euc-kr", "--to", "utf-16le"), b"words\r\n" * 1200),
]


@stopped
@built
class Scarce(unittest.TestCase):
    """Allocations that fail, each in turn: what was written is a front of what is written with enough memory."""

    def test_each_allocation(self):
        self.addCleanup(on_one_processor())
        for words, content in SCARCE:
            words = ("convert", *INDEXES, *words)
            wanted = run(words[0], words[1:], content)
            ran, seen = played(words, content, 0)
            whole = wanted.stdout.decode(errors="surrogateescape")
            self.assertEqual(ran, (wanted.returncode, whole, wanted.stderr.decode()))
            lengths = collections.Counter()
            for number in range(1, len(seen) + 1):
                with self.subTest(words=words, number=number):
                    (status, written, said), _ = played(words, content, number)
                    if (status, written, said) != ran:
                        self.assertEqual((status, said), (1, "gate: out of memory\n"))
                        self.assertTrue(whole.startswith(written))
                        lengths[len(written)] += 1
            # (a few are made again in another way, or weren't needed)
            self.assertGreaterEqual(sum(lengths.values()), len(seen) - 3)
            self.assertGreaterEqual(len(lengths), 3)


@built
class Memory(unittest.TestCase):
    @EXACT
    def test_a_long_stream_takes_little(self):
        line, text = b"ordinary words, \x82\xa0\x88\x9f\r\n" * 4000, "ordinary words, あ亜\r\n".encode() * 4000
        count, wanted, found = LONG // len(line) + 1, hashlib.sha256(), hashlib.sha256()

        def little():
            with_first_stack()
            resource.setrlimit(resource.RLIMIT_AS, (64 << 20, 64 << 20))

        words = [PROGRAM, "convert", *INDEXES, *TO]
        with subprocess.Popen(words, stdin=subprocess.PIPE, stdout=subprocess.PIPE, preexec_fn=little) as program:
            def feed():
                with program.stdin:
                    for _ in range(count):
                        program.stdin.write(line)
            writer = threading.Thread(target=feed)
            writer.start()
            for part in iter(functools.partial(program.stdout.read, 1 << 20), b""):
                found.update(part)
            writer.join()
        for _ in range(count):
            wanted.update(text)
        self.assertEqual((program.returncode, found.hexdigest()), (0, wanted.hexdigest()))


if __name__ == "__main__":
    unittest.main()
