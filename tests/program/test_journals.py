"""Which files the program takes as records. A file that isn't a record is unchanged. So is a record that was written with other
index files or labels, unless an option takes it. If a record is removed or changed while the program serves, the program ends."""
import contextlib
import hashlib
import os
import pathlib
import random
import re
import shutil
import struct
import subprocess
import unittest

from program import PROGRAM, SMALL, with_first_stack
from base import TOP, base64_of
from recording import Kept, random_bytes, recording
from serving import Serving, line

# How many random files are given as records; GATE_FILES=5000 sets another number.
FILES = int(os.environ.get("GATE_FILES", "60"))

OPEN = {"op": "open", "doc": "d", "label": "utf-8", "bytes": "YQ=="}
SPLICE = {"op": "splice", "doc": "d", "at": 0, "del": 0, "bytes": "Yg=="}
STAT = {"op": "stat", "doc": "d"}

EXCEPTIONS = "gb18030-exceptions.txt"

# What takes a record: resume it, begin one, compact it.
WAYS = "--resume", "--record", "compact"
# A record as version 0.4.0 and earlier ones wrote it.
OLD = b"open 0\nbytes 0 %b\nbytes 0 %b\n" % (
    base64_of(line(**OPEN)).encode(),
    base64_of(line(**SPLICE, rev=0)).encode(),
)
HEADER = rb"# gate record 1 indexes [0-9a-f]{64} exceptions [0-9a-f]{64} labels [0-9a-f]{64}\n"
# Files that aren't records.
FOREIGN = {
    "a line without a line feed": b'{"my":"config"}',
    "lines": b"one\ntwo\n",
    "a comment": b"# a comment\n",
    "a comment without a line feed": b"# a comment",
    "the front of the words": b"# gate rec",
    "the words in another case": b"# Gate record 1 \n",
    "a program": b"\x7fELF" + bytes(range(256)) * 20,
    "zeros": bytes(5000),
    "a line of many bytes": b"x" * 300_000,
    "an empty line before": b"\nopen 0\n",
    "an event without its space": b"open\n",
    "a trace that begins otherwise": b"bytes 0 YQ==\n",
}


class Files(Kept):
    """Files that are given to the program as records."""

    def run_with(self, way, *words, lines=b"", indexes=None):
        """The status and the messages of the program, which gets the record in this way."""
        folder = str(indexes or SMALL[2])
        asked = ["compact", "--indexes", folder] if way == "compact" else ["stdio", "--indexes", folder, way]
        first = [*asked, str(self.record), *words]
        ran = subprocess.run([PROGRAM, *first], input=lines, stdout=subprocess.PIPE, stderr=subprocess.PIPE, preexec_fn=with_first_stack)
        self.replies = ran.stdout
        return ran.returncode, ran.stderr.decode()

    def stays(self, way, status, error, *words, **how):
        """The program refuses the file. It and its folder are unchanged."""
        beside, content, found = sorted(os.listdir(self.folder)), self.record.read_bytes(), self.record.stat()
        self.assertEqual(self.run_with(way, *words, **how), (status, error))
        now = self.record.stat()
        self.assertEqual((sorted(os.listdir(self.folder)), self.record.read_bytes()), (beside, content))
        self.assertEqual((now.st_ino, now.st_mtime_ns), (found.st_ino, found.st_mtime_ns))

    def rev(self, *words, **how):
        """The revision of the document, or the fault, where the record is resumed."""
        self.assertEqual(self.run_with("--resume", *words, lines=line(**STAT), **how), (0, ""))
        found = re.search(rb'"rev":(\d+)|"fault":"(\w+)"', self.replies)
        return int(found[1]) if found[1] else found[2].decode()

    def folder_of(self, name, *left_out):
        """A folder of index files: the small ones without some."""
        folder = self.folder.parent / f"{self.folder.name}.{name}"
        shutil.copytree(SMALL[2], folder)
        self.addCleanup(shutil.rmtree, folder)
        for it in left_out:
            (folder / it).unlink()
        return folder


@recording
class Foreign(Files):
    """Files that aren't records."""

    def test_a_file_that_is_no_record_stays(self):
        for way in WAYS:
            for name, content in FOREIGN.items():
                with self.subTest(way=way, file=name):
                    self.record.write_bytes(content)
                    self.stays(way, 2, f"gate: {self.record} is not a record\n")

    def test_no_option_takes_it(self):
        for way in "--resume", "compact":
            for name, content in FOREIGN.items():
                with self.subTest(way=way, file=name):
                    self.record.write_bytes(content)
                    self.stays(way, 2, f"gate: {self.record} is not a record\n", "--old-record", "--other-files")

    def test_an_empty_file_becomes_a_record(self):
        for way in WAYS:
            self.record.write_bytes(b"")
            self.assertEqual(self.run_with(way), (0, ""))
            self.assertRegex(self.record.read_bytes(), b"^" + HEADER)

    def test_a_record_begins_with_its_files(self):
        self.recorded("--record", line(**OPEN))
        first, *events = self.record.read_bytes().splitlines(keepends=True)
        self.assertRegex(first, b"^" + HEADER + b"$")
        self.assertEqual(events[0], b"open 0\n")
        source = (TOP / "crates/index_loader/src/kind.rt").read_text(encoding="utf-8")
        names = list(dict.fromkeys(re.findall(r'"([\w-]+\.txt)"', source[source.index("INDEX_FILES") :])))
        sums = [self.sum_of(names), self.sum_of([EXCEPTIONS]), self.sum_of([])]
        self.assertEqual(first.decode().split()[5::2], sums)

    @staticmethod
    def sum_of(names):
        """The SHA-256 of the files of these names that exist."""
        there = [(name, (pathlib.Path(SMALL[2]) / name).read_bytes()) for name in names if (pathlib.Path(SMALL[2]) / name).exists()]
        message = (name.encode() + b"\0" + struct.pack(">Q", len(content)) + content for name, content in there)
        return hashlib.sha256(b"".join(message)).hexdigest()

    def test_a_comment_in_the_head_has_any_length(self):
        self.recorded("--record", b"")
        first = self.record.read_bytes().splitlines(keepends=True)[0]
        self.record.write_bytes(first + b"#" * 7_000_000 + b"\npart YQ==\nadopt ZA== UTF-8 sniff 7\n")
        self.assertEqual(self.rev(), 7)

    def test_a_first_line_that_was_torn_off(self):
        self.recorded("--record", b"")
        first = self.record.read_bytes().splitlines(keepends=True)[0]
        for cut in range(1, len(first)):
            self.record.write_bytes(first[:cut])
            if cut < len(b"# gate record "):
                self.stays("--resume", 2, f"gate: {self.record} is not a record\n")
            else:
                self.assertEqual((self.rev(), self.record.read_bytes()[: len(first)]), ("NoDocument", first))

    def test_another_version(self):
        self.record.write_bytes(b"# gate record 2 indexes\nopen 0\n")
        for way in WAYS:
            self.stays(way, 2, f"gate: {self.record} is a record of another version of gate\n")

    def test_files_at_random(self):
        rng = random.Random(91)
        for number in range(FILES):
            way, content = rng.choice(WAYS), self.random_file(rng)
            with self.subTest(number=number, way=way):
                self.record.write_bytes(content)
                self.stays(way, 2, f"gate: {self.record} is not a record\n", *rng.choice([(), ("--old-record",)] if way != "--record" else [()]))

    @staticmethod
    def random_file(rng):
        """The bytes of a file: any bytes, a text, a source of this repository, or an old record whose front is cut off."""
        kind = rng.randrange(4)
        if kind == 0:
            return b"\xff" + random_bytes(rng.random(), rng.randint(1, 5000))
        if kind == 1:
            return "".join(rng.choice("abc \n{}\"#,あ") for _ in range(rng.randint(1, 3000))).encode().replace(b"adopt ", b"") or b"x"
        if kind == 2:
            source = rng.choice(sorted((TOP / "docs").glob("*.md")) + sorted((TOP / "tests" / "program").glob("*.py")))
            content = source.read_bytes()
            return content[: rng.randint(1, len(content))]
        return OLD[rng.randint(1, 7) :]


@recording
class OtherFiles(Files):
    """Records that were written with other index files or labels."""

    def setUp(self):
        super().setUp()
        self.recorded("--record", line(**OPEN) + line(**SPLICE, rev=0))
        self.other = self.folder_of("other", "index-jis0208.txt")
        self.labels = self.folder.parent / f"{self.folder.name}.json"
        self.labels.write_text('[{"encodings":[{"name":"UTF-8","labels":["utf-8"]}]}]', encoding="utf-8")
        self.addCleanup(self.labels.unlink)

    def test_which_differ(self):
        exceptions = self.folder_of("exceptions", EXCEPTIONS)
        cases = [
            ("index files", {"indexes": self.other}, ()),
            ("exceptions", {"indexes": exceptions}, ()),
            ("exceptions and labels", {"indexes": exceptions}, ("--labels", str(self.labels))),
            ("labels", {}, ("--labels", str(self.labels))),
            ("index files and labels", {"indexes": self.other}, ("--labels", str(self.labels))),
            ("index files and exceptions", {"indexes": self.folder / "none"}, ()),
        ]
        for names, how, words in cases:
            for way in "--resume", "compact":
                if way == "compact" and not os.path.isdir(how.get("indexes", SMALL[2])):
                    continue
                with self.subTest(names=names, way=way):
                    self.stays(way, 2, f"gate: {self.record} was recorded with other {names}; --other-files takes it\n", *words, **how)

    def test_an_option_takes_it(self):
        old = self.record.read_bytes()
        self.assertEqual(self.rev("--other-files", indexes=self.other), 1)
        kept = self.folder / "record.uncompacted"
        self.assertEqual(kept.read_bytes(), old)
        # (now it is a record of these files)
        self.assertEqual(self.rev(indexes=self.other), 1)
        self.stays("--resume", 2, f"gate: {self.record} was recorded with other index files; --other-files takes it\n")
        kept.unlink()
        self.assertEqual(self.run_with("compact", "--other-files"), (0, ""))
        self.assertEqual((self.rev(), kept.exists()), (1, True))

    def test_the_option_leaves_a_record_of_these_files(self):
        for _ in range(2):
            self.assertEqual(self.rev("--other-files", "--old-record"), 1)
            self.assertEqual(os.listdir(self.folder), ["record"])

    def test_options_without_a_record(self):
        for word in "--other-files", "--old-record":
            for words in (word,), (word, "--record", str(self.folder / "new")):
                self.assertIn("error: ", self.ran(*words, status=2))


@recording
class Old(Files):
    """Records without a first line."""

    def test_an_option_takes_it(self):
        refused = f"gate: {self.record} has no first line of a record; --old-record takes one of gate 0.4.0 or earlier\n"
        for way in "--resume", "compact":
            self.record.write_bytes(OLD)
            self.stays(way, 2, refused)
            self.stays(way, 2, refused, "--other-files")
            self.assertEqual(self.run_with(way, "--old-record"), (0, ""))
            kept = self.folder / "record.uncompacted"
            self.assertEqual((self.rev(), kept.read_bytes()), (1, OLD))
            kept.unlink()

    def test_a_compacted_one(self):
        self.record.write_bytes(b"part YQ==\nadopt ZA== UTF-8 sniff 7\n")
        self.assertEqual((self.rev("--old-record"), self.rev()), (7, 7))

    def test_since_goes_on(self):
        self.record.write_bytes(OLD)
        self.assertEqual(self.run_with("--resume", "--old-record", lines=line("since", doc="d", rev=0)), (0, ""))
        self.assertIn(b'"ins":1', self.replies)

    def test_a_line_that_was_torn_off(self):
        for cut in range(len(OLD) - 30, len(OLD)):
            self.record.write_bytes(OLD[:cut])
            self.assertEqual(self.rev("--old-record"), 0)

    def test_what_follows_its_lines_is_no_line(self):
        for tail in b'{"my":"config"}', b"\0" * 500, b"x":
            self.record.write_bytes(OLD + tail)
            for way in "--resume", "compact":
                self.stays(way, 2, "gate: record line 4\n", "--old-record")


@recording
class Gone(Serving):
    """A record that is removed or changed while the program serves."""

    def ends(self, change):
        """A client edits, the record changes, and the next edit has no reply: the program ends with a write fault."""
        record = self.folder / "record"
        server = self.serve(self.path, "--resume", str(record))
        with server.connect() as client:
            client.ask(**OPEN)
            self.assertEqual(client.ask(**SPLICE, rev=0)["rev"], 1)
            change(record)
            client.send(line(**SPLICE, rev=1))
            with contextlib.suppress(ConnectionResetError):
                self.assertIsNone(client.reply())
        self.assertEqual(server.ended(), (1, "", "gate: write fault\n"))

    def test_it_was_removed(self):
        self.ends(lambda record: record.unlink())

    def test_it_was_moved(self):
        self.ends(lambda record: record.rename(record.with_name("moved")))

    def test_another_file_has_its_name(self):
        def exchange(record):
            shutil.copy(record, record.with_name("other"))
            record.with_name("other").rename(record)

        self.ends(exchange)

    def test_it_was_cut(self):
        for left in 0, 1, 2:
            with self.subTest(left=left):
                self.ends(lambda record: os.truncate(record, record.stat().st_size * left // 3 + left // 2))
                (self.folder / "record").unlink()

    def test_somebody_else_wrote_there(self):
        def append(record):
            with open(record, "ab") as file:
                file.write(b"# else\n")

        self.ends(append)

    def test_a_link_to_it_stays_one(self):
        record, link = self.folder / "file", self.folder / "link"
        link.symlink_to(record)
        server = self.serve(self.path, "--resume", str(link))
        with server.connect() as client:
            client.ask(**OPEN)
            self.assertEqual(client.ask(**SPLICE, rev=0)["rev"], 1)


if __name__ == "__main__":
    unittest.main()
