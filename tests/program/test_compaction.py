"""Records that are compacted, by `gate compact` or where they are resumed: the documents stay as they are, at their revisions,
and the record as it was wherever this ends before its time."""
import base64
import fcntl
import json
import os
import random
import re
import resource
import shutil
import stat
import subprocess
import time
import unittest

from program import PROGRAM, SMALL, with_first_stack
from base import LIMIT, base64_of
from recording import DISK, Kept, a_small_disk, first_line, lengthen, random_bytes
from serving import Serving, line

# The most bytes of a record that is resumed as it is, and how many times as long as compacted a longer one is at most that is too.
SHORT, TIMES = 1 << 20, 4
# How often the program is killed while it compacts; GATE_COMPACT_KILLS=200 is as often as that.
KILLS = int(os.environ.get("GATE_COMPACT_KILLS", "20"))
# The words of each document then, and the bytes of the record.
WORDS, LONG = 150_000, 60 << 20

# The bytes that a line has room for.
ROOM = 3_000_000
# By how many bytes of addresses each limit is greater than the one before, and how many there are at most.
STEP, LIMITS = 32 * 1024, 1000

MARK = b"\xef\xbb\xbf"
# Names of any UTF-8, up to 64 bytes.
NAMES = ["\0", "\n", '"\\ ', " d", "d ", "#", "part", "é", "\U0010ffff", "あ" * 21 + "x", "😀" * 16, "A" * 64]
# Documents: their names, labels, what becomes of a mark, bytes, and splices, each as where, how many go, and what comes.
DOCUMENTS = [
    ("d", "utf-8", "sniff", b"a\xff\xe3\x81b\r\n", [(0, 0, b"x"), (1, 1, b""), (0, 1, b"yz")]),
    ("nothing", "utf-8", "sniff", b"", []),
    ("nothing any more", "Shift_JIS", "sniff", b"\x82\xa0", [(0, 1, b""), (0, 1, b"")]),
    ("a mark", "shift_jis", "sniff", MARK + b"a\x82\xa0", [(3, 1, b"A")]),
    ("a mark that is kept", "shift_jis", "keep", MARK + b"a\x82\xa0", [(3, 1, b"A")]),
    ("a mark that came", "utf-16le", "sniff", b"A\0", [(0, 0, b"\xfe\xff")]),
    ("a mark that went", "windows-1252", "sniff", b"\xff\xfeA\0", [(0, 2, b"")]),
    ("another label", "\tSHIFT_jis ", "sniff", b"\x82\xa0", []),
    ("escapes", "iso-2022-jp", "sniff", b'\x1b$B$"\x1b(B', [(3, 0, b'$"'), (0, 3, b"")]),
    ("large", "utf-8", "sniff", random_bytes(0, 4 << 20), [(1 << 21, 5, b"here"), (0, 0, b"")]),
    *((name, "utf-8", "keep", name.encode(), [(0, 0, b"!")]) for name in NAMES),
]


def lines_of(name, label, bom, content, splices):
    """The lines that open a document, by as many parts as it takes, and then edit it."""
    put = [(at, 0, content[at : at + ROOM]) for at in range(ROOM, len(content), ROOM)] + splices
    lines = [line("open", doc=name, label=label, bom=bom, bytes=base64_of(content[:ROOM]))]
    lines += [line("splice", doc=name, rev=rev, at=at, bytes=base64_of(new), **{"del": count}) for rev, (at, count, new) in enumerate(put)]
    return b"".join(lines)


def head_of(content):
    """The documents of a record that is compacted, by their names: encoding, what becomes of a mark, revision and bytes. There
    is nothing else in it but its first line."""
    found, parts = {}, b""
    first, *lines = content.decode().encode().splitlines()
    assert re.fullmatch(rb"# gate record 1 indexes [0-9a-f]{64} exceptions [0-9a-f]{64} labels [0-9a-f]{64}", first), first
    for word, *rest in (it.split(b" ") for it in lines):
        if word == b"part":
            parts += base64.b64decode(rest[0], validate=True)
        else:
            name, encoding, bom, rev = rest
            found[base64.b64decode(name, validate=True).decode()] = (word, encoding.decode(), bom.decode(), int(rev), parts)
            parts = b""
    assert not parts and {it[0] for it in found.values()} <= {b"adopt"}, "a part that no document has"
    return {name: it[1:] for name, it in found.items()}


def compacts():
    """Whether the program compacts records."""
    if not os.access(PROGRAM, os.X_OK):
        return False
    return subprocess.run([PROGRAM, "compact", "--help"], stdout=subprocess.DEVNULL, stderr=subprocess.DEVNULL).returncode == 0


compacting = unittest.skipUnless(compacts(), f"{PROGRAM} isn't there, or compacts no record")


class Compacted(Kept):
    """Tests of a record and what it is compacted to."""

    def compact(self, status=0, name=None, error="", words=(), indexes=SMALL[2], **how):
        """Compacts the record, on the stack that the program has at its start, which ends with this status and text. Returns
        the record's bytes then."""
        how.setdefault("preexec_fn", with_first_stack)
        command = [PROGRAM, "compact", "--indexes", str(indexes), *words, str(name or self.record)]
        ran = subprocess.run(command, stdout=subprocess.PIPE, stderr=subprocess.PIPE, **how)
        self.assertEqual((ran.returncode, ran.stdout, ran.stderr.decode()), (status, b"", error))
        return self.record.read_bytes()

    def unchanged(self, **how):
        """It isn't compacted, and stays as it was, alone."""
        beside, content, found = sorted(os.listdir(self.record.parent)), self.record.read_bytes(), self.record.stat()
        self.compact(**how)
        now = self.record.stat()
        self.assertEqual((sorted(os.listdir(self.record.parent)), self.record.read_bytes()), (beside, content))
        self.assertEqual((now.st_ino, now.st_mode, now.st_mtime_ns), (found.st_ino, found.st_mode, found.st_mtime_ns))

    def answers(self, lines):
        """What the gateway answers to lines that has played the record."""
        asked = b"\nopen 15\n" + b"".join(b"bytes 15 %b\n" % base64.b64encode(it) for it in lines.splitlines(keepends=True))
        ran = subprocess.run([PROGRAM, "trace", *SMALL[1:]], input=self.record.read_bytes() + asked, stdout=subprocess.PIPE, check=True)
        return [json.loads(it[3:]) for it in ran.stdout.splitlines() if it.startswith(b"15 ")]

    def found(self):
        """What is known of each document that is open: its lengths, revision, encodings and bytes."""
        stats = self.answers(b"".join(line("stat", doc=it[0]) for it in DOCUMENTS))
        sources = self.answers(b"".join(line("source", doc=it[0], at=0, len=known["bytes"]) for it, known in zip(DOCUMENTS, stats)))
        return {it[0]: (known, base64.b64decode(source["bytes"])) for it, known, source in zip(DOCUMENTS, stats, sources)}


@compacting
class Compaction(Compacted):
    """`gate compact`."""

    def setUp(self):
        super().setUp()
        self.recorded("--record", line("open", doc="closed", label="utf-8", bytes="YQ==") + line("close", doc="closed"))
        self.recorded("--resume", line("open", doc="d", label="shift_jis", bytes="YQ==") + line("close", doc="d"))
        self.recorded("--resume", b"".join(lines_of(*it) for it in DOCUMENTS))

    def test_documents_are_as_they_were_at_their_revisions(self):
        before, length = self.found(), self.record.stat().st_size
        head = head_of(self.compact())
        self.assertEqual(self.found(), before)
        for name, _, bom, *_ in DOCUMENTS:
            known, content = before[name]
            self.assertEqual(head.pop(name), (known["given"], bom, known["rev"], content), name)
        self.assertEqual(head, {})
        self.assertLess(self.record.stat().st_size, 0.8 * length)

    def test_what_came_since_is_forgotten_for_revisions_before(self):
        self.compact()
        for name, (known, _) in self.found().items():
            rev = known["rev"]
            self.assertEqual(self.answers(line("since", doc=name, rev=rev)), [{"at": 0, "del": 0, "id": 0, "ins": 0, "rev": rev}])
            for before in range(rev):
                self.assertEqual(self.answers(line("since", doc=name, rev=before)), [{"fault": "Forgotten", "id": 0, "rev": rev}])

    def test_edits_go_on_at_the_revision_that_is_known(self):
        revs = {name: known["rev"] for name, (known, _) in self.found().items()}
        self.compact()
        lines = b"".join(line("splice", doc=name, rev=rev, at=0, bytes="eA==", **{"del": 0}) for name, rev in revs.items())
        self.assertEqual([json.loads(it)["rev"] for it in self.recorded("--resume", lines).splitlines()], [rev + 1 for rev in revs.values()])
        self.assertEqual([it["rev"] for it in self.answers(lines)], [rev + 1 for rev in revs.values()])
        self.assertEqual([it["fault"] for it in self.answers(lines)], ["Stale"] * len(revs))
        since = self.answers(b"".join(line("since", doc=name, rev=rev) for name, rev in revs.items()))
        self.assertEqual([(it["at"], it["del"], it["ins"]) for it in since], [(0, 0, 1)] * len(revs))
        # (what was compacted, and edited since, is compacted again)
        before = self.found()
        self.compact()
        self.assertEqual(self.found(), before)

    def test_it_is_its_user_s_alone_and_the_same_each_time(self):
        self.record.chmod(0o644)
        first = self.compact()
        self.assertEqual(stat.S_IMODE(self.record.stat().st_mode), 0o600)
        self.assertEqual((self.compact(), os.listdir(self.folder)), (first, ["record"]))

    def test_playing_it_prints_nothing(self):
        ran = subprocess.run([PROGRAM, "trace", *SMALL[1:]], input=self.compact(), stdout=subprocess.PIPE, check=True)
        self.assertEqual(ran.stdout, b"")

    def test_it_keeps_its_owner(self):
        if os.geteuid():
            self.skipTest("this user can't give a file away")
        os.chown(self.record, 1234, 5678)
        self.compact()
        self.assertEqual((self.record.stat().st_uid, self.record.stat().st_gid), (1234, 5678))

    def test_a_label_of_a_file(self):
        labels = self.folder.parent / f"{self.folder.name}.json"
        labels.write_text('[{"encodings":[{"name":"Shift_JIS","labels":["sjis"]}]}]', encoding="utf-8")
        self.addCleanup(labels.unlink)
        self.record.unlink()
        self.recorded("--record", line("open", doc="d", label="sjis", bytes="gqA="), "--labels", str(labels))
        self.assertEqual(head_of(self.compact(words=("--labels", str(labels)))), {"d": ("Shift_JIS", "sniff", 0, b"\x82\xa0")})
        # (a head has names, and no labels)
        self.assertEqual(self.answers(line("text", doc="d", to=1, **{"from": 0}))[0]["text"], "あ")


@compacting
class Records(Compacted):
    """Which files are compacted, and where they are."""

    def setUp(self):
        super().setUp()
        self.recorded("--record", lines_of(*DOCUMENTS[0]))

    def test_a_last_line_that_is_torn_is_dropped(self):
        whole = self.record.read_bytes()
        compacted = {}
        for cut in range(len(first_line()), len(whole) + 1):
            end = whole[:cut].rfind(b"\n") + 1
            self.record.write_bytes(whole[:cut])
            if cut == end:
                compacted[end] = self.compact()
            elif cut % 7 == 0:
                self.assertEqual(self.compact(), compacted[end])
        self.assertEqual(len(set(compacted.values())), 1 + whole.count(b"bytes"))

    def test_a_connection_that_is_open_is_closed_and_its_line_dropped(self):
        wanted = self.compact()
        self.record.write_bytes(wanted + b"open 3\nbytes 3 %b\n" % base64.b64encode(b'{"id":1,"op":"close","doc":"d"}'))
        self.assertEqual(self.compact(), wanted)
        self.recorded("--resume", b"")
        self.assertEqual(self.record.read_bytes(), wanted + b"open 0\nclose 0\n")

    def test_a_record_of_nothing(self):
        for content in b"", first_line(), first_line() + b"open 0\nclose 0\n", first_line() + b"# nothing\n\n":
            self.record.write_bytes(content)
            self.assertEqual(self.compact(), first_line())

    def test_a_line_that_is_none_of_a_record(self):
        rows = [
            (b"open 0\n\n# no event\nopen\n", 5), (b"\xff\n", 2), (b"part YQ==\npart\n", 3), (b"open 0\npart YQ==\n", 3),
            (b"adopt ZA== UTF-8 sniff -1\n", 2), (b"adopt ZA== Big5 sniff 0\nadopt ZQ== none sniff 0\n", 3),
        ]
        for lines, number in rows:
            self.record.write_bytes(first_line() + lines)
            self.unchanged(status=2, error=f"gate: record line {number}\n")

    def test_a_file_that_cannot_be_had(self):
        for name in self.folder / "none", self.folder, self.record / "none", "/dev/null":
            self.unchanged(name=name, status=2, error=f"gate: cannot record in {name}\n")

    def test_a_folder_of_index_files_that_is_none(self):
        for name in self.folder / "none", self.record:
            self.unchanged(indexes=name, status=2, error=f"gate: cannot read {name}\n")

    def test_words_that_are_none(self):
        for words in (), ("a", "b"), ("a", "--record", "b"), ("a", "--sync"):
            ran = subprocess.run([PROGRAM, "compact", *SMALL[1:], *words], stdout=subprocess.PIPE, stderr=subprocess.PIPE)
            self.assertEqual((ran.returncode, ran.stderr[:7]), (2, b"error: "))

    def test_a_file_by_other_paths(self):
        content = self.record.read_bytes()
        wanted = self.compact()
        (self.folder / "link").symlink_to("record")
        (self.folder / "folder").symlink_to(".")
        for name in "record", "./record", "link", self.folder / "link", self.folder / "folder" / "record":
            self.record.write_bytes(content)
            self.assertEqual(self.compact(name=name, cwd=self.folder, words=()), wanted)
            self.assertEqual(sorted(os.listdir(self.folder)), ["folder", "link", "record"])
            self.assertTrue((self.folder / "link").is_symlink())

    def test_a_file_that_has_another_name(self):
        os.link(self.record, self.folder / "other")
        self.unchanged(status=2, error=f"gate: cannot record in {self.record}\n")
        (self.folder / "other").unlink()
        self.compact()

    def test_what_a_killed_one_left_is_replaced(self):
        beside = self.folder / "record.compacting"
        beside.write_bytes(first_line() + b"adopt\n" * 9)
        beside.chmod(0o644)
        self.compact()
        self.assertEqual((os.listdir(self.folder), stat.S_IMODE(self.record.stat().st_mode)), (["record"], 0o600))

    def test_what_is_not_left_by_a_killed_one_stays(self):
        beside = self.folder / "record.compacting"
        beside.write_bytes(b"my own")
        self.unchanged(status=2, error=f"gate: cannot record in {self.record}\n")
        beside.unlink()
        with open(beside, "wb") as file:
            fcntl.flock(file, fcntl.LOCK_EX)
            self.unchanged(status=2, error=f"gate: cannot record in {self.record}\n")
        beside.unlink()
        beside.mkdir()
        self.unchanged(status=2, error=f"gate: cannot record in {self.record}\n")
        beside.rmdir()
        other = self.folder / "other"
        other.write_bytes(b"other")
        beside.symlink_to("other")
        self.unchanged(status=2, error=f"gate: cannot record in {self.record}\n")
        self.assertEqual(other.read_bytes(), b"other")


@compacting
class Live(Serving):
    def test_a_record_in_which_another_gate_records(self):
        record = self.folder / "record"
        server = self.serve(self.path, "--resume", str(record))
        with self.clients(server, 1) as (client,):
            client.ask("open", doc="d", label="utf-8", bytes="YQ==")
            before = record.stat().st_ino, record.read_bytes()
            ran = subprocess.run([PROGRAM, "compact", *SMALL[1:], str(record)], stdout=subprocess.PIPE, stderr=subprocess.PIPE)
            self.assertEqual((ran.returncode, ran.stderr.decode()), (2, f"gate: another gate records in {record}\n"))
            self.assertEqual((record.stat().st_ino, record.read_bytes()), before)
            self.assertEqual(client.ask("stat", doc="d")["rev"], 0)

    def test_two_programs_begin_while_a_record_is_compacted(self):
        """One of them has it, or none; what that one acknowledges is there again."""
        record = self.folder / "record"
        for number in range(KILLS):
            lengthen(record, SHORT + 1)
            command = [PROGRAM, "compact", *SMALL[1:], str(record)]
            programs = [subprocess.Popen(command, stderr=subprocess.PIPE) for _ in range(2)]
            time.sleep(random.Random(number).random() * 0.01)
            edit = line("open", doc=f"{number}", label="utf-8", bytes="YQ==")
            command, pipes = [PROGRAM, *SMALL, "--resume", str(record)], {"stdin": subprocess.PIPE, "stdout": subprocess.PIPE, "stderr": subprocess.PIPE}
            resumed = [subprocess.Popen(command, **pipes) for _ in range(2)]
            said = [it.communicate(edit, timeout=LIMIT) for it in resumed]
            for it in [*programs, *resumed]:
                it.wait()
                it.stderr.close()
            acknowledged = [output for output, _ in said if output]
            self.assertLessEqual(len([it for it in acknowledged if b"rev" in it]), 1)
            asked = line("stat", doc=f"{number}") + line("close", doc=f"{number}")
            ran = subprocess.run(command, input=asked, stdout=subprocess.PIPE, check=True)
            found = json.loads(ran.stdout.splitlines()[0])
            self.assertEqual("rev" in found, bool(acknowledged), (said, found))


@compacting
class Refused(Compacted):
    """There is no disk or no memory for it."""

    def setUp(self):
        super().setUp()
        self.content = b"words, " * 15_000

    def test_a_disk_that_is_full(self):
        self.record = a_small_disk(self, self.folder) / "record"
        self.recorded("--record", lines_of("d", "utf-8", "sniff", self.content, []))
        self.unchanged(status=1, error="gate: write fault\n")

    def test_a_disk_that_is_full_where_it_is_resumed(self):
        self.record = a_small_disk(self, self.folder, 16 * DISK) / "record"
        self.recorded("--record", lines_of("d", "utf-8", "sniff", self.content * 6, []))
        lengthen(self.record, 15 * DISK)
        found = self.record.stat().st_ino
        for rev in range(3):
            edit = line("splice", doc="d", rev=rev, at=0, bytes="eA==", **{"del": 0})
            ran = subprocess.run([PROGRAM, *SMALL, "--resume", str(self.record)], input=edit, stdout=subprocess.PIPE, stderr=subprocess.PIPE)
            self.assertEqual((ran.returncode, ran.stderr.decode()), (0, f"gate: {self.record} is not compacted\n"))
            self.assertEqual((json.loads(ran.stdout)["rev"], self.record.stat().st_ino), (rev + 1, found))
            self.assertEqual(os.listdir(self.record.parent), ["record"])

    def test_memory_that_runs_out(self):
        self.recorded("--record", lines_of("d", "utf-8", "sniff", self.content, []))
        self.memory_runs_out()
        # (and as long as a head is read)
        head = self.record.read_bytes()
        self.memory_runs_out()
        self.assertEqual(self.record.read_bytes(), head)

    def memory_runs_out(self):
        """The record stays as it was under each limit up to one under which it is compacted."""
        content, ended = self.record.read_bytes(), set()
        for number in range(LIMITS):
            most = number * STEP
            ran = subprocess.run(
                [PROGRAM, "compact", *SMALL[1:], str(self.record)], stdout=subprocess.PIPE, stderr=subprocess.PIPE,
                preexec_fn=lambda: resource.setrlimit(resource.RLIMIT_AS, (most, most)),
            )
            if ran.returncode == 0:
                break
            self.assertEqual((self.record.read_bytes(), os.listdir(self.folder)), (content, ["record"]))
            ended.add((ran.returncode, ran.stderr.decode(errors="replace")))
        self.assertIn((1, "gate: out of memory\n"), ended)
        self.assertEqual(head_of(self.record.read_bytes())["d"][3], self.content)


@compacting
class Killed(Compacted):
    """It is killed at any moment."""

    def kills(self, *words):
        """Kills the program with these words at random moments of its life; the record is then what it was, or what it is
        compacted to."""
        self.recorded("--record", b"".join(lines_of(str(number), "utf-8", "sniff", b"words, " * WORDS, []) for number in range(6)))
        lengthen(self.record, LONG)
        old, beside, kept = self.folder.parent / f"{self.folder.name}.old", self.folder / "record.compacting", self.folder / "record.uncompacted"
        self.addCleanup(old.unlink)
        shutil.copyfile(self.record, old)
        begun = time.monotonic()
        wanted, took = self.compact(), time.monotonic() - begun
        rng, seen = random.Random(3), {"as it was": 0, "compacted": 0, "begun": 0}
        for number in range(KILLS):
            shutil.copyfile(old, self.record)
            if number % 3:
                beside.unlink(missing_ok=True)
            program = subprocess.Popen([PROGRAM, *words, str(self.record)], stdin=subprocess.PIPE, stdout=subprocess.DEVNULL, stderr=subprocess.DEVNULL)
            if number % 3:
                # (just when it writes: on a busy machine that may be over between two looks)
                while not (beside.exists() or kept.exists()) and program.poll() is None:
                    time.sleep(0.0002)
                time.sleep(rng.random() * 0.1 * took)
            else:
                time.sleep(rng.random() * 1.2 * took)
            program.kill()
            program.wait()
            program.stdin.close()
            now = self.record.read_bytes()
            is_old = now.startswith(first_line() + b"open ")
            self.assertTrue(now == old.read_bytes() if is_old else now in (wanted, wanted + b"open 0\n"))
            seen["as it was" if is_old else "compacted"] += 1
            seen["begun"] += beside.exists()
            kept.unlink(missing_ok=True)
        self.assertLessEqual(set(os.listdir(self.folder)), {"record", "record.compacting"})
        shutil.copyfile(old, self.record)
        self.assertEqual((self.compact(), os.listdir(self.folder)), (wanted, ["record"]))
        if "GATE_COMPACT_KILLS" in os.environ:
            print(f"{words[0]}, {KILLS} kills: {seen}", flush=True)

    def test_while_it_compacts(self):
        self.kills("compact", *SMALL[1:])

    def test_while_it_resumes(self):
        self.kills(*SMALL, "--resume")


@compacting
class Resumed(Compacted):
    """Which records are compacted where they are resumed."""

    def resumed(self, lines=b"", *words):
        """The replies to lines, and whether the record is another file now."""
        before = self.record.stat().st_ino
        return self.recorded("--resume", lines, *words), self.record.stat().st_ino != before

    def test_a_record_of_four_times_its_documents(self):
        self.recorded("--record", lines_of("d", "utf-8", "sniff", b"words, " * 40_000, []))
        content = self.record.read_bytes()
        wanted = self.compact()
        for length, is_compacted in (TIMES * len(wanted), False), (TIMES * len(wanted) + 1, True):
            self.record.write_bytes(content)
            lengthen(self.record, length)
            before = self.record.read_bytes()
            replies, is_another = self.resumed(line("stat", doc="d"))
            self.assertEqual((json.loads(replies)["rev"], is_another), (0, is_compacted))
            self.assertTrue(self.record.read_bytes().startswith((wanted if is_compacted else before) + b"open 0\n"))

    def test_a_short_record(self):
        for length, is_compacted in (SHORT, False), (SHORT + 1, True):
            self.record.write_bytes(b"")
            lengthen(self.record, length)
            self.assertEqual(self.resumed(), (b"", is_compacted))

    def test_the_record_from_before_is_kept(self):
        kept = self.folder / "record.uncompacted"
        self.recorded("--record", lines_of("d", "big5", "sniff", b"\xa4\x40", []))
        for number in range(3):
            lengthen(self.record, SHORT + 1)
            before = self.record.read_bytes()
            if number == 2:
                # (as a process leaves them that is killed between the two)
                kept.unlink()
                os.link(self.record, kept)
            self.assertEqual(self.resumed(), (b"", True))
            self.assertEqual((kept.read_bytes(), sorted(os.listdir(self.folder))), (before, ["record", "record.uncompacted"]))
        # (with an option they are taken without their index files, and without documents; what was kept has these)
        self.record.write_bytes(b"")
        self.recorded("--resume", lines_of("d", "big5", "sniff", b"\xa4\x40", []))
        lengthen(self.record, SHORT + 1)
        none = [PROGRAM, "stdio", "--indexes", str(self.folder / "none"), "--other-files", "--resume", str(self.record)]
        ran = subprocess.run(none, input=line("stat", doc="d"), stdout=subprocess.PIPE, check=True)
        self.assertEqual(json.loads(ran.stdout)["fault"], "NoDocument")
        kept.rename(self.record)
        self.assertEqual(json.loads(self.recorded("--resume", line("stat", doc="d")))["given"], "Big5")
        self.compact()
        # (a record that is compacted isn't played without them)
        ran = subprocess.run(none, stdin=subprocess.DEVNULL, stderr=subprocess.PIPE)
        self.assertEqual((ran.returncode, ran.stderr), (2, b"gate: record line 3\n"))

    def test_the_next_program_forgets_what_came_since(self):
        self.recorded("--record", lines_of(*DOCUMENTS[0]))
        lengthen(self.record, SHORT + 1)
        since = line("since", doc=DOCUMENTS[0][0], rev=0)
        for is_compacted in True, False:
            replies, is_another = self.resumed(since)
            self.assertEqual((is_another, json.loads(replies).get("fault")), (is_compacted, None if is_compacted else "Forgotten"))

    def test_what_a_trace_prints_of_it(self):
        """The replies that were given since it was compacted, except what came since a revision before."""
        name = DOCUMENTS[0][0]
        self.recorded("--record", lines_of(*DOCUMENTS[0]))
        lengthen(self.record, SHORT + 1)
        rev = self.answers(line("stat", doc=name))[0]["rev"]
        asked = [line("since", doc=name, rev=rev - 1), line("splice", doc=name, rev=rev, at=0, bytes="YQ==", **{"del": 1})]
        asked += [line(op, doc=name, **fields) for op, fields in (("since", {"rev": rev}), ("stat", {}), ("splice", {"rev": rev}))]
        replies, is_another = self.resumed(b"".join(asked))
        given, *later = map(json.loads, replies.splitlines())
        printed, *last = map(json.loads, self.played().splitlines())
        self.assertEqual((is_another, later), (True, last))
        self.assertEqual((given["rev"], printed), (rev, {"fault": "Forgotten", "id": given["id"], "rev": rev}))

    def test_what_cannot_be_kept_is_not_compacted(self):
        kept = self.folder / "record.uncompacted"
        for make, remove in (kept.mkdir, kept.rmdir), (lambda: kept.write_bytes(b"my own"), kept.unlink):
            make()
            self.record.write_bytes(b"")
            lengthen(self.record, SHORT + 1)
            self.assertEqual(self.resumed(), (b"", False))
            self.assertEqual(sorted(os.listdir(self.folder)), ["record", "record.uncompacted"])
            remove()

    def test_it_is_gone_on_with(self):
        """Documents that are edited for long, in a record that is compacted now and then."""
        rev, count, compacted = 0, 0, 0
        self.recorded("--record", line("open", doc="d", label="utf-8", bytes="YQ=="))
        while compacted < 3:
            lines, content = b"", b""
            for _ in range(40):
                content = random_bytes(rev, 5_000)
                lines += line("splice", doc="d", rev=rev, at=0, bytes=base64_of(content), **{"del": count or 1})
                rev, count = rev + 1, len(content)
            replies, is_another = self.resumed(lines, *["--sync"][: rev % 2])
            self.assertEqual(json.loads(replies.splitlines()[-1])["rev"], rev)
            compacted += is_another
            self.assertLess(self.record.stat().st_size, SHORT + 500_000)
            self.assertEqual(stat.S_IMODE(self.record.stat().st_mode), 0o600)
            [found] = self.answers(line("source", doc="d", at=0, len=count))
            self.assertEqual((found["rev"], base64.b64decode(found["bytes"])), (rev, content))

    def test_a_connection_that_was_open_when_it_was_written(self):
        self.record.write_bytes(first_line() + b"open 0\nopen 3\nbytes 3 %b\n" % base64.b64encode(b'{"id":'))
        lengthen(self.record, SHORT + 1)
        replies, is_another = self.resumed(line("stat", doc="d"))
        self.assertEqual((json.loads(replies)["fault"], is_another), ("NoDocument", True))
        self.assertTrue(self.record.read_bytes().startswith(first_line() + b"open 0\nbytes 0 "))


if __name__ == "__main__":
    unittest.main()
