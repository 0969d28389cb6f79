"""Records, on the program as it was built: what is in them, and that nothing is lost that was acknowledged, and nothing made
twice, whenever a connection ends or the program is killed, and where the disk is full or memory runs out. How they are
compacted is in test_compaction.py."""
import base64
import concurrent.futures
import json
import os
import pathlib
import random
import resource
import shutil
import stat
import subprocess
import tempfile
import threading
import time
import unittest

from growths import stopped, with_failing_disk
from program import PROGRAM, SMALL, built
from recording import DISK, DOCUMENTS, Author, Authors, Gate, Kept, Recorder, a_small_disk, first_line, recording, with_a_small_file
from base import EXACT, LIMIT, base64_of, connect, free_port
from serving import Serving, line
from test_again import Relay
from gate import Fault, Gone

# How often the program is killed under load; GATE_KILLS=500 is as often as that. After `LIFE` kills it begins with a record
# that is new, since it plays the whole of it each time.
KILLS, LIFE = int(os.environ.get("GATE_KILLS", "8")), 25
# By how many bytes its record grows at most before it is killed, and the seconds that it lives where it is while it begins.
WORK, BEGINS = 200_000, 0.03
AUTHORS = 4
# The seconds for which authors edit whose connections are cut, and more than how many edits and cuts of each there are.
CUTTING, ENOUGH = float(os.environ.get("GATE_CUTTING", "2")), 10

# Of the test with little memory: how often the program is killed, the bytes of addresses that it has beyond those in which
# it begins, and how many more while it plays its record; the bytes of the documents with which a client fills them up, large
# ones and then smaller ones, the seconds for which they are full then, and how many of these documents there are, also where
# there is no limit.
HUNGRY_KILLS, ROOM, MORE = int(os.environ.get("GATE_HUNGRY_KILLS", "12")), 3 << 20, 1 << 20
HUNGRY, FULL, MOST_HUNGRY, FEW_HUNGRY = (1 << 16, 1 << 13, 1 << 9), 0.02, 50, 2

OPEN = {"op": "open", "doc": "d", "label": "utf-8", "bytes": "YQ=="}
SPLICE = {"op": "splice", "doc": "d", "at": 0, "del": 0, "bytes": "Yg=="}


@recording
class Words(Kept):
    """What is in a record, and how it is begun and gone on with."""

    def test_a_record_is_a_trace_that_prints_what_was_answered(self):
        lines = line(**OPEN) + line(**SPLICE, rev=0) + line("text", 7, doc="d", to=9, **{"from": 0}) + b"{}\n" + b" " * 5000 + b"\n"
        lines += line(**SPLICE, rev=0) + line("open", doc="e", label="utf-8", bytes=base64_of(bytes(200_000))) + b'{"id":'
        for sync in (), ("--sync",):
            replies = self.recorded("--record", lines, *sync)
            self.assertEqual(replies, self.ran(lines=lines))
            self.assertEqual(replies, self.played())
            self.assertEqual(stat.S_IMODE(self.record.stat().st_mode), 0o600)
            self.record.unlink()

    def test_documents_are_there_again_at_their_revisions(self):
        for resumed in range(3):
            replies = self.recorded("--resume", line(**SPLICE, rev=resumed - 1) if resumed else line(**OPEN))
            self.assertEqual(json.loads(replies)["rev"], resumed)
        self.assertEqual(json.loads(self.recorded("--resume", line("since", doc="d", rev=0)))["ins"], 2)
        self.recorded("--resume", line("close", doc="d"))
        self.assertEqual(json.loads(self.recorded("--resume", line("stat", doc="d")))["fault"], "NoDocument")

    def test_a_last_line_that_is_torn_is_dropped(self):
        self.recorded("--record", line(**OPEN) + line(**SPLICE, rev=0))
        whole = self.record.read_bytes()
        ends = [at + 1 for at, byte in enumerate(whole) if byte == 10]
        # (how its first line is torn off is in test_journals.py)
        for cut in sorted({*range(ends[0], len(whole), 9), *ends, *(it - 1 for it in ends[1:]), *(it + 1 for it in ends[:-1])}):
            self.record.write_bytes(whole[:cut])
            reply = json.loads(self.recorded("--resume", line("stat", doc="d")))
            events = whole[: max([0, *(it for it in ends if it <= cut)])]
            self.assertTrue(self.record.read_bytes().startswith(events))
            self.assertNotIn(b"\n\n", self.record.read_bytes())
            edits = events.count(b"bytes")
            self.assertEqual(reply.get("rev", reply.get("fault")), edits - 1 if edits else "NoDocument")

    def test_a_connection_that_was_open_is_closed(self):
        self.record.write_bytes(first_line() + b"open 0\nopen 3\nbytes 3 %b\n" % base64.b64encode(b'{"id":'))
        self.assertEqual(json.loads(self.recorded("--resume", line("stat", doc="d"))), {"fault": "NoDocument", "id": 0})
        self.assertEqual(sorted(self.record.read_bytes().splitlines()[4:6]), [b"close 0", b"close 3"])

    def test_a_record_that_is_there_is_not_begun_anew(self):
        self.recorded("--record", line(**OPEN))
        content = self.record.read_bytes()
        self.assertEqual(self.ran("--record", str(self.record), status=2), f"gate: {self.record} has a record; --resume goes on with it\n")
        self.assertEqual(self.record.read_bytes(), content)

    def test_a_line_that_is_no_event(self):
        for lines, number in (b"open 0\n\n# no event\nopen\n", 5), (b"bytes 0 x\n", 2), (b"open 0\nclose 0 \nopen", 3):
            content = first_line() + lines
            self.record.write_bytes(content)
            self.assertEqual(self.ran("--resume", str(self.record), status=2), f"gate: record line {number}\n")
            self.assertEqual(self.record.read_bytes(), content)

    def test_a_file_that_cannot_be_had(self):
        for word in "--record", "--resume":
            for name in self.record.parent, self.record / "none", "/dev/null":
                self.assertEqual(self.ran(word, str(name), status=2), f"gate: cannot record in {name}\n")

    @stopped
    def test_a_disk_that_fails_behind_the_file(self):
        """With --sync the line of an edit that isn't answered may be in the file: it has taken it, and the disk hasn't."""
        lines = [line(**OPEN), line(**SPLICE, rev=0), line(**SPLICE, rev=1)]
        words = [*SMALL, "--record", str(self.record), "--sync"]
        for answered in range(len(lines)):
            # (the first event opens the connection, and each command is a line of its own)
            status, replies, error = with_failing_disk(answered + 2, words, b"".join(lines))
            self.assertEqual((status, error), (1, "gate: write fault\n"))
            self.assertEqual([json.loads(it)["rev"] for it in replies.splitlines()], list(range(answered)))
            self.assertEqual(self.record.read_bytes().count(b"\nbytes "), answered + 1)
            self.assertEqual(json.loads(self.recorded("--resume", line("stat", doc="d")))["rev"], answered)
            self.record.unlink()

    def test_words_that_do_not_go_together(self):
        for words in ("--sync",), ("--record", "a", "--resume", "b"), ("--record",):
            self.assertIn("error: ", self.ran(*words, status=2))


@recording
class Live(Serving):
    """Records of live clients."""

    def test_a_second_program_on_the_same_record(self):
        record = self.folder / "record"
        server = self.serve(self.path, "--resume", str(record))
        with self.clients(server, 1) as (client,):
            client.ask(**OPEN)
            other = self.serve(self.path + ".2", "--resume", str(record))
            self.assertEqual(other.ended(), (2, "", f"gate: another gate records in {record}\n"))
            self.assertEqual(client.ask(**SPLICE, rev=0)["rev"], 1)

    def test_clients_of_a_server_that_comes_again(self):
        for place in self.path, free_port():
            record = self.folder / f"record of {type(place).__name__}"
            for rev in range(3):
                server = self.serve(place, "--resume", str(record), "--sync")
                with server.connect() as client, server.connect() as other:
                    if rev == 0:
                        client.ask(**OPEN)
                    # (what is begun, and not ended, is dropped with its connection)
                    other.send(b'{"id":1,"op":"close","doc":"d"}')
                    self.assertEqual(other.waits(0.05), True)
                    self.assertEqual(client.ask(**SPLICE, rev=rev), {"bom": 0, "encoding": "UTF-8", "rev": rev + 1})
                    server.kill()


class Recorded(unittest.TestCase):
    """Authors of documents whose server records what they do, and what they tell in the end."""

    def setUp(self):
        kept = tempfile.TemporaryDirectory()
        self.addCleanup(kept.cleanup)
        self.folder = pathlib.Path(kept.name)
        self.path = str(self.folder / "socket")

    def server(self, *words, **how):
        server = Recorder(self.path, self.folder / "record", *words, **how)
        self.addCleanup(server.kill)
        server.start()
        return server

    def opened(self, rng, labels):
        """The bytes of documents that are opened, in these encodings."""
        begin = {}
        with Gate.connect(path=self.path, patience=LIMIT) as gate:
            for label, codec, character in DOCUMENTS:
                if label in labels:
                    begin[label] = "".join(rng.choice([character, "words", "\n"]) for _ in range(30)).encode(codec)
                    gate.open(label, label, begin[label])
        return begin

    def authors(self, rng, labels, **how):
        """Documents of these encodings, by their bytes, and authors of them."""
        begin = self.opened(rng, labels)
        authors = Authors(self.path, AUTHORS, labels, **how)
        self.addCleanup(authors.stop)
        return begin, authors

    def nothing_is_lost(self, begin, told):
        """Each revision of a document is one edit that one author knows to be made, but for those that others edited before it
        was known, and all in their order lead from the bytes with which it was opened to those that the server has. No author
        knows of a later revision."""
        with Gate.connect(path=self.path, patience=LIMIT) as gate:
            for label, content in begin.items():
                found = gate.join(label)
                self.assertEqual([author.copies[label] for author in told], [(found.rev, found.bytes)] * AUTHORS)
                made, unsure = ([it for author in told for it in getattr(author, which) if it.name == label] for which in ("made", "unsure"))
                known = {it.rev: it for it in made}
                self.assertEqual((len(known), max(known, default=0) <= found.rev), (len(made), True), label)
                # (of a revision that may be one of several edits, each that fits is tried)
                contents = {content}
                for rev in range(1, found.rev + 1):
                    edits = [known[rev]] if rev in known else [it for it in unsure if it.rev == rev]
                    contents = {there for it in edits for there in map(it.made_in, contents) if there is not None}
                    self.assertTrue(contents, (label, rev, edits))
                self.assertIn(found.bytes, contents)
        return sum(len(author.made) for author in told)


@built
class CutOff(Recorded):
    """The program stays, and what ends again and again are the connections to it."""

    def relay(self, number, path):
        """A relay that cuts its author off at random commands, in front of them or behind them."""
        rng, relay = random.Random(number), Relay(f"{self.path}.{number}", path)
        self.addCleanup(relay.stop)

        def arm():
            self.cuts += 1
            relay.arm(rng.randint(2, 40), rng.random() < 0.5)

        relay.meanwhile = arm
        arm()
        return relay

    def author(self, relay, number, rest):
        with Gate.connect(path=relay.path, patience=LIMIT, again=LIMIT) as gate:
            author = Author(gate, number, [label for label, *_ in DOCUMENTS], changes=True)
            end = time.monotonic() + CUTTING
            # (a machine that has much else to do gets as far too, later)
            while time.monotonic() < end or self.has_done_little(author) and time.monotonic() < end + LIMIT / 2:
                author.step()
            rest.wait(LIMIT)
            return author.told()

    def has_done_little(self, author):
        """Whether an author has made few edits, or few connections were cut."""
        return len(author.made) <= ENOUGH or self.cuts <= ENOUGH * AUTHORS

    def test_nothing_is_lost_and_nothing_made_twice(self):
        program = subprocess.Popen([PROGRAM, "serve", *SMALL[1:], "--socket", self.path])
        self.addCleanup(program.wait)
        self.addCleanup(program.kill)
        connect(self.path).close()
        self.cuts, rest = 0, threading.Barrier(AUTHORS)
        begin = self.opened(random.Random(0), [label for label, *_ in DOCUMENTS])
        relays = [self.relay(number, self.path) for number in range(AUTHORS)]
        with concurrent.futures.ThreadPoolExecutor(AUTHORS) as pool:
            told = list(pool.map(self.author, relays, range(AUTHORS), [rest] * AUTHORS))
        self.assertGreater(self.nothing_is_lost(begin, told), ENOUGH * AUTHORS)
        self.assertGreater(self.cuts, ENOUGH * AUTHORS)


@recording
class Killed(Recorded):
    """The program is killed at any moment, while it serves and while it begins, and started again."""

    def life(self, seed, kills):
        """One record, through `kills` kills."""
        rng = random.Random(seed)
        server = self.server()
        begin, authors = self.authors(rng, [label for label, *_ in DOCUMENTS])
        for _ in range(kills):
            server.killed(*((0, rng.random() * BEGINS) if rng.random() < 0.2 else (rng.randint(1, WORK), rng.random() * 0.01)))
        told = authors.told()
        self.nothing_is_lost(begin, told)
        server.kill()
        server.record.unlink()
        return sum(len(it.made) for it in told), sum(it.met for it in told)

    def test_nothing_is_lost_and_nothing_made_twice(self):
        made = met = 0
        for first in range(0, KILLS, LIFE):
            more = self.life(first, min(LIFE, KILLS - first))
            made, met = made + more[0], met + more[1]
        self.assertGreater(made, 5 * KILLS)
        if "GATE_KILLS" in os.environ:
            print(f"{KILLS} kills: {made} edits, {met} met another's", flush=True)


@recording
class FullDisk(Recorded):
    """The record is on a disk that becomes full: the program ends, and what was acknowledged is in the record."""

    def fills(self, server):
        """Authors edit until the program ends; it is started again with its record on another disk."""
        begin, authors = self.authors(random.Random(0), ["utf-8", "utf-16le"])
        self.assertEqual(server.ended(), (1, "gate: write fault\n"))
        self.assertEqual(server.record.stat().st_size, DISK)
        # (the clients find it where the other was)
        other = Recorder(self.path, self.folder / "moved")
        shutil.copyfile(server.record, other.record)
        self.addCleanup(other.kill)
        other.start()
        time.sleep(0.2)
        told = authors.told()
        self.assertGreater(self.nothing_is_lost(begin, told), 100)

    def test_a_disk_that_is_full(self):
        server = Recorder(self.path, a_small_disk(self, self.folder) / "record")
        self.addCleanup(server.kill)
        server.start()
        self.fills(server)

    def test_a_file_that_may_have_no_more_bytes(self):
        server = self.server(limits=with_a_small_file)
        self.fills(server)

    def test_a_reply_is_not_sent_whose_line_is_not_recorded(self):
        record = self.folder / "record"
        lines = line(**OPEN) + b"".join(line(**SPLICE, rev=rev) for rev in range(9_999))
        pipes = {"input": lines, "stdout": subprocess.PIPE, "stderr": subprocess.PIPE}
        ran = subprocess.run([PROGRAM, *SMALL, "--record", str(record)], preexec_fn=with_a_small_file, **pipes)
        self.assertEqual((ran.returncode, ran.stderr), (1, b"gate: write fault\n"))
        replies = ran.stdout.splitlines()
        resumed = subprocess.run([PROGRAM, *SMALL, "--resume", str(record)], input=line("stat", doc="d"), stdout=subprocess.PIPE, check=True)
        self.assertEqual(json.loads(resumed.stdout)["rev"], len(replies) - 1)
        self.assertEqual([json.loads(it)["rev"] for it in replies], list(range(len(replies))))


class Hungry(threading.Thread):
    """A client that opens documents until there is no memory for one more, or as many as it opens at most, and closes them,
    again and again."""

    def __init__(self, path):
        super().__init__(daemon=True)
        self._gate, self._over = Gate.connect(path=path, patience=LIMIT, again=LIMIT), threading.Event()
        self.refused, self.most = 0, MOST_HUNGRY
        self.start()

    def run(self):
        while not self._over.is_set():
            opened = 0
            for size in HUNGRY:
                while opened < self.most and self.asked("open", opened, label="utf-8", bytes=b"word " * (size // 5)):
                    opened += 1
            time.sleep(FULL)
            for number in range(MOST_HUNGRY):
                self.asked("close", number)

    def asked(self, op, number, **fields):
        """Whether a command was answered; where its reply was lost, it may have been done."""
        try:
            self._gate.ask(op, doc=f"hungry {number}", **fields)
        except Gone:
            pass
        except Fault as fault:
            self.refused += fault.name == "OutOfMemory"
            return fault.name not in ("OutOfMemory", "TooManyDocuments")
        return True

    def rest(self):
        self._over.set()
        self.join()
        for number in range(MOST_HUNGRY):
            self.asked("close", number)
        self._gate.close()


@EXACT
@recording
class LittleMemory(Recorded):
    """The program may have few addresses, so that commands are refused for want of memory, and is killed and started again,
    with these few, or with some more, which playing takes, until it listens, or without a limit."""

    def setUp(self):
        super().setUp()
        self.most = self.least() + ROOM

    def least(self):
        """The least bytes of addresses, about, in which the program begins."""
        low, high = 0, 1 << 30
        while high - low > 1 << 16:
            middle = (low + high) // 2
            ran = subprocess.run([PROGRAM, *SMALL], preexec_fn=lambda: with_addresses(middle), stdin=subprocess.DEVNULL, stderr=subprocess.DEVNULL)
            low, high = (low, middle) if ran.returncode == 0 else (middle, high)
        return high

    def begun_again(self, server, more):
        """Starts it again with `more` extra addresses until it listens, or without a limit. Says whether it plays its record
        with these. Where it can't, it says so, and leaves the record as it was; then it is started without."""
        before = server.size()
        server.limits = None if more is None else lambda: with_addresses(self.most + more)
        self.hungry.most = FEW_HUNGRY if more is None else MOST_HUNGRY
        server.start()
        end = time.monotonic() + LIMIT
        while not server.listens() and server.process.poll() is None:
            self.assertLess(time.monotonic(), end)
            time.sleep(0.005)
        if server.process.poll() is None:
            if more:
                resource.prlimit(server.process.pid, resource.RLIMIT_AS, (self.most, self.most))
            return True
        self.assertEqual((server.ended(), server.size()), ((1, "gate: out of memory\n"), before))
        self.assertIsNotNone(more)
        self.begun_again(server, None)
        return False

    def something_is_refused(self):
        """Waits until there is no memory for something."""
        refused, end = self.hungry.refused, time.monotonic() + LIMIT
        while self.hungry.refused == refused:
            self.assertLess(time.monotonic(), end)
            time.sleep(0.005)

    def test_nothing_is_lost_and_nothing_made_twice(self):
        rng, begun = random.Random(0), {more: [] for more in (0, MORE, None)}
        server = self.server(limits=lambda: with_addresses(self.most))
        begin, authors = self.authors(rng, [label for label, *_ in DOCUMENTS])
        self.hungry = hungry = Hungry(self.path)
        for number in range(HUNGRY_KILLS):
            if number % 4 == 3:
                self.something_is_refused()
            server.kill_once_grown(rng.randint(1, WORK), rng.random() * 0.1)
            more = [None, 0, MORE, MORE][number % 4]
            begun[more].append(self.begun_again(server, more))
        hungry.rest()
        server.kill()
        self.begun_again(server, None)
        told = authors.told()
        made = self.nothing_is_lost(begin, told)
        server.kill()
        self.begun_again(server, MORE)
        self.nothing_is_lost(begin, told)
        refused = sum(it.refused for it in told)
        if "GATE_HUNGRY_KILLS" in os.environ:
            played = {more: f"{sum(them)} of {len(them)}" for more, them in begun.items()}
            print(f"{HUNGRY_KILLS} kills: {made} edits, {refused} and {hungry.refused} refused for want of memory, begun {played}", flush=True)
        self.assertGreater(made, 5 * HUNGRY_KILLS)
        self.assertGreater(refused + hungry.refused, 0)
        self.assertEqual(set(begun[MORE]), {True})


def with_addresses(most):
    """What a process does so that it has at most `most` bytes of addresses."""
    resource.setrlimit(resource.RLIMIT_CORE, (0, 0))
    resource.setrlimit(resource.RLIMIT_AS, (most, most))


if __name__ == "__main__":
    unittest.main()
