"""Sixteen live clients of the program as it was built: what they see of shared documents, and what a bad one costs others."""
import base64
import collections
import contextlib
import random
import threading
import time
import unittest

from program import TOP, built
from base import LIMIT, base64_of, connect, free_port
from serving import PLACES, Serving, at_most_files, line, more_files, replayed, seconds_of, usual

# What documents that are edited by all are made of: characters, halves of characters, shifts and line ends.
FRAGMENTS = {
    "UTF-8": [b"\xc3\xa9", b"\xe2\x82", b"\xf0\x9f\x98\x80", b"words", b"\r\n"],
    "UTF-16LE": [b"\xe9\x00", b"\x3d\xd8", b"\x00\xde", b"w\0o\0", b"\r\0\n\0"],
    "Shift_JIS": [b"\x82\xa0", b"\x82", b"\xb1", b"words", b"\r\n"],
    "ISO-2022-JP": [b"\x1b$B$\"\x1b(B", b"\x1b$B", b"\x1b(J\\~\x1b(B", b"words", b"\r\n"],
    "windows-1252": [b"\x80", b"\x81", b"\xff", b"words", b"\r\n"],
}

# How often each client sends, and how many commands at once at most.
ROUNDS, BURST = 120, 4

# The document of a reply of 2 MB, how often a client asks for it, and by how many KiB the program's memory may grow for
# the one that doesn't read: by its one reply, with what a growing buffer and the allocator keep beside it.
LARGE, REPLIES, ONE_REPLY = 1_500_000, 200, 4 * 2048

# The seconds that a neighbour waits for a short reply, 95 of 100 times; or else MUCH times what a client of another server
# waits meanwhile, which has nobody else. On an idle machine it is a thousandth of that.
PATIENCE, MUCH = 0.25, 5

# The most bytes of a line.
LONGEST = 4_194_304

# Connections one after another, how many until memory has its size, and the KiB that the rest may add.
MANY, WARM, GROWTH = 10_000, 1_000, 64

# How many wait outside while 16 are served.
OUTSIDE = 1_000

RESETS = 300

KEPT = b"\xff\x82\xa0kept"


class Author(threading.Thread):
    """A client that edits documents together with others, and keeps what it sent with the replies."""

    def __init__(self, number, client, start):
        super().__init__(daemon=True)
        self.rng, self.client, self.start_line = random.Random(number), client, start
        self.known = dict.fromkeys(FRAGMENTS, 0)
        self.talk, self.fault = [], None

    def run(self):
        try:
            self.start_line.wait(LIMIT)
            for _ in range(ROUNDS):
                self.burst([self.drawn() for _ in range(self.rng.randint(1, BURST))])
        except Exception as fault:  # (the test reports it)
            self.fault = fault

    def drawn(self):
        """A command on a document, an edit on what this client believes to be its revision."""
        doc = self.rng.choice(list(FRAGMENTS))
        if self.rng.random() < 0.3:
            return {"op": "source", "doc": doc, "at": 0, "len": 40}
        edit = {"doc": doc, "rev": self.known[doc]}
        self.known[doc] += 1
        if self.rng.random() < 0.5:
            at, count = self.rng.randint(0, 40), self.rng.choice([0, 0, 1, 2])
            return {"op": "splice", **edit, "at": at, "del": count, "bytes": base64_of(self.rng.choice(FRAGMENTS[doc]))}
        position = {"line": self.rng.randint(0, 3), "character": self.rng.randint(0, 8)}
        return {"op": "change", **edit, "range": {"start": position, "end": position}, "text": self.rng.choice("xyz")}

    def burst(self, commands):
        """Sends commands at once, now and then cut within a line, and takes their replies."""
        first = len(self.talk)
        data = b"".join(line(number=number, **command) for number, command in enumerate(commands, first))
        cut = self.rng.randint(0, len(data)) if self.rng.random() < 0.2 else len(data)
        self.client.send(data[:cut])
        if cut < len(data):
            time.sleep(0.0005)
            self.client.send(data[cut:])
        for command in commands:
            reply = self.client.reply()
            self.talk.append((command, reply))
            if "rev" in reply:
                self.known[command["doc"]] = reply["rev"]


class Shared:
    """What all clients of documents did: accepted edits by their revisions, and sources."""

    def __init__(self, talks):
        self.edits = {doc: collections.defaultdict(list) for doc in FRAGMENTS}
        self.sources = {doc: [] for doc in FRAGMENTS}
        self.stale = 0
        for command, reply in (it for talk in talks for it in talk):
            if command["op"] == "source":
                self.sources[command["doc"]].append((command, reply))
            elif "fault" in reply:
                self.stale += reply["fault"] == "Stale"
            else:
                self.edits[command["doc"]][reply["rev"]].append((command, reply))


def without_number(reply):
    return {key: value for key, value in reply.items() if key != "id"}


class Together:
    """Tests of clients at a place: a Unix socket or a port."""

    def place(self):
        raise NotImplementedError

    def server(self, *words, **how):
        return self.serve(self.place(), *words, **how)

    @contextlib.contextmanager
    def alone(self):
        """The one client of a server of its own."""
        with self.clients(self.serve(str(self.folder / "alone")), 1) as (client,):
            yield client

    def is_quick(self, took):
        """A client waits for no other: of each command what it took, and what it took one who is alone."""
        one, alone = zip(*took)
        self.assertLess(usual(one), max(PATIENCE, MUCH * usual(alone)))

    def opened(self, client, doc, label, content, rev=0):
        reply = client.ask("open", doc=doc, label=label, bytes=base64_of(content))
        self.assertEqual((reply.get("encoding"), reply.get("rev")), (label, rev), reply)

    def has(self, client, doc, content):
        """A document's bytes, by whoever asks."""
        self.assertEqual(client.ask("source", doc=doc, at=0, len=len(content)).get("bytes"), base64_of(content))
        self.assertEqual(client.ask("source", doc=doc, at=0, len=len(content) + 1), {"fault": "OutOfRange"})

    def test_sixteen_authors_of_five_documents(self):
        begin = {doc: b"".join(random.Random(doc).choice(parts) for _ in range(30)) for doc, parts in FRAGMENTS.items()}
        with self.clients(self.server()) as clients:
            for doc, content in begin.items():
                self.opened(clients[0], doc, doc, content)
            start = threading.Barrier(PLACES)
            authors = [Author(number, client, start) for number, client in enumerate(clients)]
            for author in authors:
                author.start()
            for author in authors:
                author.join(LIMIT)
                self.assertIsNone(author.fault)
                self.assertGreaterEqual(len(author.talk), ROUNDS)
                self.assertEqual([reply["id"] for _, reply in author.talk], list(range(len(author.talk))))
                self.revisions_never_fall(author.talk)
            shared = Shared(author.talk for author in authors)
            self.assertGreater(shared.stale, PLACES)
            for doc, content in begin.items():
                with self.subTest(doc):
                    last = clients[-1].ask("source", doc=doc, at=0, len=0)["rev"]
                    self.assertEqual({rev: len(them) for rev, them in shared.edits[doc].items()}, dict.fromkeys(range(1, last + 1), 1))
                    self.assertGreater(last, PLACES)
                    self.plays_again(doc, content, [it for rev in range(1, last + 1) for it in shared.edits[doc][rev]], shared.sources[doc])

    def revisions_never_fall(self, talk):
        """Whoever has seen a revision of a document sees none before it later."""
        seen = dict.fromkeys(FRAGMENTS, 0)
        for command, reply in talk:
            if "rev" in reply:
                self.assertGreaterEqual(reply["rev"], seen[command["doc"]])
                seen[command["doc"]] = reply["rev"]

    def plays_again(self, doc, content, edits, sources):
        """One client of the program over its standard streams that makes these edits in this order has the same replies,
        and between them the sources that anyone got."""
        opening = {"op": "open", "doc": doc, "label": doc, "bytes": base64_of(content)}
        rows = [(opening, {"bom": 0, "encoding": doc, "rev": 0})]
        for rev in range(len(edits) + 1):
            rows += edits[rev - 1 : rev] if rev else []
            rows += [it for it in sources if it[1]["rev"] == rev]
        self.assertEqual(len(rows), 1 + len(edits) + len(sources), "a source of a revision that no edit made")
        for (command, reply), again in zip(rows, replayed([command for command, _ in rows])):
            self.assertEqual((command, without_number(reply)), (command, without_number(again)))

    def test_the_sessions_of_two_clients(self):
        """Each line of an example begins with its client's number; commands and replies alternate."""
        for example in ("two-clients.txt", "what-came-since.txt"):
            lines = [it.split(" ", 1) for it in (TOP / "examples" / example).read_text(encoding="utf-8").splitlines()]
            with self.subTest(example), self.clients(self.server(), 2) as clients:
                for (number, command), (same, reply) in zip(lines[::2], lines[1::2]):
                    self.assertEqual(number, same)
                    client = clients[int(number) - 1]
                    client.send(command.encode() + b"\n")
                    self.assertEqual(client.replies.readline().decode(), reply + "\n")

    def test_a_document_of_one_client_is_there_for_another(self):
        with self.clients(self.server(), 2) as (one, other):
            self.opened(one, "d", "Shift_JIS", KEPT)
            self.assertEqual(other.ask("open", doc="d", label="utf-8", bytes=""), {"fault": "NameTaken"})
            self.has(other, "d", KEPT)
            self.assertEqual(other.ask("splice", doc="d", rev=0, at=0, bytes="", **{"del": 1})["rev"], 1)
            self.assertEqual(one.ask("splice", doc="d", rev=0, at=0, bytes="", **{"del": 1}), {"fault": "Stale", "rev": 1})
            self.has(one, "d", KEPT[1:])
            one.close()
            self.has(other, "d", KEPT[1:])
            self.assertEqual(other.ask("close", doc="d"), {"rev": 1})

    def test_a_slow_reader_of_large_replies(self):
        server = self.server()
        with self.clients(server, 2) as (slow, neighbour):
            content = bytes(range(256)) * (LARGE // 256)
            encoded = base64.b64encode(content)
            self.opened(slow, "large", "windows-1252", content)
            self.has(neighbour, "large", content)
            before = server.resident()
            slow.send(b"".join(line("source", number, doc="large", at=0, len=len(content)) for number in range(REPLIES)))
            with self.alone() as alone:
                self.is_quick(seconds_of([neighbour, alone], 300, op="stat", doc="large"))
            self.assertLess(server.resident() - before, ONE_REPLY)
            for number in range(REPLIES):
                self.assertTrue(slow.replies.readline() == b'{"bytes":"%b","id":%d,"rev":0}\n' % (encoded, number), f"reply {number}")
            self.assertLess(server.resident() - before, ONE_REPLY)

    def test_clients_that_reset(self):
        """In mid-line, with hundreds of replies unread, and at once. The line that is begun would close the document."""
        server = self.server()
        with self.clients(server, 1) as (neighbour,):
            self.opened(neighbour, "d", "Shift_JIS", KEPT)
            for number in range(RESETS):
                peer = server.connect()
                if number % 3 == 0:
                    peer.send(line("close", doc="d")[:-1])
                elif number % 3 == 1:
                    peer.send(line("source", doc="d", at=0, len=len(KEPT)) * 500 + line("close", doc="d")[:-1])
                peer.reset()
            self.has(neighbour, "d", KEPT)
            self.assertEqual(neighbour.ask("stat", doc="d")["rev"], 0)
        with self.clients(server):
            pass

    def test_clients_that_close_in_mid_line(self):
        server = self.server()
        with self.clients(server, 1) as (neighbour,):
            self.opened(neighbour, "d", "Shift_JIS", KEPT)
            for _ in range(PLACES):
                with server.connect() as peer:
                    peer.send(line("stat", 1, doc="e") + line("close", doc="d")[:-1])
                    self.assertEqual(peer.ends(), b'{"fault":"NoDocument","id":1}\n')
            self.has(neighbour, "d", KEPT)

    def test_a_seventeenth_client_waits_until_one_leaves(self):
        server = self.server()
        with self.clients(server) as clients, server.connect() as outside, server.connect() as behind:
            self.opened(clients[0], "d", "Shift_JIS", KEPT)
            for one in outside, behind:
                one.send(line("stat", 7, doc="d"))
            self.assertTrue(outside.waits(0.2))
            clients[3].close()
            self.assertEqual(outside.reply()["id"], 7)
            self.assertTrue(behind.waits(0.1))
            clients[5].reset()
            self.assertEqual(behind.reply()["id"], 7)
            self.has(clients[0], "d", KEPT)

    def test_a_silent_one_and_one_that_sends_byte_by_byte_hold_up_nobody(self):
        with self.clients(self.server(), 3) as (silent, slow, neighbour):
            self.opened(neighbour, "d", "Shift_JIS", KEPT)
            silent.send(b'{"id":1,')
            took = []
            with self.alone() as alone:
                for byte in line("stat", 1, doc="d"):
                    slow.send(bytes([byte]))
                    took += seconds_of([neighbour, alone], 5, op="stat", doc="d")
            self.is_quick(took)
            self.assertEqual(slow.reply()["id"], 1)

    def test_the_longest_lines_are_begun_beside_others(self):
        with self.clients(self.server(), 3) as (one, other, neighbour):
            self.opened(neighbour, "d", "Shift_JIS", KEPT)
            command = line("stat", 1, doc="d")[:-1]
            for peer, length in (one, LONGEST), (other, LONGEST + 1):
                peer.send(command + b" " * (length - len(command)))
                self.assertEqual(neighbour.ask("stat", doc="d")["rev"], 0)
            for peer in one, other:
                peer.send(b"\n" + command + b"\n")
            self.assertEqual([one.reply()["id"], one.reply()["id"]], [1, 1])
            self.assertEqual([other.reply(), other.reply()["id"]], [{"fault": "LineTooLong"}, 1])

    def test_many_lines_at_once_and_then_the_end(self):
        with self.clients(self.server(), 2) as (one, neighbour):
            count = 20_000
            sender = threading.Thread(target=lambda: one.send(b"".join(line("stat", number, doc="d") for number in range(count))))
            sender.start()
            numbers = [one.reply()["id"] for _ in range(count)]
            sender.join()
            self.assertEqual(numbers, list(range(count)))
            self.assertEqual(one.ends(), b"")
            self.assertEqual(neighbour.ask("stat", doc="d"), {"fault": "NoDocument"})


@built
class AtASocket(Together, Serving):
    def place(self):
        return self.path

    def test_ten_thousand_clients_one_after_another(self):
        server = self.server()
        with self.clients(server, 1):
            for number in range(MANY):
                if number == WARM:
                    warm, descriptors = server.resident(), server.descriptors()
                with server.connect() as peer:
                    self.assertEqual(peer.ask("stat", doc="d"), {"fault": "NoDocument"})
            self.assertLess(server.resident() - warm, GROWTH)
            # (of the last clients it may not know yet that they have gone)
            end = time.monotonic() + LIMIT
            while server.descriptors() > descriptors + 1 and time.monotonic() < end:
                time.sleep(0.01)
            self.assertLessEqual(server.descriptors(), descriptors + 1)

    def outside(self, count):
        """Connections of clients that wait outside, each with a command sent, as many as the system lets wait."""
        waiting = []
        self.addCleanup(more_files(2 * count))
        for _ in range(count):
            try:
                peer = connect(self.path)
            except OSError:  # (no more may wait)
                break
            self.addCleanup(peer.close)
            peer.sendall(line("stat", 9, doc="d"))
            waiting.append(peer)
        return waiting

    def nobody_notices(self, server, clients, count):
        """While `count` wait outside, clients are answered, and the program rests where they do."""
        self.opened(clients[0], "d", "Shift_JIS", KEPT)
        waiting = self.outside(count)
        with self.alone() as alone:
            for client in clients:
                self.is_quick(seconds_of([client, alone], 50, op="stat", doc="d"))
        busy = server.busy()
        time.sleep(1)
        self.assertLess(server.busy() - busy, 0.2)
        clients[-1].close()
        self.assertTrue(waiting[0].recv(1000).endswith(b'"id":9,"lines":1,"rev":0,"utf16":6,"utf32":6,"utf8":10}\n'))
        self.has(clients[0], "d", KEPT)

    def test_a_thousand_wait_outside(self):
        server = self.server()
        with self.clients(server) as clients:
            self.nobody_notices(server, clients, OUTSIDE)

    def test_descriptors_run_out(self):
        inside = 5
        spare = self.server()
        with self.clients(spare, 1):
            few = spare.descriptors() - 1 + inside
        spare.kill()
        server = self.server(limits=at_most_files(few))
        with self.clients(server, inside) as clients:
            self.nobody_notices(server, clients, OUTSIDE)


@built
class AtAPort(Together, Serving):
    def place(self):
        return free_port()


if __name__ == "__main__":
    unittest.main()
