"""Events of sixteen connections that look random, cut anywhere in their lines, as a trace for the program as it was built.
Every reply is that of one session that has the lines in the order of their line feeds, and what `since` answers leads from a
document's bytes at the revision named to those now. The bytes of each revision are computed here."""
import base64
import collections
import json
import random
import subprocess
import unittest

from program import PROGRAM, SMALL, built, cut
from base import base64_of

CONNECTIONS = 16
EVENTS = 40_000

# How many there have to be at least: of events by what refuses them, of lines that are answered, and of replies by what
# they answer or by their fault.
LEAST = {
    **{"!BadNumber": 100, "!AlreadyOpen": 100, "!NotOpen": 100, "line": 1000},
    **{"open": 100, "close": 100, "splice": 100, "change": 100, "since": 100, "source": 100, "stat": 100},
    **{"Stale": 100, "NoDocument": 100, "NameTaken": 100, "NoIndex": 20, "BadJson": 100, "BadRequest": 100, "BadBase64": 20},
}

# What Python calls the encodings that documents come to be in. In Big5 only ASCII is put in.
CODECS = {"UTF-8": "utf-8", "UTF-16LE": "utf-16-le", "UTF-16BE": "utf-16-be", "Big5": "ascii"}

LABELS = ["utf-8", "utf-8", "utf-16le", "utf-16le", "big5", "big5", "koi8-r", "none"]
BYTES = ["", "YQ==", "YmM=", "4oI=", "77u/", "//4=", "YQ"]
TEXTS = ["", "x", "\ufeffx", "\xe9", "\u8a9e"]
# What an `open` may say of a byte order mark, and a `since` of a unit.
MARKS = [{}, {}, {"bom": "sniff"}, {"bom": "keep"}, {"bom": "keep"}, {"bom": None}]
UNITS = [{}, {"unit": "utf-16"}]
NO_COMMANDS = [b"\n", b"[]\r\n", b'{"id":1}\n', b'{"id":\n', b'{"id":1,"op":"\xff"}\n']


def line(rng, number):
    """A line with its line feed. Most are commands that can be accepted."""
    at, gone, rev = rng.randint(0, 2), rng.randint(0, 1), rng.randint(0, 3)
    data, start, end = rng.choice(BYTES), {"line": 0, "character": gone}, {"line": 0, "character": at}
    ways = [
        lambda: {"op": "open", "label": rng.choice(LABELS), "bytes": data, **rng.choice(MARKS)},
        lambda: {"op": "open", "label": rng.choice(LABELS), "bytes": data, **rng.choice(MARKS)},
        lambda: {"op": "close"},
        lambda: {"op": "errors", "from": 0, "max": at},
        lambda: {"op": "text", "from": 0, "to": at},
        lambda: {"op": "source", "at": 0, "len": at},
        lambda: {"op": "stat"},
        lambda: {"op": "since", "rev": rev, **rng.choice(UNITS)},
        lambda: {"op": "since", "rev": rev, **rng.choice(UNITS)},
        lambda: {"op": "change", "rev": rev, "range": {"start": start, "end": end}, "text": rng.choice(TEXTS)},
        lambda: {"op": "change", "rev": rev, "range": {"start": start, "end": end}, "text": rng.choice(TEXTS)},
        lambda: {"op": "splice", "rev": rev, "at": at, "del": gone, "bytes": data},
        lambda: {"op": "splice", "rev": rev, "at": at, "del": gone, "bytes": data},
    ]
    way = rng.randint(0, len(ways))
    if way == len(ways):
        return rng.choice(NO_COMMANDS)
    return json.dumps({"id": number, "doc": rng.choice("abc"), **ways[way]()}).encode() + b"\n"


class Client:
    """A client on a connection of its own: what it has begun, and what it has still to send."""

    def __init__(self):
        self.open, self.begun, self.unsent = False, b"", b""

    def switch(self, is_open):
        """Opens or closes the connection. What was begun and what was to be sent is dropped."""
        self.open, self.begun, self.unsent = is_open, b"", b""

    def sends(self, rng, number):
        """The next bytes that it sends, which may end anywhere in a line or hold several of them."""
        if not self.unsent or rng.randrange(4) == 0:
            self.unsent += line(rng, number)
        count = rng.randint(1, 160)
        data, self.unsent = self.unsent[:count], self.unsent[count:]
        return data

    def completes(self, data):
        """The lines that are complete with these bytes."""
        *lines, self.begun = (self.begun + data).split(b"\n")
        return [it + b"\n" for it in lines]


class Events:
    """Events that look random."""

    def __init__(self, seed):
        self.rng, self.clients = random.Random(seed), [Client() for _ in range(CONNECTIONS)]
        # The lines of the trace; of each line that is printed for it the connection, and the refusal if it is one; and the
        # lines of clients in the order of their line feeds.
        self.trace, self.printed, self.lines = [], [], []
        for number in range(EVENTS):
            self.draw(number)

    def draw(self, number):
        """One event, on a connection of any number up to one too many."""
        connection, kind = self.rng.randint(0, CONNECTIONS), self.rng.randrange(20)
        client = self.clients[connection] if connection < CONNECTIONS else None
        if kind == 0 or kind == 1 and self.rng.randrange(3) == 0:
            self.switch(connection, client, kind == 0)
        else:
            self.send(connection, client, number)

    def refuse(self, connection, event, fault):
        self.trace.append(event)
        self.printed.append((connection, f"!{fault}"))

    def switch(self, connection, client, is_open):
        event = f"{'open' if is_open else 'close'} {connection}"
        if client is None:
            self.refuse(connection, event, "BadNumber")
        elif client.open == is_open:
            self.refuse(connection, event, "AlreadyOpen" if is_open else "NotOpen")
        else:
            self.trace.append(event)
            client.switch(is_open)

    def send(self, connection, client, number):
        data = client.sends(self.rng, number) if client and client.open else line(self.rng, number)
        event = f"bytes {connection} {base64_of(data)}"
        if client is None or not client.open:
            self.refuse(connection, event, "NotOpen" if client else "BadNumber")
            return
        self.trace.append(event)
        for it in client.completes(data):
            self.lines.append(it)
            self.printed.append((connection, None))


def play_lines(word, lines):
    """What the program prints for these lines, line by line."""
    ran = subprocess.run([PROGRAM, word, *SMALL[1:]], input=lines, stdout=subprocess.PIPE, check=True)
    return ran.stdout.decode().splitlines()


@built
class Interleavings(unittest.TestCase):
    @classmethod
    def setUpClass(cls):
        cls.events = Events(1)
        cls.lines = cls.events.lines
        cls.replies = play_lines("stdio", b"".join(cls.lines))

    def test_replies_are_those_of_one_session(self):
        printed = play_lines("trace", "".join(f"{event}\n" for event in self.events.trace).encode())
        self.assertEqual(len(self.replies), len(self.lines))
        replies = iter(self.replies)
        wanted = [f"{connection} {refusal or next(replies)}" for connection, refusal in self.events.printed]
        for number, (found, it) in enumerate(zip(printed, wanted)):
            if found != it:
                self.fail(f"line {number} that is printed: {cut(found)}\ninstead of {cut(it)}")
        self.assertEqual(len(printed), len(wanted))

    def test_since_leads_to_the_bytes_now(self):
        versions, counts = {}, collections.Counter(refusal for _, refusal in self.events.printed if refusal)
        for sent, replied in zip(self.lines, self.replies):
            reply = json.loads(replied)
            counts.update(["line", reply["fault"] if "fault" in reply else json.loads(sent)["op"]])
            if "fault" not in reply:
                self.follow(versions, json.loads(sent), reply)
        for kind, count in LEAST.items():
            self.assertGreaterEqual(counts[kind], count, kind)

    def follow(self, versions, command, reply):
        """A command that is accepted: with the bytes of the documents that are open, revision by revision."""
        name, op = command["doc"], command["op"]
        if op == "open":
            versions[name] = [base64.b64decode(command["bytes"])]
        known = versions.pop(name) if op == "close" else versions[name]
        if op == "splice":
            known.append(splice_bytes(known[-1], command["at"], command["del"], base64.b64decode(command["bytes"])))
        elif op == "change":
            put = command["text"].encode(CODECS[reply["encoding"]])
            self.assertEqual(len(put), reply["ins"], command)
            known.append(splice_bytes(known[-1], reply["at"], reply["del"], put))
        elif op == "source":
            self.assertEqual(base64.b64decode(reply["bytes"]), known[-1][: command["len"]], command)
        elif op == "stat":
            self.assertEqual(reply["bytes"], len(known[-1]), command)
        elif op == "since":
            old, new, at = known[command["rev"]], known[-1], reply["at"]
            self.assertTrue(at + reply["del"] <= len(old) and at + reply["ins"] <= len(new), command)
            self.assertEqual(splice_bytes(old, at, reply["del"], new[at : at + reply["ins"]]), new, command)
        self.assertEqual(reply["rev"], len(known) - 1, command)


def splice_bytes(data, at, count, put):
    return data[:at] + put + data[at + count :]


if __name__ == "__main__":
    unittest.main()
