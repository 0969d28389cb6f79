"""Traces, events of several connections, on the program as it was built."""
import subprocess
import unittest

from program import PROGRAM, SMALL, built, cut
from base import base64_of

WORDS = ["trace", *SMALL[1:]]

BAD_JSON = '{"fault":"BadJson"}'
BAD_ID = '{"fault":"BadRequest","field":"id"}'
NO_OBJECT = '{"fault":"BadRequest","field":""}'
TOO_LONG = '{"fault":"LineTooLong"}'


def brings(connection, text):
    """The trace line of an event that brings this text."""
    return f"bytes {connection} {base64_of(text.encode())}"


def asks(connection, line):
    """The same for a whole line."""
    return brings(connection, line + "\n")


def adopts(name, data, revision, encoding="UTF-8", bom="sniff", size=49152):
    """The lines of a head by which a document of these bytes is adopted, `size` bytes in a part."""
    text = base64_of(name.encode())
    parts = (data[at : at + size] for at in range(0, len(data), size))
    return [*(f"part {base64_of(part)}" for part in parts), f"adopt {text} {encoding} {bom} {revision}"]


# What each trace shows, its lines, and what is printed.
TRACES = [
    (
        "A splice on connection 2 is begun before one of connection 1 is complete, and complete behind it; closing ends what is begun",
        [
            "open 1",
            "open 2",
            "# open d, and the first half of a splice on each connection",
            asks(1, '{"id":1,"op":"open","doc":"d","label":"utf-8","bytes":"YQ=="}'),
            brings(1, '{"id":2,"op":"splice","doc":"d","rev":0,"at":1,'),
            brings(2, '{"id":1,"op":"splice","doc":"d","rev":0,"at":0,"del":0,"bytes":"Yg=="}'),
            "",
            brings(1, '"del":0,"bytes":"Yw=="}\n'),
            brings(2, "\n"),
            asks(2, '{"id":2,"op":"text","doc":"d","from":0,"to":2}'),
            brings(2, '{"id":3,'),
            "close 2",
            brings(2, "\n"),
            "open 2",
            brings(2, "\n"),
        ],
        [
            '1 {"bom":0,"encoding":"UTF-8","id":1,"rev":0}',
            '1 {"bom":0,"encoding":"UTF-8","id":2,"rev":1}',
            '2 {"fault":"Stale","id":1,"rev":1}',
            '2 {"id":2,"rev":1,"text":"ac"}',
            "2 !NotOpen",
            f"2 {BAD_JSON}",
        ],
    ),
    (
        "A document closed on one connection and opened anew on another begins at revision 0",
        [
            "open 3",
            "open 15",
            asks(3, '{"id":1,"op":"open","doc":"d","label":"utf-8","bytes":"YQ=="}'),
            asks(15, '{"id":2,"op":"splice","doc":"d","rev":0,"at":1,"del":0,"bytes":"Yw=="}'),
            asks(3, '{"id":3,"op":"close","doc":"d"}'),
            asks(15, '{"id":4,"op":"open","doc":"d","label":"utf-8","bytes":"YQ=="}'),
            asks(3, '{"id":5,"op":"splice","doc":"d","rev":1,"at":0,"del":0,"bytes":""}'),
        ],
        [
            '3 {"bom":0,"encoding":"UTF-8","id":1,"rev":0}',
            '15 {"bom":0,"encoding":"UTF-8","id":2,"rev":1}',
            '3 {"id":3,"rev":1}',
            '15 {"bom":0,"encoding":"UTF-8","id":4,"rev":0}',
            '3 {"fault":"Stale","id":5,"rev":0}',
        ],
    ),
    (
        "A line cut into pieces, the next one begun behind it, and gone when the connection closes",
        [
            "open 0",
            brings(0, '{"id":1,"op'),
            brings(0, '":"zap"}\r\n{"id":2'),
            brings(0, '{"id":2'),
            "close 0",
            "open 0",
            brings(0, "\n"),
        ],
        ['0 {"fault":"UnknownOp","id":1}', f"0 {BAD_JSON}"],
    ),
    (
        "Events of connections that are not open, are open, or have no number below 16",
        [
            brings(0, "\n"),
            "close 0",
            "open 16",
            brings(255, "\n"),
            "close 16",
            "open 0",
            "open 0",
            "open 15",
            "close 0",
            brings(15, "[]"),
            brings(0, "[]\n"),
            "close 15",
            "close 15",
        ],
        ["0 !NotOpen", "0 !NotOpen", "16 !BadNumber", "255 !BadNumber", "16 !BadNumber", "0 !AlreadyOpen", "0 !NotOpen", "15 !NotOpen"],
    ),
    (
        "A document in an encoding that has an index file",
        [
            "open 0",
            asks(0, '{"id":1,"op":"open","doc":"d","label":"windows-1252","bytes":"gA=="}'),
            asks(0, '{"id":2,"op":"text","doc":"d","from":0,"to":1}'),
        ],
        ['0 {"bom":0,"encoding":"windows-1252","id":1,"rev":0}', '0 {"id":2,"rev":0,"text":"\u20ac"}'],
    ),
    (
        "Documents of a head: bytes in two parts, none, an encoding, a mark that is kept; revisions go on, and earlier ones are forgotten",
        [
            *adopts("d", b"ab", 41, size=1),
            *adopts("\u00e9", b"", 0),
            *adopts("k", b"\xef\xbb\xbfa", 9007199254740991, bom="keep"),
            *adopts("w", b"\x80", 7, "windows-1252"),
            "",
            "open 0",
            asks(0, '{"id":1,"op":"source","doc":"d","at":0,"len":2}'),
            asks(0, '{"id":2,"op":"splice","doc":"d","rev":41,"at":2,"del":0,"bytes":"Yw=="}'),
            asks(0, '{"id":3,"op":"since","doc":"d","rev":41}'),
            asks(0, '{"id":4,"op":"since","doc":"d","rev":40}'),
            asks(0, '{"id":5,"op":"source","doc":"\u00e9","at":0,"len":0}'),
            asks(0, '{"id":6,"op":"text","doc":"k","from":0,"to":2}'),
            asks(0, '{"id":7,"op":"splice","doc":"k","rev":9007199254740991,"at":0,"del":0,"bytes":""}'),
            asks(0, '{"id":8,"op":"text","doc":"w","from":0,"to":1}'),
        ],
        [
            '0 {"bytes":"YWI=","id":1,"rev":41}',
            '0 {"bom":0,"encoding":"UTF-8","id":2,"rev":42}',
            '0 {"at":2,"del":0,"id":3,"ins":1,"rev":42}',
            '0 {"fault":"Forgotten","id":4,"rev":41}',
            '0 {"bytes":"","id":5,"rev":0}',
            '0 {"id":6,"rev":9007199254740991,"text":"\ufeffa"}',
            '0 {"fault":"RevisionsSpent","id":7}',
            '0 {"id":8,"rev":7,"text":"\u20ac"}',
        ],
    ),
]

# Traces as they are written, with or without a line feed at their end, and what is printed. An event has as many replies
# as it completes lines, and one refusal.
TEXTS = [
    ("", ""),
    ("\n", ""),
    ("open 3\nbytes 3 e30K", f"3 {BAD_ID}\n"),
    ("open 3\nbytes 3 e30=\nbytes 3 Cg==\n", f"3 {BAD_ID}\n"),
    ("open 3\nbytes 3 e30Ke30Ke30=\n", f"3 {BAD_ID}\n3 {BAD_ID}\n"),
    ("bytes 3 e30Ke30Ke30K\nclose 3\n", "3 !NotOpen\n3 !NotOpen\n"),
    ("open 16\nopen 255", "16 !BadNumber\n255 !BadNumber\n"),
    ("open 3\nopen 3\nbytes 3 e30Ke30K\nopen 16\n", f"3 !AlreadyOpen\n3 {BAD_ID}\n3 {BAD_ID}\n16 !BadNumber\n"),
    ("open 3\nopen 3\nbytes 3 e30K\nclose 3\n", f"3 !AlreadyOpen\n3 {BAD_ID}\n"),
]

# Traces that end at a line without an event, the number of that line, and what is printed before. Lines are counted
# from 1, and those that are skipped count.
BAD_LINES = [
    ("bytes 3", 1, ""),
    ("bytes 3 \n", 1, ""),
    ("# note\n\nopen 16\nbytes 3", 4, "16 !BadNumber\n"),
    ("# note\n\nopen 16\n#\nbytes 3\nopen 17\n", 5, "16 !BadNumber\n"),
    ("open 16\nopen 17 ", 2, "16 !BadNumber\n"),
    (" \n", 1, ""),
    (" # note\n", 1, ""),
    (" open 3\n", 1, ""),
    ("OPEN 3\n", 1, ""),
    ("open  3\n", 1, ""),
    ("open\t3\n", 1, ""),
    ("open 3\r\n", 1, ""),
    ("open 03\n", 1, ""),
    ("open +3\n", 1, ""),
    ("open 256\n", 1, ""),
    ("open\n", 1, ""),
    ("bytes 3 e30\n", 1, ""),
    ("bytes 3 e30K \n", 1, ""),
    ("bytes 3  e30K\n", 1, ""),
    ("bytes e30K\n", 1, ""),
    ("part\n", 1, ""),
    ("part \n", 1, ""),
    ("part YQ\n", 1, ""),
    ("part YQ==\npart  YQ==\n", 2, ""),
    ("part YQ==\nadopt ZA== UTF-8 sniff 0\nopen 16\npart YQ==\n", 4, "16 !BadNumber\n"),
    ("open 16\nadopt ZA== UTF-8 sniff 0\n", 2, "16 !BadNumber\n"),
    ("\nadopt ZA== UTF-8 sniff 0\n", 2, ""),
    ("#\npart YQ==\n\npart YQ==\n", 4, ""),
    ("open 16\n#\npart YQ==\n", 3, "16 !BadNumber\n"),
    ("part YQ==\n# note\nadopt ZA== UTF-8 sniff 0\n#\nadopt ZA== UTF-8 sniff 0\n", 5, ""),
    ("adopt ZA== UTF-8 sniff 0\nadopt ZA== UTF-8 keep 1", 2, ""),
    ("adopt ZA== utf-8 sniff 0\n", 1, ""),
    ("adopt ZA== UTF-8 Sniff 0\n", 1, ""),
    ("adopt ZA== UTF-8 sniff 00\n", 1, ""),
    ("adopt ZA== UTF-8 sniff +1\n", 1, ""),
    ("adopt ZA== UTF-8 sniff 9007199254740992\n", 1, ""),
    ("adopt ZA== UTF-8 sniff 18446744073709551616\n", 1, ""),
    ("adopt ZA== UTF-8 sniff\n", 1, ""),
    ("adopt ZA== UTF-8 sniff 0 \n", 1, ""),
    ("adopt  ZA== UTF-8 sniff 0\n", 1, ""),
    ("adopt d UTF-8 sniff 0\n", 1, ""),
    ("adopt  UTF-8 sniff 0\n", 1, ""),
    ("adopt gA== UTF-8 sniff 0\n", 1, ""),
    (f"adopt {base64_of(b'd' * 65)} UTF-8 sniff 0\n", 1, ""),
    ("adopt ZA== windows-1253 sniff 0\n", 1, ""),
    ("adopted\n", 1, ""),
    ("".join(f"adopt {base64_of(b'%d' % n)} UTF-8 sniff 0\n" for n in range(65)), 65, ""),
]


def longest_lines():
    """Lines on connection 0 that are as long as they may be and longer, while connection 7 is in mid-line: what is
    brought, and what is printed. The line feed, or what makes the line too long, comes in an event of its own."""
    yield "open 0", ""
    yield "open 7", ""
    yield brings(7, "["), ""
    for more, reply in ("\n", BAD_JSON), (" \n", TOO_LONG), ("[]\n", TOO_LONG):
        for _ in range(1024):
            yield brings(0, " " * 4096), ""
        yield brings(0, more), f"0 {reply}\n"
    yield brings(7, "]\n"), f"7 {NO_OBJECT}\n"
    yield brings(0, "[]\n"), f"0 {NO_OBJECT}\n"


@built
class Traces(unittest.TestCase):
    def traces(self, text, printed, status=0, told=""):
        """The program plays this trace, prints this, and ends with this status and this text for it."""
        ran = subprocess.run([PROGRAM, *WORDS], input=text.encode(), stdout=subprocess.PIPE, stderr=subprocess.PIPE)
        self.assertEqual(ran.stdout.decode(), printed, cut(text))
        self.assertEqual((ran.returncode, ran.stderr.decode()), (status, told))

    def test_traces(self):
        for shows, lines, printed in TRACES:
            with self.subTest(shows):
                self.traces("".join(line + "\n" for line in lines), "".join(line + "\n" for line in printed))

    def test_traces_as_they_are_written(self):
        for text, printed in TEXTS:
            with self.subTest(text):
                self.traces(text, printed)

    def test_bad_lines(self):
        for text, number, printed in BAD_LINES:
            with self.subTest(text):
                self.traces(text, printed, 2, f"gate: trace line {number}\n")

    def test_the_longest_document_of_a_head(self):
        data = bytes(range(256)) * 65536
        lines = [*adopts("d", data, 3, "windows-1252"), "open 0", asks(0, '{"id":1,"op":"source","doc":"d","at":16777215,"len":1}')]
        self.traces("\n".join(lines), '0 {"bytes":"/w==","id":1,"rev":3}\n')
        lines = adopts("d", data + b"a", 3, "windows-1252")
        self.traces("\n".join(lines), "", 2, f"gate: trace line {len(lines) - 1}\n")

    def test_longest_lines_beside_a_begun_one(self):
        lines, printed = zip(*longest_lines())
        self.traces("\n".join(lines), "".join(printed))


if __name__ == "__main__":
    unittest.main()
