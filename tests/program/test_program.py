"""The program as it was built, by its words and files. What it does with hostile ones is in tests/hostile."""
import contextlib
import json
import pathlib
import socket
import subprocess
import tempfile
import unittest
from typing import List, Tuple

from program import PROGRAM, built
from base import base64_of

OPEN = '{"id":1,"op":"open","doc":"a","label":"utf-8","bytes":"4oJB"}\n'

# The single-byte encodings that have a file of their own; ISO-8859-8-I has that of ISO-8859-8.
SINGLE_BYTE = (
    "IBM866 ISO-8859-2 ISO-8859-3 ISO-8859-4 ISO-8859-5 ISO-8859-6 ISO-8859-7 ISO-8859-8 ISO-8859-10 ISO-8859-13 ISO-8859-14 "
    "ISO-8859-15 ISO-8859-16 KOI8-R KOI8-U macintosh windows-874 windows-1250 windows-1251 windows-1252 windows-1253 "
    "windows-1254 windows-1255 windows-1256 windows-1257 windows-1258 x-mac-cyrillic"
).split()

# The other index files, in the order in which they are added, each with its rows and with documents of one character that can
# be opened from then on. That of EUC-JP is in jis0212, that of gb18030 in its index, that of GBK in the ranges.
MULTIBYTE_FILES: List[Tuple[str, str, List[Tuple[str, bytes, str]]]] = [
    ("jis0208", "283\t0x3042\n", [("Shift_JIS", b"\x82\xa0", "\u3042")]),
    ("jis0212", "1410\t0x4E02\n", [("EUC-JP", b"\x8f\xb0\xa1", "\u4e02")]),
    ("iso-2022-jp-katakana", "0\t0x3002\n", [("ISO-2022-JP", b"\x1b$B$\"", "\u3042")]),
    ("euc-kr", "9026\t0xAC00\n", [("EUC-KR", b"\xb0\xa1", "\uac00")]),
    ("big5", "5495\t0x4E00\n", [("Big5", b"\xa4\x40", "\u4e00")]),
    ("gb18030", "9026\t0x554A\n", []),
    ("gb18030-ranges", "0\t0x0080\n189000\t0x10000\n", [("gb18030", b"\xb0\xa1", "\u554a"), ("GBK", b"\x81\x30\x81\x30", "\x80")]),
]
MULTIBYTE = [document for _, _, documents in MULTIBYTE_FILES for document in documents]

# With the first row the bytes 81 41 are one character in Shift_JIS.
JIS0208 = "1\t0x3001\n283\t0x3042\n1410\t0x4E9C\n"

# U+3042 and U+1F600 in ISO-2022-JP, each command with its reply.
ENCODED = [
    '{"id":0,"op":"open","doc":"d","label":"utf-8","bytes":"44GC8J+YgA=="}',
    '{"bom":0,"encoding":"UTF-8","id":0,"rev":0}',
    '{"id":1,"op":"encode","doc":"d","from":0,"to":2,"label":"iso-2022-jp","mode":"html"}',
    '{"bytes":"GyRCJCIbKEImIzEyODUxMjs=","id":1,"rev":0}',
    '{"id":2,"op":"encode","doc":"d","from":0,"to":2,"label":"iso-2022-jp"}',
    '{"code_point":128512,"fault":"Unencodable","id":2,"index":1}',
    '{"id":3,"op":"source","doc":"d","at":0,"len":3}',
    '{"bytes":"44GC","id":3,"rev":0}',
]

# A position between two code points of one pair of bytes, a letter behind the lead byte that would swallow it, a code
# point whose byte is read as another, and a character in front of a shift.
CHANGES = [
    '{"id":0,"op":"open","doc":"b","label":"big5","bytes":"iGI="}',
    '{"bom":0,"encoding":"Big5","id":0,"rev":0}',
    '{"id":1,"op":"change","doc":"b","rev":0,"range":{"start":{"line":0,"character":1},"end":{"line":0,"character":1}},"text":""}',
    '{"fault":"SplitsItem","id":1}',
    '{"id":0,"op":"open","doc":"s","label":"shift_jis","bytes":"gQ=="}',
    '{"bom":0,"encoding":"Shift_JIS","id":0,"rev":0}',
    '{"id":2,"op":"change","doc":"s","rev":0,"range":{"start":{"line":0,"character":1},"end":{"line":0,"character":1}},"text":"A"}',
    '{"fault":"NotKept","id":2}',
    '{"id":3,"op":"source","doc":"s","at":0,"len":1}',
    '{"bytes":"gQ==","id":3,"rev":0}',
    '{"id":4,"op":"change","doc":"s","rev":0,"text":"\\u00a5"}',
    '{"fault":"NotKept","id":4}',
    '{"id":0,"op":"open","doc":"i","label":"iso-2022-jp","bytes":"QRskQiQiGyhC"}',
    '{"bom":0,"encoding":"ISO-2022-JP","id":0,"rev":0}',
    '{"id":5,"op":"change","doc":"i","rev":0,"range":{"start":{"line":0,"character":1},"end":{"line":0,"character":1}},"text":"\\u4e9c"}',
    '{"at":1,"bom":0,"del":0,"encoding":"ISO-2022-JP","id":5,"ins":5,"rev":1}',
    '{"id":6,"op":"source","doc":"i","at":0,"len":14}',
    '{"bytes":"QRskQjAhGyRCJCIbKEI=","id":6,"rev":1}',
]

# The index of gb18030 as its exceptions find it, and as one of them has a pair of it.
GB18030 = "0\t0x4E02\n1\t0x4E04\n9026\t0x554A\n"
GB18030_TWICE = "0\t0x4E02\n1\t0x4E04\n2\t0x4E02\n9026\t0x554A\n"

# Exceptions of the gb18030 encoder, the index that they are beside, and a session, each command with its reply. An
# exception whose bytes are another character is encoded, and a change that would put it isn't kept; in GBK U+20AC has its
# byte all the same, and U+E5E5 has none.
EXCEPTIONS = [
    ("0x4E04\tB0A1\n", GB18030, [
        '{"id":1,"op":"open","doc":"u","label":"utf-8","bytes":"5LiE"}',
        '{"bom":0,"encoding":"UTF-8","id":1,"rev":0}',
        '{"id":2,"op":"encode","doc":"u","from":0,"to":1,"label":"gb18030"}',
        '{"bytes":"sKE=","id":2,"rev":0}',
        '{"id":3,"op":"encode","doc":"u","from":0,"to":1,"label":"gbk","mode":"html"}',
        '{"bytes":"sKE=","id":3,"rev":0}',
        '{"id":4,"op":"open","doc":"g","label":"gb18030","bytes":"QQ=="}',
        '{"bom":0,"encoding":"gb18030","id":4,"rev":0}',
        '{"id":5,"op":"change","doc":"g","rev":0,"range":{"start":{"line":0,"character":1},"end":{"line":0,"character":1}},"text":"\\u4e04"}',
        '{"fault":"NotKept","id":5}',
        '{"id":6,"op":"source","doc":"g","at":0,"len":1}',
        '{"bytes":"QQ==","id":6,"rev":0}',
    ]),
    ("0x4E02\t8142\n", GB18030_TWICE, [
        '{"id":1,"op":"open","doc":"g","label":"gb18030","bytes":"QQ=="}',
        '{"bom":0,"encoding":"gb18030","id":1,"rev":0}',
        '{"id":2,"op":"change","doc":"g","rev":0,"range":{"start":{"line":0,"character":1},"end":{"line":0,"character":1}},"text":"\\u4e02"}',
        '{"at":1,"bom":0,"del":0,"encoding":"gb18030","id":2,"ins":2,"rev":1}',
        '{"id":3,"op":"source","doc":"g","at":0,"len":3}',
        '{"bytes":"QYFC","id":3,"rev":1}',
    ]),
    ("# in no order\r\n\n 0x20ac \t a2e3 \tU+20AC\n0xE5E5\tA3A0\n0x41\t8140", GB18030, [
        '{"id":1,"op":"open","doc":"u","label":"utf-8","bytes":"QeKCrO6XpQ=="}',
        '{"bom":0,"encoding":"UTF-8","id":1,"rev":0}',
        '{"id":2,"op":"encode","doc":"u","from":0,"to":2,"label":"gb18030"}',
        '{"bytes":"QaLj","id":2,"rev":0}',
        '{"id":3,"op":"encode","doc":"u","from":0,"to":2,"label":"gbk"}',
        '{"bytes":"QYA=","id":3,"rev":0}',
        '{"id":4,"op":"encode","doc":"u","from":0,"to":3,"label":"gb18030"}',
        '{"code_point":58853,"fault":"Unencodable","id":4,"index":2}',
    ]),
]

# Files of exceptions, and what is said of each.
FAULTY_EXCEPTIONS = [
    ("0x4E04\t417F\n", "line 1: BadBytes"),
    ("0x4E04\tB0A1\n0x4E04\tB0A1\n", "line 2: DuplicateCodePoint"),
    ("#\n\n4E04\t417F\n", "line 3: BadCodePoint"),
]

# Words that are none of the program's, each refused before any file is read.
BAD_WORDS = [
    ["stdio"],
    ["trace"],
    ["trace", "--indexes", "DIR", "--serve", "1"],
    ["replay", "--indexes", "DIR"],
    ["tcp"],
    *(["tcp", "--indexes", "DIR", "--port", port] for port in ("0", "65536", "-1", "http", "")),
    *(["tcp", "--indexes", "DIR", "--serve", count] for count in ("0", "1000001")),
    ["tcp", "--indexes", "DIR", "--idle", "1"],
    ["serve", "--indexes", "DIR"],
    ["serve", "--indexes", "DIR", "--socket"],
    ["serve", "--socket", "PATH"],
    ["serve", "--indexes", "DIR", "--socket", "PATH", "--port", "7117"],
    *(["serve", "--indexes", "DIR", "--port", port, "--no-token"] for port in ("0", "65536")),
    ["serve", "--indexes", "DIR", "--port", "7117"],
    ["serve", "--indexes", "DIR", "--port", "7117", "--token-file"],
    ["serve", "--indexes", "DIR", "--port", "7117", "--token-file", "FILE", "--no-token"],
    *(["serve", "--indexes", "DIR", "--socket", "PATH", *words] for words in (["--token-file", "FILE"], ["--no-token"])),
    *(["tcp", "--indexes", "DIR", *words] for words in (["--token-file", "FILE"], ["--no-token"])),
    *(["serve", "--indexes", "DIR", "--socket", "PATH", "--serve", count] for count in ("0", "1000001")),
    *(["serve", "--indexes", "DIR", "--socket", "PATH", "--idle", idle] for idle in ("0", "-1", "1.5", "4294967296", "")),
    ["stdio", "--indexes"],
    ["stdio", "--indexes", "DIR", "--labels"],
    ["stdio", "--indexes", "DIR", "more"],
    ["stdio", "--indexes", "DIR", "--port", "1"],
    ["--indexes", "DIR"],
]

# What is said of words that lack something, or have a number past its range.
TOLD = [
    (["stdio"], "error: the following required arguments were not provided:\n  --indexes <DIR>\n\nUsage: gate stdio --indexes <DIR>\n"),
    (["tcp", "--indexes", "none", "--port", "65536"], "error: invalid value '65536' for '--port <N>': 65536 is not in 1..=65535\n"),
    (["tcp", "--indexes", "none", "--serve", "0"], "error: invalid value '0' for '--serve <N>': 0 is not in 1..=1000000\n"),
    (["serve", "--indexes", "none"],
     "error: the following required arguments were not provided:\n  <--socket <PATH>|--port <N>>\n\nUsage: gate serve --indexes <DIR> <--socket <PATH>|--port <N>>\n"),
    (["serve", "--indexes", "none", "--port", "1", "--idle", "0"], "error: invalid value '0' for '--idle <S>': 0 is not in 1..=4294967295\n"),
]

# Index files, each put beside those before it and in front of them in the program's order, and what is then said.
FAULTY = [
    ("gb18030-ranges", "0\t0x80\n", "line 0: BadRanges"),
    ("jis0208", "# comment\n11280\t0x41\n", "line 2: PointerTooLarge"),
    ("windows-1252", "0\t0x20AC\n0\t0x81\n", "line 2: DuplicatePointer"),
    ("koi8-r", "0\t0xD800\n", "line 1: BadCodePoint"),
    ("ibm866", "x\t0x41\n", "line 1: BadPointer"),
]


# A line of an index file whose fields aren't bare, bytes of windows-1252 over it, and their text.
LINES = [
    ("00\t0x0000000000000041", b"\x80\x81", "A\ufffd"),
    ("#\n  5 \t 0x2a \t0x2b\r\n", b"\x85", "*"),
]

# Label files, and the encodings that labels name over each, if they name one.
LABELS = [
    ("a known and an unknown encoding", """[{"encodings":[{"name":"Shift_JIS","labels":["sjis"]},{"name":"other","labels":["x"]}]}]""",
     [("SJIS", "Shift_JIS"), ("x", None), ("shift_jis", None)]),
    ("the first of equal labels", """[{"heading":"a","encodings":[{"labels":["l"],"name":"other"},{"labels":["m","L"],"name":"big5"}]},
      {"encodings":[{"name":"KOI8-R","labels":["l","M","n", " o"]}]}, {"encodings":[]}]""",
     [("l", "Big5"), (" m\n", "Big5"), ("N", "KOI8-R"), ("o", None), (" o", None)]),
]

# The same of the names alone, in whitespace and beside it.
NAMES = [(" Shift_JIS\t", "Shift_JIS"), ("\t\n\x0c\r utf-8 \r\x0c\n\t", "UTF-8"), ("sjis", None), ("\x0butf-8", None), ("", None), ("utf-8\x00", None)]


def label_lines(rows):
    """The lines that open a document by each of these labels and close it, and the replies to them."""
    lines = replies = ""
    for label, encoding in rows:
        lines += json.dumps({"id": 1, "op": "open", "doc": "d", "label": label, "bytes": ""}) + "\n" + '{"id":2,"op":"close","doc":"d"}\n'
        replies += f'{{"bom":0,"encoding":"{encoding}","id":1,"rev":0}}\n{{"id":2,"rev":0}}\n' if encoding else NOT_NAMED
    return lines, replies


def ask_lines(label, content):
    """The lines that open a document and ask for its one character."""
    fields = {"doc": label, "label": label, "bytes": base64_of(content)}
    return json.dumps({"id": 1, "op": "open", **fields}) + "\n" + json.dumps({"id": 2, "op": "text", "doc": label, "from": 0, "to": 1}) + "\n"


def open_replies(encoding, text):
    """The replies to these lines."""
    text = json.dumps(text, ensure_ascii=False)
    return f'{{"bom":0,"encoding":"{encoding}","id":1,"rev":0}}\n{{"id":2,"rev":0,"text":{text}}}\n'


# The want of a file comes before that of bytes for a code point. U+1F600 in the document `u`, and what it is encoded to.
SIGN = '{"id":1,"op":"open","doc":"u","label":"utf-8","bytes":"8J+YgA=="}\n'
SIGN_OPENED = '{"bom":0,"encoding":"UTF-8","id":1,"rev":0}\n'
FOUR_BYTES = '{"bytes":"lDn8Ng==","id":2,"rev":0}\n'
UNENCODABLE = '{"code_point":128512,"fault":"Unencodable","id":2,"index":0}\n'
NO_INDEX = '{"fault":"NoIndex","id":2}\n'

NOT_OPENED = '{"fault":"NoIndex","id":1}\n{"fault":"NoDocument","id":2}\n'
NOT_NAMED = '{"fault":"UnknownLabel","id":1}\n{"fault":"NoDocument","id":2}\n'


@built
class Program(unittest.TestCase):
    def setUp(self):
        folder = tempfile.TemporaryDirectory()
        self.addCleanup(folder.cleanup)
        self.folder = pathlib.Path(folder.name)

    def put(self, name, rows):
        (self.folder / f"index-{name}.txt").write_bytes(rows.encode())

    def runs(self, *words, lines="", status=0, output="", error=""):
        """The program with these words over these lines ends with this status, and writes this."""
        ran = subprocess.run([PROGRAM, *words], input=lines.encode(), stdout=subprocess.PIPE, stderr=subprocess.PIPE)
        self.assertEqual((ran.returncode, ran.stdout.decode(), ran.stderr.decode()), (status, output, error))

    def serves(self, lines, output, *words):
        self.runs("stdio", "--indexes", str(self.folder), *words, lines=lines, output=output)

    def test_files_and_labels(self):
        self.put("windows-1252", "0\t0x20AC\n59\t0xBB\n63\t0xBF\n")
        labels = self.folder / "labels.json"
        labels.write_text('[{"encodings":[{"name":"UTF-8","labels":["utf-8","unicode-1-1-utf-8"]}]}]')
        line = OPEN.replace("utf-8", "Unicode-1-1-UTF-8")
        self.serves(line, '{"bom":0,"encoding":"UTF-8","id":1,"rev":0}\n', "--labels", str(labels))
        self.serves(line, '{"fault":"UnknownLabel","id":1}\n')
        self.serves(ask_lines(" Windows-1252 ", b"\x80"), open_replies("windows-1252", "\u20ac"))
        self.runs(lines=ask_lines("windows-1252", b"\x80"), output=NOT_OPENED)
        self.runs(lines=OPEN, output='{"bom":0,"encoding":"UTF-8","id":1,"rev":0}\n')

    def put_all(self):
        """Index files of all encodings."""
        for encoding in SINGLE_BYTE:
            self.put(encoding.lower(), "0\t0x2600\n")
        for name, rows, _ in MULTIBYTE_FILES:
            self.put(name, rows)

    def test_each_name_is_a_label_in_any_case(self):
        self.put_all()
        others = "UTF-8 UTF-16BE UTF-16LE x-user-defined replacement ISO-8859-8-I".split()
        names = [*SINGLE_BYTE, *(label for label, _, _ in MULTIBYTE), *others]
        self.assertEqual(len(names), 40)
        self.serves(*label_lines([(label, name) for name in names for label in (name, name.lower(), name.upper())]))
        self.serves(*label_lines(NAMES))

    def test_labels_of_a_file(self):
        self.put_all()
        labels = self.folder / "labels.json"
        for shows, text, rows in LABELS:
            with self.subTest(shows):
                labels.write_text(text)
                self.serves(*label_lines(rows), "--labels", str(labels))

    def test_lines_of_an_index_file(self):
        for rows, content, text in LINES:
            with self.subTest(rows):
                self.put("windows-1252", rows)
                line = json.dumps({"id": 2, "op": "text", "doc": "d", "from": 0, "to": len(text)}) + "\n"
                fields = {"doc": "d", "label": "windows-1252", "bytes": base64_of(content)}
                self.serves(json.dumps({"id": 1, "op": "open", **fields}) + "\n" + line, open_replies("windows-1252", text))

    def test_ranges_and_changes_over_index_files(self):
        for name, rows in ("big5", "5495\t0x4E00\n"), ("jis0208", JIS0208), ("iso-2022-jp-katakana", "0\t0x3002\n"):
            self.put(name, rows)
        for session in ENCODED, CHANGES:
            self.serves("".join(line + "\n" for line in session[::2]), "".join(reply + "\n" for reply in session[1::2]))

    def put_exceptions(self, rows):
        (self.folder / "gb18030-exceptions.txt").write_bytes(rows.encode())

    def test_exceptions_of_the_gb18030_encoder(self):
        self.put("gb18030-ranges", "0\t0x0080\n189000\t0x10000\n")
        for exceptions, index, session in EXCEPTIONS:
            with self.subTest(exceptions):
                self.put("gb18030", index)
                self.put_exceptions(exceptions)
                self.serves("".join(line + "\n" for line in session[::2]), "".join(reply + "\n" for reply in session[1::2]))

    def test_exceptions_alone_make_no_encoding(self):
        self.put_exceptions("0x4E04\tB0A1\n")
        self.serves(ask_lines("gb18030", b"\xb0\xa1"), NOT_OPENED)

    def test_faulty_exceptions_are_reported_between_index_files_and_labels(self):
        labels = self.folder / "labels.json"
        labels.write_text("[")
        words = ["stdio", "--indexes", str(self.folder), "--labels", str(labels)]
        for rows, told in FAULTY_EXCEPTIONS:
            with self.subTest(rows):
                self.put_exceptions(rows)
                self.runs(*words, status=2, error=f"gate: index file gb18030-exceptions.txt, {told}\n")
        self.put("gb18030-ranges", "0\t0x80\n")
        self.runs(*words, status=2, error="gate: index file index-gb18030-ranges.txt, line 0: BadRanges\n")

    def test_each_single_byte_encoding_reads_its_own_file(self):
        lines = replies = ""
        for code, encoding in enumerate(SINGLE_BYTE, 0x2600):
            self.put(encoding.lower(), f"0\t0x{code:04X}\n")
            lines, replies = lines + ask_lines(encoding, b"\x80"), replies + open_replies(encoding, chr(code))
        sign = chr(0x2600 + SINGLE_BYTE.index("ISO-8859-8"))
        self.serves(lines + ask_lines("ISO-8859-8-I", b"\x80"), replies + open_replies("ISO-8859-8-I", sign))

    def test_each_other_encoding_needs_its_own_files(self):
        lines = "".join(ask_lines(label, content) for label, content, _ in MULTIBYTE)
        encodes = "".join(json.dumps({"id": 2, "op": "encode", "doc": "u", "from": 0, "to": 1, "label": label}) + "\n" for label, _, _ in MULTIBYTE)
        count = 0
        for name, rows, documents in MULTIBYTE_FILES:
            self.put(name, rows)
            count += len(documents)
            there = "".join(open_replies(label, text) for label, _, text in MULTIBYTE[:count])
            with self.subTest(name):
                self.serves(lines, there + NOT_OPENED * (len(MULTIBYTE) - count))
                encoded = "".join(FOUR_BYTES if label == "gb18030" else UNENCODABLE for label, _, _ in MULTIBYTE[:count])
                self.serves(SIGN + encodes, SIGN_OPENED + encoded + NO_INDEX * (len(MULTIBYTE) - count))

    def test_help_goes_to_the_output(self):
        for words in ["--help"], ["-h"], ["help"], ["stdio", "--help"], ["trace", "--help"], ["tcp", "--help"], ["serve", "--help"]:
            with self.subTest(words):
                ran = subprocess.run([PROGRAM, *words], input=OPEN.encode(), stdout=subprocess.PIPE, stderr=subprocess.PIPE)
                self.assertEqual((ran.returncode, ran.stderr), (0, b""))
                for part in b"Usage: gate", b"\nExample: gate":
                    self.assertIn(part, ran.stdout)
                self.assertNotIn(b"UTF-8", ran.stdout)
                self.assertTrue(ran.stdout.endswith(b"\n"))

    def test_bad_words_are_refused_before_any_file_is_read(self):
        self.put("ibm866", "x\t0x41\n")
        for words in BAD_WORDS:
            with self.subTest(words):
                words = [str(self.folder) if it == "DIR" else it for it in words]
                ran = subprocess.run([PROGRAM, *words], input=OPEN.encode(), stdout=subprocess.PIPE, stderr=subprocess.PIPE)
                self.assertEqual((ran.returncode, ran.stdout), (2, b""))
                self.assertTrue(ran.stderr.startswith(b"error: ") and ran.stderr.endswith(b"\n"), ran.stderr)

    def test_what_is_wrong_with_the_words_is_named(self):
        for words, told in TOLD:
            with self.subTest(words):
                self.runs(*words, status=2, error=told + "\nFor more information, try '--help'.\n")

    def test_files_are_read_before_the_port_is_listened_on(self):
        with contextlib.closing(socket.create_server(("127.0.0.1", 0))) as taken:
            words = ["--indexes", str(self.folder), "--port", str(taken.getsockname()[1])]
            port, token = words[-1], self.folder / "token"
            jobs = ["tcp", *words], ["serve", *words, "--no-token"], ["serve", *words, "--token-file", str(token)]
            for job in jobs:
                self.runs(*job, status=1, error=f"gate: cannot listen on port {port}\n")
            token.unlink()
            self.put("ibm866", "x\t0x41\n")
            for job in jobs:
                self.runs(*job, status=2, error="gate: index file index-ibm866.txt, line 1: BadPointer\n")
            self.assertFalse(token.exists())

    def test_the_first_faulty_file_ends_the_program(self):
        labels = self.folder / "labels.json"
        words = ["stdio", "--indexes", str(self.folder), "--labels", str(labels)]
        self.runs(*words, status=2, error=f"gate: cannot read {labels}\n")
        for text, cause in ("{}", "BadShape"), ("[", "NotJson"):
            labels.write_text(text)
            self.runs(*words, status=2, error=f"gate: label file: {cause}\n")
        for name, rows, told in FAULTY:
            self.put(name, rows)
            self.runs(*words, status=2, error=f"gate: index file index-{name}.txt, {told}\n")


if __name__ == "__main__":
    unittest.main()
