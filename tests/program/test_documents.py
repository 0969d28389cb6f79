"""Documents of the program as it was built, by commands that are computed: the same rows alone and among many lines, a
document spliced together byte by byte, many documents, and the longest one."""
import json
import unittest

from program import Played, built
from base import base64_of


def in_force(given, content):
    """The encoding in force for these bytes, and the length of their byte order mark."""
    for mark, encoding in (b"\xef\xbb\xbf", "UTF-8"), (b"\xfe\xff", "UTF-16BE"), (b"\xff\xfe", "UTF-16LE"):
        if content.startswith(mark):
            return {"encoding": encoding, "bom": len(mark)}
    return {"encoding": given, "bom": 0}


def open_reply(given, content, rev=0):
    """The reply to an edit that leaves these bytes."""
    return {**in_force(given, content), "rev": rev}


def opens(given, content):
    return {"op": "open", "label": given, "bytes": base64_of(content)}


def splices(rev, at, count, content):
    return {"op": "splice", "rev": rev, "at": at, "del": count, "bytes": base64_of(content)}


def text(begin, end, **mode):
    return {"op": "text", "from": begin, "to": end, **mode}


def has_bytes(content, rev):
    """Rows that show that the document has these bytes and no more."""
    return [
        ({"op": "source", "at": 0, "len": len(content)}, {"bytes": base64_of(content), "rev": rev}),
        ({"op": "source", "at": 0, "len": len(content) + 1}, {"fault": "OutOfRange"}),
    ]


# Lines, positions, offsets and places: what is asked of a document, and its replies.


def lines(begin, most):
    return {"op": "lines", "from": begin, "max": most}


def are_lines(count, *bounds):
    return {"count": count, "lines": bounds, "rev": 0}


def position(offset, unit="utf-16"):
    return {"op": "position", "offset": offset, "unit": unit}


def is_position(line, character):
    return {"line": line, "character": character, "rev": 0}


def offset(line, character, unit="utf-16"):
    return {"op": "offset", "line": line, "character": character, "unit": unit}


def is_offset(value):
    return {"offset": value, "rev": 0}


def place(unit, value):
    return {"op": "place", "unit": unit, "value": value}


def is_place(bounds, utf8, utf16, utf32):
    return {"place": bounds, "utf8": utf8, "utf16": utf16, "utf32": utf32, "rev": 0}


SPLIT, PAST = {"fault": "SplitsCharacter"}, {"fault": "OutOfRange"}


# Documents and what is asked of them, where `line` lines of one letter stand before their bytes and `more` behind them,
# each of two bytes, so that the bytes begin at `at`.


def pair_and_cr_lf(line, at, more):
    count, end, total = line + 2 + more, at + 5 + 2 * more, at + 8 + 2 * more
    pair = is_place([at + 1, at + 5], at + 1, at + 1, at + 1)
    cr = is_place([at + 5, at + 6], at + 5, at + 3, at + 2)
    return [
        (lines(line, 2), are_lines(count, [at, at + 2], [at + 4, at + 5])),
        (lines(line + 1, 1), are_lines(count, [at + 4, at + 5])),
        (lines(count, 1), are_lines(count)),
        (lines(count + 1, 1), PAST),
        (offset(line, 2), SPLIT),
        (offset(line, 3), is_offset(at + 2)),
        (offset(line, 4, "utf-8"), SPLIT),
        (offset(line, 5, "utf-8"), is_offset(at + 2)),
        (offset(line, 2, "utf-32"), is_offset(at + 2)),
        (offset(line, 99), is_offset(at + 2)),
        (offset(count + 8, 0), is_offset(end)),
        (position(at + 2, "utf-8"), is_position(line, 5)),
        (position(at + 2), is_position(line, 3)),
        (position(at + 2, "utf-32"), is_position(line, 2)),
        (position(at + 3), is_position(line, 3)),
        (position(at + 4), is_position(line + 1, 0)),
        (position(at + 5), is_position(line + 1, 1)),
        (position(end + 1), PAST),
        (place("utf-16", at + 2), SPLIT),
        (place("utf-8", at + 4), SPLIT),
        (place("utf-16", at + 1), pair),
        (place("byte", at + 4), pair),
        (place("utf-16", at + 3), cr),
        (place("byte", at + 5), cr),
        (place("utf-32", at + 2), cr),
        (place("utf-8", total), is_place(None, total, total - 2, total - 3)),
        (place("utf-8", total + 1), PAST),
        (place("byte", total + 1), PAST),
    ]


def cr_and_cr_lf(line, at, more):
    return [
        (lines(line, 3), are_lines(line + 3 + more, [at, at], [at + 1, at + 1], [at + 3, at + 3])),
        (position(at + 1), is_position(line + 1, 0)),
        (position(at + 2), is_position(line + 1, 0)),
        (position(at + 3), is_position(line + 2, 0)),
    ]


def truncated_sequence(_, at, more):
    return [
        (place("byte", at + 1), is_place([at, at + 2], at, at, at)),
        (place("byte", at + 2), is_place([at + 2, at + 3], at + 3, at + 1, at + 1)),
        (place("byte", at + 3), is_place([at + 3, at + 4] if more else None, at + 4, at + 2, at + 2)),
        (place("byte", at + 4 + 2 * more), PAST),
    ]


def two_code_points_of_one_item(line, at, _):
    first, second = is_place([at, at + 2], at, at, at), is_place([at, at + 2], at + 2, at + 1, at + 1)
    return [
        (place("byte", at), first),
        (place("byte", at + 1), first),
        (place("utf-32", at + 1), second),
        (place("utf-8", at + 2), second),
        (place("utf-8", at + 1), SPLIT),
        (offset(line, 9, "utf-8"), is_offset(at + 2)),
    ]


def item_without_bytes(_, at, more):
    # The last byte leads, and the error takes in what follows it.
    third = is_place([at + 5, at + 7 if more else at + 6], at + 6, at + 2, at + 2)
    return [
        (place("utf-32", at), is_place([at, at + 5], at, at, at)),
        (place("utf-32", at + 1), is_place([at + 5, at + 5], at + 3, at + 1, at + 1)),
        (place("utf-32", at + 2), third),
        (place("byte", at + 5), third),
    ]


ASKED = [
    ("UTF-8", "a\U0001f600\r\nb".encode(), pair_and_cr_lf),
    ("UTF-8", b"\r\r\n", cr_and_cr_lf),
    ("UTF-8", b"\xe2\x82A", truncated_sequence),
    ("Big5", b"\x88\x62", two_code_points_of_one_item),
    ("ISO-2022-JP", b"\x1b$B$\x1bA", item_without_bytes),
]

# None, and 3,000 bytes of them before, behind, and both.
AROUND = [(0, 0), (1500, 0), (0, 1500), (1500, 1500)]


def surround(content, line, more):
    return b"a\n" * line + content + b"\na" * more


PAIR, SHIFTED = "a\U0001f600\r\nb".encode(), b"A\x1b$B$\"\x1b(B"

# Changes of one line: what is shown; the encoding given, the bytes, from which character to which they are replaced by which
# text; at which of the bytes how many are taken out and put in, and the bytes behind that, or why not; and what stands around.
CHANGED = [
    ("a position inside an item", "Big5", b"\x88\x62", 1, 1, "A", {"fault": "SplitsItem"}, AROUND),
    ("a lead byte would swallow a letter", "Shift_JIS", b"\x81", 1, 1, "A", {"fault": "NotKept"}, AROUND),
    ("the yen sign's byte decodes to another", "Shift_JIS", b"A", 1, 1, "\xa5", {"fault": "NotKept"}, AROUND),
    ("before a shift", "ISO-2022-JP", SHIFTED, 1, 1, "\u4e9c", (1, 0, 5, b"A\x1b$B0!\x1b$B$\"\x1b(B"), AROUND),
    ("a kana with its shift", "ISO-2022-JP", SHIFTED, 1, 2, "", (1, 5, 0, b"A\x1b(B"), AROUND),
    # Lines behind would be read in the state that the bytes end in.
    ("behind a shift", "ISO-2022-JP", b"\x1b$B$\"", 1, 1, "A", (5, 0, 7, b"\x1b$B$\"\x1b(BA\x1b$B"), AROUND[:2]),
    ("a pair of surrogates", "UTF-8", PAIR, 1, 3, "x", (1, 4, 1, b"ax\r\nb"), AROUND),
    ("from inside a pair", "UTF-8", PAIR, 2, 3, "x", SPLIT, AROUND),
    ("an end before the start", "UTF-8", PAIR, 1, 0, "x", PAST, AROUND),
    ("in replacement", "replacement", b"A", 0, 1, "", {"fault": "NoEncoder"}, AROUND),
    ("nothing in replacement", "replacement", b"A", 0, 0, "", {"fault": "NoEncoder"}, AROUND),
    ("the range before the encoder", "replacement", b"A", 1, 0, "", PAST, AROUND),
    ("without bytes", "windows-1252", b"A", 1, 1, "\u3042", {"fault": "Unencodable", "code_point": 0x3042, "index": 0}, AROUND),
]


MARK = b"\xef\xbb\xbf"

# A byte order mark is text where something stands in front of it, and in front of all else it is none, so that it can't be put there.
CHANGED += [
    ("a mark for the first letter", "UTF-8", b"A", 0, 1, "\ufeffx", {"fault": "NotKept"}, AROUND[::2]),
    ("a mark for a letter behind others", "UTF-8", b"A", 0, 1, "\ufeffx", (0, 1, 4, MARK + b"x"), AROUND[1::2]),
    ("a mark behind the first one", "UTF-8", MARK, 0, 0, "\ufeff", (3, 0, 3, MARK + MARK), AROUND[::2]),
    ("a mark beside another, behind letters", "UTF-8", MARK, 0, 0, "\ufeff", (0, 0, 3, MARK + MARK), AROUND[1::2]),
]


def change(line, begin, end, new):
    bounds = {"start": {"line": line, "character": begin}, "end": {"line": line, "character": end}}
    return {"op": "change", "rev": 0, "range": bounds, "text": new}


def becomes(given, content, command, wanted, line, more):
    """Rows that show what becomes of this change, and of these bytes."""
    if isinstance(wanted, dict):
        return [(command, wanted), *has_bytes(content, 0)]
    at, taken, put, left = wanted
    left = surround(left, line, more)
    made = {"at": 2 * line + at, "del": taken, "ins": put, **open_reply(given, left, 1)}
    return [(command, made), *has_bytes(left, 1)]


def changes(rev, *listed):
    """A list of these changes."""
    return {"op": "changes", "rev": rev, "changes": [{key: it[key] for key in ("range", "text")} for it in listed]}


def of_a_list(rows, number):
    """These rows of `becomes`, for the list in which the change has this number and all before it put in nothing."""
    (command, reply), *left = rows
    if "fault" in reply:
        wanted = {"change": number, **reply}
    else:
        wanted = {"applied": number + 1, **{key: reply[key] for key in ("bom", "encoding", "rev")}}
    return [(changes(0, *[change(0, 0, 0, "")] * number, command), wanted), *left]


# Documents: the encoding given, the bytes, the text, and from where to where its errors are.
DECODED = [
    ("UTF-8", b"", "", []),
    ("UTF-8", b"\xe2\x82\x41", "\ufffdA", [[0, 2]]),
    ("UTF-8", b"\xf0\x9f\x98", "\ufffd", [[0, 3]]),
    ("UTF-8", b"\xc0\x80", "\ufffd\ufffd", [[0, 1], [1, 2]]),
    ("UTF-8", b"\xe2\x82\xac", "\u20ac", []),
    ("windows-1252", b"\x80\xbb\x41\x81", "\u20ac\xbbA\ufffd", [[3, 4]]),
    ("x-user-defined", b"\x41\x80\xff", "A\uf780\uf7ff", []),
    ("replacement", b"\x41\x42", "\ufffd", [[0, 1]]),
    ("Shift_JIS", b"\x82\xa0\xb1\x80\xf0\x40\x81\x2f", "\u3042\uff71\x80\ue000\ufffd/", [[6, 7]]),
    ("EUC-JP", b"\x8f\xa2\xaf\x8e\xb1\xa4\xa2\x8e\x41", "\u02d8\uff71\u3042\ufffdA", [[7, 8]]),
    ("Big5", b"\x88\x62", "\xca\u0304", []),
    ("gb18030", b"\x81\x30\x81\x41", "\ufffd0\u4e04", [[0, 1]]),
    ("gb18030", b"\x90\x30\x81\x30", "\U00010000", []),
    ("gb18030", b"\xe3\x32\x9a\x35", "\U0010ffff", []),
    ("gb18030", b"\xe3\x32\x9a\x36", "\ufffd", [[0, 4]]),
    ("UTF-16LE", b"\x41", "\ufffd", [[0, 1]]),
    ("UTF-16LE", b"\x3d\xd8\x41", "\ufffd", [[0, 3]]),
    ("UTF-16BE", b"\xd8\x3d", "\ufffd", [[0, 2]]),
    ("UTF-16LE", b"\x3d\xd8\x41\x00", "\ufffdA", [[0, 2]]),
    ("UTF-16LE", b"\x3d\xd8\x3d\xd8\x00\xde", "\ufffd\U0001f600", [[0, 2]]),
    ("ISO-2022-JP", b"\x1b$B$\x1bA", "\ufffd\ufffd\ufffd", [[0, 5], [5, 5], [5, 6]]),
    ("ISO-2022-JP", b"\x1b(B\x1b(BA", "\ufffdA", [[0, 6]]),
    ("ISO-2022-JP", b"A\x1b$B$\"\x1b(B", "A\u3042", []),
    ("Shift_JIS", b"\xfe\xff\x00\x41", "A", []),
    ("Shift_JIS", b"\xff\xfe\x41", "\ufffd", [[2, 3]]),
    ("Shift_JIS", b"\xef\xbb\xbf\xff", "\ufffd", [[3, 4]]),
]


def whole(given, content):
    return [(opens(given, content), open_reply(given, content))]


def from_the_front(given, content):
    edits = [(splices(n, n, 0, content[n : n + 1]), open_reply(given, content[: n + 1], n + 1)) for n in range(len(content))]
    return whole(given, b"") + edits


def from_the_back(given, content):
    last = len(content)
    tails = [content[n:] for n in range(last - 1, -1, -1)]
    return whole(given, b"") + [(splices(n, 0, 0, tail[:1]), open_reply(given, tail, n + 1)) for n, tail in enumerate(tails)]


def decodes(rev, string, places):
    """Rows that show that the document has this text and errors at these places."""
    end, total = len(string), len(places)
    fatal = {"fault": "Malformed", "place": places[0]} if places else {"text": string, "rev": rev}
    return [
        (text(0, end), {"text": string, "rev": rev}),
        (text(0, end + 1), PAST),
        ({"op": "errors", "from": 0, "max": 10}, {"errors": places, "total": total, "rev": rev}),
        (text(0, end, mode="fatal"), fatal),
    ]


# 64 documents of one letter, and then commands of the document named, with their replies.
SIXTY_FOUR = [(f"d{n}", opens("UTF-8", b"a"), open_reply("UTF-8", b"a")) for n in range(64)]
ONE_MORE = [
    ("e", opens("UTF-8", b"a"), {"fault": "TooManyDocuments"}),
    ("d63", opens("UTF-8", b"a"), {"fault": "NameTaken"}),
    ("e", opens("sjis", b"a"), {"fault": "UnknownLabel"}),
    ("e", opens("KOI8-R", b"a"), {"fault": "NoIndex"}),
    ("e", text(0, 0), {"fault": "NoDocument"}),
    ("d63", splices(0, 0, 1, b"b"), open_reply("UTF-8", b"b", 1)),
    ("d63", text(0, 1), {"text": "b", "rev": 1}),
    ("d62", text(0, 1), {"text": "a", "rev": 0}),
    ("d0", {"op": "close"}, {"rev": 0}),
    ("e", opens("UTF-8", b"a"), open_reply("UTF-8", b"a")),
    ("f", opens("UTF-8", b"a"), {"fault": "TooManyDocuments"}),
]

MOST = 16_777_216
PART = 3_000_000  # bytes that a line carries
PARTS = MOST // PART


def by_parts(rev):
    """The document of the most bytes comes by parts, of which the one of this revision is the last; it may not be a byte longer."""
    at = rev * PART
    rest = min(PART, MOST - at)
    more = [(splices(rev - 1, at, 0, b"a" * (rest + 1)), {"fault": "TooLarge"})] if rest < PART else []
    return more + [(splices(rev - 1, at, 0, b"a" * rest), open_reply("UTF-8", b"a", rev))]


LONGEST = [
    (opens("UTF-8", b"a" * PART), open_reply("UTF-8", b"a")),
    *(row for rev in range(1, PARTS + 1) for row in by_parts(rev)),
    (splices(PARTS, 5, 0, b"b"), {"fault": "TooLarge"}),
    (splices(PARTS - 1, 5, 0, b"b"), {"fault": "Stale", "rev": PARTS}),
    (splices(PARTS, MOST + 1, 0, b"b"), PAST),
    (text(4, 7), {"text": "aaa", "rev": PARTS}),
    (splices(PARTS, 5, 1, b"b"), open_reply("UTF-8", b"a", PARTS + 1)),
    (text(4, 7), {"text": "aba", "rev": PARTS + 1}),
    (changes(PARTS + 1, change(0, 0, 0, "c"), change(0, 0, 1, "")), {"change": 0, "fault": "TooLarge"}),
    (changes(PARTS + 1, change(0, 0, 1, ""), change(0, 0, 0, "c"), change(0, 0, 0, "d")), {"change": 2, "fault": "TooLarge"}),
    (text(0, 2), {"text": "aa", "rev": PARTS + 1}),
    (changes(PARTS + 1, change(0, 0, 1, ""), change(0, 0, 0, "c")), {"applied": 2, **open_reply("UTF-8", b"a", PARTS + 2)}),
    (text(0, 2), {"text": "ca", "rev": PARTS + 2}),
]

# Letters that are put in one in front of the other, the most that a list has and one more.
LETTERS = [change(0, 0, 0, "abcdefghij"[number % 10]) for number in range(1001)]
LISTED = b"jihgfedcba" * 100
LONG_LISTS = [
    (opens("UTF-8", b""), open_reply("UTF-8", b"")),
    (changes(0, *LETTERS), {"fault": "BadRequest", "field": "changes"}),
    (changes(0, *LETTERS[:999], change(0, 0, 0, None)), {"fault": "BadRequest", "field": "changes"}),
    (changes(0, *LETTERS[:999], change(0, 1, 0, "")), {"change": 999, "fault": "OutOfRange"}),
    *has_bytes(b"", 0),
    (changes(0, *LETTERS[:1000]), {"applied": 1000, **open_reply("UTF-8", LISTED, 1)}),
    *has_bytes(LISTED, 1),
]


@built
class Documents(Played):
    def answers(self, rows):
        """The commands, of the documents named, have these replies."""
        written = []
        for number, (name, command, reply) in enumerate(rows):
            reply = json.dumps({**reply, "id": number}, ensure_ascii=False, separators=(",", ":"), sort_keys=True)
            written.append((json.dumps({"id": number, "doc": name, **command}), reply))
        self.plays(written)

    def of_one(self, rows):
        self.answers([("d", *row) for row in rows])

    def test_rows_among_lines(self):
        for given, content, rows in ASKED:
            for line, more in AROUND:
                with self.subTest(f"{rows.__name__}, {line} lines before and {more} behind"):
                    content_there = surround(content, line, more)
                    self.of_one(whole(given, content_there) + rows(line, 2 * line, more))

    def test_changes_among_lines(self):
        for shows, given, content, begin, end, new, wanted, arounds in CHANGED:
            for line, more in arounds:
                with self.subTest(f"{shows}, {line} lines before and {more} behind"):
                    before = surround(content, line, more)
                    rows = becomes(given, before, change(line, begin, end, new), wanted, line, more)
                    self.of_one(whole(given, before) + rows)
                    for number in (0,) if given == "replacement" else (0, 2):
                        self.of_one(whole(given, before) + of_a_list(rows, number))

    def test_documents_spliced_together(self):
        for given, content, string, places in DECODED:
            for made in whole, from_the_front, from_the_back:
                with self.subTest(f"{given} {content.hex()}, {made.__name__}"):
                    rows = made(given, content)
                    self.of_one(rows + decodes(len(rows) - 1, string, places))

    def test_a_line_end_wherever_it_is_cut(self):
        content = b"a" * 2047 + b"\r\n"
        lengths = {"bytes": 2049, "errors": 0, "lines": 2, "utf8": 2049, "utf16": 2049, "utf32": 2049}
        stat = {**lengths, "given": "UTF-8", **open_reply("UTF-8", content, 1)}
        for at in 0, 1, 512, 1024, 2046, 2047, 2048, 2049:
            with self.subTest(at):
                edit = splices(0, 0, 0, content[:at]), open_reply("UTF-8", content, 1)
                self.of_one(whole("UTF-8", content[at:]) + [edit, ({"op": "stat"}, stat)])

    def test_a_text_of_many_blocks_encoded(self):
        encoded = base64_of(b"\x1b$B" + b"$\"" * 3000 + b"\x1b(B")
        command = {"op": "encode", "from": 0, "to": 3000, "label": "iso-2022-jp"}
        self.of_one(whole("UTF-8", ("\u3042" * 3000).encode()) + [(command, {"bytes": encoded, "rev": 0})])

    def test_sixty_four_documents_and_one_more(self):
        self.answers(SIXTY_FOUR + ONE_MORE)

    def test_the_longest_document(self):
        self.of_one(LONGEST)

    def test_the_longest_list_of_changes(self):
        self.of_one(LONG_LISTS)


if __name__ == "__main__":
    unittest.main()
