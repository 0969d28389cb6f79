"""Documents computed plainly, with which those of the program are compared: bytes decoded from scratch by the rules of
docs/ENCODINGS.md over the small index files, with a regular expression for which bytes are an item; texts encoded; lines and
positions; and changes of a range, planned from the whole."""
import bisect
import functools
import itertools
import re
from typing import NamedTuple, Optional

from encoding_rows import ENCODINGS
from program import TOP

# The most bytes of a document.
LIMIT = 16_777_216

# What an error is in a text that was decoded, before it is U+FFFD there: no scalar value, and so no text.
ERROR, REPLACEMENT = "\udfff", "\ufffd"

INDEXES = TOP / "examples" / "indexes"


def rows(name):
    """The fields of each line of a small index file."""
    lines = (INDEXES / f"{name}.txt").read_text().splitlines()
    return [line.split("\t") for line in lines if line and not line.startswith("#")]


def index(name):
    """The code points of an index, by their pointers. None of the small files has a code point twice."""
    return {int(pointer): chr(int(point, 16)) for pointer, point in rows(f"index-{name}")}


class Known(dict):
    """What a rule says of each key, looked up once."""

    def __init__(self, rule):
        super().__init__()
        self.rule = rule

    def __missing__(self, key):
        found = self[key] = self.rule(key)
        return found


def pairs(encoding, pointers):
    """The code points of pointers, by their two bytes."""
    leads, trails = ENCODINGS[encoding].paired
    return {bytes([leads[it // len(trails)], trails[it % len(trails)]]): point for it, point in pointers.items()}


def singles(first, last, point):
    """The code points from one on, by the bytes from the first to the last."""
    return {bytes([byte]): chr(point + byte - first) for byte in range(first, last + 1)}


ASCII, JIS0208, RANGES = singles(0, 0x7F, 0), index("jis0208"), index("gb18030-ranges")
PRIVATE = {pointer: chr(0xE000 + pointer - 8836) for pointer in range(8836, 10716)}
# The encodings of ASCII and pairs over an index of their own, with the pointers that have something else.
OVER_OWN = {given: it.over_own for given, it in ENCODINGS.items() if it.over_own is not None}

# What bytes are decoded to where nothing in front of them matters: one code point, or the two of an item.
READ = {
    "Shift_JIS": {**ASCII, b"\x80": "\x80", **singles(0xA1, 0xDF, 0xFF61), **pairs("Shift_JIS", {**JIS0208, **PRIVATE})},
    "EUC-JP": {
        **ASCII,
        **{b"\x8e" + byte: point for byte, point in singles(0xA1, 0xDF, 0xFF61).items()},
        **{b"\x8f" + pair: point for pair, point in pairs("EUC-JP", index("jis0212")).items()},
        **pairs("EUC-JP", JIS0208),
    },
    **{given: {**ASCII, **pairs(given, {**index(given.lower()), **others})} for given, others in OVER_OWN.items()},
    "gb18030": {**ASCII, b"\x80": "\u20ac", **pairs("gb18030", index("gb18030"))},
    "windows-1252": {**ASCII, **{bytes([0x80 + pointer]): point for pointer, point in index("windows-1252").items()}},
    "x-user-defined": {**ASCII, **singles(0x80, 0xFF, 0xF780)},
}
READ["GBK"] = READ["gb18030"]


def four_bytes(item):
    """What four bytes of gb18030 are decoded to, by the ranges."""
    first, second, third, fourth = item
    pointer = (first - 0x81) * 12600 + (second - 0x30) * 1260 + (third - 0x81) * 10 + fourth - 0x30
    if pointer == 7457:
        return "\ue7c7"
    if 39419 < pointer < 189000 or pointer > 1237575:
        return ERROR
    start = max(it for it in RANGES if it <= pointer)
    return chr(ord(RANGES[start]) + pointer - start)


def unicode_item(codec):
    """What the bytes of an item are decoded to by a codec of Python."""

    def decoded(item):
        try:
            return item.decode(codec)
        except UnicodeDecodeError:
            return ERROR

    return Known(decoded)


def table_item(encoding):
    """The same by the table of an encoding."""
    table = READ[encoding]
    return Known(lambda item: four_bytes(item) if len(item) == 4 else table.get(item, ERROR))


def pattern(*forms):
    """The bytes of an item, which are of the first of these forms that they have, or one byte."""
    return re.compile(b"|".join([*forms, b"."]), re.DOTALL)


def by_lead(encoding, leads, *forms):
    """The same where a lead takes the byte behind it along, but an ASCII byte only where the two have a code point."""
    taken = {}
    for item in READ[encoding]:
        if len(item) == 2 and item[1] < 0x80:
            taken[item[:1]] = taken.get(item[:1], b"") + re.escape(item[1:])
    known = (re.escape(lead) + b"[" + trails + b"]" for lead, trails in taken.items())
    return pattern(*forms, *known, leads + b"[\x80-\xff]?")


# Of sequences that break off the longest front of one is an error.
UTF_8 = pattern(
    b"[\xc2-\xdf][\x80-\xbf]?",
    b"\xe0(?:[\xa0-\xbf][\x80-\xbf]?)?|\xed(?:[\x80-\x9f][\x80-\xbf]?)?|[\xe1-\xef][\x80-\xbf]{0,2}",
    b"\xf0(?:[\x90-\xbf][\x80-\xbf]{0,2})?|\xf4(?:[\x80-\x8f][\x80-\xbf]{0,2})?|[\xf1-\xf3][\x80-\xbf]{0,3}",
)
# A lead surrogate takes a trail surrogate along, or the one byte behind it at the end.
UTF_16LE = pattern(b".[\xd8-\xdb].[\xdc-\xdf]", b".[\xd8-\xdb].\\Z", b"..")
UTF_16BE = pattern(b"[\xd8-\xdb].[\xdc-\xdf].", b"[\xd8-\xdb]..\\Z", b"..")
# Four bytes, or at the end what there is of them.
FOUR = b"[\x81-\xfe][0-9][\x81-\xfe][0-9]", b"[\x81-\xfe][0-9][\x81-\xfe]?\\Z"

# By which form items are found in the bytes, and what each is decoded to.
ITEMS = {
    "UTF-8": (UTF_8, unicode_item("utf-8")),
    "UTF-16LE": (UTF_16LE, unicode_item("utf-16-le")),
    "UTF-16BE": (UTF_16BE, unicode_item("utf-16-be")),
    "Shift_JIS": (by_lead("Shift_JIS", b"[\x81-\x9f\xe0-\xfc]"), table_item("Shift_JIS")),
    "EUC-JP": (by_lead("EUC-JP", b"[\x8e\x8f\xa1-\xfe]", b"\x8f[\xa1-\xfe][\x80-\xff]?"), table_item("EUC-JP")),
    **{given: (by_lead(given, b"[\x81-\xfe]"), table_item(given)) for given in OVER_OWN},
    "gb18030": (by_lead("gb18030", b"[\x81-\xfe]", *FOUR), table_item("gb18030")),
    "GBK": (by_lead("GBK", b"[\x81-\xfe]", *FOUR), table_item("GBK")),
    "windows-1252": (pattern(), table_item("windows-1252")),
    "x-user-defined": (pattern(), table_item("x-user-defined")),
}

# The escapes of ISO-2022-JP, and what bytes are decoded to behind each: single ones, but pairs in jis0208.
IN_ASCII, IN_ROMAN, IN_KATAKANA, IN_JIS0208 = b"\x1b(B", b"\x1b(J", b"\x1b(I", b"\x1b$B"
ESCAPE = re.compile(b"(\x1b(?:\\([BJI]|\\$[@B]))")
PLAIN = {byte: point for byte, point in ASCII.items() if point not in "\x0e\x0f\x1b"}
SETS = {
    IN_ASCII: PLAIN,
    IN_ROMAN: {**PLAIN, b"\\": "\xa5", b"~": "\u203e"},
    IN_KATAKANA: singles(0x21, 0x5F, 0xFF61),
    IN_JIS0208: pairs("ISO-2022-JP", JIS0208),
}
PAIR = pattern(b"[\x21-\x7e].?")
SINGLE = {now: {byte: known.get(bytes([byte]), ERROR) for byte in range(256)} for now, known in SETS.items()}


def escape_of(found):
    """The escape that stands for this one: of the two that lead to jis0208 the one that is written."""
    return IN_JIS0208 if found == b"\x1b$@" else found


def shifted_items(data, at):
    """What `items` returns of ISO-2022-JP. An escape counts wherever it is, and says what the bytes up to the next are."""
    parts, points, ends, end, now = ESCAPE.split(data[at:]), [], [at], at, IN_ASCII
    for number, part in enumerate(parts):
        if number % 2:
            end, now = end + len(part), escape_of(part)
            if number > 1 and not parts[number - 1]:  # The second of two in a row is an error.
                points.append(ERROR)
                ends.append(end)
        elif now == IN_JIS0208:
            found = PAIR.findall(part)
            for item in found:
                end += len(item)
                if len(item) == 2 and item[1:] == b"\x1b":  # A lead without its trail, and then an escape that is none.
                    points.append(ERROR)
                    ends.append(end)
                points.append(SETS[now].get(item, ERROR))
                ends.append(end)
            if found and number + 1 < len(parts) and len(found[-1]) == 1 and b"!" <= found[-1] <= b"~":
                ends[-1] += 1  # The error of a lead without its trail ends behind the first byte of the escape.
        else:
            points.append(part.decode("latin-1").translate(SINGLE[now]))
            ends += range(end + 1, end + len(part) + 1)
            end += len(part)
    return "".join(points), ends, frozenset()


def items(encoding, data, at):
    """What the bytes from `at` on are decoded to, with ERROR for each error; where the items of the first n code points end;
    and the numbers of the code points whose item the one in front of them has too."""
    if encoding == "replacement":
        return (ERROR, [at, at + 1], frozenset()) if len(data) > at else ("", [at], frozenset())
    if encoding == "ISO-2022-JP":
        return shifted_items(data, at)
    form, read = ITEMS[encoding]
    found = form.findall(data, at)
    points = list(map(read.__getitem__, found))
    ends = list(itertools.accumulate(map(len, found), initial=at))
    marked = "".join(points)
    if len(marked) == len(found):
        return marked, ends, frozenset()
    counts = list(map(len, points))
    inside = frozenset(number - 1 for number, count in zip(itertools.accumulate(counts), counts) if count == 2)
    return marked, [at, *itertools.chain.from_iterable(map(itertools.repeat, ends[1:], counts))], inside


# What code points are encoded to.


def written(encoding, *names):
    """The bytes of ASCII and of the code points of an index."""
    known = {point: byte for byte, point in ASCII.items()}
    for name in names:
        known.update({point: pair for pair, point in pairs(encoding, index(name)).items()})
    return known


def with_kana(known, half):
    """With what Japanese encodings have beside an index, and the bytes of half-width katakana."""
    known.update({"\xa5": b"\\", "\u203e": b"~", "\u2212": known["\uff0d"]})
    known.update({point: half + byte for byte, point in singles(0xA1, 0xDF, 0xFF61).items()})
    return known


def in_four_bytes(point):
    """The four bytes of a code point in gb18030, by the ranges."""
    start = max((it for it in RANGES if RANGES[it] <= point), key=lambda it: RANGES[it])
    pointer = 7457 if point == "\ue7c7" else start + ord(point) - ord(RANGES[start])
    if 39419 < pointer < 189000 or point == "\ue5e5":
        return None
    return bytes([pointer // 12600 + 0x81, pointer // 1260 % 10 + 0x30, pointer // 10 % 126 + 0x81, pointer % 10 + 0x30])


EXCEPTIONS = {chr(int(point, 16)): bytes.fromhex(pair) for point, pair in rows("gb18030-exceptions")}
GB18030 = {**written("gb18030", "gb18030"), **EXCEPTIONS}
WRITE = {
    "UTF-8": Known(lambda point: point.encode("utf-8")),
    "UTF-16LE": Known(lambda point: point.encode("utf-16-le")),
    "UTF-16BE": Known(lambda point: point.encode("utf-16-be")),
    "Shift_JIS": Known({**with_kana(written("Shift_JIS", "jis0208"), b""), "\x80": b"\x80"}.get),
    "EUC-JP": Known(with_kana(written("EUC-JP", "jis0208"), b"\x8e").get),
    **{given: Known(written(given, given.lower()).get) for given in OVER_OWN},
    "gb18030": Known(lambda point: GB18030.get(point) or in_four_bytes(point)),
    "windows-1252": Known({point: byte for byte, point in READ["windows-1252"].items()}.get),
}
# In ISO-2022-JP with the escape that has to be in force.
SHIFTED = {
    **{point: (IN_JIS0208, pair) for pair, point in SETS[IN_JIS0208].items()},
    **{point: (IN_ROMAN, byte) for byte, point in SETS[IN_ROMAN].items()},
    **{point: (IN_ASCII, byte) for byte, point in SETS[IN_ASCII].items()},
}
SHIFTED["\u2212"] = SHIFTED["\uff0d"]
SHIFTED.update({chr(0xFF61 + pointer): SHIFTED[point] for pointer, point in index("iso-2022-jp-katakana").items()})


class Unencodable(Exception):
    """The code point of this number has no bytes; what a reply says of it. Only in ISO-2022-JP a control has none."""

    def __init__(self, number, point):
        super().__init__(number, point)
        named = REPLACEMENT if point in "\x0e\x0f\x1b" else point
        self.reply = {"fault": "Unencodable", "index": number, "code_point": ord(named)}


def encoded(encoding, text):
    """The bytes of a text in an encoding without escapes."""
    known = WRITE[encoding]
    parts = [known[point] for point in text]
    if None in parts:
        raise Unencodable(parts.index(None), text[parts.index(None)])
    return b"".join(parts)


def shifted(text, now):
    """The bytes of a text in ISO-2022-JP where an escape is in force, and the one in force behind them."""
    parts = []
    for number, point in enumerate(text):
        if point not in SHIFTED:
            raise Unencodable(number, point)
        wanted, part = SHIFTED[point]
        if wanted != now and not (now == IN_ROMAN and SETS[IN_ROMAN].get(part) == point):
            parts.append(wanted)
            now = wanted
        parts.append(part)
    return b"".join(parts), now


def in_force(front):
    """The escape in force behind these bytes."""
    found = ESCAPE.findall(front)
    return escape_of(found[-1]) if found else IN_ASCII


def shifted_between(front, taken, rest, text):
    """The bytes of a text in ISO-2022-JP between others, in the place of those that are taken out: they go on behind the
    first, and lead back to what is in force in front of the last unless these begin with an escape."""
    put, now = shifted(text, in_force(front))
    wanted = in_force(front + taken)
    return put if now == wanted or ESCAPE.match(rest) else put + wanted


# Documents.

MARKS = (b"\xef\xbb\xbf", "UTF-8"), (b"\xfe\xff", "UTF-16BE"), (b"\xff\xfe", "UTF-16LE")
LINE_END = re.compile("\r\n|\r|\n")
# The units of positions but code points: what Python calls them, and their bytes there.
UNITS = {"utf-8": ("utf-8", 1), "utf-16": ("utf-16-le", 2)}


def units(text, unit):
    """How many units a text has."""
    if unit == "utf-32" or text.isascii():
        return len(text)
    codec, width = UNITS[unit]
    return len(text.encode(codec)) // width


def taken_by(text, count, unit):
    """How many code points of a text its first units are, all if it has fewer; None inside a code point."""
    if unit == "utf-32" or text.isascii():
        return min(count, len(text))
    codec, width = UNITS[unit]
    try:
        return len(text.encode(codec)[: count * width].decode(codec))
    except UnicodeDecodeError:
        return None


class Document:
    """A document's bytes, and what decoding them from scratch gives. Where marks are not kept, one is looked for."""

    def __init__(self, given, kept, data):
        self.given, self.kept, self.data = given, kept, data
        self.encoding, self.bom = given, 0
        if not kept:
            for mark, encoding in MARKS:
                if data.startswith(mark):
                    self.encoding, self.bom = encoding, len(mark)
        # The text with ERROR for each error; where the items of the first n code points end; the numbers within an item.
        self.marked, self.ends, self.inside = items(self.encoding, data, self.bom)
        self.text = self.marked.replace(ERROR, REPLACEMENT)

    @functools.cached_property
    def lines(self):
        """From which code point to which each line is, without its end."""
        ends = list(LINE_END.finditer(self.text))
        return list(zip([0, *(it.end() for it in ends)], [*(it.start() for it in ends), len(self.text)]))

    @functools.cached_property
    def starts(self):
        return [start for start, _ in self.lines]

    def line_count(self):
        return self.text.count("\n") + self.text.count("\r") - self.text.count("\r\n") + 1

    def position(self, offset, unit):
        """The line and the character of an offset."""
        line = bisect.bisect_right(self.starts, offset) - 1
        start, end = self.lines[line]
        return line, units(self.text[start : min(offset, end)], unit)

    def offset(self, position, unit):
        """The offset of a line and a character; None inside a code point."""
        line, character = position
        if line >= len(self.lines):
            return len(self.text)
        start, end = self.lines[line]
        taken = taken_by(self.text[start:end], character, unit)
        return None if taken is None else start + taken

    def place(self, number):
        """From where to where the item of a code point is; None behind the last."""
        if number == len(self.text):
            return None
        return [self.ends[number - 1 if number in self.inside else number], self.ends[number + 1]]

    def complete(self, count):
        """How many code points are complete within `count` bytes."""
        return max(0, bisect.bisect_right(self.ends, count) - 1)

    @functools.cached_property
    def errors(self):
        """The numbers of the code points that are errors."""
        return [it.start() for it in re.finditer(ERROR, self.marked)]


class Change(NamedTuple):
    """A change of a range, from a line and a character to others in a unit, or of the whole text."""

    range: Optional[tuple]
    unit: str
    text: str


class Plan(NamedTuple):
    """The splice that a change is: where, what goes out and what comes in; the document that it leaves, and whether this has
    the text that the change asks for."""

    at: int
    old: bytes
    new: bytes
    left: Document
    kept: bool


def refused(fault):
    return {"fault": fault}


def bounds(document, change):
    """Between which code points a change replaces the text, or why it can't."""
    if change.range is None:
        return 0, len(document.text)
    start, end = change.range
    if start > end:
        return refused("OutOfRange")
    i, j = document.offset(start, change.unit), document.offset(end, change.unit)
    return refused("SplitsCharacter") if i is None or j is None else (i, j)


def cuts(document, change):
    """Between which code points, each of them an item's first or last, a change replaces the text, or why it can't."""
    found = bounds(document, change)
    return refused("SplitsItem") if isinstance(found, tuple) and any(it in document.inside for it in found) else found


def planned(document, change, beside=0):
    """The plan of a change, or the first cause that refuses it, of a document that has `beside` bytes more."""
    found = cuts(document, change)
    if isinstance(found, dict):
        return found
    if document.encoding == "replacement":
        return refused("NoEncoder")
    left, right = (document.ends[it] for it in found)
    front, old, rest = document.data[:left], document.data[left:right], document.data[right:]
    try:
        if document.encoding == "ISO-2022-JP":
            new = shifted_between(front, old, rest, change.text)
        else:
            new = encoded(document.encoding, change.text)
    except Unencodable as fault:
        return fault.reply
    return put_in(document, change, new, beside)


def put_in(document, change, new, beside=0):
    """The same by given bytes, in the place of the encoder's."""
    found = cuts(document, change)
    if isinstance(found, dict):
        return found
    i, j = found
    left, right = document.ends[i], document.ends[j]
    front, old, rest = document.data[:left], document.data[left:right], document.data[right:]
    if len(front) + len(new) + len(rest) + beside > LIMIT:
        return refused("TooLarge")
    after = Document(document.given, document.kept, front + new + rest)
    text = document.text
    return Plan(left, old, new, after, after.text == text[:i] + change.text + text[j:])
