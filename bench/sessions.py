"""Sessions of JSON lines over documents made from fixed seeds."""

import base64
import json
import random
from typing import Callable, Dict, List, NamedTuple, Tuple

# Ordinary text of each encoding: words of its usual letters, with spaces, digits, tags and line ends.
SAMPLES = {
    "utf-8": ("Die Straße führt über die Brücke zum Café, où l'on boit du thé. 東京へ行く。 ", "utf-8"),
    "shift_jis": ("吾輩は猫である。名前はまだ無い。どこで生れたか、とんと見当がつかぬ。<p>ABC 123</p> ", "cp932"),
    "gb18030": ("学而时习之，不亦说乎？有朋自远方来，不亦乐乎？<p>ABC 123</p> ", "gb18030"),
    "big5": ("學而時習之，不亦說乎？有朋自遠方來，不亦樂乎？<p>ABC 123</p> ", "big5"),
    "euc-kr": ("나랏말싸미 듕귁에 달아 문자와로 서르 사맛디 아니할쎄. <p>ABC 123</p> ", "cp949"),
    "iso-2022-jp": ("吾輩は猫である。名前はまだ無い。<p>ABC 123</p> ", "iso2022_jp"),
    "utf-16le": ("Die Straße führt über die Brücke. 東京へ行く。 ", "utf-16-le"),
    "windows-1251": ("Все счастливые семьи похожи друг на друга. <p>ABC 123</p> ", "cp1251"),
}


# An error of each encoding that has any, behind which a line end is decoded as ever.
ERRORS = {"utf-16le": b"\x00\xd8"}
ANY_ERROR = b"\xff"
ERRING = tuple(label for label in SAMPLES if label != "windows-1251")

# What makes a session of rounds, by an encoding, how many bytes a document has, and how many rounds there are.
Sessions = Callable[[str, int, int], bytes]

# The most bytes of a document, and how many a document here lacks to them, for what its session puts in.
LIMIT, SPARE = 16_777_216, 4096

# How many bytes of a document a line has room for: a longer document comes by parts.
PART = 2_097_152


def document(label: str, size: int, seed: int = 1, error: bytes = b"") -> bytes:
    """Bytes of about this size, cut into lines; they decode without errors, but for one of these at each line's end."""
    text, codec = SAMPLES[label]
    size = min(size, LIMIT - SPARE)
    words = text.split(" ")
    rng = random.Random(f"{label} {size} {seed}")
    parts: List[bytes] = []
    length = 0
    while length < size:
        line = " ".join(rng.choice(words) for _ in range(rng.randrange(3, 15)))
        part = line.encode(codec, "ignore") + error + "\r\n".encode(codec)
        parts.append(part)
        length += len(part)
    # The last line that would pass the size is left out.
    parts.pop()
    return b"".join(parts)


def b64(data: bytes) -> str:
    return base64.b64encode(data).decode()


class Session:
    """Commands with numbers in a row, and the revision that the next edit names."""

    def __init__(self) -> None:
        self.lines: List[str] = []
        self.revision = 0

    def add(self, op: str, **fields: object) -> None:
        self.lines.append(json.dumps({"id": len(self.lines), "op": op, **fields}, ensure_ascii=False))

    def edit(self, op: str, **fields: object) -> None:
        self.add(op, rev=self.revision, **fields)
        self.revision += 1

    def sent_bytes(self) -> bytes:
        return "".join(line + "\n" for line in self.lines).encode()


def edits(label: str, size: int, count: int) -> bytes:
    """Splices of ASCII letters behind line ends, each with a short text behind it, taken back by the next."""
    data, session = open_session(label, size)
    rng = random.Random(f"edits {label} {size}")
    places = line_starts(label, data)
    letter = b"a\0" if label == "utf-16le" else b"a"
    for _ in range(count):
        at = rng.choice(places)
        session.edit("splice", doc="d", at=at, **{"del": 0}, bytes=b64(letter))
        session.add("text", doc="d", **{"from": 100, "to": 200})
        session.edit("splice", doc="d", at=at, **{"del": len(letter)}, bytes="")
    return session.sent_bytes()


def changes(label: str, size: int, count: int) -> bytes:
    """Changes by line and character, each taken back by the next."""
    data, session = open_session(label, size)
    lines = len(line_starts(label, data))
    rng = random.Random(f"changes {label} {size}")
    for _ in range(count):
        line = rng.randrange(lines)
        start, end = {"line": line, "character": 0}, {"line": line, "character": 2}
        session.edit("change", doc="d", range={"start": start, "end": start}, text="ab")
        session.edit("change", doc="d", range={"start": start, "end": end}, text="")
    return session.sent_bytes()


def positions(label: str, size: int, count: int) -> bytes:
    """Positions and offsets in each unit in a document that stays as it is."""
    data, session = open_session(label, size)
    session.add("stat", doc="d")
    lines = len(line_starts(label, data))
    rng = random.Random(f"positions {label} {size}")
    units = ("utf-8", "utf-16", "utf-32")
    for n in range(count):
        session.add("offset", doc="d", line=rng.randrange(lines), character=0, unit=units[n % 3])
        session.add("position", doc="d", offset=rng.randrange(len(data) // 4), unit=units[n % 3])
    return session.sent_bytes()


def pages(label: str, size: int, count: int) -> bytes:
    """Pages of a thousand lines, and ranges of a thousand code points in UTF-8."""
    data, session = open_session(label, size)
    session.add("stat", doc="d")
    lines = len(line_starts(label, data))
    rng = random.Random(f"pages {label} {size}")
    for _ in range(count):
        session.add("lines", doc="d", **{"from": rng.randrange(lines), "max": 1000})
        start = rng.randrange(len(data) // 8)
        session.add("encode", doc="d", **{"from": start, "to": start + 1000}, label="utf-8")
    return session.sent_bytes()


def error_pages(label: str, size: int, count: int) -> bytes:
    """Pages of a thousand errors, in a document with an error on each line."""
    data, session = open_session(label, size, ERRORS.get(label, ANY_ERROR))
    errors = len(line_starts(label, data))
    rng = random.Random(f"error pages {label} {size}")
    for _ in range(count):
        session.add("errors", doc="d", **{"from": rng.randrange(errors), "max": 1000})
    return session.sent_bytes()


def texts(label: str, size: int, count: int) -> bytes:
    """Long ranges of code points, each as text and in UTF-8."""
    _, session = open_session(label, size)
    session.add("stat", doc="d")
    rng = random.Random(f"texts {label} {size}")
    for _ in range(count):
        start = rng.randrange(size // 8)
        of = {"from": start, "to": start + size // 32}
        session.add("text", doc="d", **of)
        session.add("encode", doc="d", **of, label="utf-8")
    return session.sent_bytes()


def openings(label: str, size: int, count: int) -> bytes:
    """Documents opened one after another, each with a short text of it, and closed."""
    data = b64(document(label, size))
    session = Session()
    for _ in range(count):
        session.add("open", doc="d", label=label, bytes=data)
        session.add("text", doc="d", **{"from": 0, "to": 10})
        session.add("close", doc="d")
    return session.sent_bytes()


def bulk(label: str, size: int, count: int) -> bytes:
    """Documents opened one after another: a long text of each, the same range in UTF-8, and its errors."""
    data = document(label, size)
    session = Session()
    for n in range(count):
        name = f"d{n}"
        session.add("open", doc=name, label=label, bytes=b64(data))
        session.add("text", doc=name, **{"from": 0, "to": size // 8})
        session.add("encode", doc=name, **{"from": 0, "to": size // 8}, label="utf-8")
        session.add("errors", doc=name, **{"from": 0, "max": 100})
    return session.sent_bytes()


def many(label: str, size: int, count: int) -> bytes:
    """Documents that stay open, each with a short text of it, by which all of it is decoded."""
    data = b64(document(label, size))
    session = Session()
    for n in range(count):
        session.add("open", doc=f"d{n}", label=label, bytes=data)
        session.add("text", doc=f"d{n}", **{"from": 0, "to": 10})
    return session.sent_bytes()


def lists(of: int) -> Sessions:
    """Lists of `of` changes by line and character, each list taken back by the next."""

    def session_of(label: str, size: int, count: int) -> bytes:
        data, session = open_session(label, size)
        lines = len(line_starts(label, data))
        rng = random.Random(f"lists of {of} {label} {size}")
        for _ in range(count):
            # Each change is planned on the result of the one before: those of different lines don't meet.
            starts = [{"line": line, "character": 0} for line in rng.sample(range(lines), of)]
            ends = [{**start, "character": 2} for start in starts]
            put = [{"range": {"start": start, "end": start}, "text": "ab"} for start in starts]
            taken = [{"range": {"start": start, "end": end}, "text": ""} for start, end in zip(starts, ends)]
            session.edit("changes", doc="d", changes=put)
            session.edit("changes", doc="d", changes=taken)
        return session.sent_bytes()

    return session_of


def line_starts_asked(label: str, size: int, count: int) -> bytes:
    """The first line of a page that starts anywhere."""
    data, session = open_session(label, size)
    lines = len(line_starts(label, data))
    rng = random.Random(f"line starts {label} {size}")
    for _ in range(count):
        session.add("lines", doc="d", **{"from": rng.randrange(lines), "max": 1})
    return session.sent_bytes()


def error_starts_asked(label: str, size: int, count: int) -> bytes:
    """The first error of a page that starts anywhere, in a document with an error on each line."""
    data, session = open_session(label, size, ERRORS.get(label, ANY_ERROR))
    errors = len(line_starts(label, data))
    rng = random.Random(f"error starts {label} {size}")
    for _ in range(count):
        session.add("errors", doc="d", **{"from": rng.randrange(errors), "max": 1})
    return session.sent_bytes()


def last_bytes(label: str, size: int, count: int) -> bytes:
    """The last thousand bytes."""
    data, session = open_session(label, size)
    for _ in range(count):
        session.add("source", doc="d", at=len(data) - 1000, len=1000)
    return session.sent_bytes()


def last_text(label: str, size: int, count: int) -> bytes:
    """The last thousand code points."""
    data, session = open_session(label, size)
    end = len(data.decode(SAMPLES[label][1]))
    for _ in range(count):
        session.add("text", doc="d", **{"from": end - 1000, "to": end})
    return session.sent_bytes()


def put_in_front(letter_of: Callable[[str], bytes]) -> Sessions:
    """Splices of the same bytes at the front, each taken back by the next."""

    def session_of(label: str, size: int, count: int) -> bytes:
        _, session = open_session(label, size)
        put = letter_of(label)
        for _ in range(count):
            session.edit("splice", doc="d", at=0, **{"del": 0}, bytes=b64(put))
            session.edit("splice", doc="d", at=0, **{"del": len(put)}, bytes="")
        return session.sent_bytes()

    return session_of


def letter(label: str) -> bytes:
    return "a".encode("utf-16-le" if label == "utf-16le" else "ascii")


def open_session(label: str, size: int, error: bytes = b"") -> Tuple[bytes, Session]:
    """The bytes of a document, and a session that opens it, by parts where it is long, and has its text made."""
    data = document(label, size, error=error)
    session = Session()
    session.add("open", doc="d", label=label, bytes=b64(data[:PART]))
    for at in range(PART, len(data), PART):
        session.edit("splice", doc="d", at=at, **{"del": 0}, bytes=b64(data[at : at + PART]))
    session.add("text", doc="d", **{"from": 0, "to": 1})
    return data, session


def line_starts(label: str, data: bytes) -> List[int]:
    """Places behind a line end, where a letter can be put in: every encoding is in its first state there."""
    end = "\r\n".encode("utf-16-le") if label == "utf-16le" else b"\r\n"
    places, at = [], data.find(end)
    while at >= 0:
        if label != "utf-16le" or at % 2 == 0:
            places.append(at + len(end))
        at = data.find(end, at + len(end))
    return places


SIZES = {"64K": 65_536, "256K": 262_144, "1M": 1_048_576, "2M": 2_097_152, "16M": LIMIT}
# The sizes of documents that the peer, which decodes all of one after each edit, is measured with.
PEER_SIZES = ("64K", "256K", "1M", "2M")
# Those at which what grows with a document shows.
GROWING = ("64K", "2M", "16M")

class Rounds(NamedTuple):
    """How many rounds each program takes: the peer's are the first of gate's, and none of what it doesn't know."""

    gate: int
    peer: int


class Kind(NamedTuple):
    """What its session is, its rounds, and the sizes and encodings that it is measured with."""

    session: Sessions
    rounds: Rounds
    sizes: Tuple[str, ...] = PEER_SIZES
    encodings: Tuple[str, ...] = tuple(SAMPLES)


def of_gate(session: Sessions, rounds: int, encodings: Tuple[str, ...] = tuple(SAMPLES)) -> Kind:
    """A kind that gate alone is measured with."""
    return Kind(session, Rounds(rounds, 0), GROWING, encodings)


KINDS: Dict[str, Kind] = {
    "edits": Kind(edits, Rounds(2000, 10), (*PEER_SIZES, "16M")),
    "changes": Kind(changes, Rounds(2000, 5), (*PEER_SIZES, "16M")),
    "positions": Kind(positions, Rounds(5000, 5000)),
    "pages": Kind(pages, Rounds(600, 600)),
    "error-pages": Kind(error_pages, Rounds(600, 600), encodings=ERRING),
    "texts": Kind(texts, Rounds(300, 300)),
    "opening": Kind(openings, Rounds(20, 20), ("64K", "2M")),
    "bulk": Kind(bulk, Rounds(10, 10)),
    "many": Kind(many, Rounds(64, 64), ("64K", "2M")),
    "lists-of-1": Kind(lists(1), Rounds(2000, 30), GROWING),
    "lists-of-10": Kind(lists(10), Rounds(500, 3), GROWING),
    "line-starts": of_gate(line_starts_asked, 20_000),
    "error-starts": of_gate(error_starts_asked, 20_000, ERRING),
    "last-bytes": of_gate(last_bytes, 10_000),
    "last-text": of_gate(last_text, 10_000),
    "front": of_gate(put_in_front(letter), 1000),
    "one-byte": of_gate(put_in_front(lambda label: b"a"), 20, ("utf-16le",)),
    "mark": of_gate(put_in_front(lambda label: b"\xef\xbb\xbf"), 20),
}
