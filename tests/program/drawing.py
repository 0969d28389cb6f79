"""Documents, changes of a range and splices that look random, and are the same in each run."""
from encoding_rows import ENCODINGS
from plain import Change

# What documents in each encoding are made of, with line ends at last; what all have beside that; and byte order marks.
OWN = {given: it.own for given, it in ENCODINGS.items()}
COMMON = [b"a", b"a word, and another one", b"\r\n", b"\n\r", b"\0", b"\x80", b"\xff\xfe", b"\xef\xbb\xbf"]
MARKS = [b"\xef\xbb\xbf", b"\xfe\xff", b"\xff\xfe"]

# Texts that some encodings have and others don't, or that are decoded to others than they were, and those that mean
# something in lines, in escapes and at a document's start.
TEXTS = [
    *("a", "Z", "1", "\\", "~", "\r", "\n", "\r\n", "\0", "\x0e", "\x1b", "(B", "(J", "(I", "$@", "$B", "\x80", "\xa5", "\xbb"),
    *("\xca", "\xe9", "\u0304", "\u02d8", "\u203e", "\u20ac", "\u2212", "\u3000", "\u3002", "\u3042", "\u4e00", "\u4e9c"),
    *("\uac00", "\ue78d", "\uf7ff", "\ufeff", "\uff71", "\ufffd", "\U0001f600", "\U0010ffff"),
]

# Bytes that mean something in one encoding or another: escapes, leads, trails, marks, line ends. With as many letters they
# are what each byte that is drawn counts as.
BYTES = bytes.fromhex("000a0d0e1b2428293032353d404142494a5c61627e808182888e8f90989fa0a1a4acb0bbbfd8effe")
COUNTS_AS = (b"a" * len(BYTES) + BYTES) * 3 + b"a" * 16

UNITS = ["utf-8", "utf-16", "utf-32"]
# The greatest character that a position may have.
FARTHEST = 9_007_199_254_740_991


def content(rng, given, length):
    """`length` bytes, some with many errors, some with none, a few nothing but line ends."""
    own = OWN[given][rng.randint(0, len(OWN[given])) :] or [b"a"]
    common = rng.randrange(5)
    parts, count = [], 0
    while count < length:
        part = rng.choice(COMMON if rng.randrange(8) < common else own)[: rng.randint(1, 31)]
        parts.append(part)
        count += len(part)
    return b"".join(parts)[:length]


def marked_content(rng, given, length):
    """The same, at times behind a byte order mark."""
    return (rng.choice(MARKS) if rng.randrange(8) == 0 else b"") + content(rng, given, length)


def new_text(rng, own):
    """A part of a text, mostly a short one, or a few others in a row."""
    if rng.randrange(2):
        return "".join(rng.choice(TEXTS) for _ in range(rng.randint(0, 3)))
    rest = own[rng.randint(0, len(own)) :]
    return rest[: rng.randint(0, min(len(rest), rng.choice([4, 4, 4, 4, 4, 4, 4, 2000])))]


def shifted_position(rng, position):
    """The position, or now and then one a unit behind it, one with another line, or the farthest of its line."""
    line, character = position
    shift = rng.randrange(32)
    if shift < 4:
        return line, character + 1
    return {4: (line + 1, character), 5: (max(0, line - 1), character), 6: (line, FARTHEST)}.get(shift, position)


def change(rng, document):
    """A change of a document, mostly of few code points, and now and then of all or with its start behind its end."""
    unit, text, count = rng.choice(UNITS), new_text(rng, document.text), len(document.text)
    if rng.randrange(64) == 0:
        return Change(None, unit, text)
    begin = rng.randint(0, rng.choice([0, count, count, count]))
    end = min(count, begin + rng.randint(0, rng.choice([0, 1, 4, 4, 4, 4, 40, 4000])))
    start, end = (shifted_position(rng, document.position(offset, unit)) for offset in (begin, end))
    return Change((start, end) if rng.randrange(32) else (end, start), unit, text)


def splice(rng, length):
    """A splice of `length` bytes: where, how many go out, and what comes in: mostly few, at times many, and at times at the
    front, where a byte order mark comes or goes."""
    if rng.randrange(8) == 0:
        return 0, rng.randint(0, min(length, 4)), rng.choice(MARKS)[: rng.randint(0, 3)]
    put = rng.randint(0, rng.choice([9000, 700, 8, 8, 8, 8, 8, 8]))
    at = rng.randint(0, length)
    left = length - at
    gone = rng.randint(0, rng.choice([left, left, left, min(left, 5000)] + [min(left, 8)] * 6))
    drawn = rng.getrandbits(8 * put + 1) >> 1
    return at, gone, drawn.to_bytes(put, "little").translate(COUNTS_AS)
