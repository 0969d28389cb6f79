"""Where a long file is cut into parts that decode as they do in the file: after bytes that leave the decoder in its first state.

In all encodings except UTF-16 and ISO-2022-JP, a byte of ASCII ends the character or the error that it is in, and leaves the
decoder in its first state. Only a digit in GBK and gb18030 may be the second of four bytes. In UTF-16 that state follows each
code unit that isn't a lead surrogate. In ISO-2022-JP a line feed leaves ASCII or JIS X 0201's Latin letters as the last escape
has set them. A part in the second state is decoded after its escape. CR LF is never cut."""
from typing import Callable, Iterator, NamedTuple, Optional, Protocol, Tuple

# The most bytes of a part. If there is nowhere to cut it, `MOST` are.
PART, MOST = 1 << 21, 1 << 23
# Bytes of ASCII, except CR.
ASCII = bytes(it for it in range(0x80) if it != 0x0D)
DIGITS = b"0123456789"
# The escapes of ISO-2022-JP to states in which a line feed is a line feed. With each is what a part in that state begins with: the
# escape, and a line feed that isn't the file's.
HEADS = {b"\x1b(B": b"", b"\x1b(J": b"\x1b(J\n"}
ESCAPE = b"\x1b"


class Part(NamedTuple):
    """A part of a file, by its first byte and the one after the last. What is looked at begins at `start` and ends at `stop`, since
    it has bytes of the parts beside it. The bytes `head` bring a decoder into the state that it has at the start."""

    start: int
    begin: int
    end: int
    stop: int
    head: bytes = b""
    is_last: bool = False

    @property
    def is_first(self) -> bool:
        """Whether the file begins with it."""
        return self.begin == 0


class Uncut(Exception):
    """There is nowhere to cut a file."""


# What finds the last place at which bytes may be cut, and the head there. It is given the bytes, the first and the last place that
# may be, and the head of their start.
Last = Callable[[bytes, int, int, bytes], Optional[Tuple[int, bytes]]]


def last_cut(encoding: str) -> Last:
    """How the places are found in an encoding."""
    if encoding == "ISO-2022-JP":
        return _in_escapes
    if encoding in ("UTF-16LE", "UTF-16BE"):
        return _little if encoding == "UTF-16LE" else _big
    return _in_fours if encoding in ("GBK", "gb18030") else _in_bytes


def _in_bytes(content: bytes, least: int, most: int, _: bytes) -> Optional[Tuple[int, bytes]]:
    return _behind(content, least, most, ASCII)


def _in_fours(content: bytes, least: int, most: int, _: bytes) -> Optional[Tuple[int, bytes]]:
    return _behind(content, least, most, ASCII.translate(None, DIGITS))


def _behind(content: bytes, least: int, most: int, alone: bytes) -> Optional[Tuple[int, bytes]]:
    at = content.rfind(b"\n", least, most)
    if at < 0:
        at = max(content.rfind(bytes([it]), least, most) for it in alone)
        # (a CR of which the next byte is known)
        cr = content.rfind(b"\r", max(least, at), min(most, len(content) - 1))
        at = cr if cr > at and content[cr + 1 : cr + 2] != b"\n" else at
    return None if at < 0 else (at + 1, b"")


def _in_units(content: bytes, least: int, most: int, order: str) -> Optional[Tuple[int, bytes]]:
    line_feed = "\n".encode(f"utf-16-{order}")
    at = most
    while at > least:
        at = content.rfind(line_feed, least, at)
        if at < 0:
            break
        if at % 2 == 0:
            return at + 2, b""
        at += 1
    lead = 1 if order == "le" else 0
    for at in range(most - most % 2, max(least, 1), -2):
        before, after = content[at - 2 : at], content[at : at + 2]
        if before[lead] & 0xFC != 0xD8 and (before, after) != ("\r".encode(f"utf-16-{order}"), line_feed):
            return at, b""
    return None


def _little(content: bytes, least: int, most: int, _: bytes) -> Optional[Tuple[int, bytes]]:
    return _in_units(content, least, most, "le")


def _big(content: bytes, least: int, most: int, _: bytes) -> Optional[Tuple[int, bytes]]:
    return _in_units(content, least, most, "be")


def _in_escapes(content: bytes, least: int, most: int, head: bytes) -> Optional[Tuple[int, bytes]]:
    at = most
    while True:
        at = content.rfind(b"\n", least, at)
        if at < 0:
            return None
        escape = content.rfind(ESCAPE, 0, at)
        if escape < 0:
            return at + 1, head
        if content[escape : escape + 3] in HEADS and escape + 3 <= at:
            return at + 1, HEADS[content[escape : escape + 3]]
        at = max(escape, least)
        if at == least:
            return None


class Readable(Protocol):
    """What is read to its end."""

    def read(self, size: int) -> Optional[bytes]:
        """The next bytes, as many as there are of so many, or fewer; none at the end."""


def parts(file: Readable, first: bytes, encoding: str, beside: int = 0) -> Iterator[Tuple[Part, bytes]]:
    """The parts of a file in this effective encoding, of which the first bytes were read. Each has the bytes to look at, without the
    head. Up to `beside` of these are those of the parts on each side. Raises `Uncut` if there is nowhere to cut it."""
    last = last_cut(encoding)
    # What was read from byte `base` on.
    content, base, is_whole = first, 0, False
    begin, head = 0, b""
    start, before = 0, b""
    while True:
        if not is_whole:
            content, is_whole = _fill(file, content, begin - base + PART + beside + 2)
        here = begin - base
        if is_whole and len(content) - here <= PART + beside:
            yield Part(start, begin, base + len(content), base + len(content), before, True), content[start - base :]
            return
        inside = content[here:]
        cut = last(inside, 1, PART, head)
        if cut is None:
            content, is_whole = _fill(file, content, here + MOST + 2)
            inside = content[here:]
            if is_whole and len(inside) <= MOST:
                yield Part(start, begin, base + len(content), base + len(content), before, True), content[start - base :]
                return
            cut = last(inside, 1, MOST, head)
        if cut is None:
            raise Uncut()
        size, behind = cut
        stop = last(inside[size:], 1, beside, behind) if beside else None
        yield (Part(start, begin, begin + size, begin + size + (stop[0] if stop else 0), before),
               content[start - base : here + size + (stop[0] if stop else 0)])
        again = (last(inside, 1, size - beside, head) if size > beside + 1 else None) or (0, head)
        start, before = (begin + again[0], again[1]) if beside else (begin + size, behind)
        begin, head = begin + size, behind
        content, base = content[start - base :], start


def _fill(file: Readable, content: bytes, size: int) -> Tuple[bytes, bool]:
    """A content with as much of the file after it as makes it so many bytes, and whether that is all of the file."""
    more = [content]
    missing = size - len(content)
    while missing > 0:
        read = file.read(missing)
        if not read:
            return b"".join(more), True
        more.append(read)
        missing -= len(read)
    return b"".join(more), False
