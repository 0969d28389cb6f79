"""Hostile traces."""
from program import Case, Ended

BAD_ID = b'{"fault":"BadRequest","field":"id"}\n'


def bad_line(number):
    return b"gate: trace line %d\n" % number


def brought(words):
    """A line that brings 4,718,586 bytes 00: 6,291,448 bytes of base64 behind the words."""
    return words + b"A" * 6291448


# The trace, the status, the output, and the error.
TRACES = [
    ("nothing", b"", 0, b"", b""),
    ("an event that is refused", b"open 16\nclose 3\nbytes 3 Cg==\n", 0, b"16 !BadNumber\n3 !NotOpen\n3 !NotOpen\n", b""),
    ("an open connection opened", b"open 3\nopen 3\nbytes 3 e30K", 0, b"3 !AlreadyOpen\n3 " + BAD_ID, b""),
    ("a line cut in three by another connection",
     b"open 1\nopen 2\nbytes 1 ew==\nbytes 2 e30K\nbytes 1 fQ==\nbytes 1 Cg==\n", 0, b"2 " + BAD_ID + b"1 " + BAD_ID, b""),
    ("base64 with spare bits", b"# 1\n\nopen 16\nbytes 3 QR==\n", 2, b"16 !BadNumber\n", bad_line(4)),
    ("base64 without padding", b"bytes 3 e30\n", 2, b"", bad_line(1)),
    ("no base64", b"bytes 3 \n", 2, b"", bad_line(1)),
    ("a CR behind the line", b"open 3\r\n", 2, b"", bad_line(1)),
    ("a leading zero", b"open 03\n", 2, b"", bad_line(1)),
    ("a number above 255", b"open 256\n", 2, b"", bad_line(1)),
    ("a number of 400 digits", b"open " + b"1" * 400 + b"\n", 2, b"", bad_line(1)),
    ("a byte 00", b"open 3\0\n", 2, b"", bad_line(1)),
    ("bytes that aren't text", bytes(range(128, 256)), 2, b"", bad_line(1)),
    ("a line of 6,291,456 bytes", brought(b"bytes 3 "), 0, b"3 !NotOpen\n", b""),
    ("a line of 6,291,457 bytes", brought(b"bytes 15 "), 2, b"", bad_line(1)),
    ("a comment of 7,000,000 bytes", b"#" * 7000000 + b"\nopen 16", 0, b"16 !BadNumber\n", b""),
    ("a comment of 7,000,000 bytes and nothing else", b"#" * 7000000, 0, b"", b""),
    ("two comments of 7,000,000 bytes in a head", (b"#" * 7000000 + b"\n") * 2 + b"part AA==\nadopt ZA== x keep 0\n", 2, b"", bad_line(4)),
    ("a part of 7,000,000 bytes", b"part " + b"A" * 7000000, 2, b"", bad_line(1)),
    ("a comment of 7,000,000 bytes after an event", b"close 3\n" + b"#" * 7000000 + b"\nopen 16", 0, b"3 !NotOpen\n16 !BadNumber\n", b""),
    ("100,000 empty lines, and then a bad one", b"\n" * 100000 + b"x", 2, b"", bad_line(100001)),
]


def cases(gate):
    words = ["trace", "--indexes", gate.empty]
    for name, text, status, output, error in TRACES:
        yield Case(f"trace: {name}", lambda text=text: gate.run(words, text), Ended(status, output, error))
