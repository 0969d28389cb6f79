"""Messages on a stream, framed as the Language Server Protocol 3.17 has them in "Base Protocol".

The reader is strict: a message of which it isn't certain where it ends would be read as others, and the server's text would
no longer be the editor's."""
import json
import re
from typing import Any, BinaryIO, Optional

# The longest line of a header, the most lines of one, and the longest body, in bytes.
LONGEST_LINE, MOST_LINES, LONGEST_BODY = 1000, 20, 1 << 28
LENGTH = re.compile(rb"0*[0-9]{1,9}")
CHARSET = re.compile(rb'charset="?([^";]*)"?', re.IGNORECASE)


class Broken(Exception):
    """Why no further message can be read."""


def read_message(stream: BinaryIO) -> Optional[bytes]:
    """Reads the body of one message; None if the stream ended before it. Raises `Broken`."""
    length = _read_header(stream)
    if length is None:
        return None
    body = stream.read(length)
    if len(body) < length:
        raise Broken("the input ended within a message")
    try:
        body.decode()
    except UnicodeDecodeError as fault:
        raise Broken(f"byte {fault.start} of a message isn't UTF-8") from fault
    return body


def _read_header(stream: BinaryIO) -> Optional[int]:
    """Reads the lines before a body, and returns the body's length; None if the stream ended before them."""
    length: Optional[int] = None
    for number in range(MOST_LINES):
        line = stream.readline(LONGEST_LINE)
        if not line and number == 0:
            return None
        if not line.endswith(b"\r\n"):
            raise Broken(f"the input ended within a header, or a line there doesn't end in CR LF: {line[:40]!r}")
        if line == b"\r\n":
            break
        length = _read_field(line, length)
    else:
        raise Broken(f"a header has more than {MOST_LINES} lines")
    if length is None:
        raise Broken("a header has no Content-Length")
    return length


def _read_field(line: bytes, length: Optional[int]) -> Optional[int]:
    """The length after one line of a header, which may say it."""
    name, colon, value = line.partition(b":")
    name, value = name.lower(), value.strip()
    if not colon or not name or name != name.strip():
        raise Broken(f"a line of a header isn't `Name: value`: {line[:40]!r}")
    if name == b"content-length":
        if length is not None or not LENGTH.fullmatch(value) or int(value) > LONGEST_BODY:
            raise Broken(f"a header has a Content-Length that can't be: {line[:40]!r}")
        return int(value)
    charset = CHARSET.search(value) if name == b"content-type" else None
    if charset and charset[1].lower() not in (b"utf-8", b"utf8"):
        raise Broken(f"a body is in another encoding than UTF-8: {line[:40]!r}")
    return length


def write_message(stream: BinaryIO, message: Any) -> None:
    """Writes one message. Its JSON is ASCII, so that it may have code units that aren't characters."""
    body = json.dumps(message, separators=(",", ":")).encode("ascii")
    stream.write(b"Content-Length: %d\r\n\r\n%b" % (len(body), body))
    stream.flush()
