"""Small files that are decoded together, since to open a document, to ask for its text and to close it costs more than to decode
so little.

In all encodings but UTF-16, ISO-2022-JP and replacement a line feed is that character whatever comes before it, and brings a
decoder into its first state (legacy/ascii.py says why). So files that end in one can be decoded one after the other. A line of
ASCII that no file has follows each, by which the text is cut into theirs.

A file that doesn't end in a line feed gets one. A torn character before it is one error, like one at the end of a file. Only in gb18030
and GBK may it become other characters."""
import errno
import os
import select
import subprocess
from typing import Collection, Dict, Iterator, List, Sequence, Tuple

from gate import Gate, Gone
from legacy.ascii import MARKS, OTHERS
from legacy.mount.snapshots import Text, own_text
from legacy.saving import Refused, read, read_all

# A content with its label.
Labelled = Tuple[str, bytes]
# How many encodings have a process that decodes files together, and the most bytes that are read of one at a time.
MOST, ROOM = 3, 1 << 18
# The encodings in which the end of a file may be another character than it is before a line feed.
ENDING = "gb18030", "GBK"
# How `gate` is to convert: any bytes have a text, and files with a byte order mark aren't decoded together.
TO_UTF_8 = "--to", "utf-8", "--mode", "replacement", "--keep-mark"


class Converter:
    """A `gate convert` of one encoding that is left running: it writes the text of what it has read before it reads more."""

    def __init__(self, words: Sequence[str], encoding: str):
        # (the command's name comes before its options)
        at = words.index("--indexes")
        line = [*words[: at - 1], "convert", "--from", encoding, *TO_UTF_8, *words[at:]]
        self._process = subprocess.Popen(line, stdin=subprocess.PIPE, stdout=subprocess.PIPE, bufsize=0)
        assert self._process.stdin and self._process.stdout
        self._to, self._from = self._process.stdin.fileno(), self._process.stdout.fileno()
        os.set_blocking(self._to, False)
        self._comes = select.poll()
        self._comes.register(self._from, select.POLLIN)
        self._either = select.poll()
        self._either.register(self._from, select.POLLIN)
        self._either.register(self._to, select.POLLOUT)

    def texts(self, contents: Sequence[bytes]) -> List[bytearray]:
        """The texts of contents that end in a line feed each, none of which is empty. Raises `Gone` if the process ends."""
        end = os.urandom(16).hex().encode() + b"\n"
        return self._text(end.join([*contents, b"", b""]), end + end)[: -2 * len(end)].split(end)

    def _text(self, raw: bytes, end: bytes) -> bytearray:
        """The text of bytes, which ends in some others."""
        found, left = bytearray(), memoryview(raw)
        while left or not found.endswith(end):
            for descriptor, _ in (self._either if left else self._comes).poll():
                if descriptor == self._to:
                    left = left[self._write(left) :]
                    continue
                part = os.read(self._from, ROOM)
                if not part:
                    raise Gone()
                found += part
        return found

    def _write(self, content: memoryview) -> int:
        """Writes the beginning of some bytes, and returns how many these are."""
        try:
            return os.write(self._to, content)
        except BlockingIOError:
            return 0
        except OSError as fault:
            raise Gone() from fault

    def close(self) -> None:
        """Ends the process."""
        self._process.kill()
        with self._process:
            pass


class Together:
    """What small files say. `words` are the command line of `gate stdio`."""

    def __init__(self, words: Sequence[str]) -> None:
        self._words = words
        self._encodings: Dict[str, str] = {}
        self._converters: Dict[str, Converter] = {}

    def texts(self, gate: Gate, contents: Sequence[Labelled]) -> List[Text]:
        """The text of each. Raises `Refused` if one of them isn't available."""
        found, joined = self._arrange(gate, contents)
        for encoding, places in joined.items():
            texts = self._decode(encoding, [contents[at][1] for at in places])
            found.update((at, Text(bytes(text), encoding, 0)) for at, text in zip(places, texts))
        found.update(texts_alone(gate, contents, found))
        return [found[at] for at in range(len(contents))]

    def sizes(self, gate: Gate, contents: Sequence[Labelled]) -> List[int]:
        """How long the text of each is. Raises `Refused` like `texts`."""
        known, joined = self._arrange(gate, contents)
        found = {at: len(text.utf8) for at, text in known.items()}
        for encoding, places in joined.items():
            found.update(zip(places, map(len, self._decode(encoding, [contents[at][1] for at in places]))))
        found.update((at, len(text.utf8)) for at, text in texts_alone(gate, contents, found))
        return [found[at] for at in range(len(contents))]

    def close(self) -> None:
        """Ends the processes."""
        while self._converters:
            self._converters.popitem()[1].close()

    def _arrange(self, gate: Gate, contents: Sequence[Labelled]) -> Tuple[Dict[int, Text], Dict[str, List[int]]]:
        """The texts of contents that are their own, and by encodings which others can be decoded together."""
        found: Dict[int, Text] = {}
        joined: Dict[str, List[int]] = {}
        for at, (label, raw) in enumerate(contents):
            encoding = self._encodings.get(label) or self._encoding(gate, label)
            if own_text(raw, encoding):
                found[at] = Text(raw, encoding, 0)
            elif not raw.startswith(MARKS) and encoding not in OTHERS and (encoding not in ENDING or raw.endswith(b"\n")):
                joined.setdefault(encoding, []).append(at)
        return found, joined

    def _encoding(self, gate: Gate, label: str) -> str:
        """The name of the encoding that a label stands for."""
        found = self._encodings[label] = read(gate, label, b"").encoding
        return found

    def _decode(self, encoding: str, contents: Sequence[bytes]) -> List[bytearray]:
        """The texts of contents, decoded by the process of their encoding, or by a new one if that is gone."""
        for _ in range(2):
            converter = self._converters.pop(encoding, None) or Converter(self._words, encoding)
            try:
                texts = converter.texts([it if it.endswith(b"\n") else it + b"\n" for it in contents])
            except Gone:
                converter.close()
                continue
            except BaseException:
                converter.close()
                raise
            self._keep(encoding, converter)
            return [text if it.endswith(b"\n") else text[:-1] for text, it in zip(texts, contents)]
        raise Refused(errno.EIO, "gate ended before it replied")

    def _keep(self, encoding: str, converter: Converter) -> None:
        """Keeps a process for the next files of its encoding, and ends the one that was used longest ago if these are too many."""
        self._converters[encoding] = converter
        if len(self._converters) > MOST:
            self._converters.pop(next(iter(self._converters))).close()


def texts_alone(gate: Gate, contents: Sequence[Labelled], found: Collection[int]) -> Iterator[Tuple[int, Text]]:
    """The texts of the contents that aren't found yet, with their numbers."""
    alone = [at for at in range(len(contents)) if at not in found]
    for at, known in zip(alone, read_all(gate, [contents[at] for at in alone])):
        yield at, Text(known.text.encode(), known.encoding, known.bom)
