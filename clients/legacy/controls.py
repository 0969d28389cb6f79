"""Characters that a text never has on purpose, and that a wrong rule brings: control characters other than TAB, LF, FF and CR,
and code points that aren't characters."""
import collections
import re
from typing import Dict, List, NamedTuple, Optional, Pattern

from gate import Fault, Gate

NONE = [*range(0xFDD0, 0xFDF0), *(plane << 16 | it for plane in range(17) for it in (0xFFFE, 0xFFFF))]
C0 = [it for it in (*range(0x20), 0x7F) if it not in b"\t\n\f\r"]
CONTROLS = "".join(map(chr, (*C0, *range(0x80, 0xA0), *NONE)))
CONTROL: Pattern[str] = re.compile(f"[{re.escape(CONTROLS)}]")
# The encoding by which the bytes of a character are asked for where the own one decodes more than it encodes.
ASKED = {"GBK": "gb18030"}


def counts_of(found: List[str]) -> Dict[str, int]:
    """The number of each of these characters, by its code point."""
    return {f"U+{ord(it):04X}": count for it, count in sorted(collections.Counter(found).items())}


class Forms(NamedTuple):
    """The bytes that characters have in an encoding: single ones, and longer ones."""

    single: bytes
    longer: Optional[Pattern[bytes]]

    def may_be_in(self, content: bytes) -> bool:
        """Whether a content has any of them."""
        # (of single bytes this is many times faster than an expression)
        if len(content.translate(None, self.single)) != len(content):
            return True
        return self.longer is not None and self.longer.search(content) is not None


def any_of(forms: List[bytes]) -> bytes:
    """The expression of any of these bytes, of which none begins another. Each byte is looked at once, and not once for each
    form."""
    if len(forms) < 2:
        return b"".join(map(re.escape, forms))
    if all(len(it) == 1 for it in forms):
        return b"[%b]" % re.escape(b"".join(forms))
    rest: Dict[bytes, List[bytes]] = {}
    for it in forms:
        rest.setdefault(it[:1], []).append(it[1:])
    return b"(?:%b)" % b"|".join(re.escape(first) + any_of(others) for first, others in rest.items())


class Bytes:
    """The bytes that these characters have in an encoding. A content without them has no such character; in another they may be
    parts of other characters."""

    def __init__(self) -> None:
        self._known: Dict[str, Optional[Forms]] = {}

    def may_be_in(self, gate: Gate, encoding: str, content: bytes) -> bool:
        """Whether a content in an encoding may have such a character."""
        if encoding not in self._known:
            found = self._ask(gate, ASKED.get(encoding, encoding))
            longer = any_of([it for it in found if len(it) > 1])
            single = b"".join(it for it in found if len(it) == 1)
            self._known[encoding] = Forms(single, re.compile(longer) if longer else None) if found else None
        forms = self._known[encoding]
        return forms is None or forms.may_be_in(content)

    def _ask(self, gate: Gate, encoding: str) -> List[bytes]:
        """The bytes of each of them that has any."""
        found: List[bytes] = []
        with gate.open("controls", "utf-8", CONTROLS.encode(), "keep") as document:
            for at in range(len(CONTROLS)):
                try:
                    found.append(document.encode(encoding, at, at + 1))
                except Fault as fault:
                    if fault.name == "NoEncoder":
                        return []
                    if fault.name != "Unencodable":
                        raise
        return found


BYTES = Bytes()
