"""Texts that can't be in some bytes, since their bytes aren't: by this most files needn't be decoded to be searched."""
import collections
import re
from typing import DefaultDict, Dict, List, Optional, Pattern, Set

from gate import Gate

from legacy.ascii import MARKS

# The encodings in which a character is one byte, two, or in EUC-JP three, and in GBK and gb18030 perhaps four.
PAIRS = ("Shift_JIS", "EUC-JP", "EUC-KR", "Big5", "GBK", "gb18030")
FOURS = ("GBK", "gb18030")
# Encodings in which a text has other bytes in other places.
STATES = ("ISO-2022-JP", "UTF-16LE", "UTF-16BE", "replacement")
LEADS, TRAILS = range(0x81, 0xFF), range(0x40, 0xFF)
ANY_FOUR = b"[\x81-\xfe][0-9][\x81-\xfe][0-9]"
# What means something else in an expression.
SPECIAL = ".^$*+?{}[]\\|()"
BAD = "\ufffd"


def is_literal(expression: str, is_text: bool) -> bool:
    """Whether an expression matches itself alone, on one line, perhaps because it is a text."""
    return bool(expression) and not set(expression) & set("\r\n" + BAD + ("" if is_text else SPECIAL))


class Forms:
    """The bytes that decode to each character of an encoding, as the program decodes them."""

    def __init__(self, gate: Gate, encoding: str):
        self._of: DefaultDict[str, List[bytes]] = collections.defaultdict(list)
        # Characters that come of bytes which have several.
        self.shared: Set[str] = set()
        self._is_utf8 = encoding == "UTF-8"
        self._fours = encoding in FOURS
        if not self._is_utf8:
            self._add(gate, encoding, [bytes([it]) for it in range(0x100)])
        if encoding in PAIRS:
            self._add(gate, encoding, [bytes([lead, trail]) for lead in LEADS for trail in TRAILS])
        if encoding == "EUC-JP":
            self._add(gate, encoding, [bytes([0x8F, lead, trail]) for lead in range(0xA1, 0xFF) for trail in range(0xA1, 0xFF)])

    def _add(self, gate: Gate, encoding: str, forms: List[bytes]) -> None:
        # (a line feed ends whatever comes before it)
        with gate.open("forms", encoding, b"\n".join(it if it != b"\n" else b" " for it in forms), "keep") as document:
            texts = document.text().split("\n")
        assert len(texts) == len(forms)
        for form, text in zip(forms, texts):
            if len(text) == 1 and text != BAD:
                self._of[text].append(form)
            elif BAD not in text and not form[:1] in self._of.get(text[:1], ()):
                # (the bytes aren't a character each)
                self.shared.update(text)

    def expression(self, literal: str) -> Optional[Pattern[bytes]]:
        """An expression that bytes match which have this text in them, or None if there is none."""
        if self._is_utf8:
            return re.compile(re.escape(literal.encode(errors="surrogatepass")))
        if set(literal) & self.shared:
            return None
        parts = []
        for letter in literal:
            forms = [re.escape(it) for it in self._of.get(letter, [])] + ([ANY_FOUR] if self._fours else [])
            parts.append(b"(?:%b)" % b"|".join(forms or [b"(?!)"]) if len(forms) != 1 else forms[0])
        return re.compile(b"".join(parts), re.DOTALL)


class Literals:
    """Whether literals may be in bytes, by the forms of each encoding, which the program is asked for once."""

    def __init__(self) -> None:
        self._forms: Dict[str, Forms] = {}
        self._known: Dict[str, Dict[str, Optional[Pattern[bytes]]]] = {}

    def may_be_in(self, gate: Gate, encoding: str, literal: str, content: bytes) -> bool:
        """Whether a content in an encoding may have this text. It begins with no byte order mark that says otherwise."""
        if encoding in STATES or content.startswith(MARKS):
            return True
        if encoding not in self._forms:
            self._forms[encoding] = Forms(gate, encoding)
        known = self._known.setdefault(encoding, {})
        if literal not in known:
            known.clear()
            known[literal] = self._forms[encoding].expression(literal)
        expression = known[literal]
        return expression is None or expression.search(content) is not None


LITERALS = Literals()
