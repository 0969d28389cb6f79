"""An expression found across damage: where bytes were overwritten, or others came in between, the text that was there is
no longer one piece.

Each error is cut out of the bytes, and with it as many of the next bytes as a character of the encoding may have left.
What follows is then decoded as it was meant. In the result a damaged place is nothing, if bytes were inserted, or one
character, whichever the expression needs there."""
import bisect
import functools
import importlib
import re
import sys
from typing import Any, AnyStr, Generic, Iterable, Iterator, List, Pattern, Sequence, Set, Tuple

from gate import Document, Gate

from legacy.ends import in_lines
from legacy.rules.names import NAMES

BAD = "\ufffd"
DAMAGED = re.compile(BAD + "+")
# The most bytes of a character, in the encodings in which one has several.
MOST = {label: known.most for label, known in NAMES.items() if known.most > 1}
# Control characters that are themselves in every encoding.
CONTROLS = [chr(it) for it in range(1, 32) if chr(it) not in "\t\n\r\x0e\x0f\x1b"]

# Python's own parser and compiler of expressions, which 3.11 moved.
IN_RE = sys.version_info >= (3, 11)
PARSER: Any = importlib.import_module("re._parser" if IN_RE else "sre_parse")
COMPILER: Any = importlib.import_module("re._compiler" if IN_RE else "sre_compile")

# Where something begins and ends.
Range = Tuple[int, int]


def across(
    gate: Gate, label: str, document: Document, text: str, expression: "Pattern[str]", known: Sequence[Range] = ()
) -> List[Range]:
    """Where matches with damage within them begin and end in the text of a document, in order; none that overlaps a known
    one, or another. The document's label is that by which it was opened."""
    mark = next((it for it in CONTROLS if it not in text), None)
    if mark is None:
        return []
    found: Set[Range] = set()
    errors = document.errors()
    for more in range(MOST.get(document.encoding.lower(), 1)):
        cut = View(document.bytes, _wider(errors, more, len(document.bytes)), _encode(mark, document.encoding))
        with gate.open("across", label, cut.content) as other:
            for match in in_lines(other.text().replace(mark, BAD), expression, functools.partial(_matches, expression)):
                begin, end = other.span(*match)
                origins = cut.origin(begin), cut.origin(end - 1, True)
                found.add((document.place(origins[0])["utf32"], document.place(origins[1])["utf32"]))
    return list(_apart(sorted(it for it in found if BAD in text[it[0] : it[1]]), known))


def _wider(errors: Sequence[Range], more: int, length: int) -> Iterator[Range]:
    """The places of errors, each `more` bytes longer if there are so many, and with the errors that it then touches."""
    begun, last = errors[0][0], errors[0][1] + more
    for begin, end in errors:
        if begin > last:
            yield begun, last
            begun, last = begin, end + more
        last = max(last, end)
    yield begun, min(last, length)


def _encode(mark: str, encoding: str) -> bytes:
    return mark.encode({"UTF-16LE": "utf-16-le", "UTF-16BE": "utf-16-be"}.get(encoding, "ascii"))


def _matches(expression: "Pattern[str]", text: str) -> Iterator[Range]:
    """The matches of which less than half is damage."""
    places = [it.span() for it in DAMAGED.finditer(text)]
    for form, stand_in in (expression, ""), (lenient(expression), BAD):
        view = View(text, places, stand_in)
        for it in form.finditer(view.content):
            if 2 * it[0].count(BAD) < len(it[0]):
                yield view.origin(it.start()), view.origin(it.end() - 1, True)


def _apart(found: Sequence[Range], known: Sequence[Range]) -> Iterator[Range]:
    """Those, in order, that overlap neither each other nor a known one."""
    ends, last = [end for _, end in known], 0
    for begin, end in found:
        at = bisect.bisect_right(ends, begin)
        if begin >= last and (at == len(known) or known[at][0] >= end):
            yield begin, end
            last = end


class View(Generic[AnyStr]):
    """A text, or bytes, in which something else stands for some places, or nothing."""

    def __init__(self, content: AnyStr, places: Iterable[Range], stand_in: AnyStr):
        parts: List[AnyStr] = []
        # The start of each part here, and its start and end there. A part is a piece of the content or a place.
        self._starts: List[int] = []
        self._origins: List[Range] = []
        at = self._length = 0
        for begin, end in [*places, (len(content), 0)]:
            for part, origin in (content[at:begin], (at, begin)), (stand_in if end else content[:0], (begin, end)):
                if part:
                    parts.append(part)
                    self._starts.append(self._length)
                    self._origins.append(origin)
                    self._length += len(part)
            at = end
        self.content: AnyStr = content[:0].join(parts)

    def origin(self, at: int, behind: bool = False) -> int:
        """Where what is at a place begins in the other content, or where it ends."""
        part = bisect.bisect_right(self._starts, at) - 1
        begin, end = self._origins[part]
        is_last = at + 1 == (self._starts[part + 1] if part + 1 < len(self._starts) else self._length)
        return end if behind and is_last else begin + at - self._starts[part] + behind


@functools.lru_cache(maxsize=16)
def lenient(expression: "Pattern[str]") -> "Pattern[str]":
    """The expression in which each character may be a damaged place too. It is made of the tree that `re` itself parses,
    since what a character is in a pattern only a parser knows."""
    tree = PARSER.parse(expression.pattern, expression.flags)
    _loosen(tree)
    made: "Pattern[str]" = COMPILER.compile(tree, expression.flags)
    return made


def _loosen(value: Any) -> None:
    """Loosens what a node of the tree has: a list of nodes, or anything that such lists are in."""
    if isinstance(value, PARSER.SubPattern):
        value.data = [_loosen_step(op, of) for op, of in value.data]
    elif isinstance(value, (tuple, list)):
        for it in value:
            _loosen(it)


def _loosen_step(op: Any, value: Any) -> Tuple[Any, Any]:
    damaged = (PARSER.LITERAL, ord(BAD))
    if op is PARSER.LITERAL:
        return PARSER.IN, [(op, value), damaged]
    if op is PARSER.IN:
        return op, value if value[0][0] is PARSER.NEGATE else [*value, damaged]
    if op is not PARSER.ASSERT_NOT:
        _loosen(value)
    return op, value
