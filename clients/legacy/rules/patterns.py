"""Patterns over paths, as gitattributes(5) and EditorConfig have them, made into expressions of `re`.

A pattern is a list of tokens, each of which means one character, and of gaps between them. After a gap the first place
that fits is taken, and no expression comes back to it. This loses no match, since what fits after a later place fits
after the first too. So a stranger's pattern with many stars takes no longer than the square of a path's length."""
import re
from typing import Callable, FrozenSet, Iterable, Iterator, List, NamedTuple, Pattern, Set, Tuple, Union


class Gap(NamedTuple):
    """What lies between tokens, as an expression that takes as little as fits; one that is wide crosses slashes."""

    least: str
    wide: bool


# What is within a folder, any text at all, and whole folders, each with its slash.
WITHIN, ANY, FOLDERS = Gap("[^/]*?", False), Gap(".*?", True), Gap("(?:.*?/)??", True)
# One character of a folder's or a file's name, and what matches nothing at all.
ONE, NOTHING = "[^/]", "(?!)"
# Where git takes letters of ASCII for alike whatever their case, it compares small ones.
SMALL = {it: it + 32 for it in range(ord("A"), ord("Z") + 1)}
# What git takes for blank: no vertical tab and no form feed.
BLANK = " \t\r\n"

# A token is the expression of one character.
Tokens = List[Union[str, Gap]]


def _class(holds: Callable[[str], bool]) -> FrozenSet[str]:
    return frozenset(filter(holds, map(chr, range(128))))


# Classes of characters, which are of ASCII alone.
CLASSES = {
    "alnum": _class(str.isalnum), "alpha": _class(str.isalpha), "blank": frozenset(" \t"),
    "cntrl": _class(lambda it: it < " " or it == "\x7f"), "digit": _class(str.isdigit),
    "graph": _class(lambda it: "!" <= it <= "~"), "lower": _class(str.islower), "print": _class(lambda it: " " <= it <= "~"),
    "punct": _class(lambda it: "!" <= it <= "~" and not it.isalnum()), "space": frozenset(BLANK),
    "upper": _class(str.isupper), "xdigit": frozenset("0123456789abcdefABCDEF"),
}
# The parts between brackets: the name of a class, a character, or two with all between them.
LISTED = re.compile(r"\[:(?P<of>[^]]*):\]|(?P<low>\\.|[^\\])(?:-(?P<high>\\.|[^]\\]))?", re.DOTALL)


def bracket(glob: str, at: int, folds: bool = False) -> Tuple[str, int]:
    """The expression of the characters after a bracket, and their end: nothing if no bracket closes it. No slash is among
    them. If letters are alike whatever their case, all others are unchanged. Those that a class or two with all between them
    have are small, so a single large one isn't among them, as in git."""
    negated = glob[at : at + 1] in ("!", "^")
    at += negated
    listed: Set[str] = set()
    begun = False
    while not begun or not glob.startswith("]", at):
        found = LISTED.match(glob, at)
        if not found or (found["of"] is not None and found["of"] not in CLASSES):
            return NOTHING, len(glob)
        if found["of"] is not None:
            listed |= CLASSES["lower" if folds and found["of"] == "upper" else found["of"]]
        else:
            low, high = found["low"][-1], (found["high"] or found["low"])[-1]
            listed.update(low, map(chr, range(ord(low), ord(high) + 1)))
            if folds and found["high"]:
                listed.update(chr(it).translate(SMALL) for it in range(ord(low), ord(high) + 1))
        at, begun = found.end(), True
    return _one_of(listed - {"/"}, negated), at + 1


def _one_of(characters: Iterable[str], negated: bool) -> str:
    listed = "".join(map(re.escape, sorted(characters)))
    if negated:
        return f"[^/{listed}]"
    return f"[{listed}]" if listed else NOTHING


def compile_pattern(tokens: Tokens) -> Pattern[str]:
    """The expression whose `fullmatch` says whether a path has the pattern."""
    parts, gaps = _split(tokens, wide=True)
    numbers = iter(range(len(tokens)))
    written = [_part(parts[0], numbers, last=not gaps)]
    for at, gap in enumerate(gaps, 1):
        last = at == len(gaps)
        part = gap.least + _part(parts[at], numbers, last)
        written.append(part if last else _first(part, numbers))
    return re.compile("".join(written), re.DOTALL)


def _part(tokens: Tokens, numbers: Iterator[int], last: bool) -> str:
    """The expression of what is between two wide gaps; the last one reaches to the path's end."""
    chunks, gaps = _split(tokens, wide=False)
    written = ["".join(map(str, chunk)) for chunk in chunks]
    for at, gap in enumerate(gaps, 1):
        chunk = gap.least + written[at]
        written[at] = chunk if last and at == len(gaps) else _first(chunk, numbers)
    return "".join(written)


def _split(tokens: Tokens, wide: bool) -> Tuple[List[Tokens], List[Gap]]:
    """The tokens between the gaps that are wide, or between those that aren't, and these gaps."""
    parts: List[Tokens] = [[]]
    gaps = []
    for token in tokens:
        if isinstance(token, Gap) and token.wide == wide:
            gaps.append(token)
            parts.append([])
        else:
            parts[-1].append(token)
    return parts, gaps


def _first(expression: str, numbers: Iterator[int]) -> str:
    """An expression of whose matches only the first counts: an atomic group, which Python has from 3.11 on."""
    name = f"g{next(numbers)}"
    return f"(?=(?P<{name}>{expression}))(?P={name})"
