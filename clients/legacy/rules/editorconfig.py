"""The property `charset` of EditorConfig (its specification, 0.15): sections with patterns, in files that are nested."""
import itertools
import os
import re
from typing import Callable, Dict, List, NamedTuple, Optional, Pattern, Tuple

from legacy.rules.files import LARGEST, Named, Place, Tree, Watched
from legacy.rules.patterns import ANY, FOLDERS, ONE, WITHIN, Tokens, bracket, compile_pattern

# The most characters of a section's glob, and the most patterns that those of a file may give, braces resolved.
LONGEST, MOST = 1024, 1000
NUMBERS = re.compile(r"([+-]?\d+)\.\.([+-]?\d+)")
# A section's glob may have brackets, # and ;, and a comment may follow after blanks.
SECTION = re.compile(r"\s*\[(.+?)\](?:\s+[#;].*|[^]]*)$")
PROPERTY = re.compile(r"\s*([^:=\s][^:=]*?)\s*[:=]\s*(.*)")


class Section(NamedTuple):
    """A section with a charset: the number of that line, its glob, its patterns, and the charset, None if it is unset."""

    number: int
    glob: str
    patterns: List[Pattern[str]]
    charset: Optional[str]


class Config(NamedTuple):
    """What a file says: whether those in folders above don't count, and its sections with a charset."""

    root: bool
    sections: List[Section]


def parse_config(content: bytes, report: Callable[[int, str], None]) -> Config:
    """What a file says; `report` is called with what is wrong in a line."""
    root, glob, sections, left = False, None, [], MOST
    for number, line in enumerate(content.decode("utf-8-sig", "replace").split("\n"), 1):
        section, found = SECTION.match(line), PROPERTY.match(line)
        if not line.strip() or line[0] in "#;":
            continue
        if section:
            glob = section[1]
        elif found:
            key, value = found[1].lower(), re.split(r"\s[#;]", found[2])[0].strip().lower()
            if glob is None:
                root = value == "true" if key == "root" else root
            elif key == "charset":
                alternatives = braces(glob) if len(glob) <= LONGEST else []
                if 0 < len(alternatives) <= left:
                    left -= len(alternatives)
                    charset = None if value == "unset" else value
                    sections.append(Section(number, glob, [pattern(it) for it in alternatives], charset))
                else:
                    report(number, f"its section has more than {LONGEST} characters, or the file more than {MOST} patterns")
    return Config(root, sections)


def braces(glob: str) -> List[str]:
    """The globs without braces that one with braces means, at most one more than `MOST`."""
    at = 0
    while at < len(glob):
        choices, end = _choices(glob, at) if glob[at] == "{" else ([], at)
        if choices:
            tails = braces(glob[end:])
            pairs = ((head, tail) for choice in choices for head in braces(choice) for tail in tails)
            return [glob[:at] + head + tail for head, tail in itertools.islice(pairs, MOST + 1)]
        at += 2 if glob[at] == "\\" else 1
    return [glob]


def _choices(glob: str, begin: int) -> Tuple[List[str], int]:
    """The texts between the commas of braces, or the numbers from one to another, and the end of the braces. It is
    nothing if neither is in them, or nothing closes them."""
    depth, cuts, at = 0, [begin], begin
    while at < len(glob):
        depth += {"{": 1, "}": -1}.get(glob[at], 0)
        if depth == 0:
            break
        if depth == 1 and glob[at] == ",":
            cuts.append(at)
        at += 2 if glob[at] == "\\" else 1
    else:
        return [], at
    numbers = NUMBERS.fullmatch(glob, begin + 1, at)
    if numbers:
        return list(map(str, itertools.islice(range(int(numbers[1]), int(numbers[2]) + 1), MOST + 1))), at + 1
    cuts.append(at)
    parts = [glob[low + 1 : high] for low, high in zip(cuts, cuts[1:])]
    return parts if len(parts) > 1 else [], at + 1


def pattern(glob: str) -> Pattern[str]:
    """The expression of a glob without braces, over a path from the folder of its file: one without a slash is the
    pattern of a name."""
    tokens: Tokens = [] if "/" in glob else [FOLDERS]
    at = 1 if glob.startswith("/") else 0
    while at < len(glob):
        closed = re.compile(r"\[[^]/]*\]").match(glob, at)
        stars = len(glob[at:]) - len(glob[at:].lstrip("*"))
        if stars > 1 and glob[at - 1 : at] in ("", "/") and glob.startswith("/", at + stars):
            tokens.append(FOLDERS)
            at += stars + 1
        elif stars:
            tokens.append(ANY if stars > 1 else WITHIN)
            at += stars
        elif closed:
            token, at = bracket(glob, at + 1)
            tokens.append(token)
        else:
            at += glob[at] == "\\" and at + 1 < len(glob)
            tokens.append(ONE if glob[at] == "?" and glob[at - 1 : at] != "\\" else re.escape(glob[at]))
            at += 1
    return compile_pattern(tokens)


class EditorConfigs:
    """The charsets of a tree's files, by the files `.editorconfig` in it and above it."""

    def __init__(self, tree: Tree, report: Callable[[str], None]):
        self._tree, self._report = tree, report
        self._watched: Dict[bytes, Watched[Config]] = {}

    def find_encoding(self, path: bytes, turn: int) -> Optional[Named]:
        """What the files say of a file's encoding, if anything."""
        whole = os.path.join(self._tree.path, path)
        for place in self._tree.chain(os.path.dirname(path)):
            watched = self._watch(place)
            config = watched.content(turn)
            inside = os.fsdecode(os.path.relpath(whole, place.path)) if config.sections else ""
            for section in reversed(config.sections):
                if any(it.fullmatch(inside) for it in section.patterns):
                    origin = f"{self._tree.display_path(watched.path)}:{section.number}"
                    return Named(section.charset, origin, section.glob) if section.charset else None
            if config.root:
                break
        return None

    def _watch(self, place: Place) -> "Watched[Config]":
        path = os.path.join(place.path, b".editorconfig")
        if path not in self._watched:
            self._watched[path] = Watched(
                place, b".editorconfig", self._parser(path), lambda why: self._report(f"{self._tree.display_path(path)}: {why}"))
        return self._watched[path]

    def _parser(self, path: bytes) -> Callable[[bytes], Config]:
        def report(number: int, why: str) -> None:
            self._report(f"{self._tree.display_path(path)}:{number}: {why}, and is left out")
        return lambda content: parse_config(content if len(content) <= LARGEST else b"", report)
