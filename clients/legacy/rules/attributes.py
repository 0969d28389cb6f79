"""Files of git's attributes, as gitattributes(5) has them: their lines, macros, and patterns, matched as git does."""
import functools
import heapq
import re
from typing import Dict, FrozenSet, Generic, Iterable, Iterator, List, NamedTuple, Optional, Tuple, TypeVar, Union

from legacy.rules.patterns import ANY, BLANK, FOLDERS, NOTHING, ONE, SMALL, WITHIN, Gap, Tokens, bracket, compile_pattern

# The attribute that names a file's encoding.
ENCODING = "working-tree-encoding"
# Git ignores longer lines.
LONGEST = 2048
# Of how many ends of paths it is remembered what they lead to.
MOST_KNOWN = 4096
NAME = re.compile(r"[A-Za-z0-9_.][-A-Za-z0-9_.]*")
QUOTED = re.compile(r'"((?:[^"\\]|\\(?:[abfnrtv\\"]|[0-3][0-7]{2}))*)"')
ESCAPES = {"a": "\a", "b": "\b", "f": "\f", "n": "\n", "r": "\r", "t": "\t", "v": "\v"}

# The value of an attribute: a text, true ("a"), false ("-a"), or None if it is unset ("!a").
Value = Union[str, bool, None]
States = List[Tuple[str, Value]]


class Pattern:
    """A pattern of files: one without a slash matches by the file's name, one with a slash by its path from the folder to
    which the pattern belongs. Bytes are read as the characters of their numbers, since git matches bytes. `folds`: letters of
    ASCII are alike whatever their case."""

    def __init__(self, glob: str, folds: bool = False):
        self.glob, self._folds = glob, folds
        self.of_paths = "/" in glob
        self._inside = glob[1:] if glob.startswith("/") else glob
        # A file of attributes may list thousands of files by their names: the name or the path that one has to be.
        self.text = None if re.search(r"[*?[\\]|/$", glob) else self._small(self._inside)
        # Most say how a name ends.
        self.end = self._small(glob[1:]) if re.fullmatch(r"\*[^*?[\\/]+", glob) else None
        self._expression: Optional["re.Pattern[str]"] = None

    def _small(self, text: str) -> str:
        return text.translate(SMALL) if self._folds else text

    def matches(self, path: str) -> bool:
        """Whether it matches a file."""
        path = self._small(path)
        if self.end is not None:
            return path.endswith(self.end)
        subject = path if self.of_paths else path.rpartition("/")[2]
        if self.text is not None:
            return subject == self.text
        if self._expression is None:
            # (what ends in a slash is the pattern of a folder)
            self._expression = compile_pattern([NOTHING] if self.glob.endswith("/") else _tokens(self._inside, self._folds))
        return self._expression.fullmatch(subject) is not None


Of = TypeVar("Of")


class Matches(Generic[Of]):
    """Things that patterns lead to, in order. Patterns that give a whole name, a path or the end of a name are looked up, so
    that thousands of them take no longer than one. Only the others are tried one by one."""

    def __init__(self, listed: Iterable[Tuple[Pattern, Of]], folds: bool = False):
        self._folds, self._of = folds, list(listed)
        # The numbers of the things by names, by paths and by ends; of all that are tried, and how long ends are.
        self._names: Dict[str, List[int]] = {}
        self._paths: Dict[str, List[int]] = {}
        self._ends: Dict[str, List[int]] = {}
        self._others: List[int] = []
        for number, (pattern, _) in enumerate(self._of):
            if pattern.end is not None:
                self._ends.setdefault(pattern.end, []).append(number)
            elif pattern.text is not None:
                (self._paths if pattern.of_paths else self._names).setdefault(pattern.text, []).append(number)
            else:
                self._others.append(number)
        self._lengths = sorted(set(map(len, self._ends)))
        # What ends of paths lead to that are as long as the longest one.
        self._longest = max(self._lengths, default=1)
        self._known: Dict[str, Optional[Of]] = {}

    def first(self, path: str) -> Optional[Of]:
        """The first of them, if there is one."""
        if self._others:
            return next(self.of(path), None)
        if self._names or self._paths:
            return self._first(path)
        # (only the end of the path counts)
        end = path[-self._longest :]
        if end not in self._known:
            if len(self._known) >= MOST_KNOWN:
                self._known.clear()
            self._known[end] = self._first(end)
        return self._known[end]

    def _first(self, path: str) -> Optional[Of]:
        found = self._numbers_of(path)
        return self._of[min(found)][1] if found else None

    def _numbers_of(self, path: str) -> List[int]:
        """The numbers of the things that a name, a path and the end of a name lead to."""
        small = path.translate(SMALL) if self._folds else path
        name = small.rpartition("/")[2]
        found = [*self._names.get(name, ()), *self._paths.get(small, ())]
        for length in self._lengths:
            found += self._ends.get(name[-length:], ()) if length <= len(name) else ()
        return found

    def of(self, path: str) -> Iterator[Of]:
        """The things of which the patterns match a file, in order."""
        found = self._numbers_of(path)
        if not self._others:
            return (self._of[it][1] for it in sorted(found))
        others = (it for it in self._others if self._of[it][0].matches(path))
        return (self._of[it][1] for it in heapq.merge(sorted(found), others))


class Line(NamedTuple):
    """A line of such a file: what it sets for the files that its pattern matches, or as the macro of that name."""

    number: int
    pattern: Pattern
    macro: bool
    states: States


class Faulty(NamedTuple):
    """A line with an encoding that git leaves out, and why."""

    number: int
    why: str


class Attributes:
    """What a file says, in which letters are alike whatever their case or not. Two of them are never equal."""

    def __init__(self, lines: Tuple[Line, ...] = (), faulty: Tuple[Faulty, ...] = (), folds: bool = False):
        self.lines, self.faulty, self.folds = lines, faulty, folds


# What git knows by itself.
BUILT_IN = Attributes((Line(0, Pattern("binary"), True, [("diff", False), ("merge", False), ("text", False)]),))


def parse_attributes(content: bytes, macros: bool, folds: bool = False) -> Attributes:
    """What a file says, one in which git allows macros or not, by patterns to which letters are alike whatever their case or
    not."""
    lines, faulty = [], []
    text = content.decode("latin-1")
    for number, line in enumerate((text[3:] if text.startswith("\xef\xbb\xbf") else text).split("\n"), 1):
        try:
            found = _parse_line(number, line.partition("\0")[0], macros, folds)
        except ValueError as fault:
            faulty += [Faulty(number, str(fault))] if ENCODING in line else []
        else:
            lines += [found] if found else []
    return Attributes(tuple(lines), tuple(faulty), folds)


def _parse_line(number: int, text: str, macros: bool, folds: bool) -> Optional[Line]:
    line = text.lstrip(BLANK)
    if not line or line.startswith("#"):
        return None
    if len(text) >= LONGEST:
        raise ValueError(f"git ignores a line of {LONGEST} bytes or more")
    quoted = QUOTED.match(line)
    glob = _unquote(quoted[1]) if quoted else _word(line)
    states = line[quoted.end() if quoted else len(glob) :].strip(BLANK)
    macro = glob.startswith("[attr]") and len(glob) > len("[attr]")
    if macro and not macros:
        raise ValueError("git takes macros from the file of the top folder alone")
    if macro:
        glob = _valid(_word(glob[len("[attr]") :].lstrip(BLANK)))
    elif glob.startswith("!"):
        raise ValueError("git has no negated patterns of attributes; \\! begins a name with !")
    return Line(number, Pattern(glob, folds), macro, [_state(word) for word in re.split(f"[{BLANK}]+", states) if word])


def _word(text: str) -> str:
    return re.split(f"[{BLANK}]", text, 1)[0]


def _unquote(text: str) -> str:
    """The text between quotes, as in C."""
    def put(found: "re.Match[str]") -> str:
        escape = found[1]
        return chr(int(escape, 8)) if escape.isdigit() else ESCAPES.get(escape, escape)
    return re.sub(r"\\([0-3][0-7]{2}|.)", put, text)


def _valid(name: str) -> str:
    if not NAME.fullmatch(name):
        raise ValueError(f"{name!r} is no name of an attribute")
    return name


def _state(word: str) -> Tuple[str, Value]:
    name, equals, value = word.partition("=")
    if name[:1] in ("-", "!"):
        return _valid(name[1:]), False if name[0] == "-" else None
    return _valid(name), value if equals else True


@functools.lru_cache(maxsize=1024)
def macros_of(files: Tuple[Attributes, ...]) -> Dict[str, States]:
    """What each macro stands for, by files of which the first counts most."""
    found: Dict[str, States] = {}
    for attributes in files:
        for line in _macros_in(attributes):
            found.setdefault(line.pattern.glob, line.states)
    return found


# (Folders share files, each of which is looked through once.)
@functools.lru_cache(maxsize=4096)
def _macros_in(attributes: Attributes) -> List[Line]:
    """The macros of a file, the last one first."""
    return [line for line in reversed(attributes.lines) if line.macro]


@functools.lru_cache(maxsize=1024)
def lines_of(files: Tuple[Attributes, ...]) -> List[Matches[Line]]:
    """The lines of each file that may set a file's encoding, by themselves or by a macro, the last one first."""
    names = frozenset({ENCODING, *macros_of(files)})
    return [_lines_in(it, names) for it in files]


@functools.lru_cache(maxsize=4096)
def _lines_in(attributes: Attributes, names: FrozenSet[str]) -> Matches[Line]:
    """The lines of a file that set one of these attributes, the last one first."""
    lines = (line for line in reversed(attributes.lines) if not line.macro and not names.isdisjoint(name for name, _ in line.states))
    return Matches(((line.pattern, line) for line in lines), attributes.folds)


class Setting(NamedTuple):
    """What the attribute is set to, by which line of which file."""

    value: Value
    file: int
    line: Line


def encoding_of(files: Tuple[Attributes, ...], paths: List[str]) -> Optional[Setting]:
    """The value of the attribute of a file's encoding, by files of attributes of which the first counts most. Each of
    them comes with the file's path from the folder to which its patterns belong. None if no line sets it."""
    macros = macros_of(files)
    values: Dict[str, Value] = {}
    for at, (lines, path) in enumerate(zip(lines_of(files), paths)):
        for line in lines.of(path):
            set_by(line.states, macros, values)
            if ENCODING in values:
                return Setting(values[ENCODING], at, line)
    return None


def set_by(states: States, macros: Dict[str, States], values: Dict[str, Value]) -> None:
    """Adds to the values, which come first, what a line sets, the last of its words first, and what macros of it set."""
    waiting = list(states)
    while waiting:
        name, value = waiting.pop()
        if name not in values:
            values[name] = value
            if value is True:
                waiting += macros.get(name, [])


def _tokens(glob: str, folds: bool) -> Tokens:
    tokens: Tokens = []
    at = 0
    while at < len(glob):
        if glob[at] == "*":
            gap, at = _stars(glob, at)
            tokens.append(gap)
        elif glob[at] == "[":
            token, at = bracket(glob, at + 1, folds)
            tokens.append(token)
        elif glob[at] == "\\":
            tokens.append(re.escape(glob[at + 1]) if at + 1 < len(glob) else NOTHING)
            at += 2
        else:
            tokens.append(ONE if glob[at] == "?" else re.escape(glob[at].translate(SMALL) if folds else glob[at]))
            at += 1
    return tokens


def _stars(glob: str, at: int) -> Tuple[Gap, int]:
    """The gap of the stars from a place on, and where it ends. Two and more cross slashes if they are alone between two."""
    end = at + len(glob[at:]) - len(glob[at:].lstrip("*"))
    if end - at == 1 or glob[at - 1 : at] not in ("", "/"):
        return WITHIN, end
    if glob.startswith("/", end):
        return FOLDERS, end + 1
    return ANY if end == len(glob) or glob.startswith("\\/", end) else WITHIN, end
