"""The public calls and types of the crates, with their doc comments and their clauses, as the sources have them.

A promise is a clause of a public call, or the `Value` that contracts see of a public type. A call is public if `pub` marks it and the
crate's src/lib.rt re-exports it, its type, its trait or its module. So is a function with clauses of its own in the impl of a trait for
a public type. A program has no src/lib.rt: there, each `pub` item is public. The inner functions that docs/PROMISES.md cites count too."""
import pathlib
import re
from typing import FrozenSet, Iterator, List, NamedTuple, Optional, Tuple

from crates import TOP
from functions import FUNCTION, OWNER, Owner, owner_in

CLAUSE = re.compile(r"(requires|ensures)(?: (\w+))? \{ (.*) \}[;,]?")
STARTS_CLAUSE = re.compile(r"\s*(?:requires|ensures)\b")
# The lines that end a head without clauses, or the clauses.
NO_HEAD = re.compile(r"\s*(?:\{\}?|\}|///.*|#\[.*)?$")
TYPE = re.compile(r"pub (?:struct|enum) (\w+)")
EXPORT = re.compile(r"^pub use ([^;]*);", re.MULTILINE)
MODULE = re.compile(r"^pub mod (\w+);", re.MULTILINE)
NAME = re.compile(r"[A-Za-z_]\w*")
# The names in parentheses by which a doc comment explains clauses, such as (`name`) or (`first`, `second`).
EXPLAINED = re.compile(r"\(((?:`\w+`(?:, | and )?)+)\)")
NOBODY = Owner("", "", False)
# The types whose inner functions docs/PROMISES.md cites, by crate.
INNER = {"serving": frozenset({"Duplex", "Guarded", "Listener", "Peer", "Server", "Spin"})}


class Clause(NamedTuple):
    kind: str
    name: str
    text: str


class Call(NamedTuple):
    """A public call. A public type whose `Value` contracts see is one too, with that value instead of clauses."""

    crate: str
    file: pathlib.Path
    name: str
    doc: List[str]
    head: str
    clauses: List[Clause]
    is_inner: bool

    def explained_names(self) -> FrozenSet[str]:
        """The names of the clauses that the doc comment explains."""
        found = EXPLAINED.findall(" ".join(self.doc))
        return frozenset(name for names in found for name in NAME.findall(names))

    def unexplained_names(self) -> List[str]:
        """The names of the other clauses that have one."""
        return sorted({it.name for it in self.clauses if it.name} - self.explained_names())


class Library(NamedTuple):
    """What a crate offers: the names that its src/lib.rt re-exports, or None if it has none, and its public modules."""

    names: Optional[FrozenSet[str]]
    modules: FrozenSet[str]

    def scope(self, module: str) -> Optional[FrozenSet[str]]:
        """The names of which a module's items are public, or None if all that are `pub` are."""
        return None if module in self.modules else self.names


def library(folder: pathlib.Path) -> Library:
    path = folder / "lib.rt"
    if not path.exists():
        return Library(None, frozenset())
    text = path.read_text(encoding="utf-8")
    names = {name for names in EXPORT.findall(text) for name in NAME.findall(names)}
    return Library(frozenset(names), frozenset(MODULE.findall(text)))


def clauses_in(lines: List[str]) -> List[Clause]:
    """The clauses in these lines, of which one may take several."""
    texts: List[str] = []
    for line in lines:
        if STARTS_CLAUSE.match(line):
            texts.append(line.strip())
        elif texts:
            texts[-1] += " " + line.strip()
    found = [(CLAUSE.match(it), it) for it in texts]
    return [Clause(*(part or "" for part in it.groups())) if it else Clause(text.split()[0], "", text) for it, text in found]


def head_and_clauses(lines: List[str]) -> Tuple[str, List[Clause]]:
    """The head of the function that begins with these lines, in one line, and its clauses."""
    head, clauses = [lines[0]], []  # type: Tuple[List[str], List[str]]
    for line in lines[1:] if not lines[0].rstrip().endswith(("{", ";", "{}")) else []:
        if NO_HEAD.match(line):
            break
        (clauses if clauses or STARTS_CLAUSE.match(line) else head).append(line)
        if line.rstrip().endswith("};" if clauses else (";", " {")):
            break
    joined = re.sub(r" *(\{\}?|;)$", "", " ".join(it.strip() for it in head)).replace("( ", "(").replace(", )", ")")
    return joined, clauses_in(clauses)


def is_public(head: "re.Match[str]", owner: Owner, scope: Optional[FrozenSet[str]]) -> bool:
    """Whether a function is public, by its head, by what it is in, and by the public names there."""
    marked = head["public"] == "pub " or owner.is_trait or bool(owner.trait)
    return marked and (scope is None or (owner.name or head["name"]) in scope)


def doc_above(lines: List[str], at: int) -> List[str]:
    """The doc comment above a line, past the attributes and other comments between the two."""
    found: List[str] = []
    for line in reversed(lines[:at]):
        bare = line.strip()
        if bare.startswith("///"):
            found.insert(0, bare[3:].strip())
        elif found or not bare.startswith(("#[", "#![", "//")):
            break
    return found


def calls_in(crate: str, path: pathlib.Path, scope: Optional[FrozenSet[str]], prefix: str) -> Iterator[Call]:
    """The public calls and types of a source file, each with the prefix of its module."""
    lines = path.read_text(encoding="utf-8").splitlines()
    owner, docs, inner = NOBODY, {}, INNER.get(crate, frozenset())
    for at, line in enumerate(lines):
        head, kind = FUNCTION.match(line), TYPE.match(line)
        if kind:
            docs[kind[1]] = doc_above(lines, at)
        if OWNER.match(line):
            owner = owner_in(line)
        elif line == "}":
            owner = NOBODY
        elif head and (owner.name in inner or is_public(head, owner, scope)):
            signature, clauses = head_and_clauses(lines[at:])
            if clauses or not (owner.trait or owner.name in inner):
                name = f"{owner.name}::{head['name']}" if owner.name else head["name"]
                yield Call(crate, path, prefix + name, doc_above(lines, at), signature, clauses, owner.name in inner)
        elif "ghost Value =" in line and (scope is None or owner.name in scope):
            yield Call(crate, path, prefix + owner.name, docs.get(owner.name, []), line.strip(), [], False)


def calls_of(crate: str) -> Iterator[Call]:
    """The public calls and types of a crate, without those of its tests."""
    folder = TOP / "crates" / crate / "src"
    offers = library(folder)
    for path in sorted(folder.glob("**/*.rt")):
        parts = path.relative_to(folder).with_suffix("").parts
        if not any(it.startswith(("tests", "examples")) for it in parts):
            prefix = f"{parts[0]}::" if parts[0] in offers.modules else ""
            yield from calls_in(crate, path, offers.scope(parts[0]), prefix)
