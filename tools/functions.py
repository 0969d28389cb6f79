"""Rattle's sources as scripts read them, by their layout: the heads of functions, types, traits and impls. It has the functions
of a crate, with their names as the prover has them, their paths, and their bodies."""
import pathlib
import re
from typing import Iterator, List, NamedTuple, Sequence, Tuple

# The modules that are the crate's root.
ROOTS = ("lib", "main")
# The head of a function: its indent, `pub` if it has one, with what that is bounded to, and its name.
FUNCTION = re.compile(r"(?P<indent> *)(?P<public>pub(?:\([^)]*\))? )?(?:const )?(?:unsafe )?fn (?P<name>\w+)")
TYPE = re.compile(r"^(?:pub(?:\([^)]*\))? )?(?:struct|enum) (\w+)", re.MULTILINE)
OWNER = re.compile(r"(?:pub )?(?:unsafe )?(?:impl|trait)\b")
# The start of a function, or of what contains functions.
PART = re.compile(rf"^(?={FUNCTION.pattern}|{OWNER.pattern})", re.MULTILINE)
# What precedes a function that is proved together with those that call it back.
CYCLE = re.compile(r"#\[cycle\(\w+\)\]\s*(?:#\[[^\n]*\]\s*)*\Z")
# The lines of a function's body, after its head and its clauses.
BODY = r"^{indent}(?! )[^\n]*\{{\n(.*?\n){indent}\}}$"


class Function(NamedTuple):
    """A function, by its name and that of its owner, as the prover names it. The owner is a type, followed by a trait's
    name in an impl of the trait, or a file."""

    name: str
    owner: str

    def fits(self, names: Sequence[str]) -> bool:
        """Whether these are the names from the crate's root down to this function."""
        return [self.owner, self.name] == list(names[-2:])

    def may_be(self, other: "Function") -> bool:
        """Whether it may be another that is named by its text, which says nothing of the arguments of a trait."""
        return self.name == other.name and self.owner.startswith(other.owner)


def without_arguments(text: str) -> str:
    """A text without what is in angle brackets."""
    bare = text.replace("->", "")
    while bare != (bare := re.sub(r"<[^<>]*>", "", bare)):
        pass
    return bare


class Owner(NamedTuple):
    """An owner of functions: a type, with the trait of an impl; or a trait, as it is declared."""

    name: str
    trait: str
    is_trait: bool


def owner_in(head: str) -> Owner:
    """The owner of functions, by its first line."""
    found = re.search(r"\b(impl|trait) +(?:((?:\w+::)*\w+) for )?&?((?:\w+::)*\w+)", without_arguments(head))
    kind, trait, name = found.groups() if found else ("", "", "")
    return Owner(name.rpartition("::")[2], (trait or "").rpartition("::")[2], kind == "trait")


def owner_of(head: str) -> str:
    """The owner's name as the prover has it: the type's, followed by the trait's."""
    owner = owner_in(head)
    return owner.name + owner.trait


def function_at(text: str, at: int, module: str) -> List[Function]:
    """The function whose lines contain a place of a source, by how these are indented; none if no function does."""
    number, lines = text.count("\n", 0, at), text.split("\n")
    depth = len(lines[number]) - len(lines[number].lstrip())
    for above in range(number, -1, -1):
        head = FUNCTION.match(lines[above])
        if head and (above == number or len(head["indent"]) < depth):
            owners = [owner_of(it) for it in lines[:above] if OWNER.match(it)] if head["indent"] else [module]
            return [Function(head["name"], owners[-1])]
        if lines[above] and not lines[above].startswith((" ", "{", "}", ")")):
            break
    return []


class Placed(NamedTuple):
    """A function that may have a proof of its own. It has its path, as the prover names it, and the place of its body's lines in
    its file. There is no place if it has no body that another can replace."""

    path: List[str]
    file: pathlib.Path
    body: Tuple[int, int]


def functions_in(src: pathlib.Path) -> Iterator[Placed]:
    """Each function of a crate that may have a proof of its own. A method is where its type is, or the impl of a trait. Functions
    that a trait declares aren't among them, nor those of a cycle, which have one proof together."""
    modules = {it: [*it.relative_to(src).with_suffix("").parts] for it in src.glob("**/*.rt")}
    texts = {it: it.read_text(encoding="utf-8") for it in modules}
    homes = {name: modules[it] for it, text in texts.items() for name in TYPE.findall(text)}
    for it, text in texts.items():
        owner: List[str] = []
        starts = [found.start() for found in PART.finditer(text)]
        for start, end in zip(starts, [*starts[1:], len(text)]):
            line = text[start:end].partition("\n")[0]
            head = FUNCTION.match(line)
            if OWNER.match(line):
                name = owner_of(line)
                owner = [] if owner_in(line).is_trait else [*homes.get(name, modules[it]), name]
            elif head and (owner or not head["indent"]) and not CYCLE.search(text, 0, start):
                path = [*(owner if head["indent"] else modules[it]), head["name"]]
                # (what is computed of a constant is computed as its crate is read)
                body = None if "const fn " in line else re.compile(BODY.format(indent=head["indent"]), re.MULTILINE | re.DOTALL).search(text, start, end)
                yield Placed(path[path[0] in ROOTS :], it, body.span(1) if body else (start, start))
