"""What the prover prints of a mutant, and which of it counts as a rejection of the mutant's mistake.

A body that means the same in another form isn't proved either by the previous proof. Goals are named after conditions and calls,
so an answer loses its goal, and a goal its answer. None of that counts. A rejection is a goal that still exists:

- a goal at which the prover found values that make it false, whatever the edit;
- otherwise, if the edit changes what its text names, and not only the order or the form: a goal whose written answer no longer
  proves it.
- or, under the same condition, a goal without an answer at which a search of everything that it may try finds nothing. This needs
  that no answer of that kind lost its goal.

A search that gave up at a limit shows nothing by itself. It counts if the edit has a control in the same form, and each goal of
the control is proved. Then the form isn't why the search gave up."""
import re
from typing import Iterator, List, NamedTuple, Optional, Sequence, Set, Tuple

from functions import Function

# What the prover prints of a function, after its goals that aren't proved.
SAID = re.compile(r"fn (\S+): (no holes|proved|not proved|no proof|could not tell|depends on a hole)\b")
GOAL = re.compile(r"note: (\S+: it is not proved that .*\(`([\w-]+)`\).*)")
ERROR = re.compile(r"(?:\./)?proofs/(\S+)/\w+\.antt:\d+:\d+: error: (.*)")
# An error of a proof that names something that an edit removed, or a step before which it put another, or an error that depends on one.
NAMES = re.compile(
    r"has no field|record `\S+` \(nearest: |is not in scope|has no `|expected type `(goal\.)?After-|was not admitted|which was rejected, were not checked"
    r"|module `Rattle\.\S*\.Goals`"
)
# The goal that an answer was written for, if the goal is gone.
LOST = re.compile(r"`goal\.([\w-]+)`: module `Rattle\.\S*\.Goals`")
# What the prover prints of a goal that is false, and of a goal that may be true.
FALSE = "the facts known there allow values at which this goal is false"
GAVE_UP = "gave up at one of its limits"

TOKEN = re.compile(r"""b?"(?:\\.|[^"\\])*"|b?'(?:\\.|[^'\\])'|'\w+|\w+|<=|>=|\.\.=|\S""")
NUMBER = re.compile(r"(0x[0-9A-Fa-f_]+|[0-9][0-9_]*)(?:[iu](?:8|16|32|64|size))?")
# Names that say how a value is written, and not which value it is.
FORM = set("as bool break char const continue else f32 f64 fn for if in let loop match mut ref return unsafe while".split())
FORM |= {*(f"{sign}{bits}" for sign in "iu" for bits in ("8", "16", "32", "64", "size")), "_"}
# Conversions of a value into another type, and comments.
TURNS = re.compile(r"::from\b|\.into\(\)|//.*")


def number(token: str) -> Optional[int]:
    """The value of a number's token."""
    found = NUMBER.fullmatch(token)
    return int(found[1].replace("_", ""), 0) if found else None


def with_bounds(tokens: List[str]) -> Iterator[str]:
    """The tokens, with each bound replaced by the least number beyond it: `<= 15` gives what `< 16` gives, and so on."""
    for at, token in enumerate(tokens):
        value, before, behind = number(token), tokens[at - 1 : at], tokens[at + 1 : at + 2]
        if value is not None:
            yield str(value + (before in (["<="], [">"], ["..="]) or behind in (["<"], [">="])))
        else:
            yield token


def names_in(text: str) -> Set[str]:
    """The names in a text of a source: values, functions, fields, types, numbers and texts."""
    tokens = TOKEN.findall(TURNS.sub("", text))
    return {it for it in with_bounds(tokens) if it[0].isalnum() or it[0] in "_'\"" or it[:2] in ("b'", 'b"')} - FORM


def is_other(old: str, new: str) -> bool:
    """Whether a new text names something that the old one doesn't, or no longer names something that the old one does. A name that
    a text binds itself doesn't count."""
    names = [names_in(old), names_in(new)]
    bound = [set(re.findall(r"\blet (?:mut )?(\w+)", it)) for it in (old, new)]
    return names[0] - (bound[0] - names[1]) != names[1] - (bound[1] - names[0])


class Rejection(NamedTuple):
    """A reason why the prover rejects a function, with a rank: a lower rank shows the mistake better. An overflow may be the result
    of another goal that fails, and so comes last."""

    is_overflow: bool
    rank: int
    why: str


class Words:
    """What the prover prints of an edit's functions, or of all functions if it has none."""

    def __init__(self, said: str, functions: Set[Function]) -> None:
        self.lines, self.functions = said.split("\n"), functions

    def are_of(self, names: Sequence[str]) -> bool:
        """Whether these are the names from the crate's root to such a function."""
        return not self.functions or any(it.fits(names) for it in self.functions)

    def errors(self, names: Sequence[str]) -> Iterator[str]:
        """The errors in the proof of a function."""
        for found in filter(None, map(ERROR.match, self.lines)):
            # (a function that calls itself has its proof in a folder with a plus)
            if found[1].replace("+", "").split("/")[-2:] == list(names[-2:]):
                yield found[2]

    def verdicts(self) -> Iterator[Tuple[str, str, List[Tuple[str, str]]]]:
        """Each such function, the prover's verdict on it, and its goals that aren't proved, each with the prover's line on it."""
        goals: List[Tuple[str, str]] = []
        for line in self.lines:
            found = SAID.match(line)
            goals += [] if found else [(it[2], it[1]) for it in GOAL.finditer(line)]
            if found and self.are_of(found[1].split("::")):
                yield found[1], found[2], goals
            goals = [] if found else goals


def kind(goal: str) -> str:
    """The kind of a goal, by its name: what a function returns, a loop, a call's precondition."""
    return goal.partition("-")[0]


def rejections(said: str, functions: Set[Function], other: bool, limits: bool) -> Iterator[Rejection]:
    """The reasons that count for which the prover rejects these functions. `other` is whether their edit changes what they name, and
    `limits` whether a search that gave up at a limit counts."""
    words = Words(said, functions)
    for name, verdict, goals in words.verdicts():
        if verdict in ("not proved", "no proof"):
            errors = list(words.errors(name.split("::")))
            lost = {kind(goal) for it in errors for goal in LOST.findall(it)}
            found = [(0, goal, why) for goal, why in goals if FALSE in why]
            if other:
                found += [(1, why.partition("`")[2], why) for why in errors if not NAMES.search(why)]
                found += [(2, goal, why) for goal, why in goals if kind(goal) not in lost and (limits or GAVE_UP not in why)]
            yield from (Rejection(goal.startswith("overflow"), rank, f"{name}: {why}") for rank, goal, why in found)


def rejection(said: str, functions: Set[Function], other: bool = True, limits: bool = False) -> Optional[str]:
    """Why the prover rejects one of the functions, for a goal that still exists, or None."""
    if not re.search(r"^only=|^logic=not-proved", said, re.MULTILINE):
        return None
    best = min(rejections(said, functions, other, limits), default=None)
    return best.why[:200] if best else None


def is_judged(said: str, functions: Set[Function]) -> bool:
    """Whether the prover reports for each of the functions that it is proved, or that it isn't."""
    verdicts = [name.split("::") for name, verdict, _ in Words(said, functions).verdicts() if verdict != "could not tell"]
    return bool(functions) and all(any(it.fits(name) for name in verdicts) for it in functions)


def is_whole(said: str, functions: Set[Function]) -> bool:
    """Whether each goal of each of the functions is proved, whatever they call."""
    words = Words(said, functions)
    whole = all(not goals and not any(words.errors(name.split("::"))) for name, _, goals in words.verdicts())
    return whole and is_judged(said, functions)
