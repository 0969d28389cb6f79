"""Mutants of a crate, tried together, and controls for the judge of them. A mutant is an edit of the crate's sources that the
prover must reject; a control is an edit that this judge must accept.

An edit changes one or several functions. Edits that change different functions are laid into one copy of the crate, and the
prover checks only these functions of the copy. A proof depends on the contracts of what its function calls, and not on their
bodies. So one mutant can't have another rejected, and in the copy each unchanged function has a hole for a proof and no body.

A mutant is rejected if the prover rejects a function that it changes, for a goal of that function's own that still exists
(tools/rejections.py). It isn't rejected because a function that it calls isn't proved. A mutant that isn't seen to be rejected
so is tried alone. A mutant that changes no function is tried by a check of the whole crate, with all its bodies and proofs.

A control means the same in another form: it may be proved, or lose the names or the form that its proof goes by. It passes if
what the prover reports of its function doesn't count as a rejection. A mutant may name a control of its own, by a line
`control: NAME`: a control in its crate that changes the same function in the same form. If that control is proved, a search that
gave up at a limit rejects the mutant."""
import pathlib
import re
import shutil
import subprocess
import tempfile
from typing import Dict, Iterator, List, NamedTuple, Optional, Set, Tuple

import prover
from crates import TOP
from functions import ROOTS, Function, function_at, functions_in
from rejections import is_judged, is_other, is_whole, rejection

# What a crate is made of.
PARTS = ("src", "specs", "proofs")
# The files of a function's proof.
PROOFS = ("Proof.antt", "Answers.antt", "Invariants.antt")
# The folder of a crate's controls.
CONTROLS = "controls"
SEVERAL = re.compile(r"several functions are named `([^`]*)`: help: write one of (.*)")
# A body whose proof is a hole, and that proof: callers of the function depend on its statement alone.
BODY = "unreachable!()"
HOLE = "use Rattle.{crate}.proofs.{path}.Statement.{{statement}}\n\npub {name}_spec : {{M : Type 1}} → statement M\n{name}_spec = ?\n"


class BadEdit(Exception):
    """The reason why an edit can't be laid into the sources."""


class Edit:
    """A mutant or a control: the texts that it replaces, each with its file, and the functions that contain them."""

    def __init__(self, path: pathlib.Path, crate: pathlib.Path) -> None:
        self.path, self.is_control = path, path.parent.name == CONTROLS
        self.texts: List[Tuple[str, str, str]] = []
        self.functions: Set[Function] = set()
        file = old = self.control = ""
        for line in path.read_text(encoding="utf-8").splitlines():
            word, _, rest = line.partition(": ")
            if word == "file":
                file = rest.strip()
            elif word == "old":
                old = rest
            elif word in ("new", "new:"):
                self.texts.append((file, old, rest))
            elif word == "control":
                self.control = rest.strip()
            elif word == "in":
                # (if the function that is rejected isn't the one that contains the text)
                owner, _, name = rest.strip().rpartition("::")
                self.functions.add(Function(name, owner))
        named = bool(self.functions)
        for file, text, at in self.steps(crate):
            module = pathlib.Path(file).stem
            self.functions.update([] if named else function_at(text, at, crate.name if module in ROOTS else module))

    def steps(self, crate: pathlib.Path) -> Iterator[Tuple[str, str, int]]:
        """Each file that it changes, with its text before and the offset of the change. After the last, `edited` has all new texts."""
        sources = {it: (crate / it).read_text(encoding="utf-8") for it, _, _ in self.texts}
        for file, old, new in self.texts:
            if not old or sources[file].count(old) != 1:
                raise BadEdit(f"the text that it replaces isn't in the file exactly once: {old}")
            yield file, sources[file], sources[file].index(old)
            sources[file] = sources[file].replace(old, new)
        self.edited = sources

    def is_other(self) -> bool:
        """Whether it changes what its texts name, and not only their form."""
        return is_other("\n".join(old for _, old, _ in self.texts), "\n".join(new for _, _, new in self.texts))

    def lay(self, crate: pathlib.Path) -> None:
        """Writes it into the copy of a crate."""
        for _ in self.steps(crate):
            pass
        for file, text in self.edited.items():
            (crate / file).write_text(text, encoding="utf-8")


class Tried(NamedTuple):
    """The result of an edit: whether the prover rejected it, what the prover printed, and whether the edit is a control."""

    edit: pathlib.Path
    rejected: bool
    said: str
    is_control: bool = False

    def verdict(self) -> str:
        """The result as one word or two, in capitals if it is a failure."""
        return ("REJECTED" if self.rejected else "accepted") if self.is_control else "rejected" if self.rejected else "NOT REJECTED"

    def is_passed(self) -> bool:
        return self.rejected != self.is_control


class Trial:
    """The mutants and controls of one crate, over the libraries that it depends on, each built in the folder that `built` names."""

    def __init__(self, crate: str, edits: List[pathlib.Path], built: Dict[str, pathlib.Path], nice: int = 19) -> None:
        self.crate, self.edits = crate, edits
        # (after the proofs, which most other work waits for)
        self.words = ["nice", f"-n{nice}", *prover.words("check", crate, built), "--jobs", "1"]

    def results(self) -> Iterator[Tried]:
        """Tries each edit, together with others if that is possible."""
        left = []
        for path in self.edits:
            try:
                left.append(Edit(path, TOP / "crates" / self.crate))
            except (BadEdit, OSError) as fault:
                is_control = path.parent.name == CONTROLS
                yield Tried(path, is_control, f"it can't be made: {fault}", is_control)
        while left:
            these, left, said = self.together(left)
            for edit in these:
                yield self.judge(edit, said) or self.alone(edit)

    def judge(self, edit: Edit, said: str) -> Optional[Tried]:
        """The result of an edit by what the prover reports of a copy with it, or None if that doesn't show it."""
        reason = rejection(said, edit.functions, edit.is_other()) or self.rejection_beside_control(edit, said)
        if reason:
            whole = "" if edit.functions else "by a check of the whole crate, since no line 'in: FUNCTION' names a function: "
            return Tried(edit.path, True, f"{whole}{reason}", edit.is_control)
        if edit.is_control and is_judged(said, edit.functions):
            return Tried(edit.path, False, "no goal that still exists rejects it", True)
        return None

    def rejection_beside_control(self, edit: Edit, said: str) -> Optional[str]:
        """Why the prover rejects an edit at which a search gave up at a limit, if each goal of the edit's control is proved."""
        reason = rejection(said, edit.functions, edit.is_other(), limits=True) if edit.control else None
        if not reason:
            return None
        try:
            control = Edit(TOP / "crates" / self.crate / CONTROLS / f"{edit.control}.edit", TOP / "crates" / self.crate)
        except (BadEdit, OSError):
            return None
        is_beside = control.functions == edit.functions and is_whole(self.said_alone(control), control.functions)
        return f"beside {edit.control}, which is proved: {reason}" if is_beside else None

    def together(self, edits: List[Edit]) -> Tuple[List[Edit], List[Edit], str]:
        """Tries the first of these with each other edit that changes different functions. Returns the edits that it tried, the others,
        and what the prover printed."""
        with self.copy() as folder:
            these: List[Edit] = []
            left: List[Edit] = []
            turned: Set[Function] = set()
            for edit in edits:
                try:
                    if edit.functions & turned:
                        raise BadEdit("another edit changes its function")
                    edit.lay(pathlib.Path(folder))
                    these.append(edit)
                    turned |= edit.functions
                except BadEdit:
                    left.append(edit)
            return these, left, self.check(pathlib.Path(folder), turned)

    def alone(self, edit: Edit) -> Tried:
        """Tries one edit by its functions, or by a check of the whole crate if it changes none."""
        said = self.said_alone(edit)
        tried = self.judge(edit, said)
        if tried:
            return tried
        if edit.is_control:
            return Tried(edit.path, True, f"there is no verdict on its functions: {said[-600:]}", True)
        if edit.functions and re.search(r"^only=", said, re.MULTILINE):
            names = " ".join(sorted(it.name for it in edit.functions))
            return Tried(edit.path, False, f"{names}: no goal of its own still exists and isn't proved; a line 'in: FUNCTION' can name another function")
        return Tried(edit.path, False, "the crate is still proved with it" if "\nlogic=proved" in said else f"there is no verdict: {said[-600:]}")

    def said_alone(self, edit: Edit) -> str:
        """What the prover prints of a copy with one edit."""
        with self.copy() as folder:
            edit.lay(pathlib.Path(folder))
            return self.check(pathlib.Path(folder), edit.functions) or self.run(pathlib.Path(folder), [])

    def copy(self) -> "tempfile.TemporaryDirectory[str]":
        """A copy of the crate."""
        room = tempfile.TemporaryDirectory(prefix="mutants-")
        for part in PARTS:
            if (TOP / "crates" / self.crate / part).is_dir():
                shutil.copytree(TOP / "crates" / self.crate / part, pathlib.Path(room.name, part))
        return room

    def check(self, folder: pathlib.Path, functions: Set[Function]) -> str:
        """What the prover prints of these functions of a copy, also if it knows several functions by one of the names."""
        if not functions:
            return ""
        self.leave_out(folder, functions)
        names = {it: [f"{it.owner}::{it.name}"] for it in functions}
        while True:
            said = self.run(folder, sorted({name for it in names.values() for name in it}))
            several = SEVERAL.search(said)
            if not several:
                return said
            known = re.findall(r"`([^`]*)`", several[2])
            for it in functions:
                if names[it] == [several[1]]:
                    names[it] = [full for full in known if it.fits(full.split("::"))] or known

    def leave_out(self, folder: pathlib.Path, functions: Set[Function]) -> None:
        """Removes the body and the proof of each function of a copy except these, without moving a line. (If a path isn't a function's,
        for example in an impl of a trait with arguments, whose name has these too, the prover reports that and continues.)"""
        bodies: Dict[pathlib.Path, List[Tuple[int, int]]] = {}
        for path, file, body in functions_in(folder / "src"):
            if not any(it.may_be(Function(path[-1], [self.crate, *path][-2])) for it in functions):
                # (a function that no longer calls itself has its proof in the ordinary place)
                for name in (path[-1], f"+{path[-1]}"):
                    for it in PROOFS:
                        folder.joinpath("proofs", *path[:-1], name, it).unlink(missing_ok=True)
                place = folder.joinpath("proofs", *path)
                place.mkdir(parents=True, exist_ok=True)
                (place / PROOFS[0]).write_text(HOLE.format(crate=self.crate, path=".".join(path), name=path[-1]), encoding="utf-8")
                bodies.setdefault(file, []).append(body)
        for file, spans in bodies.items():
            text = file.read_text(encoding="utf-8")
            for start, end in sorted(spans, reverse=True):
                lines = text.count("\n", start, end)
                text = text[:start] + (BODY + "\n" * lines if lines else "") + text[end:]
            file.write_text(text, encoding="utf-8")

    def run(self, folder: pathlib.Path, only: List[str]) -> str:
        words = [*self.words, *(word for it in only for word in ("--only", it)), *(["--allow-holes"] if only else [])]
        ran = subprocess.run(words, cwd=folder, stdin=subprocess.DEVNULL, stdout=subprocess.PIPE, stderr=subprocess.STDOUT, errors="replace", check=False)
        return ran.stdout
