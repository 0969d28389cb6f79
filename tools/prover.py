"""The toolchain's prover, the command `rattle`: its words for a crate over libraries that are built, and what the last line
that it says of a proved crate may have."""
import functools
import pathlib
import re
import subprocess
from typing import Dict, List, Optional

from crates import TOP, below, libraries, own_libraries

# The last line of a crate that is proved, with nothing assumed but what the toolchain and the libraries below were proved to be.
PROVED = re.compile(
    r"logic=proved((?: (?:functions|axioms|target|cpu|threads|main|may-wait|sum)=\S+)+) native=nat,char,string"
    r" logic-built=trusted libraries-built=trusted statements=trusted"
)


@functools.lru_cache(maxsize=None)
def ask(word: str) -> str:
    """What `rt` answers to a word."""
    return subprocess.run(["rt", word], stdout=subprocess.PIPE, check=True).stdout.decode().strip()


def kit() -> pathlib.Path:
    """The toolchain's folder: that of the page that its command names first."""
    return pathlib.Path(ask("doc")).parent


def is_program(crate: str) -> bool:
    return (TOP / "crates" / crate / "src" / "main.rt").exists()


def words(verb: str, crate: str, built: Dict[str, pathlib.Path]) -> List[str]:
    """The command by which the prover checks or builds a crate, in its folder, over the crates that it depends on. Each of
    them is in the folder that `built` names, as NAME.rlib."""
    toolchain, own, named = kit(), own_libraries()[crate], libraries()[crate]
    made = [str(toolchain / "bin" / "rattle"), verb, "--crate-name", crate, f"src/{'main' if is_program(crate) else 'lib'}.rt"]
    for it in ["std", *(it for it in named if it not in own)]:
        made += ["--extern", f"{it}={toolchain}/rlibs/{it}.rlib"]
    made += ["-L", f"dependency={toolchain}/rlibs"]
    for it in below(crate):
        made += ["--extern", f"{it}={built[it]}/{it}.rlib"] if it in own else []
        made += ["-L", f"dependency={built[it]}"]
    return [*made, "--antt-project", f"{toolchain}/rattle/logic/antt-project.json", "--logic-built", f"{toolchain}/logic_built"]


def allowed_handles() -> List[str]:
    """The handles that the file HANDLES allows."""
    found = re.fullmatch(r"Handles allowed: (.*)\.\s*", (TOP / "HANDLES").read_text(encoding="utf-8"))
    return [] if not found or found[1] == "none" else found[1].split(", ")


def why_unproved(said: str) -> Optional[str]:
    """Why a crate isn't taken as proved by what the prover said of it, if it isn't."""
    last = said.rstrip("\n").rpartition("\n")[2]
    found = PROVED.fullmatch(last)
    if not found:
        return f"its last line has a word that that of a proved crate hasn't: {last}"
    counts = dict(it.split("=", 1) for it in found[1].split())
    taken = [*(it for it in counts.get("main", "").split("+") if it), *(["Wait"] if "may-wait" in counts else [])]
    beyond = sorted(set(taken) - set(allowed_handles()))
    return f"it takes handles that HANDLES doesn't allow: {', '.join(beyond)}" if beyond else None
