"""The crates of this repository, from crates.txt, which only this module parses."""
import pathlib
from typing import Dict, List

TOP = pathlib.Path(__file__).resolve().parent.parent


def libraries() -> Dict[str, List[str]]:
    """Each crate, lowest first, with the libraries that it names, the toolchain's among them."""
    found: Dict[str, List[str]] = {}
    for line in (TOP / "crates.txt").read_text(encoding="utf-8").splitlines():
        name, colon, names = line.partition("#")[0].partition(":")
        if colon:
            found[name.split()[0]] = names.split()
    return found


def own_libraries() -> Dict[str, List[str]]:
    """The same without those of the toolchain."""
    found = libraries()
    return {name: [it for it in names if it in found] for name, names in found.items()}


def below(*crates: str) -> List[str]:
    """The crates that these depend on, lowest first."""
    found, wanted = own_libraries(), set(crates)
    lower = set()
    for name in reversed(list(found)):
        if name in wanted:
            lower.update(found[name])
            wanted.update(found[name])
    return [name for name in found if name in lower]
