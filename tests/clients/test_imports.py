"""How the modules of clients/ import each other."""
import ast
import pathlib
import unittest
from typing import Dict, Iterator, List, Set

from checkout import CLIENTS

# The packages in which no module may reach itself by imports that are made when it is loaded.
FREE_OF_CYCLES = ("gate", "gate_documents", "legacy.lsp", "legacy.rules")


def name_of(path: pathlib.Path) -> str:
    """The name of a module."""
    parts = path.relative_to(CLIENTS).with_suffix("").parts
    return ".".join(parts[:-1] if parts[-1] == "__init__" else parts)


def imports_of(tree: ast.Module) -> Iterator[str]:
    """The modules, and the names in them, that a module imports when it is loaded."""
    for node in tree.body:
        if isinstance(node, ast.Import):
            yield from (it.name for it in node.names)
        elif isinstance(node, ast.ImportFrom) and node.module:
            yield node.module
            yield from (f"{node.module}.{it.name}" for it in node.names)


def cycles() -> List[str]:
    """The modules that reach themselves."""
    trees = {name_of(path): ast.parse(path.read_text(encoding="utf-8")) for path in CLIENTS.rglob("*.py")}
    direct: Dict[str, Set[str]] = {name: {it for it in imports_of(tree) if it in trees} for name, tree in trees.items()}
    found = []
    for name in direct:
        seen, ahead = set(), [*direct[name]]
        while ahead:
            it = ahead.pop()
            if it not in seen:
                seen.add(it)
                ahead += direct[it]
        if name in seen:
            found.append(name)
    return sorted(found)


class Cycles(unittest.TestCase):
    def test_no_module_reaches_itself(self) -> None:
        found = [name for name in cycles() if name.startswith(FREE_OF_CYCLES)]
        self.assertEqual(found, [])


if __name__ == "__main__":
    unittest.main()
