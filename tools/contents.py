"""The files of an installation: what `tools/install` puts below a folder, and `tools/package` into a package."""
import re
import subprocess
import sys
from typing import Dict, Iterator, List, NamedTuple

from crates import TOP

PROGRAM = "libexec/gate"
PLUGIN = "share/nvim/site/pack/gate/start/legacy"
EMACS = "share/emacs/site-lisp/legacy.el"
VSCODE = "share/gate/vscode"
# The list of index files that `gate-standard` fetches.
INDEX_FILES = "share/gate/index-files"
# Where each shell looks for the completions of a command.
COMPLETIONS = {
    "bash": "share/bash-completion/completions/legacy",
    "zsh": "share/zsh/site-functions/_legacy",
    "fish": "share/fish/vendor_completions.d/legacy.fish",
}

sys.path.insert(0, str(TOP / "clients"))


class File(NamedTuple):
    """A file to be put below the prefix."""

    path: str
    content: bytes
    executable: bool = False


def launcher(program: str) -> bytes:
    """The script that starts the program, named in the shell's words: it bounds the memory, since the program can't."""
    return (TOP / "tools" / "budget").read_bytes() + f'exec {program} "$@"\n'.encode(errors="surrogateescape")


def manuals() -> Iterator[File]:
    for name in "gate.1", "legacy.1":
        yield File(f"share/man/man1/{name}", (TOP / "docs" / name).read_bytes())


def modules(place: str) -> Iterator[File]:
    """The client and the package `legacy`: what `pip install ./clients` would put there."""
    import wheels

    for path, content in wheels.wheel_files(wheels.sources()):
        yield File(f"{place}/{path}", content)


def commands() -> Dict[str, str]:
    """The commands that are written in Python, each with its call, as MODULE:FUNCTION."""
    import wheels

    found: Dict[str, str] = wheels.project()["project.scripts"]
    return found


def script(python: str, call: str, before: List[str]) -> bytes:
    """A command that calls a function of Python after these lines."""
    module, _, name = call.partition(":")
    lines = [f"#!{python}", "import sys", *before, f"from {module} import {name}", f"sys.exit({name}())"]
    return "".join(f"{line}\n" for line in lines).encode()


def unit(prefix: str) -> File:
    """The unit of systemd that mounts a tree for a user."""
    text = (TOP / "clients" / "legacy-mount@.service").read_text(encoding="utf-8")
    return File("share/systemd/user/legacy-mount@.service", text.replace("%h/.local", prefix.replace("%", "%%")).encode())


def completions() -> Iterator[File]:
    """The completions of the command `legacy`, as it prints them."""
    for shell, path in COMPLETIONS.items():
        words = [sys.executable, "-B", "-m", "legacy", "complete", shell]
        printed = subprocess.run(words, cwd=TOP / "clients", stdin=subprocess.DEVNULL, stdout=subprocess.PIPE, check=True).stdout
        yield File(path, printed)


def standard() -> Iterator[File]:
    """The command that fetches the Standard's files, and the names of these."""
    named = re.findall(r'"(index-[a-z0-9-]*\.txt)"', (TOP / "crates" / "index_loader" / "src" / "kind.rt").read_text(encoding="utf-8"))
    yield File("bin/gate-standard", (TOP / "tools" / "standard").read_bytes(), True)
    yield File(INDEX_FILES, "".join(f"{it}\n" for it in named).encode())


def editors() -> Iterator[File]:
    """The library for Emacs, and the extension for VS Code, which its user packs."""
    yield File(EMACS, (TOP / "editors" / "emacs" / "legacy.el").read_bytes())
    for path in sorted((TOP / "editors" / "vscode").iterdir()):
        yield File(f"{VSCODE}/{path.name}", path.read_bytes())


def plugin() -> Iterator[File]:
    """The plugin for Neovim, with the tags of its help, as `:helptags` makes them."""
    top = TOP / "editors" / "nvim"
    for folder in "doc", "lua", "plugin":
        for path in sorted((top / folder).rglob("*")):
            if path.suffix in (".lua", ".txt"):
                yield File(f"{PLUGIN}/{path.relative_to(top).as_posix()}", path.read_bytes())
    tags = set(re.findall(r"(?<!\S)\*([^\s*|]+)\*(?!\S)", (top / "doc" / "legacy.txt").read_text(encoding="utf-8")))
    rows = [(tag, tag.replace("\\", "\\\\").replace("/", "\\/")) for tag in sorted(tags)]
    yield File(f"{PLUGIN}/doc/tags", "".join(f"{tag}\tlegacy.txt\t/*{sought}*\n" for tag, sought in rows).encode())
