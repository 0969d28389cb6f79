"""A repository of four crates in a folder of its own, with the tools of this one, and commands in the place of the toolchain's."""
import os
import pathlib
import shutil
import tempfile
import unittest

from program import TOP

CRATES = "low:\nside:\nhigh: low memchr\nother: high\ngate: high side\n"

# Proves what it is asked to, and notes its words. Where a crate is named by the variable BAD, it isn't proved; by HANDLES, it
# takes a handle; by KILLED, its check is killed, but for one by itself; by LONG, it goes on in a process of its own. A check
# that makes no library prints what the variable SAYS has, ends with the status STATUS, and notes all its words.
RATTLE = r"""#!/usr/bin/env python3
import os, pathlib, signal, sys, time
name = sys.argv[sys.argv.index("--crate-name") + 1]
of = lambda word: sys.argv[sys.argv.index(word) + 1]
its = lambda variable: name in os.environ.get(variable, "").split()
if sys.argv[1] == "check":
    pathlib.Path(os.environ["WORDS"] + ".check").write_text("\n".join(sys.argv))
    print(os.environ.get("SAYS", "logic=proved"))
    sys.exit(int(os.environ.get("STATUS", 0)))
with open(os.environ["WORDS"], "a") as it:
    it.write(f"{name} {of('--jobs')}\n")
assert pathlib.Path("src").exists() and not pathlib.Path("must-fail").exists()
for word, nexts in zip(sys.argv, sys.argv[1:]):
    library = nexts.partition("=")[2]
    assert word != "--extern" or pathlib.Path(library).exists() or "/kit/rlibs/" in library, nexts
if its("LONG"):
    pathlib.Path(os.environ["WORDS"] + ".long").write_text(str(os.getpid()))
    os.fork()
    time.sleep(60)
if its("KILLED") and of("--jobs") != "1":
    os.kill(os.getpid(), signal.SIGKILL)
if its("BAD"):
    print(f"error: {name}\nlogic=not-proved")
    sys.exit(1)
path = pathlib.Path(of("-o"))
path.write_text("built") if path.suffix == ".o" else path.mkdir()
handles = " main=Threads" if its("HANDLES") else " axioms=59 target=x86_64-unknown-linux-gnu cpu=x86-64-v2 main=Net" if name == "gate" else ""
print(f"fn {name}::f: proved\nlogic=proved functions=1{handles} sum=0 native=nat,char,string logic-built=trusted libraries-built=trusted statements=trusted")
"""

# What is linked prints the words of the program's session.
LINK = """#!/bin/bash
while [ "$1" != -o ]; do shift; done
printf '#!/bin/bash\\ntr a-z A-Z\\n' > "$2"; chmod +x "$2"
"""

RT = """#!/bin/bash
case "$*" in doc) echo "$(dirname "$0")/kit/START-HERE.md" ;; version) echo kit ;; *) exit 3 ;; esac
"""


class Repository(unittest.TestCase):
    """Tests over such a repository."""

    def setUp(self):
        kept = tempfile.TemporaryDirectory()
        self.addCleanup(kept.cleanup)
        self.top = pathlib.Path(kept.name)
        shutil.copytree(TOP / "tools", self.top / "tools", ignore=shutil.ignore_patterns("__pycache__"))
        for path, text in ("crates.txt", CRATES), ("HANDLES", "Handles allowed: Net.\n"):
            (self.top / path).write_text(text)
        for line in CRATES.splitlines():
            name = line.partition(":")[0]
            for part in "src", "must-fail":
                (self.top / "crates" / name / part).mkdir(parents=True)
            (self.source(name)).write_text(name)
        (self.top / "crates/gate/stdin").write_text("reply\n")
        (self.top / "crates/gate/stdout").write_text("REPLY\n")
        (self.top / "kit" / "bin").mkdir(parents=True)
        for path, text in ("rt", RT), ("kit/bin/rattle", RATTLE), ("kit/bin/rattle-link", LINK):
            (self.top / path).write_text(text)
            (self.top / path).chmod(0o755)
        self.out = self.top / "crates" / "gate" / "out"
        self.words = self.top / "words"

    def source(self, crate):
        return self.top / "crates" / crate / "src" / ("main.rt" if crate == "gate" else "lib.rt")

    def environment(self, **variables):
        return {**os.environ, "PATH": f"{self.top}:{os.environ['PATH']}", "WORDS": str(self.words), "RT_JOBS": "4", **variables}
