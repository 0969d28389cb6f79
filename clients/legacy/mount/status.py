"""What a mount says of itself: `legacy mounts` asks for it by an attribute of the mount's folder."""
import argparse
import json
import os
import shlex
import time
from typing import Any, Dict, List

# The attribute, after the prefix of those that the mount has of its own, and its whole name.
NAME, WHOLE = b"mount", "user.gate.mount"
# The most refused texts that are named. (An attribute has at most 64 KiB.)
MOST = 100
LONGEST = 60_000


def rules_of(words: argparse.Namespace) -> List[str]:
    """Where files have their rules from, as a command line has it."""
    found = [f"-e {shlex.quote('='.join(it))}" for it in words.encoding]
    found += [".gitattributes"] if words.attributes else []
    found += [".editorconfig"] if words.editorconfig else []
    return found + ([f"--default {shlex.quote(words.default)}"] if words.default else [])


class Status:
    """What is said of a mount that begins now."""

    def __init__(self, words: argparse.Namespace):
        self._said: Dict[str, Any] = {
            "process": os.getpid(), "since": int(time.time()), "source": words.source, "rules": rules_of(words),
            "read_only": words.read_only, "log": words.log or ("standard error" if words.foreground else "the system's log")}

    def text(self, refused: List[Dict[str, str]]) -> bytes:
        """All of it, with the texts that are refused, the last ones first."""
        said = json.dumps({**self._said, "refused": refused[:MOST], "refused_in_all": len(refused)}).encode()
        return said if len(said) < LONGEST else json.dumps({**self._said, "refused": [], "refused_in_all": len(refused)}).encode()
