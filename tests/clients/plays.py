"""Requests that are played to what answers them in a mount, without a kernel: in any order, and at any moment of a save."""
import contextlib
import os
import pathlib
import tempfile
import unittest
from typing import NamedTuple
from unittest import mock

from checkout import INDEXES, PROGRAM
from legacy.mount import below
from legacy.mount.refusals import Refusals
from legacy.rules import Rule
from mounts import has_pyfuse3

HAS_PYFUSE3 = has_pyfuse3(__import__("sys").executable)
if HAS_PYFUSE3:
    import trio
    from legacy.mount import files, operations, questions, reading, saves, view, workers
    from legacy.mount.tree import ROOT

# A request's program.
CONTEXT = mock.Mock(pid=1, umask=0, uid=os.getuid(), gid=os.getgid())


def asked(**wanted):
    """What a request to change some of a file's attributes says."""
    fields = {f"update_{it}": f"st_{it}" in wanted for it in ("size", "mode", "uid", "gid", "atime", "mtime")}
    return mock.Mock(**wanted), mock.Mock(**fields)


class Everywhere(NamedTuple):
    """Rules of which one holds for all files."""

    rule: Rule

    def rule_of(self, _):
        return self.rule


@contextlib.contextmanager
def whole_seconds(seconds):
    """Has files have the times of a file system that keeps one for so many seconds."""
    def coarse(found):
        it, step = exact(found), 1_000_000_000 * seconds
        return it._replace(modified=it.modified // step * step, changed=it.changed // step * step)

    exact = below.signature
    with contextlib.ExitStack() as held:
        for module in below, reading, saves, view, files:
            held.enter_context(mock.patch.object(module, "signature", coarse))
        yield


@unittest.skipUnless(HAS_PYFUSE3, "this interpreter has no pyfuse3 (Debian's python3-pyfuse3)")
class Played(unittest.TestCase):
    """Tests whose requests are played to the mount of a folder, which has a file `f` in Shift_JIS."""

    CONTENT, RULE = b"\xff", Rule("shift_jis", "this test")

    def played(self, play, **options):
        """Plays requests."""
        with tempfile.TemporaryDirectory() as folder:
            trio.run(self.serve, pathlib.Path(folder), play, options)

    async def serve(self, folder, play, options):
        (folder / "f").write_bytes(self.CONTENT)
        words = [PROGRAM, "stdio", "--indexes", str(INDEXES)]
        short, long = questions.Questions(words), workers.Workers(words)
        source = below.Source(os.fsencode(folder))
        reader = reading.Reader(source, short, long, long)

        async def forget_pages(_):
            pass

        shown = view.View(source, Everywhere(self.RULE), reader, view.Options(**options))
        answers = operations.Operations(shown, saves.Saves(reader, long, Refusals(source, None), False, forget_pages))
        try:
            await play(folder / "f", answers, (await answers.lookup(ROOT, b"f")).st_ino)
        finally:
            short.close()
            long.close()
            os.close(source.descriptor)

    async def text(self, answers, name=b"f"):
        """The text of a file, as a program reads it."""
        found = await answers.lookup(ROOT, name)
        file = (await answers.open(found.st_ino, os.O_RDONLY, CONTEXT)).fh
        text = await answers.read(file, 0, 1 << 20)
        await answers.release(file)
        return text.decode()

    async def save(self, answers, text, name=b"f"):
        """Saves a text in place."""
        found = await answers.lookup(ROOT, name)
        file = (await answers.open(found.st_ino, os.O_WRONLY | os.O_TRUNC, CONTEXT)).fh
        try:
            await answers.write(file, 0, text.encode())
            await answers.flush(file)
        finally:
            await answers.release(file)
