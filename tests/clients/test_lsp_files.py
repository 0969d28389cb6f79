"""Files that the language server reads and writes, those of a mount, and an editor that starts the server."""
import argparse
import os
import pathlib
import shutil
import subprocess
import sys
import tempfile
import unittest
from typing import Any, Dict, List, Optional, Tuple
from unittest import mock

from checkout import BUILT, CLIENTS, INDEXES, PROGRAM, TOP
from language import LIMIT, Folder, editing
from legacy.finding import Found
from legacy.lsp.diagnostics import diagnostics_of
from legacy.lsp.files import Unreadable
from legacy.lsp.letters import Letters
from legacy.lsp.opened import Opened, Tools
from legacy.lsp.programs import Programs
from legacy.lsp.protocol import Change
from legacy.lsp.sources import Source, Sources
from legacy.saving import Refused

# What a Neovim does that has started: types a character without bytes, takes it back, and prints what is shown each time.
KEYS = """
local function show(count)
  vim.wait(100000, function() return #vim.diagnostic.get(0) == count end, 10)
  for _, it in ipairs(vim.diagnostic.get(0)) do print(it.lnum, it.col, it.code) end
  print('--')
end
local client = vim.lsp.get_client_by_id(1)
vim.wait(100000, function() return client.initialized end, 10)
vim.api.nvim_buf_set_text(0, 0, 1, 0, 1, { 'é' })
show(1)
vim.cmd('silent undo')
show(0)
vim.cmd('qa!')
"""


class Mounted(unittest.TestCase):
    def test_where_a_file_of_a_mount_has_its_bytes(self) -> None:
        form = "36 35 98:0 / {} rw,nosuid shared:1 - {} {} rw,user_id=0\n"
        # (the mounts, each its point, its kind and its source, and where /m/a/b.txt has its bytes)
        rows: List[Tuple[List[Tuple[str, str, str]], Optional[str]]] = [
            ([("/m", "fuse.gate", "/source")], "/source/a/b.txt"), ([("/m", "fuse.other", "/source")], None), ([("/n", "fuse.gate", "/source")], None),
            ([("/", "ext4", "/dev/sda"), ("/m", "fuse.gate", "/s"), ("/m/a", "fuse.gate", "/t")], "/t/b.txt"), ([("/mm", "fuse.gate", "/source")], None),
            ([("/m", "fuse.gate", "/with\\040space\\134")], "/with space\\/a/b.txt"), ([("/m", "fuse.gate", "relative")], None),
            ([("/m", "fuse.gate", "/m")], None), ([("/m", "fuse.gate", "/m/below")], None), ([("/m", "fuse.gate", "/mm")], "/mm/a/b.txt"), ([], None),
        ]
        for mounts, path in rows:
            with self.subTest(mounts=mounts), tempfile.NamedTemporaryFile("w", encoding="utf-8") as table:
                table.write("".join(form.format(*it) for it in mounts))
                table.flush()
                told = {b"user.gate.label": b"shift_jis", b"user.gate.origin": b"-e *"}
                with mock.patch("legacy.lsp.sources.MOUNTS", pathlib.Path(table.name)), mock.patch("os.getxattr", lambda _, name: told[name]):
                    found = Sources(argparse.Namespace(), None, []).find("/m/a/b.txt")
                self.assertEqual(found, Source("shift_jis", "-e *", path, True))
                if found and not path:
                    self.assertRaisesRegex(Unreadable, "can't be read", found.read)


@BUILT
class Trying(Folder):
    def test_a_save_that_the_mount_would_refuse(self) -> None:
        name = self.file("a.sjis", b"a\xff\nb\n")
        programs = Programs(Found(PROGRAM, INDEXES, None))
        self.addCleanup(programs.end)
        for is_mounted in True, False:
            opened = Opened(Tools(programs, Letters(), "utf-16"), Source("shift_jis", "", str(self.folder / name), is_mounted), "a\ufffd\nb\n")
            opened.change([Change("x", (1, 0), (1, 0))])
            self.assertFalse(opened.try_to_save())
            with mock.patch("legacy.lsp.opened.save", side_effect=Refused(84, "why", 2, 1)):
                self.assertEqual([opened.try_to_save(), opened.try_to_save()], [is_mounted, False])
                found = [(it["code"], it["message"], it["range"]["start"]["line"]) for it in diagnostics_of(opened)]
                self.assertEqual(("save-refused", "A save would be refused: why.", 1) in found, is_mounted)
            self.assertEqual(opened.try_to_save(), is_mounted)
            opened.close()


@BUILT
class Files(Folder):
    """Files that the server reads and writes, so that the editor has them as UTF-8."""

    RAW, TEXT = b"a\x82\xa0\xff\r\n", "aあ\ufffd\r\n"

    def test_a_file_that_is_open(self) -> None:
        name = self.file("a.sjis", self.RAW)
        (self.folder / name).chmod(0o640)
        with editing(self.folder, "--debounce", "0") as editor:
            found = editor.read(name)
            self.assertEqual([found[it] for it in ("text", "encoding", "bom", "damaged", "exists")], [self.TEXT, "Shift_JIS", False, 1, True])
            editor.open(name, found["text"])
            added, changed = b"\x82\xa0" + self.RAW, self.RAW[:4] + b"b\r\n"
            for version, change, raw in (1, ("あ", (0, 0)), added), (2, ("", (0, 0), (0, 1)), self.RAW), (3, ("b", (0, 3)), changed):
                editor.change(name, version, change)
                self.assertEqual((editor.write(name, version=version), (self.folder / name).read_bytes()), ("", raw))
            self.assertEqual((self.folder / name).stat().st_mode & 0o777, 0o640)
            editor.notify("textDocument/didSave", textDocument={"uri": editor.uri(name)})
            self.assertEqual([it[0] for it in editor.wait(name, 3)], ["damage"])

    def test_what_is_not_written(self) -> None:
        raw = self.RAW
        rows: List[Tuple[Any, Dict[str, Any], str]] = [
            (("é", (0, 1)), {"version": 1}, "line 1, character 2: U+00E9 LATIN SMALL LETTER E WITH ACUTE has no bytes in Shift_JIS"),
            (("b", (0, 1)), {"version": 0}, "the text is at version 1"), (("b", (0, 1)), {"version": 2}, "the text is at version 1"),
            (("b", (0, 1)), {"version": "1"}, "version isn't a whole number"), (("b", (0, 1)), {"text": "é"}, "U+00E9 LATIN SMALL"),
            (("b", (0, 1)), {"text": "x", "base": "0" * 64}, "another program has changed the file meanwhile"),
            (("b", (0, 1)), {"text": 7}, "text isn't a text"),
        ]
        for begin, members, reason in rows:
            name = self.file("a.sjis", raw)
            with self.subTest(members=members), editing(self.folder, "--debounce", "0") as editor:
                editor.open(name, self.TEXT)
                editor.change(name, 1, begin)
                self.assertIn(reason, editor.write(name, **members))
                self.assertEqual((self.folder / name).read_bytes(), raw)

    def test_a_file_that_another_program_changes_meanwhile(self) -> None:
        name = self.file("a.sjis", self.RAW)
        with editing(self.folder, "--debounce", "0") as editor:
            editor.open(name, self.TEXT)
            editor.change(name, 1, ("b", (0, 0)))
            self.file(name, b"another's")
            self.assertEqual((editor.write(name, version=1), (self.folder / name).read_bytes()), ("Not saved: it has changed since", b"another's"))
            name = "new.sjis"
            editor.open(name, "")
            editor.change(name, 1, ("b", (0, 0)))
            self.file(name, b"another's")
            self.assertIn("another program has made the file", editor.write(name, version=1))
            self.assertEqual((self.folder / name).read_bytes(), b"another's")

    def test_a_file_that_is_new(self) -> None:
        with editing(self.folder, "--debounce", "0") as editor:
            self.assertEqual([editor.read("n.sjis")[it] for it in ("text", "exists")], ["", False])
            editor.open("n.sjis", "")
            editor.change("n.sjis", 1, ("あ\n", (0, 0)))
            self.assertEqual((editor.write("n.sjis", version=1), (self.folder / "n.sjis").read_bytes()), ("", b"\x82\xa0\n"))
            editor.change("n.sjis", 2, ("", (0, 0), (1, 0)))
            self.assertEqual((editor.write("n.sjis", version=2), (self.folder / "n.sjis").read_bytes()), ("", b""))

    def test_a_file_that_is_not_open(self) -> None:
        name = self.file("a.sjis", self.RAW)
        with editing(self.folder, "--debounce", "0") as editor:
            base = editor.read(name)["base"]
            self.assertEqual((editor.write(name, text="あ" + self.TEXT, base=base), (self.folder / name).read_bytes()), ("", b"\x82\xa0" + self.RAW))
            self.assertIn("another program", editor.write(name, text="x", base=base))
            self.assertIn("has no rule", editor.write("a.txt", text="x"))
            self.assertIn("isn't open", editor.write(name, version=0))
            (self.folder / "d.sjis").mkdir()
            os.mkfifo(self.folder / "f.sjis")
            for name, reason in ("d.sjis", "Is a directory"), ("f.sjis", "isn't a regular file"):
                for call in editor.read(name)["message"], editor.write(name, text=""):
                    self.assertIn(reason, call)


@BUILT
@unittest.skipUnless(shutil.which("nvim"), "there is no nvim")
class Neovim(Folder):
    def test_the_lines_of_the_page(self) -> None:
        page = (TOP / "docs" / "EDITORS.md").read_text(encoding="utf-8")
        (self.folder / "init.lua").write_text(page.partition("```lua\n")[2].partition("```")[0], encoding="utf-8")
        (self.folder / "keys.lua").write_text(KEYS, encoding="utf-8")
        command = self.folder / "legacy"
        command.write_text(f'#!/bin/sh\nexec "{sys.executable}" -m legacy "$@"\n', encoding="utf-8")
        command.chmod(0o755)
        self.file("a.sjis", b"a\x82\xa0\n")
        variables = {"PATH": f"{self.folder}:{os.environ['PATH']}", "PYTHONPATH": str(CLIENTS), "GATE": PROGRAM, "GATE_INDEXES": str(INDEXES),
                     "HOME": str(self.folder), "XDG_STATE_HOME": str(self.folder), "XDG_CACHE_HOME": str(self.folder), "NVIM_LOG_FILE": os.devnull}
        ran = subprocess.run(
            ["nvim", "--headless", "-u", "init.lua", "-n", "-c", "edit ++enc=cp932 a.sjis", "-c", "luafile keys.lua"], cwd=self.folder, timeout=LIMIT,
            env={**os.environ, **variables}, stdin=subprocess.DEVNULL, stdout=subprocess.PIPE, stderr=subprocess.PIPE)
        self.assertEqual(ran.stderr.decode().split(), ["0", "1", "unencodable", "--", "--"])


if __name__ == "__main__":
    unittest.main()
