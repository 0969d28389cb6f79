"""tools/install: what it puts below a folder is found there, and --uninstall leaves all else as it was."""
import json
import os
import pathlib
import resource
import shutil
import signal
import subprocess
import sys
import tempfile
import unittest

from program import PROGRAM, TOP, built
from base import LIMIT

TOOL = str(TOP / "tools" / "install")
PLUGIN = "share/nvim/site/pack/gate/start/legacy"


def snapshot(folder):
    """All that is below a folder: each file's bytes, each folder as None."""
    return {str(path.relative_to(folder)): path.read_bytes() if path.is_file() else None for path in sorted(folder.rglob("*"))}


def no_room():
    """What a process does so that no file that it writes has more than 20,000 bytes, as the program has."""
    signal.signal(signal.SIGXFSZ, signal.SIG_IGN)
    resource.setrlimit(resource.RLIMIT_FSIZE, (20000, 20000))


@built
class Install(unittest.TestCase):
    def setUp(self):
        kept = tempfile.TemporaryDirectory()
        self.addCleanup(kept.cleanup)
        self.home = pathlib.Path(kept.name)
        self.prefix = self.home / ".local"

    def environment(self, **others):
        """An environment with a home of its own, in which nothing else of a user is found."""
        kept = {name: os.environ[name] for name in ("LANG", "LC_ALL", "TMPDIR") if name in os.environ}
        return {**kept, "HOME": str(self.home), "PATH": f"{pathlib.Path(sys.executable).parent}:/usr/bin:/bin", **others}

    def runs(self, *words, status=0, env=None, **how):
        """What a command prints that ends with this status, and what it says."""
        words = [str(it) for it in words]
        pipes = {"stdin": subprocess.DEVNULL, "stdout": subprocess.PIPE, "stderr": subprocess.PIPE}
        ran = subprocess.run(words, cwd="/", env=env or self.environment(), timeout=LIMIT, **pipes, **how)
        self.assertEqual(ran.returncode, status, ran.stderr)
        return ran.stdout.decode(), ran.stderr.decode()

    def install(self, *words, **how):
        return self.runs(TOOL, *words, "--gate", PROGRAM, **how)

    def finds(self, env):
        """All that was installed is found in this environment, and runs."""
        version, _ = self.runs(PROGRAM, "--version")
        self.assertEqual(self.runs("gate", "--version", env=env)[0], version)
        self.assertEqual(self.runs("legacy", "--version", env=env)[0], f"legacy {version.split()[1]}\n")
        self.runs(self.interpreter(env), "-c", "import gate, legacy; gate.Gate.start; gate.Document", env=env)
        if shutil.which("manpath"):
            self.assertIn("share/man", self.runs("manpath", "-q", env=env)[0].replace("/usr/share/man", ""))
        if shutil.which("nvim"):
            asks = "lua io.stdout:write(vim.fn.exists(':LegacyEdit'), ' ', #vim.api.nvim_get_runtime_file('doc/legacy.txt', true))"
            self.assertEqual(self.runs("nvim", "--headless", "-i", "NONE", "-n", "-c", asks, "-c", "qa!", env=env)[0], "2 1")
            self.runs("nvim", "--headless", "-i", "NONE", "-n", "-c", "try | help :LegacyEdit | catch | cquit | endtry", "-c", "qa!", env=env)

    def interpreter(self, env):
        """The interpreter of the command that was installed."""
        return pathlib.Path(shutil.which("legacy", path=env["PATH"])).read_text().splitlines()[0][2:]

    def test_the_interpreter_has_what_the_mount_needs_where_one_has(self):
        def has(python):
            return subprocess.run([python, "-c", "import pyfuse3, trio"], cwd="/", stderr=subprocess.DEVNULL).returncode == 0

        self.install()
        found = self.interpreter({"PATH": f"{self.prefix}/bin"})
        self.assertEqual(has(found), any(has(it) for it in (sys.executable, "/usr/bin/python3") if os.access(it, os.X_OK)))
        self.assertTrue(os.access(self.prefix / "bin" / "mount.fuse.legacy", os.X_OK))
        self.assertIn(f"ExecStart={self.prefix}/bin/legacy mount", (self.prefix / "share/systemd/user/legacy-mount@.service").read_text())

    def test_below_home_all_is_found_once_bin_is_on_path(self):
        said, _ = self.install()
        self.assertEqual([line for line in said.splitlines() if "export" in line], [f'  export PATH="{self.prefix}/bin:$PATH"'])
        self.finds(self.environment(PATH=f"{self.prefix}/bin:{self.environment()['PATH']}"))

    def test_elsewhere_it_is_found_by_what_is_printed(self):
        prefix = self.home / "a b"
        said, _ = self.install(prefix)
        exports = [line for line in said.splitlines() if "export" in line]
        self.assertEqual([line.split()[1].partition("=")[0] for line in exports], ["PATH", "PYTHONPATH", "XDG_DATA_DIRS"])
        script = "\n".join([*exports, "env -0"])
        environment = dict(line.partition("=")[::2] for line in self.runs("bash", "-c", script)[0].split("\0") if line)
        self.finds(environment)
        said, _ = self.install(prefix, env=environment)
        self.assertNotIn("export", said)
        said, _ = self.install(prefix, env={**environment, "MANPATH": "/usr/share/man"})
        self.assertEqual([line for line in said.splitlines() if "export" in line], [f'  export MANPATH="{prefix}/share/man:$MANPATH"'])

    def test_the_plugins_tags_are_those_of_neovim(self):
        if not shutil.which("nvim"):
            self.skipTest("there is no nvim")
        self.install()
        tags = self.prefix / PLUGIN / "doc" / "tags"
        made = tags.read_bytes()
        tags.unlink()
        self.runs("nvim", "--headless", "-u", "NONE", "-i", "NONE", "-n", "-c", f"helptags {tags.parent}", "-c", "qa!")
        self.assertEqual(made, tags.read_bytes())

    def test_uninstall_leaves_all_else_as_it_was(self):
        (self.prefix / "bin").mkdir(parents=True)
        (self.prefix / "share" / "nvim").mkdir(parents=True)
        (self.prefix / "bin" / "other").write_text("x")
        before = snapshot(self.home)
        self.install()
        self.assertLess(set(before), set(snapshot(self.home)))
        # What Python compiled, in a second of its own as in the one that was installed for, goes too.
        self.runs(sys.executable, "-c", "import gate, legacy.finding", env=self.environment())
        self.install()
        self.runs(TOOL, "--uninstall")
        self.assertEqual(snapshot(self.home), before)
        _, said = self.runs(TOOL, "--uninstall", status=1)
        self.assertIn("nothing was installed", said)

    def test_a_file_that_was_changed_is_left(self):
        self.install()
        page = self.prefix / "share" / "man" / "man1" / "gate.1"
        page.write_text("mine")
        said, _ = self.runs(TOOL, "--uninstall")
        self.assertIn(f"{page} was changed", said)
        self.assertEqual([name for name, content in snapshot(self.home).items() if content is not None], [str(page.relative_to(self.home))])

    def test_nothing_of_others_is_replaced(self):
        (self.prefix / "bin").mkdir(parents=True)
        (self.prefix / "bin" / "gate").symlink_to("/nowhere")
        _, said = self.install(status=1)
        self.assertIn(f"nothing is installed: {self.prefix}/bin/gate", said)
        self.assertEqual(os.readlink(self.prefix / "bin" / "gate"), "/nowhere")
        self.assertEqual([path.name for path in self.prefix.rglob("*")], ["bin", "gate"])

    def test_a_later_installation_removes_what_it_lacks(self):
        self.install()
        listed = self.prefix / "share" / "gate" / "installed"
        list_of = json.loads(listed.read_text())
        older = self.prefix / "bin" / "older"
        older.write_bytes(b"")
        list_of["files"]["bin/older"] = "e3b0c44298fc1c149afbf4c8996fb92427ae41e4649b934ca495991b7852b855"
        listed.write_text(json.dumps(list_of))
        self.install()
        self.assertFalse(older.exists())
        self.assertNotIn("bin/older", json.loads(listed.read_text())["files"])

    def test_without_room_nothing_is_left(self):
        _, said = self.install(status=1, preexec_fn=no_room, restore_signals=False)
        self.assertIn("File too large", said)
        self.assertEqual(snapshot(self.home), {})

    def test_a_list_that_is_none(self):
        listed = self.prefix / "share" / "gate" / "installed"
        listed.parent.mkdir(parents=True)
        for text in "", "[]", '{"files": 1, "folders": []}':
            listed.write_text(text)
            for words in [], ["--uninstall"]:
                self.assertIn("isn't the list that this wrote", self.install(*words, status=1)[1])
        self.assertEqual([name for name, content in snapshot(self.home).items() if content is not None], [str(listed.relative_to(self.home))])

    def test_words(self):
        self.install("--python", "no-such-python", status=1)
        self.assertIn("is no program gate", self.runs(TOOL, "--gate", "/bin/echo", status=1)[1])
        self.runs(TOOL, "--gate", self.home, status=1)
        self.runs(TOOL, "--gate", self.home / "none", status=1)
        self.runs(TOOL, "a", "b", status=2)
        self.assertEqual(snapshot(self.home), {})


if __name__ == "__main__":
    unittest.main()
