"""Files and folders of a mount that a user may not read."""
import errno
import os
import stat
import subprocess
import sys
import unittest

from mounts import BYTES, RULES, TEXT, WHY, Mount

# A command of somebody whose rights are those that modes say, also where root begins it.
BY_MODES = ["setpriv", "--bounding-set=-dac_override,-dac_read_search"] if os.geteuid() == 0 else []


@unittest.skipIf(WHY, WHY)
class Modes(unittest.TestCase):
    @classmethod
    def setUpClass(cls):
        cls.mount = Mount(*RULES, before=BY_MODES)
        cls.addClassCleanup(cls.mount.clear)

    def setUp(self):
        name = self.id().rpartition(".")[2]
        self.below, self.shown = self.mount.source / name, self.mount.point / name
        self.below.mkdir()
        (self.below / "f.sj").write_bytes(BYTES)

    def ran(self, *line):
        """A command with those rights: its status and its output."""
        ran = subprocess.run([*BY_MODES, *line], cwd=self.shown, stdout=subprocess.PIPE, stderr=subprocess.STDOUT, text=True)
        return ran.returncode, ran.stdout

    def writes(self, text, flags="os.O_WRONLY | os.O_APPEND", times=1):
        """The errno of writing a text some times in one go and closing the file, or 0."""
        script = f"import os, sys\ntry:\n file = os.open('f.sj', {flags}); os.write(file, {text!r} * {times}); os.close(file)\nexcept OSError as fault: sys.exit(fault.errno)"
        return errno.errorcode.get(self.ran(sys.executable, "-c", script)[0], 0)

    def test_what_cannot_be_read_can_be_seen_and_mended(self):
        for mode in 0o000, 0o200, 0o040:
            (self.below / "f.sj").chmod(mode)
            for folder in self.below, self.shown:
                status, said = self.ran("ls", "-ln", folder)
                self.assertEqual((status, said.split()[2]), (0, stat.filemode(stat.S_IFREG | mode)))
                self.assertEqual(self.ran("stat", "-c", "%a", folder / "f.sj"), (0, f"{mode:o}\n"))
            self.assertEqual(self.ran("cat", "f.sj"), (1, "cat: f.sj: Permission denied\n"))
            self.assertEqual(self.ran("chmod", "644", "f.sj"), (0, ""))
            self.assertEqual(self.ran("cat", "f.sj"), (0, TEXT.replace("\r", "")))

    @unittest.skipUnless(os.geteuid() == 0, "needs root, for a file of another user's")
    def test_another_user_s_can_be_seen(self):
        (self.below / "f.sj").chmod(0o600)
        os.chown(self.below / "f.sj", 1234, 1234)
        status, said = self.ran("ls", "-ln")
        self.assertEqual((status, said.split()[2:6]), (0, ["-rw-------", "1", "1234", "1234"]))

    def test_it_is_appended_to_without_being_read(self):
        (self.below / "f.sj").chmod(0o200)
        self.assertEqual(self.writes("あ\n".encode()), 0)
        self.assertEqual(self.writes("é\n".encode()), "EILSEQ")
        self.assertEqual(self.writes("あ".encode()[:2]), "EILSEQ")
        self.assertEqual(self.writes("亜".encode(), times=100_000), 0)
        # (without its old bytes no other edit can be made)
        for flags in "os.O_WRONLY", "os.O_WRONLY | os.O_TRUNC", "os.O_RDWR | os.O_APPEND":
            self.assertEqual(self.writes(b"x", flags), "EACCES")
        (self.below / "f.sj").chmod(0o600)
        self.assertEqual((self.below / "f.sj").read_bytes(), BYTES + b"\x82\xa0\n" + b"\x88\x9f" * 100_000)
        self.assertEqual((self.shown / "f.sj").read_bytes().decode(), TEXT + "あ\n" + "亜" * 100_000)

    def test_a_folder_that_can_only_be_listed(self):
        folder = self.below / "d"
        (folder / "e").mkdir(parents=True)
        for name in "f.sj", "g.bin":
            (folder / name).write_bytes(BYTES)
        folder.chmod(0o400)
        for where in self.below, self.shown:
            self.assertEqual(self.ran("ls", "-1p", "--color=never", where / "d"), (0, "e/\nf.sj\ng.bin\n"))
            self.assertEqual(self.ran("stat", where / "d" / "f.sj")[0], 1)
        folder.chmod(0o700)
        self.assertEqual((self.shown / "d" / "f.sj").read_bytes().decode(), TEXT)


if __name__ == "__main__":
    unittest.main()
