"""Hard links in a mount: each of a file's names has the file's own number, which lasts."""
import os
import pathlib
import subprocess
import sys
import tempfile
import unittest

from mounts import BYTES, EDITED, TEXT, Ruled, edited, until


class Links(Ruled):
    """A file with two names."""

    def setUp(self):
        super().setUp()
        self.path = self.file()
        os.link(self.below / "f.sj", self.below / "g.sj")
        self.other = self.shown / "g.sj"

    def output(self, *line):
        return subprocess.run(line, cwd=self.shown, stdout=subprocess.PIPE, check=True).stdout.decode()

    def numbers(self):
        """The numbers of the files in the mount by their names, by list and by name, which are the same."""
        listed = {it.name: it.inode() for it in os.scandir(self.shown)}
        self.assertEqual(listed, {name: (self.shown / name).stat().st_ino for name in listed})
        return listed

    def forget(self):
        """Has the kernel forget what it knows of files."""
        if os.geteuid() != 0:
            self.skipTest("needs root to have the kernel forget files")
        self.output("sh", "-c", "sync; echo 2 > /proc/sys/vm/drop_caches")

    def test_it_is_one_file(self):
        self.assertTrue(self.path.samefile(self.other))
        self.assertEqual(self.path.stat().st_nlink, 2)
        self.assertEqual(self.path.stat().st_ino, (self.below / "f.sj").stat().st_ino)
        self.path.write_bytes(edited(TEXT).encode())
        self.assertEqual(self.other.read_bytes().decode(), edited(TEXT))
        self.holds(EDITED, "g.sj")

    def test_each_name_may_go_and_come(self):
        with open(self.other, "rb") as file:
            self.path.unlink()
            self.assertEqual(file.read().decode(), TEXT)
        self.assertEqual((self.other.read_bytes().decode(), self.other.stat().st_nlink), (TEXT, 1))
        os.link(self.other, self.path)
        self.assertTrue(self.path.samefile(self.other))
        self.path.rename(self.shown / "h.sj")
        self.assertTrue((self.shown / "h.sj").samefile(self.other))
        self.other.unlink()
        self.assertEqual((self.shown / "h.sj").read_bytes().decode(), TEXT)
        self.assertEqual(os.listdir(self.below), ["h.sj"])

    def test_another_file_in_the_place_of_one_name(self):
        self.assertTrue(self.path.samefile(self.other))
        for change in (lambda: os.replace(self.below / "new", self.below / "g.sj")), (lambda: os.replace(self.shown / "new", self.other)):
            (self.below / "new").write_bytes(b"another\n")
            change()
            self.assertTrue(until(lambda: self.other.read_bytes() == b"another\n"))
            self.assertFalse(self.path.samefile(self.other))
            self.shows(TEXT)
            (self.below / "g.sj").unlink()
            os.link(self.below / "f.sj", self.below / "g.sj")
            self.assertTrue(until(lambda: self.other.read_bytes().decode() == TEXT and self.path.samefile(self.other)))

    def test_programs_that_keep_links(self):
        (self.shown / "d").mkdir()
        self.output("cp", "-a", "f.sj", "g.sj", "d")
        self.assertTrue((self.below / "d" / "f.sj").samefile(self.below / "d" / "g.sj"))
        listed = self.output("tar", "-cf", "-", "f.sj", "g.sj").count("ABCD")
        self.assertEqual(listed, 1)
        with tempfile.TemporaryDirectory() as folder:
            if subprocess.run(["sh", "-c", "command -v rsync"], stdout=subprocess.DEVNULL).returncode == 0:
                self.output("rsync", "-aH", f"{self.shown}/", folder)
                self.assertTrue((pathlib.Path(folder, "f.sj")).samefile(pathlib.Path(folder, "g.sj")))
        sizes = [int(self.output("du", "-b", *names).split()[0]) for names in (["f.sj"], ["f.sj", "g.sj"])]
        self.assertEqual(sizes[0], sizes[1])

    def test_names_of_two_encodings_are_two_files(self):
        os.link(self.below / "f.sj", self.below / "h.bin")
        self.assertEqual(((self.shown / "h.bin").read_bytes(), self.path.read_bytes().decode()), (BYTES, TEXT))
        self.assertFalse(self.path.samefile(self.shown / "h.bin"))

    def test_a_number_lasts(self):
        for number in range(20):
            (self.below / f"{number}.sj").write_bytes(BYTES)
        before = self.numbers()
        self.forget()
        self.assertEqual(self.numbers(), before)
        # (a save puts another file in the place of the one below, and another name may be one of a file with the number of one that went)
        for number in range(10):
            (self.shown / f"{number}.sj").write_bytes(edited(TEXT).encode())
        for name in "new.sj", "new.bin":
            (self.shown / name).write_bytes(b"new")
            before[name] = (self.shown / name).stat().st_ino
        self.assertEqual(self.numbers(), before)
        self.assertEqual(len(set(before.values())), len(before) - 1)
        self.forget()
        self.assertEqual(self.numbers(), before)
        for number in range(10):
            (self.shown / f"{number}.sj").write_bytes(TEXT.encode())
        self.forget()
        self.assertEqual(self.numbers(), before)
        script = "import os, sys; print(os.stat(sys.argv[1]).st_ino)"
        self.assertEqual(int(self.output(sys.executable, "-c", script, "0.sj")), before["0.sj"])

    def test_a_link_that_is_made_below_behind_a_save(self):
        path = self.file("k.sj")
        path.write_bytes(edited(TEXT).encode())
        os.link(self.below / "k.sj", self.below / "l.sj")
        self.assertTrue(until(lambda: path.samefile(self.shown / "l.sj")))
        (self.shown / "l.sj").write_bytes(TEXT.encode())
        self.assertEqual(path.read_bytes().decode(), TEXT)


del Ruled

if __name__ == "__main__":
    unittest.main()
