"""Where a mount may be, and what is said of places at which it may not."""
import os
import pathlib
import shutil
import subprocess
import tempfile
import unittest

from checkout import CLIENTS, INDEXES, PROGRAM
from legacy.mount import points
from mounts import BYTES, EDITED, PATIENCE, PYTHON, RULES, TEXT, WHY, Mount, edited, mounted

# A folder's name in Japanese, one in German, and one that no UTF-8 is, with what has a meaning in options of mounts.
NAMES = "手紙".encode(), "Übung".encode(), b"na\xefve, a\\b c\xff"


@unittest.skipIf(WHY, WHY)
class Places(unittest.TestCase):
    """Sources and mount points."""

    def setUp(self):
        self.folder = pathlib.Path(tempfile.mkdtemp())
        self.addCleanup(shutil.rmtree, self.folder)
        for name in "source", "point":
            (self.folder / name).mkdir()
        (self.folder / "source" / "f.sj").write_bytes(BYTES)

    def ran(self, *words, source="source", point="point", more=("--foreground",)):
        """What becomes of a command that is to mount a source, which is ended if it does."""
        places = [os.path.join(self.folder, it) for it in (source, point)]
        self.addCleanup(subprocess.run, ["fusermount3", "-uzq", places[1]])
        line = [PYTHON, "-m", "legacy", "mount", *RULES, "--gate", PROGRAM, "--indexes", INDEXES, *more, *words, *places]
        return subprocess.run(line, env={**os.environ, "PYTHONPATH": str(CLIENTS)}, stdout=subprocess.PIPE, stderr=subprocess.PIPE, text=True, timeout=PATIENCE)

    def refused(self, said, **places):
        """Nothing is mounted, and this is said."""
        before = self.mounts()
        for more in (), ("--foreground",):
            ran = self.ran(more=more, **places)
            self.assertEqual((ran.returncode, ran.stdout, ran.stderr), (1, "", f"legacy mount: {said}\n"))
        self.assertEqual(self.mounts(), before)

    def mounts(self):
        """What is mounted in the folder of the test."""
        return [line for line in pathlib.Path("/proc/self/mountinfo").read_text().splitlines() if str(self.folder) in line]

    def mounted(self, source="source", point="point"):
        mount = Mount(*RULES, source=self.folder / source, point=self.folder / point)
        self.addCleanup(mount.clear)
        return mount

    def test_a_folder_of_the_source(self):
        (self.folder / "source" / "a" / "utf8").mkdir(parents=True)
        (self.folder / "link").symlink_to("source/a")
        source = self.folder / "source"
        for point in "source/a/utf8", "source/a", "link/utf8", "link":
            said = f"{self.folder}/{point} is inside {source}, and would show itself again and again; choose a folder outside of it, or {source} itself"
            self.refused(said, point=point)

    def test_a_point_that_has_a_mount(self):
        self.mounted()
        point = self.folder / "point"
        self.refused(f"{point} is mounted already; `legacy umount {point}` unmounts it")
        self.mounted(point="source")
        self.refused(f"{self.folder}/source is mounted already; `legacy umount {self.folder}/source` unmounts it", point="source")

    def test_a_point_whose_mount_was_killed(self):
        mount, point = self.mounted(), self.folder / "point"
        mount.process.kill()
        mount.process.wait()
        self.refused(f"{point} has a mount whose process is gone; `fusermount3 -u {point}` clears it")
        subprocess.run(["fusermount3", "-u", point], check=True)
        self.assertEqual((self.mounted().point / "f.sj").read_bytes().decode(), TEXT)

    def test_what_is_no_folder(self):
        self.refused(f"{self.folder}/source/f.sj is no folder", point="source/f.sj")
        self.refused(f"{self.folder}/nowhere is no folder", source="nowhere")

    def test_names_of_any_bytes(self):
        for name in map(os.fsdecode, NAMES):
            source, point = (pathlib.Path(self.folder, f"{it} {name}") for it in ("of", "at"))
            for folder in source, point:
                folder.mkdir()
            (source / name).mkdir()
            (source / name / f"{name}.sj").write_bytes(BYTES)
            mount = self.mounted(source, point)
            self.assertEqual(os.listdir(os.fsencode(point)), [os.fsencode(name)])
            path = point / name / f"{name}.sj"
            self.assertEqual(path.read_bytes().decode(), TEXT)
            path.write_bytes(edited(TEXT).encode())
            path.rename(point / f"{name}.sj")
            (point / f"{name} {name}").mkdir()
            self.assertEqual((source / f"{name}.sj").read_bytes(), EDITED)
            self.assertTrue((source / f"{name} {name}").is_dir())
            self.assertEqual([it.source for it in points.mounts() if it.point == os.fsencode(point)], [os.fsencode(source)])
            self.assertEqual((mount.end(), mounted(point)), (0, False))


if __name__ == "__main__":
    unittest.main()
