"""How long texts are, as a list of their folder says it once a program asks for that, as `ls -l` does."""
import os
import subprocess
import time
import unittest
from unittest import mock

from checkout import BUILT, EXACT
from mounts import BYTES, TEXT, Ruled
from plays import HAS_PYFUSE3, Played

if HAS_PYFUSE3:
    import pyfuse3
    from legacy.mount import tree

# How many entries fit in a reply.
FIT = 20
# The seconds of processor time that `ls -l` of 2,000 files may take all processes of a mount; on an idle machine it is a fifth of them.
MOST = 0.6


def content(number):
    """A file's bytes, and its text."""
    if number % 3:
        end = "" if number % 4 == 1 else "\n"
        return BYTES * (number % 3) + f"{number}{end}".encode(), TEXT * (number % 3) + f"{number}{end}"
    return b"ASCII %d\n" % number, f"ASCII {number}\n"


@BUILT
class Said(Played):
    def listed(self, asks):
        """What the list of a folder says of each file: its size, and whether the kernel is to keep that. `asks` says whether a program
        asks for a file after the first reply."""
        said = {}

        def reply(token, name, attributes, number):
            if len(token) == FIT:
                return False
            token.append(number)
            said[name] = attributes.st_size, 0 < attributes.attr_timeout <= tree.EXACT
            return True

        async def play(path, answers, ino):
            for number in range(3 * FIT):
                (path.parent / f"{number:03}").write_bytes(content(number)[0])
            time.sleep(0.1)
            file, start, before = await answers.opendir(tree.ROOT, mock.Mock(pid=1, uid=os.getuid())), 0, len(answers.tree.nodes)
            while start <= 3 * FIT:
                token = []
                await answers.readdir(file, start, token)
                start = token[-1]
                if asks and start == FIT:
                    await answers.getattr(answers.tree.paths[b"000"].ino)
            # (a file that didn't fit in the last reply isn't known)
            self.assertEqual(len(answers.tree.nodes), 3 * FIT + before)
            await answers.releasedir(file)

        with mock.patch.object(pyfuse3, "readdir_reply", reply):
            self.played(play)
        return said

    def test_the_lengths_of_texts_once_a_program_has_asked_for_one(self):
        said = self.listed(asks=True)
        for number in range(FIT, 3 * FIT):
            self.assertEqual(said[b"%03d" % number], (len(content(number)[1].encode()), True))

    def test_those_of_bytes_that_the_kernel_does_not_keep_before(self):
        said = self.listed(asks=False)
        for number in range(FIT, 3 * FIT):
            size = len(content(number)[0])
            self.assertEqual(said[b"%03d" % number], (size, False))


@BUILT
class Long(Ruled):
    def test_a_list_of_a_long_folder(self):
        for number in range(1500):
            self.file(f"{number:04}.sj", content(number)[0])
        os.mkfifo(self.below / "0700.sj.fifo")
        self.file("0800.sj", b"")
        self.file("0900.sj", BYTES * 10_000)
        with os.scandir(self.shown) as entries:
            sizes = {it.name: os.lstat(it.path).st_size for it in entries}
        self.assertEqual(len(sizes), 1501)
        wanted = {f"{it:04}.sj": len(content(it)[1].encode()) for it in range(1500)}
        wanted.update({"0800.sj": 0, "0900.sj": len(TEXT.encode()) * 10_000})
        self.assertEqual({it: sizes[it] for it in wanted}, wanted)

    @EXACT
    def test_the_processor_time_of_a_long_list(self):
        # (in the first one a process starts that finds out how long texts are)
        for folder, count in ("first", 100), ("long", 2000):
            (self.below / folder).mkdir()
            for number in range(count):
                self.file(f"{folder}/{number:04}.sj", BYTES * 80)
        time.sleep(0.1)
        spent = []
        for folder in "first", "long":
            before = self.mount.spent()
            subprocess.run(["ls", "-l", self.shown / folder], stdout=subprocess.DEVNULL, check=True)
            spent.append(self.mount.spent() - before)
        self.assertLess(spent[1], MOST, spent)


if __name__ == "__main__":
    unittest.main()
