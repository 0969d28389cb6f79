"""How files are written whole: what the disk has when, what is never overwritten, and whose they are."""
import concurrent.futures
import contextlib
import errno
import multiprocessing
import os
import pathlib
import signal
import stat
import unittest
from unittest import mock

from archives import Folder, settings
from fakes import Fakes
from legacy import mend
from legacy.convert import convert
from legacy.finding import Missing
from legacy.mend import Repairs
from legacy.work import Refusal, writing
from legacy.work.state import State

# The user and the group nobody, as Linux numbers them, and a group more that this user is in.
NOBODY, OTHERS = 65534, 1234
ROOT = unittest.skipUnless(os.geteuid() == 0, "needs root, to be another user")


@contextlib.contextmanager
def note_calls():
    """The calls of the system that count here, in order: what was synced, by its name, or as "draft" where it has none yet, and
    each name that was given."""
    found, (sync, link, rename) = [], (os.fsync, os.link, os.rename)

    def note_sync(number):
        found.append(("sync", name_of(os.readlink(f"/proc/self/fd/{number}"))))
        sync(number)

    def note_link(made, path, **how):
        link(made, path, **how)
        found.append(("name", name_of(path)))

    def note_rename(made, path):
        rename(made, path)
        found.append(("rename", name_of(path)))

    with mock.patch("os.fsync", note_sync), mock.patch("os.link", note_link), mock.patch("os.rename", note_rename):
        yield found


def name_of(path):
    """A file's name, or that it is a draft."""
    name = os.path.basename(path)
    return "draft" if name.startswith((".", "#")) else name


class Creating(Folder):
    def setUp(self):
        super().setUp()
        self.like = self.file("like", b"old")
        self.path = str(self.folder / "out" / "f")
        os.mkdir(self.folder / "out")

    def create(self, content=b"new"):
        writing.create(self.path, content, self.like)

    def content_of(self):
        """The bytes of the file, and what is in its folder."""
        return pathlib.Path(self.path).read_bytes(), sorted(os.listdir(self.folder / "out"))

    def test_a_file_is_on_the_disk_before_it_has_its_name(self):
        with note_calls() as acts:
            self.create()
        self.assertEqual(acts, [("sync", "draft"), ("name", "f")])
        self.assertEqual(self.content_of(), (b"new", ["f"]))

    def test_a_file_that_is_there_with_these_bytes_is_on_the_disk_too(self):
        self.file("out/f", b"new")
        with note_calls() as acts:
            self.create()
        self.assertEqual(acts, [("sync", "f")])

    def test_the_longest_names(self):
        for name in "a" * 255, "漢" * 85, "\U0001f600" * 63, os.fsdecode(b"\xff" * 255):
            self.path = str(self.folder / "out" / name)
            self.create()
            writing.replace(self.path, b"newer", os.stat(self.path))
            self.assertEqual(self.content_of(), (b"newer", [name]))
            os.unlink(self.path)

    def test_holes_stay(self):
        with open(self.like, "wb") as file:
            file.truncate(1 << 20)
            file.write(b"A")
        content = b"B" + pathlib.Path(self.like).read_bytes()[1:] + b"C" * 5000
        writing.replace(self.like, content, os.stat(self.like))
        self.assertEqual(pathlib.Path(self.like).read_bytes(), content)
        self.assertLess(os.stat(self.like).st_blocks * 512, 1 << 16)

    def test_a_mode_by_which_it_cannot_be_read(self):
        os.chmod(self.like, 0o040)
        self.create()
        self.assertEqual(stat.S_IMODE(os.stat(self.path).st_mode), 0o040)

    def test_what_comes_meanwhile_is_not_overwritten(self):
        took_over = writing.take_over
        for links in True, False:
            for others, said in (b"others' bytes", f"^{self.path} is there already$"), (b"new", None):
                def meanwhile(*words):
                    self.file("out/f", others)
                    return took_over(*words)

                refused = contextlib.nullcontext() if links else mock.patch("os.link", side_effect=PermissionError(1, "Operation not permitted"))
                with self.subTest(links=links, others=others), mock.patch.object(writing, "take_over", meanwhile), refused:
                    with self.assertRaisesRegex(Refusal, said) if said else contextlib.nullcontext():
                        self.create()
                    self.assertEqual(self.content_of(), (others, ["f"]))
                os.unlink(self.path)

    def test_a_file_system_without_hard_links(self):
        with mock.patch("os.link", side_effect=PermissionError(1, "Operation not permitted")):
            self.create()
            self.assertEqual(self.content_of(), (b"new", ["f"]))
            os.unlink(self.path)
            with mock.patch("os.rename", side_effect=OSError(28, "No space left on device")), self.assertRaises(OSError):
                self.create()
        self.assertEqual(os.listdir(self.folder / "out"), [])

    def test_a_folder_is_made_with_those_above_it_and_their_names_are_on_the_disk(self):
        top = self.folder / "a" / "b" / "c"
        with note_calls() as acts:
            writing.make_folder(str(top))
        self.assertEqual((top.is_dir(), sorted(acts)), (True, [("sync", "a"), ("sync", "b"), ("sync", self.folder.name)]))
        with note_calls() as acts:
            writing.make_folder(str(top))
        self.assertEqual(acts, [])
        with self.assertRaises(FileExistsError):
            writing.make_folder(self.like)

    def test_names_are_synced_once_and_up_to_the_top(self):
        paths = [self.file(it, b"") for it in ("top/f", "top/x/y/f", "top/x/y/g", "top/x/z/f")]
        with note_calls() as acts:
            writing.sync_names(paths, str(self.folder / "top"))
        self.assertEqual(sorted(acts), [("sync", "top"), ("sync", "x"), ("sync", "y"), ("sync", "z")])

    def test_folders_that_cannot_be_synced_alone(self):
        # (root may open any folder, and file systems that refuse it are few)
        for number, is_passed_on in (errno.EACCES, False), (errno.EINVAL, False), (errno.EIO, True):
            with self.subTest(number), mock.patch("os.fsync", side_effect=OSError(number, "")), mock.patch("os.sync") as all_synced:
                with self.assertRaises(OSError) if is_passed_on else contextlib.nullcontext():
                    writing.sync_names([self.path], str(self.folder / "out"))
                self.assertEqual(all_synced.called, not is_passed_on)


class Converting(Fakes, Folder):
    """What a state says of converted files."""

    def setUp(self):
        super().setUp()
        self.file("in/x/a", b"A")
        self.file("in/b", b"B")

    def rows(self, **more):
        """The outcome and the reason of each file, and how many files were decoded."""
        before, opened = list(self.started), lambda: sum(it.opened.count("converted") for it in self.started if it not in before)
        found = convert("utf-16-le", [str(self.folder / "in")], str(self.folder / "out"), settings(encoding=[("*", "utf-8")], **more))
        return [(it.outcome, it.reason) for it in found], opened()

    def test_a_state_says_done_once_the_disk_has_the_file_and_its_folders(self):
        with note_calls() as acts:
            keep = State.keep

            def note_keep(state, items, rows):
                acts.append(("keep", len(rows)))
                keep(state, items, rows)

            with mock.patch.object(State, "keep", note_keep):
                self.assertEqual(self.rows(state=str(self.folder / "state")), ([("done", "")] * 2, 2))
        acts.remove(("name", "state"))
        at = acts.index(("keep", 2))
        self.assertEqual(acts[:5], [("sync", self.folder.name), ("sync", "draft"), ("name", "b"), ("sync", "draft"), ("name", "a")])
        self.assertEqual(sorted(acts[5:at]), [("sync", "out"), ("sync", "x")])

    def test_a_disk_that_fails_is_a_refusal_of_what_it_may_have_lost(self):
        def fails(*_):
            raise OSError(5, "Input/output error")

        state = str(self.folder / "state")
        with mock.patch("legacy.convert.sync_names", fails):
            self.assertEqual(self.rows(state=state)[0], [("refused", "Input/output error")] * 2)
        self.assertEqual(self.rows(state=state), ([("done", "")] * 2, 2))
        self.assertEqual(self.rows(state=state), ([("done", "")] * 2, 0))

    def test_what_was_written_and_is_not_as_it_was(self):
        state, path = str(self.folder / "state"), self.folder / "out" / "b"
        self.rows(state=state)
        for act, outcome in [
            (lambda: path.unlink(), ("done", "")),
            # (what a loss of power may have left, and an edit that leaves as many bytes)
            (lambda: path.write_bytes(b""), ("refused", f"{path} is there already")),
            (lambda: path.write_bytes(b"C\0"), ("refused", f"{path} is there already")),
        ]:
            act()
            with self.subTest(outcome):
                self.assertEqual(self.rows(state=state), ([outcome, ("done", "")], 1))

    def test_a_folder_lets_in_whom_the_old_one_does(self):
        for name, mode in ("in", 0o750), ("in/x", 0o700):
            os.chmod(self.folder / name, mode)
        self.rows()
        self.assertEqual([stat.S_IMODE(os.stat(self.folder / it).st_mode) for it in ("out", "out/x")], [0o750, 0o700])

    def test_nothing_is_left_of_a_run_that_is_killed(self):
        child = os.fork()
        if not child:
            with mock.patch.object(writing, "take_over", lambda *_: os.kill(os.getpid(), signal.SIGKILL)):
                self.rows()
        self.assertEqual(os.WTERMSIG(os.waitpid(child, 0)[1]), signal.SIGKILL)
        self.assertEqual(os.listdir(self.folder / "out"), [])

    def test_a_folder_that_cannot_be_made(self):
        out = self.file("file", b"") + "/out"
        with self.assertRaisesRegex(Missing, f"^{out}: Not a directory$"):
            list(convert("utf-8", [str(self.folder / "in")], out, settings(encoding=[("*", "utf-8")])))


class Planning(Fakes, Folder):
    def test_a_plan_that_comes_meanwhile_is_not_overwritten(self):
        path, plan = self.file("a", b"A\n"), str(self.folder / "plan")
        rows = mend.plan(plan, [path], Repairs(line_ends="lf"), settings(encoding=[("*", "utf-8")]))
        next(rows)
        self.file("plan", b"another's")
        with self.assertRaisesRegex(Missing, f"^{plan} is there already, and may be what takes repairs back$"):
            list(rows)
        self.assertEqual((pathlib.Path(plan).read_bytes(), sorted(os.listdir(self.folder))), (b"another's", ["a", "plan"]))


def become_nobody():
    """Makes this process that user's, who is in two groups."""
    os.setgroups([OTHERS])
    os.setresgid(NOBODY, NOBODY, NOBODY)
    os.setresuid(NOBODY, NOBODY, NOBODY)


def replace_bytes(path):
    """Replaces a file's bytes."""
    writing.replace(path, b"new", os.stat(path))


@ROOT
class Owners(Folder):
    def setUp(self):
        super().setUp()
        os.chown(self.folder, NOBODY, NOBODY)

    def outcome(self, owner, group, mode=0o644):
        """What becomes of a file as nobody replaces it: the refusal, its bytes, its owner and group, and its mode."""
        path = self.file("f", b"old")
        os.chown(path, owner, group)
        os.chmod(path, mode)
        with concurrent.futures.ProcessPoolExecutor(1, multiprocessing.get_context("fork"), become_nobody) as child:
            fault = child.submit(replace_bytes, path).exception()
        self.assertEqual(os.listdir(self.folder), ["f"])
        now = os.stat(path)
        return fault and str(fault), pathlib.Path(path).read_bytes(), (now.st_uid, now.st_gid), stat.S_IMODE(now.st_mode)

    def test_one_s_own_file(self):
        self.assertEqual(self.outcome(NOBODY, NOBODY, 0o640), (None, b"new", (NOBODY, NOBODY), 0o640))

    def test_a_group_that_one_is_in_is_kept(self):
        self.assertEqual(self.outcome(NOBODY, OTHERS, 0o2664), (None, b"new", (NOBODY, OTHERS), 0o2664))

    def test_a_file_whose_owner_or_group_cannot_be_kept_stays(self):
        self.assertEqual(self.outcome(0, OTHERS), ("its owner can't be kept", b"old", (0, OTHERS), 0o644))
        self.assertEqual(self.outcome(0, 0), ("its owner can't be kept", b"old", (0, 0), 0o644))
        self.assertEqual(self.outcome(NOBODY, 0), ("its group can't be kept", b"old", (NOBODY, 0), 0o644))

    def test_what_is_made_lends_nothing(self):
        # (of a file of this owner, group and mode, made as nobody: what the new one has)
        for owner, group, mode, *made in [
            (NOBODY, NOBODY, 0o6755, NOBODY, 0o6755), (NOBODY, OTHERS, 0o2640, OTHERS, 0o2640), (0, OTHERS, 0o6750, OTHERS, 0o750),
            (0, 0, 0o640, NOBODY, 0o600), (0, 0, 0o4664, NOBODY, 0o644), (0, 0, 0o666, NOBODY, 0o666),
        ]:
            like, path = self.file("like", b"old"), str(self.folder / "made")
            os.chown(like, owner, group)
            os.chmod(like, mode)
            with self.subTest(owner=owner, group=group, mode=oct(mode)):
                with concurrent.futures.ProcessPoolExecutor(1, multiprocessing.get_context("fork"), become_nobody) as child:
                    child.submit(writing.create, path, b"new", like).result()
                now = os.stat(path)
                self.assertEqual((now.st_uid, now.st_gid, stat.S_IMODE(now.st_mode)), (NOBODY, *made))
            os.unlink(path)

    def test_what_root_makes_is_the_same_owner_s(self):
        like, path = self.file("like", b"old"), str(self.folder / "made")
        os.chown(like, NOBODY, OTHERS)
        os.chmod(like, 0o6755)
        owners = []
        change = os.fchmod

        def change_mode(number, mode):
            owners.append(os.fstat(number).st_uid)
            change(number, mode)

        # (nor is it root's for a moment, with the bits of a program that runs by its owner's rights)
        with mock.patch("os.fchmod", change_mode):
            writing.create(path, b"new", like)
            writing.replace(path, b"newer", os.stat(path))
        now = os.stat(path)
        self.assertEqual((now.st_uid, now.st_gid, stat.S_IMODE(now.st_mode), owners), (NOBODY, OTHERS, 0o6755, [NOBODY, NOBODY]))

    def test_root_keeps_any(self):
        path = self.file("f", b"old")
        os.chown(path, NOBODY, OTHERS)
        os.chmod(path, 0o4640)
        replace_bytes(path)
        now = os.stat(path)
        self.assertEqual((now.st_uid, now.st_gid, stat.S_IMODE(now.st_mode)), (NOBODY, OTHERS, 0o4640))


if __name__ == "__main__":
    unittest.main()
