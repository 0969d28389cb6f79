"""Mounts as they are begun, ended and killed."""
import contextlib
import errno
import os
import pathlib
import shutil
import signal
import subprocess
import sys
import tempfile
import threading
import unittest

from checkout import CLIENTS, INDEXES, PROGRAM
from mounts import BYTES, EDITED, FOR_ALL, PATIENCE, PYTHON, RULES, TEXT, WHY, Mount, edited, mounted, until

# A command of an ordinary user, where root begins it.
NOBODY = ["setpriv", "--reuid=65534", "--regid=65534", "--clear-groups"]
CONF = pathlib.Path("/etc/fuse.conf")
OTHERS_ALLOWED = CONF.exists() and "user_allow_other" in CONF.read_text().splitlines()


@unittest.skipIf(WHY, WHY)
class Runs(unittest.TestCase):
    """Mounts that are begun, ended and killed; each test has its own."""

    def mounted(self, *words, **named):
        mount = Mount(*RULES, *words, **named)
        self.addCleanup(mount.clear)
        return mount

    def test_a_signal_unmounts_and_what_is_unsaved_is_kept(self):
        for number in signal.SIGTERM, signal.SIGINT:
            mount = self.mounted()
            (mount.source / "f.sj").write_bytes(BYTES)
            with open(mount.point / "f.sj", "wb", buffering=0) as file:
                file.write(b"unsaved")
                self.assertEqual(mount.end(number), 0)
                self.assertFalse(mounted(mount.point))
                with contextlib.suppress(OSError):
                    file.close()
            self.assertEqual((mount.source / "f.sj").read_bytes(), BYTES)
            self.assertEqual((mount.source / "f.sj.rejected").read_bytes(), b"unsaved")

    def test_a_signal_right_behind_the_mounting(self):
        folder = pathlib.Path(tempfile.mkdtemp())
        self.addCleanup(shutil.rmtree, folder)
        for number in signal.SIGTERM, signal.SIGINT, signal.SIGHUP:
            words = [PYTHON, "-c", SIGNALLED, str(int(number)), "mount", "--foreground", "--gate", PROGRAM, "--indexes", INDEXES, folder, folder]
            ran = subprocess.run(words, env={**os.environ, "PYTHONPATH": str(CLIENTS)}, stderr=subprocess.PIPE, timeout=PATIENCE)
            left = mounted(folder)
            subprocess.run(["fusermount3", "-uzq", folder])
            said = ran.stderr.decode().partition(" ")[2]
            self.assertEqual((ran.returncode, said, left), (0, f"ended: signal {number.name}\n", False))

    def test_what_was_closed_right_before_the_end_is_saved(self):
        # (of files that are cut the system says only afterwards that nobody has them open, of a few at a time)
        for end in Mount.end, Mount.unmount:
            mount, names = self.mounted(), [f"{number}.sj" for number in range(60)]
            for it in names:
                (mount.source / it).write_bytes(BYTES)
            for it in names:
                (mount.point / it).stat()
            for it in names:
                os.close(os.open(mount.point / it, os.O_WRONLY | os.O_TRUNC))
            self.assertEqual(end(mount), 0)
            self.assertEqual([it for it in names if (mount.source / it).read_bytes()], [])
            self.assertEqual(sorted(os.listdir(mount.source)), sorted(names))

    def test_what_is_decoded_ahead_holds_up_no_end(self):
        folder = pathlib.Path(tempfile.mkdtemp())
        self.addCleanup(shutil.rmtree, folder)
        flag, program = folder / "waits", folder / "gate"
        program.write_text(WAITING.format(python=sys.executable, flag=str(flag), program=PROGRAM))
        program.chmod(0o755)
        for end in Mount.end, Mount.unmount:
            mount = self.mounted(program=str(program))
            for number in range(8):
                (mount.source / f"{number}.sj").write_bytes(BYTES)
            for name in sorted(os.listdir(mount.point))[:2]:
                self.assertEqual((mount.point / name).read_bytes().decode(), TEXT)
            self.assertTrue(until(flag.exists), mount.log())
            self.assertEqual(end(mount), 0)
            flag.unlink()

    def test_over_a_folder_that_it_needs_itself(self):
        folder = pathlib.Path(tempfile.mkdtemp())
        self.addCleanup(shutil.rmtree, folder)
        program = folder / "gate"
        program.write_text(f"#!/bin/sh\nexec {PROGRAM} \"$@\"\n")
        program.chmod(0o755)
        for name in "f.sj", "g.w":
            (folder / name).write_bytes(BYTES[:5])
        path = f"{folder}:{os.environ['PATH']}"
        mount = self.mounted("--rejected", folder / "refused", source=folder, point=folder, program=str(program), variables={"PATH": path})

        def gates():
            return [pid for pid, words in mount.children() if "stdio" in words and "legacy.mount" not in words]

        self.assertTrue(until(lambda: len(gates()) == 2), mount.children())
        for pid in gates():
            os.kill(pid, signal.SIGKILL)
        self.assertTrue(until(lambda: not gates()))
        # (by processes of their own, which can be ended where the mount waits for itself)
        for script, status in ("cat f.sj", 0), ("printf '\\303\\251' > f.sj", 1):
            ran = subprocess.run(["sh", "-c", script], cwd=folder, stdout=subprocess.PIPE, stderr=subprocess.PIPE, timeout=PATIENCE)
            self.assertEqual(ran.returncode, status, ran)
        with open(folder / "f.sj", "wb", buffering=0) as file:
            file.write(b"unsaved")
            self.assertEqual(mount.end(), 0)
            with contextlib.suppress(OSError):
                file.close()
        self.assertEqual((folder / "refused" / "f.sj.rejected").read_bytes(), "é".encode())
        self.assertEqual((folder / "refused" / "f.sj.rejected.2").read_bytes(), b"unsaved")

    def test_in_the_background_until_it_is_unmounted(self):
        folder = pathlib.Path(tempfile.mkdtemp())
        self.addCleanup(shutil.rmtree, folder)
        (folder / "source").mkdir()
        (folder / "point").mkdir()
        (folder / "source" / "f.sj").write_bytes(BYTES)
        words = [PYTHON, "-m", "legacy", "mount", *RULES, "--gate", PROGRAM, "--indexes", INDEXES, "--log", folder / "log"]
        environment = {**os.environ, "PYTHONPATH": str(CLIENTS)}

        def ran(*places):
            return subprocess.run([*words, *places], env=environment, stdout=subprocess.PIPE, stderr=subprocess.PIPE, text=True)

        done = ran(folder / "source", folder / "point")
        self.assertEqual((done.returncode, done.stdout, done.stderr), (0, "", ""))
        self.assertEqual((folder / "point" / "f.sj").read_bytes().decode(), TEXT)
        subprocess.run(["fusermount3", "-u", folder / "point"], check=True)
        self.assertFalse(mounted(folder / "point"))
        done = ran(folder / "source", folder / "nowhere")
        self.assertEqual((done.returncode, done.stderr), (1, f"legacy mount: {folder}/nowhere is no folder\n"))
        for more in [], ["--foreground"]:
            done = ran("--log", folder / "nowhere" / "log", *more, folder / "source", folder / "point")
            self.assertEqual((done.returncode, done.stderr), (1, f"legacy mount: {folder}/nowhere/log: No such file or directory\n"))
        self.assertEqual(ran("-e", "nothing", folder, folder).returncode, 2)

    def test_over_its_own_folder(self):
        folder = pathlib.Path(tempfile.mkdtemp())
        self.addCleanup(shutil.rmtree, folder)
        (folder / "f.sj").write_bytes(BYTES)
        mount = self.mounted(source=folder, point=folder)
        (folder / "f.sj").write_bytes(edited(TEXT).encode())
        self.assertEqual((folder / "f.sj").read_bytes().decode(), edited(TEXT))
        mount.end()
        self.assertEqual((folder / "f.sj").read_bytes(), EDITED)

    def test_read_only(self):
        mount = self.mounted("--read-only")
        (mount.source / "f.sj").write_bytes(BYTES)
        for call in (mount.point / "f.sj").unlink, (mount.point / "d").mkdir, lambda: open(mount.point / "f.sj", "wb"):
            with self.assertRaises(OSError) as caught:
                call()
            self.assertEqual(caught.exception.errno, errno.EROFS)

    def test_large_files_as_bytes_and_version_control_shown(self):
        mount = self.mounted("--large", "bytes", "--show-git")
        (mount.source / ".git").mkdir()
        (mount.source / "f.sj").write_bytes(b"\xff" * 16_777_217)
        self.assertEqual((mount.point / "f.sj").read_bytes(), b"\xff" * 16_777_217)
        self.assertEqual(sorted(os.listdir(mount.point)), [".git", "f.sj"])

    def test_rejected_texts_in_a_folder_of_their_own(self):
        kept = pathlib.Path(tempfile.mkdtemp())
        self.addCleanup(shutil.rmtree, kept)
        mount = self.mounted("--rejected", kept)
        (mount.point / "d").mkdir()
        with contextlib.suppress(OSError), open(mount.point / "d" / "f.w", "wb") as file:
            file.write("あ".encode())
        self.assertTrue(until((kept / "d" / "f.w.rejected").exists))
        self.assertEqual((kept / "d" / "f.w.rejected").read_bytes(), "あ".encode())
        self.assertEqual(os.listdir(mount.source / "d"), ["f.w"])

    def test_a_rule_that_changes_reaches_known_files(self):
        mount = self.mounted()
        (mount.source / "f.txt").write_bytes(b"\x82\xa0")
        self.assertEqual((mount.point / "f.txt").read_bytes(), b"\x82\xa0")
        for label, text in ("shift_jis", "あ"), ("utf-8", "\ufffd\ufffd"):
            (mount.source / ".gitattributes").write_text(f"*.txt working-tree-encoding={label}\n")
            self.assertTrue(until(lambda: (mount.point / "f.txt").read_bytes() == text.encode()), label)

    def test_what_a_killed_mount_left_is_cleared_and_said(self):
        folder = pathlib.Path(tempfile.mkdtemp())
        self.addCleanup(shutil.rmtree, folder)
        for name, content in ("f.sj", BYTES), (".legacy-new-1-1", b"half"), (".legacy-old-1-2-f.sj", b"before"), (".legacy-old-1-3-g", b""):
            (folder / name).write_bytes(content)
        mount = self.mounted(source=folder)
        self.assertTrue(until(lambda: sorted(os.listdir(folder)) == ["f.sj", "f.sj.before", "g.before"]))
        self.assertEqual((folder / "f.sj.before").read_bytes(), b"before")
        self.assertTrue(until(lambda: "f.sj.before" in mount.log() and ".legacy-new-1-1" in mount.log()), mount.log())

    def slow(self, folder, seconds):
        """A gate that waits for `seconds` before it takes its first change, and the file that says so."""
        flag, program = folder / "waits", folder / "gate"
        program.write_text(SLOW.format(python=sys.executable, flag=str(flag), program=PROGRAM, seconds=seconds))
        program.chmod(0o755)
        return flag, str(program)

    def saving(self, end, seconds=60, name="f.sj"):
        """A mount with a save under way, at which something is ended, or done, by `end`; and the save's outcome."""
        folder = pathlib.Path(tempfile.mkdtemp())
        self.addCleanup(shutil.rmtree, folder)
        flag, program = self.slow(folder, seconds)
        mount = self.mounted(program=program)
        (mount.source / name).parent.mkdir(exist_ok=True)
        (mount.source / name).write_bytes(BYTES)
        outcome = []

        def save():
            file = os.open(mount.point / name, os.O_WRONLY | os.O_TRUNC)
            os.write(file, edited(TEXT).encode())
            try:
                outcome.append(os.close(file))
            except OSError as fault:
                outcome.append(errno.errorcode[fault.errno])

        saving = threading.Thread(target=save)
        saving.start()
        self.assertTrue(until(flag.exists))
        end(mount, int(flag.read_text()))
        saving.join(PATIENCE)
        return mount, outcome

    def test_a_signal_while_it_saves(self):
        for number in signal.SIGTERM, signal.SIGINT:
            mount, outcome = self.saving(lambda mount, _: mount.process.send_signal(number), seconds=1)
            self.assertEqual((outcome, mount.end(), mounted(mount.point)), ([None], 0, False))
            self.assertEqual((mount.source / "f.sj").read_bytes(), EDITED)
            self.assertEqual(os.listdir(mount.source), ["f.sj"])

    def test_the_mount_killed_while_it_saves(self):
        mount, outcome = self.saving(lambda mount, gate: mount.process.kill())
        mount.end()
        self.assertIn(outcome, (["ENOTCONN"], ["ECONNABORTED"]))
        self.assertEqual((mount.source / "f.sj").read_bytes(), BYTES)
        self.assertEqual(os.listdir(mount.source), ["f.sj"])

    def test_a_folder_moved_while_a_file_in_it_is_saved(self):
        def end(mount, _):
            (mount.point / "d").rename(mount.point / "e")
            shutil.copytree(mount.source / "e", mount.source / "d")

        mount, outcome = self.saving(end, seconds=1, name="d/f.sj")
        self.assertEqual(outcome, [None])
        self.assertEqual([(mount.source / it / "f.sj").read_bytes() for it in "ed"], [EDITED, BYTES])

    def test_gate_killed_while_it_saves(self):
        mount, outcome = self.saving(lambda mount, gate: os.kill(gate, signal.SIGKILL))
        self.assertEqual(outcome, [None])
        self.assertEqual((mount.source / "f.sj").read_bytes(), EDITED)

    def test_the_process_that_saves_killed(self):
        def end(mount, gate):
            for pid, _ in [it for it in mount.children() if "legacy.mount.worker" in it[1]]:
                os.kill(pid, signal.SIGKILL)

        mount, outcome = self.saving(end)
        self.assertEqual(outcome, [None])
        self.assertEqual((mount.source / "f.sj").read_bytes(), EDITED)

    def test_more_files_are_written_at_once_than_a_program_may_have_open(self):
        mount = self.mounted(before=["sh", "-c", 'ulimit -Sn 40; exec "$@"', "sh"])
        names = [f"{number}.sj" for number in range(100)]
        with contextlib.ExitStack() as held:
            for it in names:
                held.enter_context(open(mount.point / it, "wb", buffering=0)).write("あ".encode())
            self.assertEqual(sorted(os.listdir(mount.point)), sorted(names))
        for it in names:
            self.assertEqual((mount.source / it).read_bytes(), b"\x82\xa0")

    def test_a_refusal_is_a_note_on_the_desktop(self):
        folder = pathlib.Path(tempfile.mkdtemp())
        self.addCleanup(shutil.rmtree, folder)
        program, words = folder / "notify-send", folder / "words"
        program.write_text(f"#!/bin/sh\nprintf '%s\\n' \"$@\" > {words}.new && mv {words}.new {words}\n")
        program.chmod(0o755)
        mount = self.mounted(variables={"PATH": f"{folder}:{os.environ['PATH']}", "DISPLAY": ":0"})
        with contextlib.suppress(OSError), open(mount.point / "f.w", "wb") as file:
            file.write("あ".encode())
        self.assertTrue(until(words.exists))
        self.assertEqual(words.read_text().splitlines(), [
            "--app-name=legacy mount", "--icon=dialog-warning", "--", "f.w was not saved",
            "line 1, character 1: U+3042 HIRAGANA LETTER A has no bytes in windows-1252; the text is in f.w.rejected"])

    @unittest.skipUnless(os.geteuid() == 0, "needs root, for a small file system of its own")
    def test_a_full_disk(self):
        folder = pathlib.Path(tempfile.mkdtemp())
        self.addCleanup(shutil.rmtree, folder)
        source, elsewhere = folder / "source", folder / "elsewhere"
        for it in source, elsewhere:
            it.mkdir()
        if subprocess.run(["mount", "-t", "tmpfs", "-o", "size=64k", "tmpfs", source]).returncode:
            self.skipTest("nothing can be mounted here")
        self.addCleanup(subprocess.run, ["umount", "-l", source])
        (source / "f.sj").write_bytes(BYTES)
        mount = self.mounted(source=source, variables={"TMPDIR": str(elsewhere)})
        with contextlib.suppress(OSError), open(source / "full", "wb", buffering=0) as file:
            while True:
                file.write(bytes(512))
        file = os.open(mount.point / "f.sj", os.O_WRONLY | os.O_TRUNC)
        os.write(file, edited(TEXT).encode())
        with self.assertRaises(OSError) as caught:
            os.close(file)
        self.assertEqual(errno.errorcode[caught.exception.errno], "ENOSPC")
        self.assertEqual((source / "f.sj").read_bytes(), BYTES)
        self.assertEqual(sorted(os.listdir(source)), ["f.sj", "full"])
        self.assertEqual((elsewhere / "f.sj.rejected").read_bytes(), edited(TEXT).encode())
        said = f"f.sj: NOT SAVED: No space left on device; the text is in {elsewhere}/f.sj.rejected"
        self.assertTrue(until(lambda: said in mount.log()), mount.log())

    @unittest.skipUnless(os.geteuid() == 0, "needs root, for a file system that is read-only")
    def test_a_source_that_can_t_be_written(self):
        folder = pathlib.Path(tempfile.mkdtemp())
        self.addCleanup(shutil.rmtree, folder)
        (folder / "f.sj").write_bytes(BYTES)
        source = folder / "source"
        source.mkdir()
        if subprocess.run(["mount", "--bind", folder, source]).returncode:
            self.skipTest("nothing can be mounted here")
        self.addCleanup(subprocess.run, ["umount", "-l", source])
        subprocess.run(["mount", "-o", "remount,bind,ro", source], check=True)
        mount = self.mounted(source=source)
        for call in (lambda: open(mount.point / "f.sj", "wb")), (mount.point / "f.sj").unlink, (mount.point / "g.sj").touch:
            with self.assertRaises(OSError) as caught:
                call()
            self.assertEqual(errno.errorcode[caught.exception.errno], "EROFS")
        self.assertEqual((mount.point / "f.sj").read_bytes().decode(), TEXT)

    @unittest.skipUnless(os.geteuid() == 0, "needs root, to be two users")
    def test_other_users_are_let_in_where_that_is_asked_for(self):
        for words, text in ((), ""), (("--allow-other",), TEXT):
            mount = self.mounted(*words)
            (mount.source / "f.sj").write_bytes(BYTES)
            ran = subprocess.run([*NOBODY, "cat", mount.point / "f.sj"], stdout=subprocess.PIPE, stderr=subprocess.DEVNULL)
            self.assertEqual(ran.stdout.decode(), text)

    @unittest.skipUnless(os.geteuid() == 0 and FOR_ALL, "needs root to become an ordinary user, and a /dev/fuse for everyone")
    @unittest.skipUnless(OTHERS_ALLOWED, "/etc/fuse.conf has no user_allow_other")
    def test_other_users_are_let_in_by_an_ordinary_one(self):
        folder = self.folder_of_nobody()
        mount = self.mounted("--allow-other", before=NOBODY, source=folder / "source", point=folder / "point")
        (mount.source / "f.sj").write_bytes(BYTES)
        self.assertEqual((mount.point / "f.sj").read_bytes().decode(), TEXT)

    def folder_of_nobody(self):
        """A folder with a source and a mount point that are an ordinary user's."""
        folder = pathlib.Path(tempfile.mkdtemp())
        self.addCleanup(shutil.rmtree, folder)
        for name in "", "source", "point":
            (folder / name).mkdir(exist_ok=True)
            os.chown(folder / name, 65534, 65534)
        return folder

    @unittest.skipUnless(os.geteuid() == 0 and FOR_ALL, "needs root to become an ordinary user, and a /dev/fuse for everyone")
    def test_as_an_ordinary_user(self):
        folder = self.folder_of_nobody()
        mount = self.mounted(before=NOBODY, source=folder / "source", point=folder / "point")
        (mount.source / "f.sj").write_bytes(BYTES)
        (mount.source / "f.sj").chmod(0o666)
        script = f"cd {mount.point} && sed -i s/ABCD/AxCD/ f.sj && id -u && cat f.sj"
        ran = subprocess.run([*NOBODY, "sh", "-c", script], stdout=subprocess.PIPE)
        self.assertEqual(ran.stdout.decode(), "65534\n" + edited(TEXT))
        self.assertEqual((mount.source / "f.sj").read_bytes(), EDITED)
        # (even root isn't let in by the kernel, but by --allow-other)
        self.assertRaises(PermissionError, os.listdir, mount.point)
        self.assertEqual(mount.end(), 0)
        self.assertFalse(mounted(mount.point))


SIGNALLED = """
import os, sys
import pyfuse3
from legacy.__main__ import main
number, mount = int(sys.argv.pop(1)), pyfuse3.init

def init(*words):
    mount(*words)
    os.kill(os.getpid(), number)

pyfuse3.init = init
sys.exit(main(sys.argv[1:]))
"""
# A gate that a process decodes by never replies as long as that one lives.
WAITING = """#!{python}
import os, sys, time
parent = os.getppid()
if b'legacy.mount.worker' not in open('/proc/%d/cmdline' % parent, 'rb').read():
    os.execv({program!r}, [{program!r}, *sys.argv[1:]])
for line in sys.stdin.buffer:
    open({flag!r}, 'w').close()
    while os.getppid() == parent:
        time.sleep(0.05)
"""
SLOW = """#!{python}
import os, subprocess, sys, time
program = subprocess.Popen([{program!r}, *sys.argv[1:]], stdin=subprocess.PIPE)
for line in sys.stdin.buffer:
    if b'change' in line[:60] and not os.path.exists({flag!r}):
        with open({flag!r} + '.new', 'w') as file:
            file.write(str(os.getpid()))
        os.rename({flag!r} + '.new', {flag!r})
        time.sleep({seconds})
    program.stdin.write(line)
    program.stdin.flush()
"""


if __name__ == "__main__":
    unittest.main()
