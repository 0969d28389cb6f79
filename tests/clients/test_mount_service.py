"""Mounts as services and tables of file systems begin and end them, and what is said of those that are there."""
import json
import os
import pathlib
import re
import shutil
import signal
import socket
import subprocess
import sys
import tempfile
import time
import unittest

from checkout import CLIENTS, INDEXES, PROGRAM, TOP
from mounts import BYTES, PATIENCE, PYTHON, RULES, TEXT, WHY, Mount, mounted, until

# What a table of file systems says, beside what every test has.
OPTIONS = "rw,defaults,_netdev,x-systemd.automount,noatime,encoding=*.sj=shift_jis,encoding=*.w=windows-1252,no_sync"


def legacy(*words, **how):
    """A command: its status, and what it prints."""
    line = [PYTHON, "-m", "legacy", *words]
    env, pipe = {**os.environ, "PYTHONPATH": str(CLIENTS)}, subprocess.PIPE
    ran = subprocess.run(line, env=env, stdout=pipe, stderr=pipe, text=True, timeout=PATIENCE, **how)
    return ran.returncode, ran.stdout, ran.stderr


class Words(unittest.TestCase):
    """Options behind -o. (None of these mounts anything.)"""

    def parsed(self, *words):
        from legacy.__main__ import parser
        return parser().parse_args(["mount", *words, "/source", "/point"])

    def test_they_are_those_of_the_command_line(self):
        found = self.parsed("-o", OPTIONS + r",ro,large=bytes,log=/a\,b,show_git,idle=30,nodev", "-e", "c=utf-8")
        named = {name: getattr(found, name) for name in ("encoding", "read_only", "large", "log", "show_git", "no_sync", "idle", "kernel")}
        self.assertEqual(named, {
            "encoding": [("*.sj", "shift_jis"), ("*.w", "windows-1252"), ("c", "utf-8")], "read_only": True, "large": "bytes", "log": "/a,b",
            "show_git": True, "no_sync": True, "idle": 30.0, "kernel": ["noatime", "nodev"]})
        self.assertEqual(self.parsed("-o", "ro,rw").read_only, False)

    def test_others_are_refused(self):
        for option, said in (
                ("encodings=a", "-o encodings: there is no such option"), ("help", "-o help: there is no such option"),
                ("show_git=yes", "-o show_git: takes no value"), ("log", "-o log: a value is missing"), ("encoding=x", "-o encoding: x isn't GLOB=LABEL"),
                ("large=huge", "-o large: huge is none of refuse, bytes"), ("idle=-1", "-o idle: -1 is no number of seconds"),
                ("o=ro", "-o o: there is no such option")):
            status, _, text = legacy("mount", "-o", option, "/source", "/point")
            self.assertEqual((status, said in text), (2, True), text)


@unittest.skipIf(WHY, WHY)
class Services(unittest.TestCase):
    def setUp(self):
        self.folder = pathlib.Path(tempfile.mkdtemp())
        self.addCleanup(shutil.rmtree, self.folder)
        self.source, self.point, self.log = self.folder / "source", self.folder / "point", self.folder / "log"
        for folder in self.source, self.point:
            folder.mkdir()
        (self.source / "f.sj").write_bytes(BYTES)

    def mounted(self, *words, **named):
        mount = Mount(*RULES, *words, source=self.source, point=self.point, **named)
        self.addCleanup(mount.clear)
        return mount

    def in_the_background(self, *words):
        self.addCleanup(subprocess.run, ["fusermount3", "-uzq", self.point])
        return legacy("mount", *RULES, "--gate", PROGRAM, "--indexes", str(INDEXES), *words, str(self.source), str(self.point))

    def test_what_is_mounted_is_said_and_unmounted(self):
        self.assertEqual(self.in_the_background("--log", str(self.log), "--no-attributes"), (0, "", ""))
        file = os.open(self.point / "f.sj", os.O_WRONLY | os.O_TRUNC)
        os.write(file, b"A\x82")
        self.assertRaises(OSError, os.close, file)
        status, said, _ = legacy("mounts", "--json")
        found = {it["mountpoint"]: it for it in map(json.loads, said.splitlines())}[str(self.point)]
        self.assertEqual((found["source"], found["log"], found["rules"][0]), (str(self.source), str(self.log), "-e '*.sj=shift_jis'"))
        self.assertLess(abs(found["since"] - time.time()), PATIENCE)
        self.assertEqual([(it["path"], it["text"]) for it in found["refused"]], [("f.sj", "f.sj.rejected")])
        process = found["process"]
        self.assertIn("f.sj.rejected", legacy("mounts")[1])
        self.assertEqual(os.listxattr(self.point), [])
        self.assertEqual(legacy("umount", str(self.point)), (0, "", ""))
        self.assertFalse(mounted(self.point))
        self.assertNotIn(str(self.point), legacy("mounts")[1])
        self.assertEqual(legacy("umount", str(self.point)), (1, "", f"legacy umount: {self.point}: nothing is mounted there by `legacy mount`\n"))
        lines = [line.split(" ", 2) for line in self.log.read_text().splitlines()]
        self.assertTrue(all(re.fullmatch(r"\d{4}-\d\d-\d\d", day) and re.fullmatch(r"\d\d:\d\d:\d\d", hour) for day, hour, _ in lines), lines)
        self.assertTrue(lines[0][2].startswith(f"mounted: {self.source} at {self.point}, process {process}, rules: -e '*.sj=shift_jis' "), lines)
        self.assertEqual(lines[-1][2], "ended: it was unmounted")

    def test_one_in_which_somebody_is_isn_t_unmounted(self):
        self.mounted()
        with open(self.point / "f.sj", "rb"):
            status, _, said = legacy("umount", str(self.point))
            self.assertRegex(f"{status} {said}", f"\\A1 legacy umount: {self.point}: (Device or resource|target is) busy\\.?\n\\Z")
        self.assertEqual((self.point / "f.sj").read_bytes().decode(), TEXT)

    def test_one_whose_process_is_gone_is_said_and_cleared(self):
        mount = self.mounted()
        mount.process.kill()
        mount.process.wait()
        status, said, _ = legacy("mounts")
        self.assertEqual(status, 1)
        self.assertIn(f"{self.point}\n  source   {self.source}\n  fault    its process is gone\n", said)
        self.assertEqual(legacy("umount", str(self.point)), (0, "", ""))
        self.assertFalse(mounted(self.point))

    @unittest.skipUnless(os.geteuid() == 0, "needs root, to be another user")
    def test_one_of_another_user_is_no_fault(self):
        self.mounted()
        status, said, _ = legacy("mounts", user=65534)
        self.assertIn(f"{self.point}\n  source   {self.source}\n  closed   it is another user's\n", said)
        if said.count("\n") == 3:
            self.assertEqual(status, 0)
        status, _, said = legacy("umount", str(self.point), user=65534)
        self.assertEqual((status, mounted(self.point)), (1, True), said)

    def test_one_that_is_stopped_is_said(self):
        mount = self.mounted()
        mount.process.send_signal(signal.SIGSTOP)
        self.addCleanup(mount.process.send_signal, signal.SIGCONT)
        self.assertIn("fault    it doesn't answer", legacy("mounts")[1])

    def test_the_log_is_opened_again(self):
        for source in self.folder / "source", self.folder:
            mount = Mount(*RULES, "--log", str(self.log), source=source, point=source)
            self.addCleanup(mount.clear)
            # (by its descriptor, where the mount lies over it)
            self.assertTrue(until(lambda: "mounted" in mount.log()))
            self.log.rename(self.folder / "log.1")
            mount.process.send_signal(signal.SIGHUP)
            self.assertTrue(until(lambda: mount.log().count("opened again") == 1), mount.log())
            self.assertEqual(mount.end(), 0)
            self.assertIn("mounted: ", (self.folder / "log.1").read_text())
            self.assertRegex(self.log.read_text(), "the log was opened again\n.* ended: signal SIGTERM\n$")
            self.log.unlink()

    def test_it_ends_once_nobody_uses_it(self):
        mount = self.mounted("--idle", "4")
        with open(self.point / "f.sj", "rb"):
            time.sleep(12)
            self.assertTrue(mounted(self.point))
        (self.point / "f.sj").read_bytes()
        self.assertTrue(until(lambda: mount.process.poll() is not None))
        self.assertEqual((mount.process.returncode, mounted(self.point)), (0, False))
        self.assertIn("ended: nobody has used it for 4 seconds", mount.log())

    def test_a_service_manager_is_told_when_it_is_ready(self):
        for place in str(self.folder / "socket"), f"@legacy-{os.getpid()}":
            with socket.socket(socket.AF_UNIX, socket.SOCK_DGRAM) as told:
                told.bind(place.replace("@", "\0"))
                told.settimeout(PATIENCE)
                mount = self.mounted(variables={"NOTIFY_SOCKET": place})
                said = told.recv(4096).decode().splitlines()
                self.assertEqual(said[0], "READY=1")
                self.assertIn(f"MAINPID={mount.process.pid}", said)
                self.assertEqual(mount.end(), 0)
                self.assertEqual(told.recv(4096).decode(), "STOPPING=1")

    def test_what_to_do_is_said_where_no_file_has_a_rule(self):
        words = ["--gate", PROGRAM, "--indexes", str(INDEXES), str(self.source), str(self.point)]
        self.addCleanup(subprocess.run, ["fusermount3", "-uzq", self.point])
        for more, is_said in ([], True), (["-e", "*.txt=shift_jis"], True), (["-e", "*.sj=shift_jis"], False):
            status, _, said = legacy("mount", *more, *words)
            self.assertEqual((status, "none of the 1 files has a rule" in said and "legacy rules SOURCE" in said), (0, is_said), said)
            self.assertEqual(legacy("umount", str(self.point)), (0, "", ""))

    def helper(self, *words):
        line = [PYTHON, "-m", "legacy.mount.helper", self.source, self.point, *words]
        environment = {**os.environ, "PYTHONPATH": str(CLIENTS), "GATE": PROGRAM, "GATE_INDEXES": str(INDEXES)}
        return subprocess.run(line, env=environment, stdout=subprocess.PIPE, stderr=subprocess.STDOUT, text=True, timeout=PATIENCE)

    def test_as_mount_runs_it(self):
        self.addCleanup(subprocess.run, ["fusermount3", "-uzq", self.point])
        self.assertEqual((self.helper("-f", "-o", OPTIONS).returncode, mounted(self.point)), (0, False))
        ran = self.helper("-s", "-n", "-o", OPTIONS, "-t", "fuse.legacy")
        self.assertEqual((ran.returncode, ran.stdout), (0, ""))
        self.assertEqual((self.point / "f.sj").read_bytes().decode(), TEXT)
        self.assertEqual(legacy("umount", str(self.point)), (0, "", ""))
        self.assertEqual(self.helper("-o", "setuid=nobody-there").returncode, 2)

    @unittest.skipUnless(os.geteuid() == 0 and shutil.which("unshare"), "needs root, for a list of mounts of its own")
    def test_by_mount_itself(self):
        # (where mount looks for helpers is another folder for this one)
        script = self.folder / "sbin" / "mount.fuse.legacy"
        script.parent.mkdir()
        script.write_text(f"#!{PYTHON}\nimport sys\nsys.path.insert(0, {str(CLIENTS)!r})\nfrom legacy.mount.helper import main\nsys.exit(main())\n")
        script.chmod(0o755)
        line = f"""mount --bind {script.parent} "$(readlink -f /sbin)" && cd {self.folder} && mount -t fuse.legacy -o '{OPTIONS}' {self.source} {self.point} \
            && cat point/f.sj && findmnt -rno FSTYPE,SOURCE {self.point} && umount {self.point}"""
        environment = {**os.environ, "GATE": PROGRAM, "GATE_INDEXES": str(INDEXES)}
        ran = subprocess.run(["unshare", "-m", "sh", "-c", line], env=environment, stdout=subprocess.PIPE, stderr=subprocess.STDOUT, timeout=PATIENCE)
        self.assertEqual((ran.returncode, ran.stdout.decode()), (0, f"{TEXT}fuse.gate {self.source}\n"))

    @unittest.skipUnless(os.geteuid() == 0 and shutil.which("setpriv"), "needs root, to be another user")
    def test_a_user_who_mounts_by_himself_is_that_user_already(self):
        # (mount(8) runs its helper as the user, if a line of fstab has the option `user`)
        as_nobody = ["setpriv", "--reuid=65534", "--regid=65534", "--clear-groups", PYTHON, "-c"]
        for user, status in ("65534", 0), ("nobody", 0), ("root", 1):
            ran = subprocess.run([*as_nobody, f"from legacy.mount.helper import become; become({user!r})"], stderr=subprocess.DEVNULL,
                                 env={**os.environ, "PYTHONPATH": str(CLIENTS)})
            self.assertEqual((user, ran.returncode), (user, status))

    def test_the_unit_s_line_is_one_of_the_command(self):
        unit = (TOP / "clients" / "legacy-mount@.service").read_text()
        line = re.search(r"^ExecStart=\S+ (.*)$", unit, re.MULTILINE)[1]
        values = {"OPTIONS": "encoding=*.sj=shift_jis", "SOURCE": str(self.source), "MOUNTPOINT": str(self.point)}
        words = [re.sub(r"\$\{(\w+)\}", lambda found: values[found[1]], word) for word in line.split()]
        environment = {**os.environ, "PYTHONPATH": str(CLIENTS), "GATE": PROGRAM, "GATE_INDEXES": str(INDEXES)}
        with subprocess.Popen([PYTHON, "-m", "legacy", *words], env=environment, stderr=subprocess.DEVNULL) as served:
            self.addCleanup(subprocess.run, ["fusermount3", "-uzq", self.point])
            self.assertTrue(until(lambda: mounted(self.point)))
            self.assertEqual((self.point / "f.sj").read_bytes().decode(), TEXT)
            served.terminate()
            self.assertEqual(served.wait(PATIENCE), 0)


if __name__ == "__main__":
    unittest.main(argv=sys.argv)
