"""The pages for authors of clients and for operators, as their readers follow them: the client of docs/CLIENT.md in its eight steps, and the commands
and the service of docs/OPERATING.md. Each is played in an empty folder, where `gate` and the index files are as if they were installed."""
import contextlib
import doctest
import importlib.util
import json
import os
import pathlib
import re
import shutil
import signal
import socket
import stat
import subprocess
import tempfile
import unittest

from checkout import BUILT, CLIENTS, INDEXES, PROGRAM, TOP
from base import LIMIT, connect
from test_fleet import served

CLIENT, OPERATING = TOP / "docs" / "CLIENT.md", TOP / "docs" / "OPERATING.md"


def blocks(page, language):
    """The fenced blocks of a page that are in a language."""
    return re.findall(rf"^```{language}\n(.*?)^```$", page.read_text(encoding="utf-8"), re.MULTILINE | re.DOTALL)


@contextlib.contextmanager
def installation():
    """The environment of somebody who has installed the program and the index files, and an empty folder."""
    with tempfile.TemporaryDirectory() as kept:
        home, folder = pathlib.Path(kept, "home"), pathlib.Path(kept, "folder")
        (home / ".local" / "bin").mkdir(parents=True)
        (home / ".local" / "share" / "gate").mkdir(parents=True)
        folder.mkdir()
        os.symlink(os.path.abspath(PROGRAM), home / ".local" / "bin" / "gate")
        standard = home / ".local" / "share" / "gate" / "standard"
        shutil.copytree(INDEXES, standard)
        listed = [{"name": "UTF-8", "labels": ["utf-8", "utf8"]}, {"name": "Shift_JIS", "labels": ["shift_jis", "sjis"]}]
        (standard / "encodings.json").write_text(json.dumps([{"encodings": listed}]))
        path = f"{home}/.local/bin:{os.environ['PATH']}"
        yield {**os.environ, "HOME": str(home), "PATH": path, "PYTHONPATH": str(CLIENTS), "PYTHONIOENCODING": "utf-8"}, folder


@contextlib.contextmanager
def place_in(environment, folder):
    """This process in another folder and environment."""
    before, here = dict(os.environ), os.getcwd()
    os.environ.update(environment)
    os.chdir(folder)
    try:
        yield
    finally:
        os.chdir(here)
        os.environ.clear()
        os.environ.update(before)


def run_console(page, environment, folder):
    """Runs the commands of a page's consoles in one shell, and returns each with what the page and the shell print."""
    rows = []
    for block in blocks(page, "console"):
        for part in re.split(r"^(?=\$ )", block, flags=re.MULTILINE)[1:]:
            command, _, wanted = part[2:].partition("\n")
            rows.append((command, wanted))
    script = ["exec 2>&1", "trap 'kill $(jobs -p) 2>&-' EXIT"]
    for command, _ in rows:
        script += ["echo '<next>'", command]
    ran = subprocess.run(["bash", "--norc", "-c", "\n".join(script)], env=environment, cwd=folder, stdin=subprocess.DEVNULL,
                         stdout=subprocess.PIPE, timeout=LIMIT)
    printed = ran.stdout.decode().split("<next>\n")[1:]
    return [(command, wanted, found) for (command, wanted), found in zip(rows, printed + [""] * len(rows))]


class Client(unittest.TestCase):
    def test_the_parts_are_the_client(self):
        shown = [line for block in blocks(CLIENT, "python") for line in block.splitlines() if line]
        code = (TOP / "examples" / "client.py").read_text(encoding="utf-8")
        self.assertEqual(shown, [line for line in code.splitlines() if line])

    @BUILT
    def test_each_step_and_all_of_them_again(self):
        with installation() as (environment, folder), place_in(environment, folder):
            for attempt in "first", "second":
                with self.subTest(attempt):
                    self.play_steps()

    def play_steps(self):
        """Plays the steps in this folder."""
        code = (TOP / "examples" / "client.py").read_text(encoding="utf-8")
        names = {"__name__": "__main__"}
        exec(compile(code, "client.py", "exec"), names)
        steps = doctest.DocTestParser().get_doctest("\n".join(blocks(CLIENT, "pycon")), names, CLIENT.name, str(CLIENT), 0)
        told = []
        try:
            results = doctest.DocTestRunner(verbose=False).run(steps, out=told.append, clear_globs=False)
        finally:
            for it in steps.globs.values():
                if isinstance(it, subprocess.Popen):
                    it.kill()
                    it.wait()
                elif type(it).__name__ == "Document":
                    it.client.replies.close()
                    it.client.link.close()
        self.assertEqual(results.failed, 0, "".join(told))
        self.assertGreater(results.attempted, 20)


@BUILT
class Meeting(unittest.TestCase):
    """The client of docs/CLIENT.md together with another one."""

    def setUp(self):
        serves = served()
        path, _ = serves.__enter__()
        self.addCleanup(serves.__exit__, None, None, None)
        specification = importlib.util.spec_from_file_location("client", TOP / "examples" / "client.py")
        self.module = importlib.util.module_from_spec(specification)
        specification.loader.exec_module(self.module)
        self.mine, self.theirs = (self.module.Document(self.connect(path), "d", "UTF-8", content) for content in (b"abcdef", b""))

    def connect(self, path, seconds=LIMIT):
        client = self.module.Client(path, seconds)
        self.addCleanup(lambda: (client.replies.close(), client.link.close()))
        return client

    def test_a_document_that_is_open_is_joined(self):
        self.assertEqual((self.theirs.bytes, self.theirs.rev, self.theirs.text()), (b"abcdef", 0, "abcdef"))

    def both(self, name):
        """A document of `abcdef`, opened by one client and joined by the other."""
        return [self.module.Document(it.client, str(name), "UTF-8", b"abcdef") for it in (self.mine, self.theirs)]

    def test_edits_of_different_bytes_are_both_made(self):
        for at, old, new, made, then in (0, b"a", b"xyz", 6, b"xyzbcdEF"), (2, b"cd", b"", 2, b"abEF"), (6, b"", b"-", 4, b"abcdEF-"):
            with self.subTest(at=at):
                mine, theirs = self.both(at)
                theirs.splice(at, old, new)
                self.assertEqual(mine.splice(4, b"ef", b"EF"), (made, b"ef", b"EF"))
                self.assertEqual(theirs.catch_up(), (made, b"ef", b"EF"))
                self.assertEqual((mine.bytes, theirs.bytes), (then, then))

    def test_what_is_inserted_at_one_place_comes_in_the_order_of_the_edits(self):
        self.theirs.splice(3, b"", b"1")
        self.assertEqual(self.mine.splice(3, b"", b"2"), (4, b"", b"2"))
        self.assertEqual(self.mine.bytes, b"abc12def")

    def test_an_edit_of_bytes_that_others_edited_is_left_to_its_author(self):
        for at, old in (2, b"cd"), (0, b"abc"), (3, b"d"), (1, b"bcde"):
            with self.subTest(at=at, old=old):
                mine, theirs = self.both(at)
                theirs.splice(2, b"cd", b"CD")
                with self.assertRaises(ValueError):
                    mine.splice(at, old, b"")
                self.assertEqual((mine.bytes, mine.rev), (b"abCDef", 1))

    def test_an_edit_is_taken_back_only_if_its_bytes_are_there(self):
        edit = self.mine.splice(2, b"cd", b"XY")
        self.theirs.catch_up()
        self.theirs.splice(2, b"XY", b"xy")
        with self.assertRaises(ValueError):
            self.mine.undo(edit)

    def test_positions_are_those_of_text_in_python(self):
        mine = self.module.Document(self.mine.client, "smile", "UTF-8", "x😀abc".encode())
        at = mine.text().index("b")
        mine.change((0, at), (0, at + 1), "B")
        self.assertEqual((mine.text(), mine.bytes), ("x😀aBc", "x😀aBc".encode()))

    def test_what_is_refused_in_another_text_is_stale(self):
        mine, theirs = (self.module.Document(it.client, "mark", "windows-1252", b"\xef\xbb\xbfabc") for it in (self.mine, self.theirs))
        theirs.splice(0, b"\xef\xbb\xbf", b"")
        with self.assertRaises(self.module.Refused) as refusal:
            mine.change((0, 0), (0, 1), "あ")
        self.assertEqual(refusal.exception.fault, "Stale")
        mine.catch_up()
        with self.assertRaises(self.module.Refused) as refusal:
            mine.change((0, 0), (0, 1), "あ")
        self.assertEqual(refusal.exception.fault, "Unencodable")

    def connect_again(self):
        self.mine.client.replies.close()
        self.mine.client.link.close()
        self.mine.client.connect()

    def test_what_happened_without_a_connection_is_known_after_it(self):
        self.theirs.splice(1, b"b", b"BB")
        self.connect_again()
        self.assertEqual((self.mine.find_out(), self.mine.bytes, self.mine.rev), ((None, (1, b"b", b"BB")), b"aBBcdef", 1))

    def test_another_document_of_the_name_is_seen(self):
        self.mine.splice(0, b"", b"+")
        edits = {
            "catch_up": self.mine.catch_up, "find_out": self.mine.find_out, "change": lambda: self.mine.change((0, 1), (0, 4), "x"),
            "splice": lambda: self.mine.splice(1, b"abc", b""), "save": lambda: self.mine.save("none"),
        }
        with tempfile.TemporaryDirectory() as folder, place_in({}, folder):
            for content, revisions in (b"+xyzdef", 0), (b"+xyzdef", 1), (b"+xyzde", 1), (b"+xyzdef", 3):
                self.theirs.ask("close")
                other = self.module.Document(self.theirs.client, "d", "UTF-8", content)
                for _ in range(revisions):
                    other.splice(0, b"+", b"+")
                for name, edit in edits.items():
                    with self.subTest(content=content, revisions=revisions, edit=name):
                        # (an edit of a higher revision is another's, as far as it can see, and asks to catch up)
                        is_later = revisions == 3 and name == "change"
                        self.assertRaises(self.module.Refused if is_later else self.module.Replaced, edit)
                        self.assertEqual((self.mine.rev, self.mine.bytes), (1, b"+abcdef"))
                        self.assertEqual((other.read(), os.listdir(folder)), ((revisions, content), []))
            self.theirs.ask("close")
            for name, edit in edits.items():
                with self.subTest(edit=name):
                    self.assertRaises(self.module.Refused, edit)

    def test_an_insertion_into_another_document_is_seen_by_its_length(self):
        self.theirs.ask("close")
        other = self.module.Document(self.theirs.client, "d", "UTF-8", b"xyz")
        self.assertRaises(self.module.Replaced, self.mine.change, (0, 1), (0, 1), "x")
        self.assertRaises(self.module.Replaced, self.mine.splice, 1, b"", b"x")
        self.assertEqual(other.read(), (0, b"xyz"))

    def test_a_save_has_what_others_did(self):
        self.theirs.splice(0, b"a", b"A")
        with tempfile.TemporaryDirectory() as folder:
            path = pathlib.Path(folder, "file")
            self.assertEqual(self.mine.save(path), (0, b"a", b"A"))
            self.assertEqual((path.read_bytes(), self.mine.rev), (b"Abcdef", 1))

    def test_a_save_keeps_mode_and_owner_and_writes_through_links(self):
        with tempfile.TemporaryDirectory() as folder:
            path, link, new = (pathlib.Path(folder, name) for name in ("file", "link", "new"))
            path.write_bytes(b"")
            path.chmod(0o640)
            owner = 12345 if os.geteuid() == 0 else os.geteuid()
            os.chown(path, owner, -1)
            link.symlink_to("file")
            for it in path, link:
                path.write_bytes(b"")
                self.mine.save(it)
                found = os.lstat(path)
                self.assertEqual((stat.S_IMODE(found.st_mode), found.st_uid, path.read_bytes()), (0o640, owner, b"abcdef"))
            self.assertTrue(link.is_symlink())
            mask = os.umask(0o027)
            try:
                self.mine.save(new)
            finally:
                os.umask(mask)
            self.assertEqual(stat.S_IMODE(new.stat().st_mode), 0o640)
            self.assertEqual(sorted(os.listdir(folder)), ["file", "link", "new"])

    def test_a_save_that_fails_leaves_no_file(self):
        with tempfile.TemporaryDirectory() as folder:
            os.mkdir(f"{folder}/it")
            self.assertRaises(OSError, self.mine.save, f"{folder}/it")
            self.assertEqual(os.listdir(folder), ["it"])

    def lose(self, edit, between=lambda: None, sent=True):
        """Makes an edit whose reply is lost, and what others do before a new connection."""
        ask = self.mine.client.ask

        def ask_once(op, **fields):
            if op not in ("change", "splice"):
                return ask(op, **fields)
            if sent:
                ask(op, **fields)
            raise self.module.Lost(op)

        self.mine.client.ask = ask_once
        self.assertRaises(self.module.Lost, edit)
        self.mine.client.ask = ask
        between()
        for refused in edit, self.mine.catch_up, lambda: self.mine.save("none"):
            self.assertRaises(self.module.Lost, refused)
        self.connect_again()

    def test_an_edit_whose_reply_was_lost_is_known(self):
        edit, nothing = (2, b"cd", b"XYZ"), (0, b"", b"")
        cases = (
            ("made", True, [], edit, nothing, b"abXYZef"),
            ("made, and others edited before it", True, [(0, b"a", b"")], edit, (0, b"a", b""), b"bXYZef"),
            ("made, and others edited after it", True, [(6, b"f", b"F")], edit, (6, b"f", b"F"), b"abXYZeF"),
            ("made, and others left all as it was", True, [(3, b"", b"")], edit, nothing, b"abXYZef"),
            ("not made", False, [], None, nothing, b"abcdef"),
            ("others were first", False, [(0, b"a", b"A")], None, (0, b"a", b"A"), b"Abcdef"),
            ("others were first, twice", False, [(0, b"a", b"A"), (5, b"f", b"")], None, (0, b"abcdef", b"Abcde"), b"Abcde"),
        )
        for number, (name, sent, others, made, came, then) in enumerate(cases):
            for command in "splice", "change":
                with self.subTest(name, command=command):
                    self.mine, theirs = self.both(f"{command}{number}")

                    def meet():
                        theirs.catch_up()
                        for it in others:
                            theirs.splice(*it)

                    mine = (lambda: self.mine.splice(*edit)) if command == "splice" else lambda: self.mine.change((0, 2), (0, 4), "XYZ")
                    self.lose(mine, meet, sent)
                    self.assertEqual((self.mine.find_out(), self.mine.bytes), ((made, came), then))
                    self.assertEqual(self.mine.read(), (self.mine.rev, then))

    def test_a_lost_edit_at_the_start_is_known(self):
        self.lose(lambda: self.mine.splice(0, b"a", b"A"))
        self.assertEqual((self.mine.find_out(), self.mine.bytes), (((0, b"a", b"A"), (0, b"", b"")), b"Abcdef"))

    def test_an_edit_whose_bytes_others_edited_cannot_be_told(self):
        for number, (old, new, others) in enumerate([
            (b"cd", b"XYZ", (3, b"Y", b"y")), (b"cd", b"XYZ", (1, b"bX", b"")), (b"cd", b"XYZ", (4, b"Ze", b"")), (b"cd", b"", (1, b"be", b"")),
            (b"cd", b"XYZ", (0, b"abXYZef", b"all")), (b"cd", b"", (2, b"e", b"")), (b"", b"+", (2, b"+", b"")),
        ]):
            with self.subTest(old=old, new=new, others=others):
                self.mine, theirs = self.both(number)
                self.lose(lambda: self.mine.splice(2, old, new), lambda: (theirs.catch_up(), theirs.splice(*others)))
                with self.assertRaises(self.module.Unknown) as unknown:
                    self.mine.find_out()
                self.assertEqual(unknown.exception.args[0], (2, old, new))
                self.assertEqual((self.mine.rev, self.mine.bytes), (2, theirs.bytes))
                self.assertEqual(self.mine.read(), (2, theirs.bytes))

    def test_an_edit_that_a_stopped_server_has_not_read_is_known(self):
        with tempfile.TemporaryDirectory() as folder:
            with subprocess.Popen([PROGRAM, "serve", "--indexes", str(INDEXES), "--socket", f"{folder}/socket"]) as server:
                try:
                    self.mine = self.module.Document(self.connect(f"{folder}/socket"), "d", "UTF-8", b"abc")
                    send = self.mine.send_edit

                    def send_to_stopped(*values):
                        self.mine.client.link.settimeout(0.1)
                        server.send_signal(signal.SIGSTOP)
                        return send(*values)

                    self.mine.send_edit = send_to_stopped
                    self.assertRaises(self.module.Lost, self.mine.splice, 1, b"b", b"B")
                    self.mine.client.connect()
                    server.send_signal(signal.SIGCONT)
                    self.assertEqual((self.mine.find_out(), self.mine.read()), (((1, b"b", b"B"), (0, b"", b"")), (1, b"aBc")))
                finally:
                    server.kill()

    def test_a_server_that_is_silent_loses_the_connection_in_time(self):
        with tempfile.TemporaryDirectory() as folder, socket.socket(socket.AF_UNIX) as listener:
            listener.bind(f"{folder}/socket")
            listener.listen()
            client = self.connect(f"{folder}/socket", 0.1)
            self.assertRaises(self.module.Lost, client.ask, "stat", doc="d")
            self.assertRaises(self.module.Lost, client.ask, "stat", doc="d")

    def test_nobody_listens(self):
        with tempfile.TemporaryDirectory() as folder:
            self.assertRaises(FileNotFoundError, self.module.Client, f"{folder}/none", 0.1)


class Operating(unittest.TestCase):
    @BUILT
    def test_each_command_prints_what_the_page_shows(self):
        with installation() as (environment, folder):
            rows = run_console(OPERATING, environment, folder)
        self.assertGreater(len(rows), 10)
        for command, wanted, found in rows:
            with self.subTest(command):
                self.assertEqual(found, wanted)

    def unit(self):
        """The lines of the unit, each a key and its value."""
        (text,) = blocks(OPERATING, "ini")
        return text, dict(re.findall(r"^(\w+)=(.*)$", text, re.MULTILINE))

    @BUILT
    @unittest.skipUnless(shutil.which("systemd-analyze"), "there is no systemd-analyze, which checks units")
    def test_systemd_finds_no_fault_in_the_unit(self):
        with installation() as (environment, folder):
            path = folder / "gate.service"
            path.write_text(self.unit()[0])
            words = ["systemd-analyze", "verify", "--user", "--man=no", str(path)]
            ran = subprocess.run(words, env={**environment, "XDG_RUNTIME_DIR": str(folder)}, stdout=subprocess.PIPE, stderr=subprocess.STDOUT, timeout=LIMIT)
            said = [line for line in ran.stdout.decode().splitlines() if "gate.service" in line]
        self.assertEqual((ran.returncode, said), (0, []))

    @BUILT
    def test_the_service_listens_where_the_page_says_and_comes_back_with_its_documents(self):
        _, unit = self.unit()
        with installation() as (environment, folder):
            values = {"%h": environment["HOME"], "%t": str(folder / "run"), "%S": str(folder / "state")}
            for name in "run", "state":
                (folder / name / unit["RuntimeDirectory"]).mkdir(parents=True)
            words = re.sub(r"%\w", lambda found: values[found[0]], unit["ExecStart"]).split()
            path = folder / "run" / "gate" / "socket"
            for command in '{"id":1,"op":"open","doc":"a","label":"utf8","bytes":""}\n', '{"id":1,"op":"stat","doc":"a"}\n':
                with subprocess.Popen(words, env=environment) as server, connect(str(path)) as peer:
                    self.assertEqual(stat.S_IMODE(path.stat().st_mode), 0o600)
                    peer.sendall(command.encode())
                    self.assertIn(b'"rev":0', peer.makefile("rb").readline())
                    server.kill()


if __name__ == "__main__":
    unittest.main()
