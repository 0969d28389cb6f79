"""How work goes over trees: runs that are killed, interrupted or resumed, processes that end, files that change, and a Dask
cluster of which a worker is killed. All of them give the rows of one undisturbed run, in the same order."""
import concurrent.futures
import contextlib
import dataclasses
import json
import multiprocessing
import os
import pathlib
import random
import shutil
import signal
import subprocess
import sys
import tempfile
import threading
import time
import unittest
from unittest import mock

from archives import WORDS, Folder, settings, tree
from checkout import BUILT, CLIENTS, INDEXES, PROGRAM, TOP
from legacy import work
from legacy.check import Check, Checked, check
from legacy.convert import convert
from legacy.finding import Missing
from legacy.search import search
from legacy.work import Item, Refusal, Row, rows, window
from legacy.work.children import CHILD
from legacy.work.rows import Task
from legacy.work.state import State
from test_gate import LIMIT
import runs  # (of a folder that archives adds)

CLUSTER = unittest.skipUnless(runs.python_with("distributed"), "there is no distributed (Debian's python3-distributed)")
RULES = [word for glob, label in WORDS for word in ("-e", f"{glob}={label}")]


def programs():
    """The processes of `gate` that this one started."""
    for it in pathlib.Path("/proc").glob("[0-9]*"):
        with contextlib.suppress(OSError):
            parent = (it / "stat").read_text().rpartition(")")[2].split()[1]
            if int(parent) == os.getpid() and b"\0stdio\0" in (it / "cmdline").read_bytes():
                yield int(it.name)


def work_of(session):
    """The seconds that the processes of a session have worked."""
    ticks = 0
    for it in pathlib.Path("/proc").glob("[0-9]*"):
        with contextlib.suppress(OSError):
            fields = (it / "stat").read_text().rpartition(")")[2].split()
            if int(fields[3]) == session:
                ticks += int(fields[11]) + int(fields[12])
    return ticks / os.sysconf("SC_CLK_TCK")


def command(*words, python=sys.executable):
    """The command line of `legacy check`."""
    return [python, "-m", "legacy", "check", "--json", *RULES, "--gate", PROGRAM, "--indexes", str(INDEXES), "--no-attributes", *words]


ENVIRONMENT = {**os.environ, "PYTHONPATH": str(CLIENTS), "PYTHONUNBUFFERED": "1"}


# Rows of three lists by Dask's own way from one future to another, where the first's worker has ended as its rows come, twice, and
# what comes of a fault of the task's own.
UNPACKED = """
import concurrent.futures
from distributed.cfexecutor import _cascade_future
from legacy.work import pools, window
from tornado.ioloop import IOLoop

class Future:
    def __init__(self, status, outcome):
        self.status, self.outcome = status, outcome

    async def _result(self, raiseit):
        return self.outcome

class Cluster(concurrent.futures.Executor):
    statuses = ["lost", "finished", "finished", "lost"]

    def submit(self, act, items):
        status = self.statuses.pop() if self.statuses else "finished"
        try:
            future = Future(status, act(items))
        except OSError as fault:
            future = Future("error", (OSError, fault, fault.__traceback__))
        sent = concurrent.futures.Future()
        IOLoop.current().run_sync(lambda: _cascade_future(future, sent))
        return sent

class Row(int):
    def weight(self):
        return 1

class Task:
    def rows(self, items):
        if not all(items):
            raise OSError("none")
        return [*map(Row, items), Row(items[0])]

class Crew(window.Crew):
    start = Cluster
    is_end = staticmethod(pools.is_unpacked)

def rows(lists):
    return window.Window(Task(), Crew(), 2).rows(lists)

print(*rows([[1, 2], [3, 4, 5], [6]]))
try:
    print(*rows([[1], [0]]))
except OSError as fault:
    print(fault)
"""


@dataclasses.dataclass
class Lethal(work.Job):
    """A job that ends its process at files of one name."""

    rows = Row

    def row(self, gate, item, content):
        if os.path.basename(item.path) == "lethal" and multiprocessing.parent_process():
            os.kill(os.getpid(), signal.SIGKILL)
        # (so that others are at work meanwhile)
        time.sleep(0.01)
        return Row(item.path, len(content), item.label)


@BUILT
class Runs(unittest.TestCase):
    @classmethod
    def setUpClass(cls):
        kept = tempfile.TemporaryDirectory()
        cls.addClassCleanup(kept.cleanup)
        cls.top = pathlib.Path(kept.name)
        made = tree.make(cls.top, 330, largest=6_000, indexes=INDEXES)
        cls.clean = next(cls.top / "tree" / it["path"] for it in made if it["label"] == "utf-8" and it.get("utf8"))
        cls.tree = str(cls.top / "tree")
        cls.rows = [it.json() for it in check([cls.tree], settings())]

    def setUp(self):
        self.state = str(self.top / f"{self.id()}.state")

    def resume_run(self):
        """The rows of a run that goes on, and the paths of the files that it read."""
        read = mock.Mock(wraps=rows.read)
        with mock.patch.object(rows, "read", read):
            found = [it.json() for it in check([self.tree], settings(state=self.state))]
        return found, [it.args[0].path for it in read.call_args_list]

    def test_a_second_run_reads_no_file(self):
        found, first = self.resume_run()
        self.assertEqual((found, len(first) > 300), (self.rows, True))
        found, again = self.resume_run()
        large = str(self.top / "tree" / "others" / "large.utf-8")
        self.assertEqual((found, [it for it in again if it != large]), (self.rows, []))

    def test_a_file_that_changed_is_read(self):
        self.resume_run()
        path = self.clean
        old, status = path.read_bytes(), path.stat()
        try:
            path.write_bytes(b"\xff")
            found, read = self.resume_run()
            self.assertIn(str(path), read)
            self.assertEqual([json.loads(it)["errors"] for it in found if path.name in it], [1])
        finally:
            path.write_bytes(old)
            os.utime(path, ns=(status.st_atime_ns, status.st_mtime_ns))

    def test_a_run_that_is_killed_and_resumed(self):
        draw = random.Random()
        kills = 0
        words = command("--jobs", "2", "--resume", self.state, self.tree)
        for _ in range(4):
            # (nobody reads what it prints, so that it doesn't end by itself)
            kills += runs.run_and_kill(words, 0.2 + draw.random(), env=ENVIRONMENT, stdout=subprocess.PIPE)
        self.assertGreater(kills, 0)
        self.assertEqual(self.resume_run()[0], self.rows)

    def test_ctrl_c(self):
        # At a terminal it goes to all processes of the run.
        run = subprocess.Popen(
            command("--jobs", "2", "--resume", self.state, self.tree), env=ENVIRONMENT, stdout=subprocess.PIPE, stderr=subprocess.PIPE,
            start_new_session=True)
        run.stdout.readline()
        os.killpg(run.pid, signal.SIGINT)
        _, said = run.communicate(timeout=LIMIT)
        if run.returncode != 2:
            self.assertEqual((run.returncode, said.decode()), (130, "legacy check: interrupted\n"))
        runs.end_of(run.pid)
        found, read = self.resume_run()
        self.assertEqual(found, self.rows)
        self.assertLess(len(read), len(self.rows))

    def test_ctrl_c_reaches_what_tests_start_in_the_background_of_a_shell(self):
        script = "import signal, checkout; print(signal.getsignal(signal.SIGINT) is signal.default_int_handler)"
        ran = subprocess.run(
            ["/bin/sh", "-c", 'trap "" INT; exec "$@"', "sh", sys.executable, "-c", script], cwd=pathlib.Path(__file__).parent,
            env={**os.environ, "PYTHONPATH": str(TOP / "tests")}, stdout=subprocess.PIPE, check=True)
        self.assertEqual(ran.stdout, b"True\n")

    def test_ctrl_c_is_not_said_by_processes_that_begin(self):
        script = "import os, signal, sys\nos.register_at_fork(after_in_child=lambda: os.kill(os.getpid(), signal.SIGINT))\n"
        script += "from legacy.__main__ import main\nsys.exit(main(sys.argv[1:]))"
        words = [sys.executable, "-c", script, *command("--jobs", "2", self.tree)[3:]]
        ran = subprocess.run(words, env=ENVIRONMENT, stdout=subprocess.PIPE, stderr=subprocess.PIPE, timeout=LIMIT)
        # (what it says is how many files there are)
        self.assertRegex(ran.stderr.decode(), "\\A[0-9]+ files clean; [^\n]*\n([-_A-Za-z0-9]+: [0-9]+ errors?, [^\n]*\n)*\\Z")
        self.assertEqual(ran.stdout.decode().splitlines(), self.rows)

    def test_a_process_that_ends_loses_nothing(self):
        found = []
        for row in check([self.tree], settings(jobs=2)):
            if not found:
                os.kill(multiprocessing.active_children()[0].pid, signal.SIGKILL)
            found.append(row.json())
        self.assertEqual(found, self.rows)

    def test_a_file_at_which_processes_end(self):
        for number in range(40):
            path = self.top / "lethal" / f"{number:02}" / ("lethal" if number == 17 else "file")
            path.parent.mkdir(parents=True)
            path.write_bytes(b"x")
        for files in 32, 4, 1:
            with self.subTest(files), mock.patch("legacy.work.running.FILES", files):
                found = list(work.run(Lethal(), [str(self.top / "lethal")], settings(jobs=2, default="utf-8")))
            self.assertEqual([os.path.basename(it.path) for it in found if it.outcome != "done"], ["lethal"])
            self.assertEqual([(it.outcome, it.reason) for it in found if it.outcome != "done"], [("refused", "the process that looked at it ended")])
            self.assertEqual(len(found), 40)

    def test_a_gate_that_ends_is_started_anew(self):
        found = []
        for row in check([self.tree], settings()):
            if len(found) == 5:
                program, = programs()
                os.kill(program, signal.SIGKILL)
            found.append(row.json())
        self.assertEqual(found, self.rows)

    @CLUSTER
    def test_a_cluster_of_which_a_worker_is_killed(self):
        python = runs.python_with("distributed")
        with tempfile.TemporaryDirectory() as folder, runs.cluster(python, pathlib.Path(folder), env=ENVIRONMENT) as (address, workers):
            run = subprocess.Popen(
                command("--dask", address, self.tree, python=python), env=ENVIRONMENT, stdout=subprocess.PIPE, stderr=subprocess.PIPE)
            first = run.stdout.readline()
            self.assertIsNone(run.poll())
            workers[1].kill()
            with run.stdout, run.stderr:
                rest = run.stdout.read()
                self.assertEqual((first + rest).decode().splitlines(), self.rows, run.stderr.read().decode()[-2000:])
            self.assertEqual(run.wait(), 2)

    def test_ctrl_c_ends_a_search_that_does_not_end(self):
        path = self.top / "endless"
        path.mkdir()
        for number in range(64):
            (path / f"{number}.txt").write_bytes("あ".encode() * 40 + b"\n")
        for jobs in "2", "1":
            words = command("--default", "utf-8", "--jobs", jobs, str(path))
            words[3:5] = ["search", "(あ+)+う"]
            search = subprocess.Popen(words, env=ENVIRONMENT, stdout=subprocess.PIPE, stderr=subprocess.PIPE, start_new_session=True)
            # (by then it has begun to search, on a busy machine too: what comes before takes less)
            end = time.monotonic() + LIMIT
            while work_of(search.pid) < 3 and time.monotonic() < end:
                time.sleep(0.1)
            self.assertGreaterEqual(work_of(search.pid), 3)
            os.killpg(search.pid, signal.SIGINT)
            try:
                _, said = search.communicate(timeout=LIMIT)
            except subprocess.TimeoutExpired:
                os.killpg(search.pid, signal.SIGKILL)
                self.fail(f"--jobs {jobs} goes on, and has said {search.communicate()[1].decode()}")
            self.assertEqual((search.returncode, said.decode().splitlines()[:1]), (130, ["legacy search: interrupted"]))
            runs.end_of(search.pid)

    def test_ctrl_c_at_the_end_of_the_time(self):
        # (both signals come at once if the process had no processor for a while)
        both = {signal.SIGALRM, signal.SIGINT}
        for inner in "here", "a handler":
            with self.subTest(inner), self.assertRaises(KeyboardInterrupt), work.time_limit(LIMIT, "late"):
                signal.pthread_sigmask(signal.SIG_BLOCK, both)
                for number in both:
                    os.kill(os.getpid(), number)
                try:
                    signal.pthread_sigmask(signal.SIG_UNBLOCK, both)
                finally:
                    if inner != "here":
                        time.sleep(0)
        # (nothing is left of the time)
        self.assertEqual((signal.getitimer(signal.ITIMER_REAL)[0], signal.getsignal(signal.SIGALRM)), (0, signal.SIG_DFL))
        with self.assertRaises(work.reading.TooLong), work.time_limit(0.01, "late"):
            time.sleep(LIMIT)

    def test_an_expression_has_its_time(self):
        path, clean = self.top / "slow" / "a.txt", self.top / "slow" / "b.txt"
        path.parent.mkdir()
        path.write_bytes("あ".encode() * 40 + b"\n")
        clean.write_bytes("う".encode())
        for way in "here", "thread", "processes":
            more = settings(default="utf-8", jobs=2 if way == "processes" else 1)
            act = lambda: list(search("(あ+)*う", [str(path.parent)], more, seconds=0.5))  # noqa: E731
            with self.subTest(way), mock.patch("legacy.work.running.FILES", 1), concurrent.futures.ThreadPoolExecutor(1) as other:
                found = other.submit(act).result() if way == "thread" else act()
                self.assertEqual([(it.outcome, it.reason) for it in found], [("refused", "the expression takes more than 0.5 seconds"), ("found", "")])
                other.submit(CHILD.end).result()

    @CLUSTER
    def test_a_cluster_of_which_a_worker_stalls(self):
        python = runs.python_with("distributed")
        with tempfile.TemporaryDirectory() as folder, runs.cluster(python, pathlib.Path(folder), 2, env=ENVIRONMENT) as (address, workers):
            run = subprocess.Popen(
                command("--dask", address, self.tree, python=python), env=ENVIRONMENT, stdout=subprocess.PIPE, stderr=subprocess.PIPE)
            first = run.stdout.readline()
            workers[1].send_signal(signal.SIGSTOP)
            ends = threading.Timer(LIMIT, run.kill)
            ends.start()
            with run.stdout, run.stderr:
                rest = run.stdout.read()
                self.assertEqual((first + rest).decode().splitlines(), self.rows, run.stderr.read().decode()[-2000:])
            self.assertEqual(run.wait(), 2)
            ends.cancel()

    @CLUSTER
    def test_a_scheduler_that_ends(self):
        python = runs.python_with("distributed")
        with tempfile.TemporaryDirectory() as folder, runs.cluster(python, pathlib.Path(folder), 1, env=ENVIRONMENT) as (address, workers):
            run = subprocess.Popen(
                command("--dask", address, self.tree, python=python), env=ENVIRONMENT, stdout=subprocess.PIPE, stderr=subprocess.PIPE)
            run.stdout.readline()
            port = address.rpartition(":")[2]
            for it in pathlib.Path("/proc").glob("[0-9]*/cmdline"):
                with contextlib.suppress(OSError):
                    words = it.read_bytes().split(b"\0")
                    if b"distributed.cli.dask_scheduler" in words and folder.encode() in b" ".join(words):
                        os.kill(int(it.parent.name), signal.SIGKILL)
            _, said = run.communicate(timeout=LIMIT)
            self.assertEqual(run.returncode, 2, said.decode()[-2000:])
            self.assertIn(f"legacy check: the Dask scheduler at tcp://127.0.0.1:{port} is gone; ", said.decode())

    @CLUSTER
    def test_a_cluster_without_a_worker(self):
        python = runs.python_with("distributed")
        script = "import sys\nfrom legacy.work import pools\npools.IDLE = 2.0\nfrom legacy.__main__ import main\nsys.exit(main(sys.argv[1:]))"
        with tempfile.TemporaryDirectory() as folder, runs.cluster(python, pathlib.Path(folder), 0, env=ENVIRONMENT) as (address, _):
            words = command("--dask", address, self.tree, python=python)
            ran = subprocess.run([python, "-c", script, *words[3:]], env=ENVIRONMENT, stdout=subprocess.PIPE, stderr=subprocess.PIPE, timeout=LIMIT)
        self.assertEqual((ran.stdout, ran.returncode), (b"", 2))
        self.assertEqual(ran.stderr.decode(), (
            f"legacy: the Dask scheduler at {address} has no worker; one is waited for\n"
            f"legacy check: the Dask scheduler at {address} has had no worker for 2 seconds\n"))

    @CLUSTER
    def test_a_worker_that_ends_as_its_rows_come(self):
        words = [runs.python_with("distributed"), "-c", UNPACKED]
        ran = subprocess.run(words, env=ENVIRONMENT, stdout=subprocess.PIPE, stderr=subprocess.PIPE)
        self.assertEqual(ran.stdout.decode(), "[1, 1, 2, 2] [3, 4, 5, 3] [6, 6]\nnone\n", ran.stderr.decode()[-2000:])

    @CLUSTER
    def test_a_scheduler_that_is_not_there(self):
        words = command("--dask", "tcp://127.0.0.1:1", self.tree, python=runs.python_with("distributed"))
        ran = subprocess.run(words, env=ENVIRONMENT, stdout=subprocess.PIPE, stderr=subprocess.PIPE)
        self.assertEqual((ran.stdout, ran.returncode), (b"", 2))
        self.assertRegex(ran.stderr.decode(), "\\Alegacy check: no Dask scheduler replies at tcp://127.0.0.1:1: .*\n\\Z")


class Paths(unittest.TestCase):
    def test_workers_of_a_cluster_are_given_no_relative_paths(self):
        far = settings(dask="tcp://127.0.0.1:1")
        for act, said in [
            (lambda: check(["a"], far), "a"), (lambda: convert("utf-8", ["/none"], "out", far), "out"),
            (lambda: check(["/none"], dataclasses.replace(far, found=far.found._replace(indexes=pathlib.Path("standard")))), "standard"),
        ]:
            with self.subTest(said), self.assertRaisesRegex(Missing, f"^--dask: {said} is relative, and workers may run in another folder$"):
                list(act())


class States(Folder):
    def task(self, **words):
        """A job by the small index files."""
        return Task(Check(**words), settings().found)

    def test_states_that_are_none(self):
        path = str(self.folder / "state")
        with State(path, self.task()):
            with self.assertRaisesRegex(Missing, "database is locked"):
                State(path, self.task())
        with State(path, self.task()) as state:
            self.assertIsNone(state.unchanged_row(Item("a", 1, 2, "utf-8")))
        with self.assertRaisesRegex(Missing, "is that of another job"):
            State(path, self.task(most=3))
        with self.assertRaisesRegex(Missing, "file is not a database"):
            State(self.file("other", b"no database, but a file of some length\n" * 50), self.task(), force=True)
        with self.assertRaisesRegex(Missing, "unable to open"):
            State("/none/state", self.task())

    def test_other_index_files_and_labels(self):
        path, task = str(self.folder / "state"), self.task()
        with State(path, task):
            pass
        other = self.folder / "standard"
        shutil.copytree(INDEXES, other)
        labels = other / "encodings.json"
        labels.write_text("[]")
        with State(path, task._replace(found=task.found._replace(indexes=other))):
            pass
        with self.assertRaisesRegex(Missing, "is that of another job"):
            State(path, task._replace(found=task.found._replace(indexes=other, labels=labels)))
        for name, row in ("gb18030-exceptions.txt", "0xA2E3\t0x20AC\n"), ("index-jis0208.txt", "11279\t0x2F9F5\n"):
            file = other / name
            before = file.read_text()
            file.write_text(before + row)
            with self.assertRaisesRegex(Missing, "is that of another job"):
                State(path, task._replace(found=task.found._replace(indexes=other)))
            file.write_text(before)
        with self.assertRaisesRegex(Missing, "/none: No such file"):
            State(str(self.folder / "new"), task._replace(found=task.found._replace(labels=pathlib.Path("/none"))))

    def test_a_path_from_another_folder_is_that_of_another_file(self):
        item, folders = Item("a", 1, 2, "utf-8"), [str(self.folder / it) for it in ("one", "other")]
        self.addCleanup(os.chdir, os.getcwd())
        for folder in folders:
            os.mkdir(folder)
            os.chdir(folder)
            with State(str(self.folder / "state"), self.task()) as state:
                self.assertIsNone(state.unchanged_row(item))
                state.keep([item], [Checked("a", 1, "utf-8", encoding=folder)])
        for path in "a", f"{folders[1]}/a":
            with State(str(self.folder / "state"), self.task()) as state:
                self.assertEqual(state.unchanged_row(item._replace(path=path)), Checked(path, 1, "utf-8", encoding=folders[1]))


class Windows(unittest.TestCase):
    def test_rows_that_are_known_go_out_at_once(self):
        asked = []

        def lists():
            for number in range(10_000):
                asked.append(number)
                yield []

        class Nobody(window.Crew):
            start = concurrent.futures.ThreadPoolExecutor

        rows_of = window.Window(None, Nobody(), 4).rows(lists())
        self.assertEqual(next(rows_of), [])
        self.assertLess(len(asked), 50)
        rows_of.close()

    def test_lists_go_out_ahead_of_one_that_is_slow(self):
        ends = threading.Event()

        class Rows:
            def rows(self, items):
                if items == [0]:
                    ends.wait(LIMIT)
                elif items == [99]:
                    ends.set()
                return [Checked(str(it), 0, "") for it in items]

        class Threads(window.Crew):
            start = concurrent.futures.ThreadPoolExecutor

        found = list(window.Window(Rows(), Threads(), 4).rows([it] for it in range(100)))
        self.assertEqual([it.path for rows_of in found for it in rows_of], list(map(str, range(100))))


class Reading(Folder):
    def test_a_file_that_changes_while_it_is_read(self):
        path = self.file("a", b"before")
        status = os.fstat

        def changes(number):
            found = status(number)
            with open(path, "ab") as file:
                file.write(b" and more")
            return found

        with mock.patch.object(rows.os, "fstat", changes), self.assertRaisesRegex(Refusal, "^it changed while it was read$"):
            rows.read(Item(path, 6, 0, "utf-8"))

    def test_what_took_a_file_s_place(self):
        os.mkfifo(self.folder / "a")
        with self.assertRaisesRegex(Refusal, "^no file any more$"):
            rows.read(Item(str(self.folder / "a"), 6, 0, "utf-8"))
        with self.assertRaisesRegex(Refusal, "^no file any more$"):
            rows.read(Item("/dev/zero", 6, 0, "utf-8"))


if __name__ == "__main__":
    unittest.main()
