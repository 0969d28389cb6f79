"""The program as it was built, of whose growths one is refused, by its number. It has all its memory from the C library, by
`malloc` and `realloc`. At the first instruction of each the processor stops it, as it does for a debugger (ptrace(2)), and a
call that is to be refused returns a null pointer at once. So nothing in the program is other than it is, and which growth is
refused is not left to chance.

It is stopped too where it reads standard input, until there is something to read: either it runs or its test does."""
import ctypes
import fcntl
import functools
import os
import signal
import subprocess
import tempfile
import unittest

from program import PROGRAM, SMALL, UNPROVED, with_first_stack

# What is asked of ptrace, by sys/ptrace.h.
TRACEME, PEEKDATA, POKEUSER, GETREGS, SETREGS, SYSCALL, SETOPTIONS = 0, 2, 6, 12, 13, 24, 0x4200
# Stops at calls of the system have a signal of their own; and the program ends where its test does.
OPTIONS = 1 | 1 << 20
AT_CALL = signal.SIGTRAP | 0x80
# Where the debug registers are in the struct user of sys/user.h; the one that says which of the others stop the program, and
# what it says where the first two do.
DEBUG, SWITCH, BOTH = 848, 7, 0b101
# The numbers of the call that reads and of the one that has a file brought to the disk, one that no call has, and what is in
# the place of a call's result before there is one, -ENOSYS.
READ, SYNC, NO_CALL, NO_RESULT = 0, 75, (1 << 64) - 1, (1 << 64) - 38
# What waitpid(2) takes for a process that is traced.
WALL = 1 << 30
# How many bytes the program reads at a time, at most; and for how many of its replies there is room, by F_SETPIPE_SZ, since
# nothing is read from it while it runs.
PART, ROOM, SET_ROOM = 4096, 1 << 18, 1031

LIBRARY = "libc.so.6"
C = ctypes.CDLL(LIBRARY, use_errno=True)
C.ptrace.restype = ctypes.c_long
C.ptrace.argtypes = [ctypes.c_long, ctypes.c_long, ctypes.c_void_p, ctypes.c_void_p]


class Registers(ctypes.Structure):
    """The struct user_regs_struct of sys/user.h."""

    NAMES = "r15 r14 r13 r12 rbp rbx r11 r10 r9 r8 rax rcx rdx rsi rdi orig_rax rip cs eflags rsp ss fs_base gs_base ds es fs gs"
    _fields_ = [(name, ctypes.c_ulonglong) for name in NAMES.split()]


def ptrace(request, pid, address=0, data=0):
    ctypes.set_errno(0)
    result = C.ptrace(request, pid, address, data)
    fault = ctypes.get_errno()
    if result == -1 and fault:
        raise OSError(fault, f"ptrace: {os.strerror(fault)}")
    return result


def traced():
    """What a process does before it becomes the program, so that it is stopped from outside, and on the stack that it has at
    its start."""
    with_first_stack()
    ptrace(TRACEME, 0)


def mapped(pid, path):
    """From where to where a process has a file in its memory; None where it has none."""
    with open(f"/proc/{pid}/maps", encoding="utf-8") as maps:
        ranges = [line.split()[0].split("-") for line in maps if line.rstrip("\n").endswith(path)]
    return range(int(ranges[0][0], 16), int(ranges[-1][1], 16)) if ranges else None


@functools.lru_cache(None)
def offset(name):
    """How far behind the start of the C library one of its functions is."""
    return ctypes.cast(getattr(C, name), ctypes.c_void_p).value - mapped(os.getpid(), LIBRARY).start


class Growths:
    """The program, started anew, and the growths that it asked for: of each how many bytes. One of them is refused, if it comes
    to that: `refused` is its number, from 1 on."""

    def __init__(self, *words, stdin=subprocess.PIPE, path=PROGRAM):
        streams = {"stdin": stdin, "stdout": subprocess.PIPE, "stderr": subprocess.PIPE}
        self.path = os.path.realpath(path)
        self.program = subprocess.Popen([path, *(words or SMALL)], preexec_fn=traced, **streams)
        self.pid, self.registers, self.status = self.program.pid, Registers(), None
        self.seen, self.refused = [], None
        try:
            self.begin()
        except OSError:
            self.end()
            raise

    def begin(self):
        """Lets the program go on to where it has the C library, and says where that is to stop it."""
        output = self.program.stdout.fileno()
        os.set_blocking(output, False)
        fcntl.fcntl(output, SET_ROOM, ROOM)
        self.wait()
        ptrace(SETOPTIONS, self.pid, 0, OPTIONS)
        while not mapped(self.pid, LIBRARY):
            self.go_on()
        malloc, self.realloc = (mapped(self.pid, LIBRARY).start + offset(name) for name in ("malloc", "realloc"))
        ptrace(POKEUSER, self.pid, DEBUG, malloc)
        ptrace(POKEUSER, self.pid, DEBUG + 8, self.realloc)
        self.own = mapped(self.pid, self.path)

    def __enter__(self):
        return self

    def __exit__(self, *_):
        self.end()

    def end(self):
        self.program.kill()
        while self.status is None:
            self.wait()
        for stream in filter(None, (self.program.stdin, self.program.stdout, self.program.stderr)):
            stream.close()

    def wait(self):
        """Waits until the program is stopped, and returns by which signal; 0 where it ended."""
        _, status = os.waitpid(self.pid, WALL)
        if os.WIFSTOPPED(status):
            return os.WSTOPSIG(status)
        self.status = self.program.returncode = os.WEXITSTATUS(status) if os.WIFEXITED(status) else -os.WTERMSIG(status)
        return 0

    def go_on(self, delivered=0):
        """Lets the program go on to where it is stopped next."""
        ptrace(SYSCALL, self.pid, 0, delivered)
        return self.wait()

    def count(self, refused):
        """From here on growths are counted, and this one is refused, 0 being none; with None they aren't counted."""
        self.seen, self.refused = [], refused
        ptrace(POKEUSER, self.pid, DEBUG + 8 * SWITCH, 0 if refused is None else BOTH)

    def run(self):
        """Lets the program go on to where it reads standard input, and returns whether it does; if not, it ended."""
        stopped = self.go_on()
        while stopped:
            ptrace(GETREGS, self.pid, 0, ctypes.addressof(self.registers))
            if stopped == AT_CALL:
                now = self.registers
                if (now.orig_rax, now.rax, now.rdi) == (READ, NO_RESULT, 0):
                    return True
                self.called()
            elif stopped == signal.SIGTRAP:
                self.growth()
            stopped = self.go_on(0 if stopped in (AT_CALL, signal.SIGTRAP) else stopped)
        return False

    def called(self):
        """The program calls the system, or a call of its has returned."""

    def growth(self):
        """The program asks for memory: if itself, and not the C library, that is counted, and refused if it is its turn."""
        now = self.registers
        behind = ptrace(PEEKDATA, self.pid, now.rsp)
        if behind not in self.own:
            return
        self.seen.append(now.rsi if now.rip == self.realloc else now.rdi)
        if len(self.seen) == self.refused:
            now.rax, now.rip, now.rsp = 0, behind, now.rsp + 8
            ptrace(SETREGS, self.pid, 0, ctypes.addressof(now))

    def answer(self, *parts, refused=None):
        """What the program, where it reads, replies to bytes that are sent part by part, and the growths that it asked for
        meanwhile, of which this one was refused."""
        self.count(refused)
        for part in parts:
            for at in range(0, len(part), PART):
                os.write(self.program.stdin.fileno(), part[at : at + PART])
                if not self.run():
                    raise AssertionError(f"the program ended with {self.status}: {self.program.stderr.read()}")
        return (self.program.stdout.read() or b"").decode(), self.seen


class FailingDisk(Growths):
    """The program, of whose calls that have a file brought to the disk one fails: `failing` is its number, from 1 on."""

    def __init__(self, failing, *words, stdin):
        self.left = failing
        super().__init__(*words, stdin=stdin)

    def called(self):
        now = self.registers
        if (now.orig_rax, now.rax) != (SYNC, NO_RESULT):
            return
        self.left -= 1
        if self.left == 0:
            # (the system finds no call of this number, and so does nothing and returns -ENOSYS)
            now.orig_rax = NO_CALL
            ptrace(SETREGS, self.pid, 0, ctypes.addressof(now))


def run_to_end(program):
    """Lets a program run until it has ended: its status and its two texts, bytes that are no text as surrogates."""
    while program.run():
        pass
    output, error = program.program.stdout.read() or b"", program.program.stderr.read()
    return program.status, output.decode(errors="surrogateescape"), error.decode()


def with_failing_disk(failing, words, lines):
    """How the program ends that is started by words over lines, where this one of its calls fails that have a file brought to
    the disk."""
    with tempfile.TemporaryFile() as file:
        file.write(lines)
        file.seek(0)
        with FailingDisk(failing, *words, stdin=file) as program:
            return run_to_end(program)


def played(words, lines, refused, path=PROGRAM):
    """How the program, or another, ends that is started by words over lines: its status and its two texts; and the growths that it
    asked for, of which this one was refused."""
    with tempfile.TemporaryFile() as file:
        file.write(lines)
        file.seek(0)
        with Growths(*words, stdin=file, path=path) as program:
            program.count(refused)
            return run_to_end(program), program.seen


def on_one_processor():
    """Has this process, and what it starts, run on the processor that it is on: the program and its test wait for one another, and
    to wake another processor takes longer than all else. Returns what takes it back."""
    before = os.sched_getaffinity(0)
    os.sched_setaffinity(0, {C.sched_getcpu()})
    return functools.partial(os.sched_setaffinity, 0, before)


def why_not():
    """Why the program, where there is one, can't be stopped here; nothing where it can."""
    if UNPROVED:
        return "the unproved program runs under a loader of its own"
    try:
        if os.access(PROGRAM, os.X_OK):
            with Growths() as program:
                program.count(0)
                program.run()
                return "" if program.seen else "the processor stops it at none of its growths"
    except (OSError, subprocess.SubprocessError) as fault:
        return str(fault)
    return ""


def stopped(tests):
    """Tests that stop the program. They fail on a machine that doesn't let them, and are skipped there only if the variable
    GATE_UNTRACED is set: a run without them says so by its status. The unproved program is always without them."""
    reason = f"the program can't be stopped here by its test: {WHY_NOT}"

    def fail(_):
        raise AssertionError(f"{reason}; GATE_UNTRACED=1 skips these tests")

    if not WHY_NOT or UNPROVED or os.environ.get("GATE_UNTRACED"):
        return unittest.skipIf(WHY_NOT, reason)(tests)
    tests.setUpClass = classmethod(fail)
    return tests


WHY_NOT = why_not()
