"""Names and inodes of the mount, and what programs have open.

The loop that serves the kernel alone changes this, and never across an await; so names need no lock. Code that continues after
an await looks again at what may have changed meanwhile. An inode has a lock, which is held while its text is saved or its
name changes; who needs two takes the one with the lower number first."""
import contextlib
import os
import stat
import time
from typing import TYPE_CHECKING, AsyncIterator, Callable, Dict, FrozenSet, List, Mapping, NamedTuple, Optional, Set, Tuple

import trio

from legacy.mount import numbers
from legacy.mount.below import Signature
from legacy.mount.copies import Copy
from legacy.mount.interrupts import waits
from legacy.mount.refusals import program_of
from legacy.mount.snapshots import LARGEST, Snapshot
from legacy.mount.written import LONG, Written, in_thread_if
from legacy.rules import Rule

if TYPE_CHECKING:
    from legacy.mount.unread import Unread

ROOT = numbers.ROOT
# The seconds for which the kernel needn't ask again what a file is.
EXACT = 1.0
# The seconds for which a file that was made at a free name, or written since, is treated as a temporary one.
TEMPORARY = 60.0
# How often a text is read by a thread, where others write it meanwhile, before the loop does it.
TRIES = 4
# The seconds after which what programs write is saved though they continue: if it adds to what is below, and otherwise.
SOON, LATER = 5.0, 30.0
# The seconds after which the rule of a file that nobody has open is looked up again.
AGAIN = 0.5


Owner = Tuple[int, int, int]


def owner_of(found: os.stat_result) -> Owner:
    """The owner of a file, and whether it makes a program one of more rights."""
    return found.st_uid, found.st_gid, found.st_mode & (stat.S_ISUID | stat.S_ISGID)


class Made(NamedTuple):
    """The bytes for a text, how they were made, and the content's number."""

    raw: bytes
    how: str
    number: int


class Session:
    """What programs make of a file's text, from when the first of them opens it for writing until the last closes it."""

    def __init__(self, below: Snapshot):
        # What a new text is compared with, and the file below as it should be.
        self.base, self.below = below, below
        self.data: Optional[Written] = None
        # Counts writes; which of them is saved, after which the text was refused for what it says, and after which a program
        # closed the file last.
        self.version, self.saved, self.refused, self.flushed = 0, 0, -1, -1
        self.modified: Optional[int] = None
        # As what it was refused.
        self.fault = 0
        # Where other users are let in, whose the file was that it was opened as.
        self.owner: Optional[Owner] = None
        # Whether a program appends: what was refused of that is in no text that it writes later.
        self.appends = False
        # The bytes that were made of it, after which write and for how much of it, until they are written.
        self.made: Optional[Tuple[Tuple[int, int], Made]] = None
        # When what is written is saved though nobody closes the file, and until when a text that isn't the one below with more
        # after it may grow.
        self.due = self.patient = 0.0

    @property
    def dirty(self) -> bool:
        """Whether something was written that isn't saved."""
        return self.version != self.saved

    def text(self) -> Written:
        """The text as it was written."""
        if self.data is None:
            self.data = Written(self.below.utf8)
        return self.data

    async def prepare(self) -> None:
        """Has the text of the file below at hand, so that `text` needn't make it, where that takes long."""
        if self.data is None and len(self.below.utf8) > LONG:
            made = await trio.to_thread.run_sync(Written, self.below.utf8)
            # (another write may have come meanwhile)
            self.data = self.data or made

    async def copy(self) -> Tuple[int, bytes]:
        """The text as a whole, and after which write that is; again if there is one meanwhile, but not for ever."""
        for _ in range(TRIES):
            version, text = self.version, self.text()
            content: bytes = await in_thread_if(text.size > LONG, text.copy)
            if version == self.version:
                return version, content
        return self.version, self.text().copy()

    async def grows(self) -> bool:
        """Whether it is the text below, or what there is of it, with more after it."""
        there = self.below.utf8
        found: bytes = await in_thread_if(len(there) > LONG, self.text().read, len(there))
        return found == there

    def write(self, offset: int, content: bytes) -> None:
        """Puts bytes of UTF-8 somewhere."""
        self.text().write(offset, content)
        self.count_write()

    def program(self, thread: int) -> int:
        """The program whose refused texts are no more than what it saves later, or none."""
        return 0 if self.appends else program_of(thread)

    def truncate(self, size: int) -> None:
        """Cuts the text, or fills it with zeros."""
        if self.data is None:
            self.data = Written(self.below.utf8[:size])
        self.data.truncate(size)
        self.count_write()

    def count_write(self) -> None:
        """Counts a write."""
        if not self.dirty:
            now = time.monotonic()
            self.due, self.patient = max(self.due, now + SOON), now + LATER
        self.version += 1
        self.modified = time.time_ns()

    def whole(self) -> bool:
        """Whether this may be a text that is meant. A shell cuts a file, closes a copy of its handle, and only then starts
        programs that write, each of which closes one. So what is empty, or ends inside a character, waits for the last."""
        text = self.text()
        if not text.size:
            return not self.base.raw
        return not partial_character(text.read(4, max(0, text.size - 4)))


def partial_character(utf8: bytes) -> bytes:
    """The beginning of a character that a text in UTF-8 ends in."""
    for count in range(1, min(4, len(utf8) + 1)):
        lead = utf8[-count]
        if lead >= 0xC0:
            return utf8[-count:] if count < (2 if lead < 0xE0 else 3 if lead < 0xF0 else 4) else b""
        if lead < 0x80:
            break
    return b""


class Node:
    """An inode, and of a file with a rule what is open of it."""

    # All its names, if it has several.
    names: FrozenSet[bytes] = frozenset()
    # Its name before someone put another file in its place below.
    was: Optional[bytes] = None
    lookups = 0
    # Whether it was made in this mount by a program that still has it open. Until when it is treated as a temporary
    # file, since it was made at a free name.
    born, temporary = False, 0.0
    # What those who have it open read, and what those who write made of it.
    shown: Optional[Snapshot] = None
    session: Optional[Session] = None
    # The inode below, and what it was last.
    below: Optional[int] = None
    found: Optional[os.stat_result] = None
    # The only content of which the kernel may have pages, and the one whose size it was given, since when.
    sent: Optional[Signature] = None
    told: Optional[Signature] = None
    since = 0.0
    # How long the kernel takes it for.
    size = 0
    refusal = ""
    # Its owner when it was opened last, if other users are let in.
    owner: Optional[Owner] = None
    # What was deleted at its path right before it was made, until it has a text.
    copy: Optional[Copy] = None
    _lock: Optional[trio.Lock] = None

    def __init__(self, ino: int, path: Optional[bytes], rule: Optional[Rule]):
        self.ino, self.path, self.rule = ino, path, rule
        # When its rule was looked up.
        self.ruled = time.monotonic()
        self.handles: Set["Handle"] = set()

    def drop_copy(self) -> None:
        """What was deleted isn't needed any more."""
        copy, self.copy = self.copy, None
        if copy:
            copy.close()

    @property
    def lock(self) -> trio.Lock:
        """Held while its text is saved, or its name changes."""
        if self._lock is None:
            self._lock = trio.Lock()
        return self._lock

    @property
    def name(self) -> Optional[bytes]:
        """Where to look for it: where someone put another file in its place, that is what it is once nobody has it open."""
        return self.was if self.path is None and not self.handles else self.path

    @property
    def saved_at(self) -> Optional[bytes]:
        """Where its text is saved: where someone put another file in its place, over that one if it has the same bytes."""
        return self.was if self.path is None else self.path

    def tell(self, content: Optional[Signature]) -> None:
        """The kernel is given the size of a content."""
        if content != self.told:
            self.since = time.monotonic() if self.told else 0.0
            self.told = content

    def is_misled(self, content: Optional[Signature]) -> bool:
        """Whether the kernel may still have another size. (Of two answers on the way it keeps that which it saw first.)"""
        return content != self.told or time.monotonic() - self.since < 2 * EXACT

    def sends_anew(self) -> None:
        """What pages the kernel may have aren't those of a content."""
        self.sent = None
        for it in self.handles:
            it.fresh = None

    def writing(self) -> Session:
        """What programs make of its text, or a new one, which is the inode's only once nothing can fail any more."""
        if self.session:
            return self.session
        assert self.shown
        return Session(self.shown)

    @property
    def written(self) -> Optional[Written]:
        """The text as programs wrote it, where they wrote."""
        return self.session.data if self.session else None

    def mark_made(self, anew: bool) -> None:
        """It was made in this mount, perhaps again at a name that something had before."""
        self.born, self.temporary = True, 0.0 if anew else time.monotonic() + TEMPORARY

    def mark_closed(self) -> None:
        """The program that wrote it has closed it."""
        self.born = False
        if self.is_temporary:
            self.temporary = time.monotonic() + TEMPORARY

    @property
    def is_temporary(self) -> bool:
        """Whether it is like temporary files: made in this mount recently, at a free name."""
        return time.monotonic() < self.temporary

    @property
    def writers(self) -> bool:
        """Whether a program has it open for writing."""
        return any(it.writes for it in self.handles)

    @property
    def writer(self) -> int:
        """The thread of a program that has it open for writing, or 0."""
        return next((it.thread for it in self.handles if it.writes), 0)


class Handle:
    """A file that a program has open: by a descriptor of the file below, or of a file with a rule by its text."""

    def __init__(self, node: Node, descriptor: Optional[int], flags: int, thread: int):
        self.node, self.descriptor, self.thread = node, descriptor, thread
        self.writes, self.appends = flags & os.O_ACCMODE != os.O_RDONLY, bool(flags & os.O_APPEND)
        # What it has locked below.
        self.lock: Optional[Tuple[int, int]] = None
        # Where it may not be read, what appends to it.
        self.unread: Optional["Unread"] = None
        # Where the last write ended, and the beginning of a character that it ended in.
        self.end, self.begun = 0, b""
        # The content at whose opening the kernel was asked to drop what it has of the file.
        self.fresh: Optional[Signature] = None

    def writes_at_end(self, offset: int, count: int) -> bool:
        """Whether so many bytes go to the file's end, wherever that is: the kernel says where it was when it asked last, and
        the file may have been changed below. (What is mapped goes to its place, by any handle.)"""
        known, self.node.size = self.node.size, max(self.node.size, offset + count)
        return self.appends and offset >= known

    def note_request(self) -> None:
        """A request of this handle has come. So the kernel is through with its opening, and has no older pages."""
        if self.fresh:
            self.node.sent, self.fresh = self.fresh, None


Form = Callable[[bytes, os.stat_result], Optional[Rule]]
Look = Callable[[bytes], Optional[os.stat_result]]


class Tree:
    """The inodes by number and by path. `form` says what rule a path has, and `look` what is there now, if that is known at
    once."""

    def __init__(self, form: Form, look: Look, device: int):
        self._form, self._look = form, look
        self.numbers = numbers.Numbers(device)
        self.nodes: Dict[int, Node] = {}
        self.paths: Dict[bytes, Node] = {}
        # What was renamed keeps its form.
        self._kept: Dict[bytes, Optional[Rule]] = {}
        # What the kernel has forgotten of temporary files: their inodes below, and until when they are such.
        self._temporary: Dict[bytes, Tuple[int, float]] = {}
        top = Node(ROOT, b"", None)
        top.lookups = 1
        self.nodes[ROOT] = self.paths[b""] = top

    def form(self, path: bytes, found: os.stat_result) -> Optional[Rule]:
        """The rule of what is at a path."""
        if not stat.S_ISREG(found.st_mode):
            return None
        return self._kept[path] if path in self._kept else self._form(path, found)

    def keep_form(self, path: bytes, rule: Optional[Rule]) -> None:
        """Keeps a form for what was renamed to a path."""
        self._kept[path] = rule

    def kept_form(self, path: bytes) -> Optional[Rule]:
        """The form that is kept for what is at a path."""
        return self._kept.get(path)

    def takes_form(self, node: Node, path: bytes, rule: Rule) -> None:
        """A file that was renamed to a path has the form of that. Programs that have it open continue with what it was."""
        if node.handles:
            self.drop_name(node, path, path)
        else:
            node.rule, node.sent, node.told, node.ruled = rule, None, None, time.monotonic()

    def keeps_form(self, path: bytes) -> bool:
        """Whether a form is kept for what is at a path."""
        return path in self._kept

    def drop_form(self, path: bytes) -> None:
        """What comes to a path next has the form that its name has."""
        self._kept.pop(path, None)

    def at(self, path: bytes, found: os.stat_result) -> Node:
        """The inode of what is at a path."""
        node = self.paths.get(path)
        if node and node.handles and is_replaced(node, found):
            # Programs that have the old file open continue with it.
            self.drop_name(node, path, path)
            node = None
        elif node and (node.names or has_names(found)) and not self._is_right(node, path, found):
            self.drop_name(node, None, path)
            node = None
        if node is None:
            node = self._new(path, found)
            inode, until = self._temporary.pop(path, (None, 0.0))
            if inode == found.st_ino:
                node.temporary = until
        elif not node.handles and not self._keeps_rule(node, path, found) and time.monotonic() - node.ruled > AGAIN:
            rule, node.ruled = self.form(path, found), time.monotonic()
            if rule != node.rule:
                node.rule, node.sent = rule, None
        return node

    def _keeps_rule(self, node: Node, path: bytes, found: os.stat_result) -> bool:
        """Whether a file has the rule that it had for certain."""
        rule = node.rule
        return rule is not None and rule.is_constant and found.st_size <= LARGEST and stat.S_ISREG(found.st_mode) and path not in self._kept

    def _is_right(self, node: Node, path: bytes, found: os.stat_result) -> bool:
        """Whether the inode that a name has is that of a file with several names: no other inode is, and the rule is the same."""
        rule = self.form(path, found)
        other = self.nodes.get(self.numbers.of(found, rule)) if has_names(found) else None
        if other and other is not node:
            return not self._is_other_name(other, found, rule)
        return not node.names or node.below in (None, found.st_ino) and (rule and rule.label) == (node.rule and node.rule.label)

    def _new(self, path: bytes, found: os.stat_result) -> Node:
        """The inode of what is at a path that had none: the one of another name of the file, or a new one."""
        rule = self.form(path, found)
        number = self.numbers.of(found, rule)
        other = self.nodes.get(number)
        if other and has_names(found) and self._is_other_name(other, found, rule):
            self.link(other, path)
            return other
        if other:
            number = self.numbers.another()
        node = self.nodes[number] = self.paths[path] = Node(number, path, rule)
        return node

    def _is_other_name(self, other: Node, found: os.stat_result, rule: Optional[Rule]) -> bool:
        """Whether a file is the one of an inode. The name that is known has to lead to it now: another file may have the number of one
        that is gone."""
        if other.path is None or (rule and rule.label) != (other.rule and other.rule.label) or other.below not in (None, found.st_ino):
            return False
        there = self._look(other.path)
        return there is not None and os.path.samestat(there, found)

    def link(self, node: Node, path: bytes) -> None:
        """An inode has another name."""
        before = self.paths.get(path)
        if before and before is not node:
            self.drop_name(before, None, path)
        if node.path is not None:
            node.names = (node.names or frozenset({node.path})) | {path}
        self.paths[path] = node

    def drop_name(self, node: Node, was: Optional[bytes] = None, path: Optional[bytes] = None) -> None:
        """What has no name any more, or another file has it; of one that has several, the one that is `path`."""
        path = node.path if path is None else path
        if path is not None and self.paths.get(path) is node:
            del self.paths[path]
        left = node.names - {path} if path is not None else node.names
        node.names = left if len(left) > 1 else frozenset()
        if not left:
            node.path, node.was = None, was
        elif node.path == path:
            node.path = min(left)

    def move(self, path: bytes, new: bytes, folder: bool = False) -> None:
        """What was at a path, and of a folder what is below it, is now at another."""
        there = self.paths.get(new)
        if there:
            self.drop_name(there, None, new)
        self._kept.pop(new, None)
        for old in below(self.paths, path) if folder else [path] if path in self.paths else []:
            node, name = self.paths.pop(old), new + old[len(path):]
            if node.names:
                node.names = node.names - {old} | {name}
            if node.path == old or not node.names:
                node.path = name
            self.paths[name] = node
        for old in below(self._kept, path) if folder else [path] if path in self._kept else []:
            self._kept[new + old[len(path):]] = self._kept.pop(old)

    def forget(self, ino: int, lookups: int = 0) -> None:
        """The kernel forgets `lookups` lookups of an inode."""
        node = self.nodes.get(ino)
        if node:
            node.lookups -= lookups
            if node.lookups <= 0 and not node.handles and ino != ROOT:
                self._keep_temporary(node)
                del self.nodes[ino]
                for path in node.names or ([] if node.path is None else [node.path]):
                    if self.paths.get(path) is node:
                        del self.paths[path]
                if node.found is not None and not has_names(node.found):
                    self.numbers.keep(node.found.st_dev, node.below or node.found.st_ino, node.rule, ino)

    def _keep_temporary(self, node: Node) -> None:
        """A file that the kernel forgets is a temporary one nevertheless."""
        if node.is_temporary and node.path is not None and node.below is not None:
            self._temporary = {path: it for path, it in self._temporary.items() if it[1] > time.monotonic()}
            self._temporary[node.path] = node.below, node.temporary

    @contextlib.asynccontextmanager
    async def lock(self, *nodes: Optional[Node]) -> AsyncIterator[None]:
        """Holds the locks of some inodes."""
        locks = [it.lock for it in sorted({it.ino: it for it in nodes if it}.values(), key=lambda it: it.ino)]
        async with contextlib.AsyncExitStack() as held:
            for lock in locks:
                await held.enter_async_context(waits.holding(lock))
            yield


def has_names(found: os.stat_result) -> bool:
    """Whether a file has several names."""
    return found.st_nlink > 1 and stat.S_ISREG(found.st_mode)


def is_replaced(node: Node, found: os.stat_result) -> bool:
    """Whether someone replaced the bytes that programs have open. (A file that is made again may have the
    number of the inode that went.)"""
    if node.lock.locked():
        return False  # (the mount itself is at it)
    shown = node.session.below if node.session else node.shown
    if shown is None:
        return node.below is not None and node.below != found.st_ino
    known = shown.signature
    return (known.inode, known.size, known.modified) != (found.st_ino, found.st_size, found.st_mtime_ns)


def below(paths: Mapping[bytes, object], path: bytes) -> List[bytes]:
    """A path, if it is known, and those below it."""
    return [it for it in paths if it == path or it.startswith(path + b"/")]
