"""What the mount shows: paths, inodes and what they are. A file with a rule is its text in UTF-8, whose size is
exact and found out when it is wanted."""
import contextlib
import errno
import functools
import logging
import os
import stat
from typing import Any, Callable, Dict, Iterator, NamedTuple, Optional, Set, Tuple

import pyfuse3
import trio

from legacy.mount import repositories
from legacy.mount.below import OURS, PLUGINS, Source, signature
from legacy.mount.parts import PATIENCE
from legacy.mount.reading import CHARSET_UTF_8, Reader
from legacy.mount.refusals import printable
from legacy.mount.snapshots import LARGEST
from legacy.mount.tree import EXACT, Node, Tree, has_names, is_replaced
from legacy.mount.written import LONG
from legacy.rules import Rule, Rules
from legacy.saving import Refused

log = logging.getLogger("legacy.mount")
FUSEError = pyfuse3.FUSEError

# How many files' rules are looked up in one go.
SOME = 200
# The most files of parts whose rules are remembered.
MOST_KNOWN = 1 << 16
HIDDEN = frozenset({b".git", b".hg", b".svn"})


class Options(NamedTuple):
    """What the command's options say of the view."""

    read_only: bool = False
    large_as_bytes: bool = False
    show_git: bool = False
    editorconfig: bool = False
    others: bool = False


# What editors obey in a file of this name is what the mount shows.
EDITORCONFIG, AS_SHOWN = b".editorconfig", Rule(CHARSET_UTF_8, "charset is shown as utf-8")


def rights(found: os.stat_result) -> Tuple[int, int, int]:
    """What the kernel goes by as it lets a user do something."""
    return found.st_mode, found.st_uid, found.st_gid


class View:
    """The tree as programs see it."""

    def __init__(self, source: Source, rules: Rules, reader: Reader, options: Options):
        self.source, self.reader, self.parts, self.options = source, reader, reader.parts, options
        self._rules = rules
        if options.show_git:
            reader.kept = repositories.Kept(source, lambda path: rules.rule_of(path) is not None)
        # The rules of files in parts that may not answer, as they were when they were last looked at.
        self._known: Dict[bytes, Optional[Rule]] = {}
        self.tree = Tree(self.form, self.look_at_once, source.stat(b"").st_dev)
        # The threads whose open was refused because another file is there now.
        self._stale: Set[int] = set()

    def form(self, path: bytes, found: os.stat_result) -> Optional[Rule]:
        """The rule of a file."""
        return None if found.st_size > LARGEST and self.options.large_as_bytes else self.rule_at(path)

    def rule_at(self, path: bytes) -> Optional[Rule]:
        """The rule that a name gives."""
        if self.options.show_git and repositories.is_inside(path):
            return repositories.rule_of(path)
        if self.options.editorconfig and os.path.basename(path) == EDITORCONFIG:
            return AS_SHOWN
        return self._known[path] if path in self._known else self._rules.rule_of(path)

    async def look(self, path: bytes, patience: float = PATIENCE) -> os.stat_result:
        """What is at a path. If it lies in a part that may not answer, the same thread looks up its rule."""
        part = self.parts.of(path)
        if part is None:
            self.forget_rule(path)
            return self.stat(path)
        if len(self._known) >= MOST_KNOWN:
            self._known.clear()
        found, self._known[path] = await self.parts.by_thread(part, self._with_rule, path, patience=patience)
        if found is None:
            raise FileNotFoundError(errno.ENOENT, os.strerror(errno.ENOENT), path)
        return found

    def forget_rule(self, path: bytes) -> None:
        """What is at a path lies in no part that may not answer."""
        if self._known:
            self._known.pop(path, None)

    async def look_for(self, path: bytes) -> Optional[os.stat_result]:
        """What is at a path, if anything is."""
        with contextlib.suppress(FileNotFoundError):
            return await self.look(path)
        return None

    def _with_rule(self, path: bytes) -> Tuple[Optional[os.stat_result], Optional[Rule]]:
        return self.at(path), self._rules.rule_of(path)

    def stats(self, folder: bytes) -> Callable[[bytes], os.stat_result]:
        """What looks at entries of a folder by their names, for calls that come right now."""
        if self.options.show_git:
            return lambda name: self.stat(os.path.join(folder, name))
        return functools.partial(os.stat, dir_fd=self.source.at(os.path.join(folder, b".")).folder, follow_symlinks=False)

    def stat(self, path: bytes) -> os.stat_result:
        # (most paths have no such part)
        if self.options.show_git and repositories.FOLDER in path and repositories.is_inside(path):
            return repositories.look(self.source, path)
        return self.source.stat(path)

    async def rules_in(self, path: bytes) -> Dict[bytes, Rule]:
        """The rules that the files in a folder have now, by their paths from there."""
        found: Dict[bytes, Rule] = {}
        if self.parts.of(path) is not None:
            given = await self.parts.ask(path, lambda: {it: self._rules.rule_of(os.path.join(path, it)) for it in self.source.files(path)})
        else:
            given = dict.fromkeys(await trio.to_thread.run_sync(self.source.files, path))
        for number, name in enumerate(given):
            if not number % SOME:
                await trio.lowlevel.checkpoint()
            inside = os.path.join(path, name)
            rule = self.tree.kept_form(inside) if self.tree.keeps_form(inside) else given[name] or self.rule_at(inside)
            # (what a repository keeps has its rule by where it is)
            if rule and rule not in repositories.RULES:
                found[name] = rule
        return found

    def takes_changes(self, rule: Optional[Rule], path: Optional[bytes]) -> None:
        """Raises a fault if what is at a path can't be changed through the mount."""
        if self.options.read_only:
            raise FUSEError(errno.EROFS)
        if rule in (AS_SHOWN, *repositories.RULES):
            log.warning("%s: isn't printable as it is, and can be changed in the source alone", printable(path))
            raise FUSEError(errno.EACCES)

    def look_writable(self, path: bytes) -> None:
        """Raises a fault if the file below can't be written. (It is opened only to say why, since to whoever watches the tree
        below a file that was open for writing has changed.)"""
        with self.source.here(path) as place:
            if not os.access(place.name, os.W_OK, dir_fd=place.folder, effective_ids=True, follow_symlinks=False):
                os.close(place.open(os.O_WRONLY | os.O_APPEND))

    # Paths.

    def is_hidden(self, name: bytes) -> bool:
        """Whether nobody sees a name: that of a file which is being written, or of a folder in which programs would store UTF-8."""
        return bool(OURS.fullmatch(name) or PLUGINS.fullmatch(name)) or name in HIDDEN and not self.options.show_git

    def path(self, ino: int, name: bytes) -> bytes:
        """The path of a name in a folder."""
        folder = self.tree.nodes[ino].path
        if folder is None or self.is_hidden(name):
            raise FUSEError(errno.ENOENT)
        return folder + b"/" + name if folder else name

    def new_path(self, ino: int, name: bytes) -> bytes:
        """The path of a name that something is to get."""
        if self.is_hidden(name):
            log.warning("%s: the name is not for files of the mount", printable(name))
            raise FUSEError(errno.EACCES)
        return self.path(ino, name)

    def path_of(self, node: Node) -> bytes:
        """Where an inode is below."""
        if node.path is None:
            raise FUSEError(errno.ESTALE)
        return node.path

    @contextlib.contextmanager
    def hold(self, node: Node) -> Iterator[bytes]:
        """A path to what an inode is below, which nothing else can replace, in any thread."""
        with self.source.here(self.path_of(node)) as place, place.hold() as path:
            self.check_rights(node, os.stat(path))
            yield path

    def check_rights(self, node: Node, found: os.stat_result) -> None:
        """Raises a fault if other users are let in, and the owner or mode below isn't what the kernel was told, by which it lets
        them in. Then it asks again."""
        if self.options.others and node.found and rights(node.found) != rights(found):
            raise FUSEError(errno.ESTALE)

    # What files are.

    async def attributes(self, node: Node, found: Optional[os.stat_result] = None, lazily: bool = False) -> Any:
        """What a file is. `lazily`: where the size of its text isn't known, that of its bytes, which the kernel doesn't
        keep."""
        found = found or await self.look_at(node)
        self.note(node, found)
        size, modified, timeout = found.st_size, found.st_mtime_ns, EXACT
        if node.rule and stat.S_ISREG(found.st_mode):
            size, modified, timeout = await self.text_size(node, node.rule, found, lazily)
        return self.fill(pyfuse3.EntryAttributes(), node, found, size, modified, timeout)

    def list_attributes(self, it: Any, node: Node, found: os.stat_result, age: float) -> None:
        """Fills what a file in a list is, lazily. It was found out some seconds ago."""
        self.note(node, found)
        rule = node.rule
        if rule and stat.S_ISREG(found.st_mode):
            size, modified, timeout = self.open_size(node, found) or self.known_size(node, rule, found)
            self.fill(it, node, found, size, modified, timeout)
        else:
            self.fill(it, node, found, found.st_size, found.st_mtime_ns, EXACT)
        if age:
            it.attr_timeout, it.entry_timeout = max(0.0, it.attr_timeout - age), it.entry_timeout - age

    def note(self, node: Node, found: os.stat_result) -> None:
        """Notes what is below for an inode."""
        if not node.handles:
            node.below = found.st_ino
            if (node.ino != found.st_ino or self.parts.is_some) and not has_names(found):
                self.tree.numbers.keep(found.st_dev, found.st_ino, node.rule, node.ino)
        node.found = found

    def fill(self, it: Any, node: Node, found: os.stat_result, size: int, modified: int, timeout: float) -> Any:
        """What the kernel is told of an inode."""
        node.size = size
        it.st_ino, it.st_mode, it.st_nlink = node.ino, found.st_mode, found.st_nlink
        it.st_uid, it.st_gid, it.st_rdev = found.st_uid, found.st_gid, found.st_rdev
        it.st_size, it.st_blksize, it.st_blocks = size, 65536, (size + 511) // 512
        it.st_atime_ns, it.st_mtime_ns, it.st_ctime_ns = found.st_atime_ns, modified, found.st_ctime_ns
        it.attr_timeout, it.entry_timeout = timeout, EXACT
        return it

    def look_at_once(self, path: bytes) -> Optional[os.stat_result]:
        """What is at a path, if anything is and it lies in no part that may not answer."""
        return None if self.parts.of(path) is not None else self.at(path)

    async def look_at(self, node: Node) -> os.stat_result:
        """What is below for an inode, or what was there when its name went."""
        return self.look_now(node) if node.name is None else await self.look(node.name)

    def unseen(self, kind: int) -> Any:
        """What is said of a name in a folder of which nothing but its kind is known. The kernel keeps none of it."""
        it = pyfuse3.EntryAttributes()
        it.st_ino, it.st_mode = self.tree.numbers.another(), kind or stat.S_IFREG
        it.attr_timeout = it.entry_timeout = 0.0
        return it

    def look_now(self, node: Node) -> os.stat_result:
        """What is below, or what was there when the name went."""
        if node.name is not None:
            return self.source.stat(node.name)
        held = next((it.descriptor for it in node.handles if it.descriptor is not None), None)
        if held is not None:
            return os.fstat(held)
        if node.found is None or not node.handles:
            raise FUSEError(errno.ESTALE)
        return node.found

    def known_size(self, node: Node, rule: Rule, found: os.stat_result) -> Tuple[int, int, float]:
        """How long the text of a file is that no program has open, when it was changed, and for how many seconds that holds. If the
        length isn't known, it is that of the bytes, for no second."""
        current = signature(found)
        size = self.reader.sizes.get(current, rule.label)
        node.tell(current)
        return (found.st_size, current.modified, 0.0) if size is None else (size, current.modified, EXACT)

    async def text_size(self, node: Node, rule: Rule, found: os.stat_result, lazily: bool) -> Tuple[int, int, float]:
        """How long the text of a file is, when it was last changed, and for how many seconds that is so."""
        open_now = self.open_size(node, found)
        if open_now:
            return open_now
        current = signature(found)
        size = self.reader.sizes.get(current, rule.label)
        if size is None and not lazily and node.name is not None:
            try:
                current, size = await self.reader.size(node.name, rule.label, found)
            except InterruptedError:
                raise
            except OSError:
                pass  # (opening it says why)
            open_now = self.open_size(node, found)
            if open_now:
                return open_now
        node.tell(current)
        return found.st_size if size is None else size, current.modified, 0.0 if size is None and lazily else EXACT

    def open_size(self, node: Node, found: os.stat_result) -> Optional[Tuple[int, int, float]]:
        """The size and times of what programs have open: they continue with what was read, whatever became of the file."""
        session = node.session
        if session and session.data is not None:
            node.tell(session.below.signature)
            return session.data.size, session.modified or found.st_mtime_ns, EXACT
        if node.shown and node.handles:
            node.tell(node.shown.signature)
            return len(node.shown.utf8), node.shown.signature.modified, EXACT
        return None

    async def entry(self, parent: int, name: bytes) -> Any:
        """What a name stands for, which the kernel keeps until it forgets it."""
        if name == b"." or name == b"..":
            here = self.tree.nodes[parent].path or b""
            path = here if name == b"." else os.path.dirname(here)
        else:
            path = self.path(parent, name)
        found = await self.look(path)
        node = self.tree.at(path, found)
        node.lookups += 1
        try:
            # (while a name is looked up, whoever lists its folder waits: so how long a large text is, is found out later)
            return await self.attributes(node, found, lazily=found.st_size > LONG)
        except BaseException:
            self.tree.forget(node.ino, 1)
            raise

    async def read_for(self, node: Node, rule: Rule, writes: bool, thread: int) -> None:
        """Has what is below as what is open of a file. If programs write it, it is theirs."""
        again = thread in self._stale
        self._stale.discard(thread)
        changed = False
        while node.written is None:
            path = node.was if node.path is None and not writes else node.path
            other = path is not None and bool(node.handles) and (
                changed or node.path is None or is_replaced(node, await self.parts.ask(path, self.source.stat, path)))
            if other and again and not writes:
                return  # (it was this when its name was looked up anew)
            if other:
                self.tree.drop_name(node, path)
            if other or path is None:
                self._stale.add(thread)
                raise FUSEError(errno.ESTALE)  # (on which the kernel looks its name up anew, once)
            try:
                snapshot = await self.reader.snapshot(path, rule.label)
            except Refused as refused:
                log.warning("%s: not opened: %s", printable(path), refused)
                raise
            except OSError as fault:
                if fault.errno != errno.ELOOP:
                    raise
                # (a link came in its place, which the kernel follows if that is allowed)
                raise FUSEError(errno.ESTALE) from None
            # (a mode or another name that it was given below changes a file's signature, and no byte)
            changed = bool(node.handles) and node.shown is not None and node.shown.raw != snapshot.raw
            if not changed and path in (node.path, node.was) and node.written is None:
                node.shown, node.below = snapshot, snapshot.signature.inode
                return

    async def catch_up(self, node: Node) -> None:
        """Has what others have written below since a file was opened, so that what a program appends follows it; unless
        programs have written something that isn't saved."""
        session, rule, path = node.session, node.rule, node.path
        if session is None or rule is None or path is None or session.dirty:
            return
        if signature(await self.parts.ask(path, self.source.stat, path)) == session.below.signature:
            return
        snapshot = await self.reader.snapshot(path, rule.label)
        if not session.dirty and node.session is session and node.path == path:
            session.base = session.below = node.shown = snapshot
            session.data = None

    def is_known(self, node: Node, rule: Rule) -> bool:
        """Whether the text of a file, as the kernel just heard of it, needs no decoding."""
        return node.told is not None and self.reader.shelf.has(node.told, rule.label) or rule == AS_SHOWN

    def is_text(self, rule: Rule) -> bool:
        """Whether `gate` decodes the files of a rule."""
        return rule != AS_SHOWN and rule not in repositories.RULES

    def give_to_caller(self, path: bytes, ctx: Any) -> None:
        """Gives what was made to whoever asked for it, where the mount is root's."""
        if os.geteuid() == 0:
            folder = self.source.stat(os.path.dirname(path))
            group = -1 if folder.st_mode & stat.S_ISGID else ctx.gid
            with self.source.here(path) as place:
                os.chown(place.name, ctx.uid, group, dir_fd=place.folder, follow_symlinks=False)

    async def same_bytes(self, node: Node, before: os.stat_result) -> None:
        """What changes a file's mode, times or attributes changes no byte: what is known of it stays known."""
        if node.path is None or not node.rule:
            return
        old, now = signature(before), signature(await self.parts.ask(node.path, self.source.stat, node.path))
        if (old.inode, old.size) != (now.inode, now.size) or not node.rule:
            return
        size = self.reader.sizes.get(old, node.rule.label)
        if size is not None:
            self.reader.sizes.put(now, node.rule.label, size)
        self.reader.shelf.now(old, now, node.rule.label)
        for it in (node.shown, node.session and node.session.below):
            if it and it.signature == old:
                it.signature, it.settled = now, False
        if node.sent == old:
            node.sent = now
        if node.told == old:
            node.told = now

    def at(self, path: bytes) -> Optional[os.stat_result]:
        """What is at a path, if anything is."""
        with contextlib.suppress(FileNotFoundError):
            return self.stat(path)
        return None

    async def own(self, node: Node, name: bytes) -> Optional[str]:
        """What the mount says of a file with a rule. It isn't listed, or programs would copy it into other files."""
        rule, path = node.rule, node.path
        if not rule or path is None:
            return None
        if name == b"refused":
            return node.refusal or await self.too_large(path, rule)
        if name == b"label":
            return rule.label
        if name == b"origin":
            return rule.origin
        if name in (b"encoding", b"bom", b"errors"):
            snapshot = await self.reader.snapshot(path, rule.label)
            assert snapshot.text
            if name == b"errors":
                return str((await self.reader.lengths(snapshot.raw, rule.label)).errors)
            return snapshot.text.encoding if name == b"encoding" else str(snapshot.text.bom)
        return None

    async def too_large(self, path: bytes, rule: Rule) -> Optional[str]:
        """Why a file can't be opened."""
        try:
            await self.reader.snapshot(path, rule.label)
        except Refused as refused:
            return refused.reason
        return None
