"""The mount's answers to what programs do with names: rename, delete, link and make them."""
import contextlib
import errno
import os
import stat
from typing import Any, AsyncIterator, Optional, Tuple

import pyfuse3

from legacy.mount import indexes
from legacy.mount.ahead import SMALL
from legacy.mount.answers import Answers, FUSEError, changes, guard, lasts
from legacy.mount.below import Place
from legacy.mount.interrupts import waits
from legacy.mount.rights import SEARCH, WRITE
from legacy.mount.saves import Where
from legacy.mount.tree import Node
from legacy.rules import Rule
from legacy.saving import Refused


def label_of(rule: Optional[Rule]) -> Optional[str]:
    """The label of a rule, if there is one."""
    return rule.label if rule else None


def may_change(place: Place) -> bool:
    """Whether the folder of a place may be changed."""
    return os.access(b".", os.W_OK | os.X_OK, dir_fd=place.folder, effective_ids=True)


class Names(Answers):
    """What programs do with names."""

    @guard
    @changes
    @lasts
    async def rename(self, parent: int, name: bytes, new_parent: int, new_name: bytes, flags: int, ctx: Any) -> None:
        def where() -> Tuple[bytes, bytes]:
            return self.view.path(parent, name), self.view.new_path(new_parent, new_name)

        path, new = where()
        found = await self.view.look(path)
        target = await self.view.look_for(new)
        if flags & ~pyfuse3.RENAME_NOREPLACE:
            raise FUSEError(errno.EINVAL)
        if flags and target:
            raise FUSEError(errno.EEXIST)
        if not stat.S_ISREG(found.st_mode):
            await self.rename_folder(where, ctx)
            return
        node, there = self.tree.at(path, found), self.tree.paths.get(new)
        if self.reader.kept and indexes.is_index(new):
            await self.rename_index(node, path, new, ctx)
            return
        async with self.tree.lock(node, there):
            await self.saves.commit_held(node, ctx.pid)
            if there:
                # (what is refused goes with the file that it was written for, and is kept next to that)
                with contextlib.suppress(Refused):
                    await self.saves.commit_held(there, there.writer)
            over = target is not None and stat.S_ISREG(target.st_mode)
            rule = self.tree.form(new, target) if over and target else self.view.form(new, found)
            self.view.takes_changes(rule, new)
            # (what a program writes in order to replace a file may have a name of any rule, or of none)
            keeps = over and self.tree.keeps_form(new)
            known = rule and (label_of(rule) != label_of(node.rule) or self.reader.past.of(new, rule.label))
            if node.is_temporary and (over and node.rule or known):
                await self.check_folders(ctx, *where())
                await self.saves.rename(node, where, rule, over, ctx.pid)
                self.tree.move(*where())
            else:
                async with self.free_later(new):
                    await self.rename_bytes(node, *where(), rule, ctx)
            if keeps:
                self.tree.keep_form(where()[1], rule)

    async def rename_index(self, node: Node, path: bytes, new: bytes, ctx: Any) -> None:
        """What git has written gets the name of a repository's index."""
        assert self.reader.kept
        await self.parts.do(path, self.as_asker, ctx, self.reader.kept.strip, path, new)
        await self.rename_below(path, new, ctx)
        self.tree.move(path, new)
        node.rule, node.sent = self.tree.form(new, await self.view.look(new)), None

    async def rename_folder(self, where: Where, ctx: Any) -> None:
        """A folder, or what isn't a file, gets another name. Files of a folder keep the rules that they have, even if the
        folder's new path would give them others."""
        rules = await self.view.rules_in(where()[0])
        path, new = where()
        await self.rename_below(path, new, ctx)
        self.source.forget_folders()
        self.tree.move(path, new, folder=True)
        now = await self.parts.ask(new, lambda: {name: label_of(self.view.rule_at(os.path.join(new, name))) for name in rules})
        for name, rule in rules.items():
            if now[name] != rule.label:
                self.tree.keep_form(os.path.join(new, name), rule)

    async def rename_below(self, path: bytes, new: bytes, ctx: Any) -> os.stat_result:
        """Gives what is at a path below another one, and returns what it was right before."""
        def rename() -> os.stat_result:
            with self.source.here(path) as came, self.source.here(new) as goes:
                before = came.stat()
                with self.asker(ctx):
                    for place in came, goes:
                        self.check(ctx, b"/proc/self/fd/%d" % place.folder, WRITE | SEARCH)
                    os.rename(came.name, goes.name, src_dir_fd=came.folder, dst_dir_fd=goes.folder)
                return before

        return await self.parts.ask(new if self.parts.of(path) is None else path, rename)

    @contextlib.asynccontextmanager
    async def free_later(self, path: bytes) -> AsyncIterator[None]:
        """Has a thread free the bytes of what is at a path, if these are many, once it has lost its name: that takes long."""
        found = await self.view.look_for(path)
        held = await self.parts.open(path, self.hold, path) if found and found.st_size > SMALL else None
        try:
            yield
        finally:
            if held is not None:
                await waits.job(os.close, held)

    def hold(self, path: bytes) -> int:
        """A descriptor of what is at a path, for which it is neither read nor written."""
        with self.source.here(path) as place:
            return place.open(os.O_PATH)

    async def check_folders(self, ctx: Any, *paths: bytes) -> None:
        """Raises a fault if the program may not change a folder that one of the paths lies in."""
        for path in paths:
            if not await self.change(ctx, path, may_change):
                raise FUSEError(errno.EACCES)

    async def rename_bytes(self, node: Node, path: bytes, new: bytes, rule: Optional[Rule], ctx: Any) -> None:
        """A file gets another name, and keeps its bytes; and its form, where the new name gives it none."""
        if node.rule:
            await self.reader.leaves(path, node.rule.label)
        if rule:
            await self.reader.leaves(new, rule.label)
        before = await self.rename_below(path, new, ctx)
        self.tree.move(path, new)
        if rule and label_of(rule) != label_of(node.rule):
            self.tree.takes_form(node, new, rule)
        elif node.rule and not rule:
            self.tree.keep_form(new, node.rule)
        else:
            node.rule = rule
        await self.view.same_bytes(node, before)

    @guard
    @changes
    async def unlink(self, parent: int, name: bytes, ctx: Any) -> None:
        path = self.view.path(parent, name)
        # (a save that is under way would make it again)
        async with self.tree.lock(self.tree.paths.get(path)):
            path = self.view.path(parent, name)
            node = self.tree.paths.get(path)
            rule = node.rule if node else self.tree.form(path, await self.view.look(path))
            if rule:
                await self.reader.leaves(path, rule.label)
            async with self.free_later(path):
                await self.change(ctx, path, lambda place: os.unlink(place.name, dir_fd=place.folder))
                self.tree.drop_form(path)
                if rule:
                    self.saves.note_deletion(path)
                if node:
                    self.tree.drop_name(node, None, path)

    @guard
    @changes
    async def link(self, ino: int, parent: int, name: bytes, ctx: Any) -> Any:
        await self.link_file(self.tree.nodes[ino], self.view.new_path(parent, name), ctx)
        return await self.view.entry(parent, name)

    @lasts
    async def link_file(self, node: Node, path: bytes, ctx: Any) -> None:
        """Gives a file another name."""
        found = await self.view.look_at(node)
        await self.view.look_for(path)
        rule = self.tree.form(path, found)
        if (node.rule and node.rule.label) != (rule and rule.label):
            raise FUSEError(errno.EXDEV)
        await self.saves.commit(node, ctx.pid)
        before = await self.view.look_at(node)

        def link_below() -> None:
            with self.source.here(path) as place, self.view.hold(node) as held, self.asker(ctx):
                self.check(ctx, b"/proc/self/fd/%d" % place.folder, WRITE | SEARCH)
                os.link(held, place.name, dst_dir_fd=place.folder, follow_symlinks=True)

        await self.parts.ask(path, link_below)
        await self.view.same_bytes(node, before)
        self.tree.link(node, path)

    @guard
    @changes
    async def symlink(self, parent: int, name: bytes, target: bytes, ctx: Any) -> Any:
        path = self.view.new_path(parent, name)
        await self.change(ctx, path, lambda place: os.symlink(target, place.name, dir_fd=place.folder))
        await self.parts.ask(path, self.view.give_to_caller, path, ctx)
        return await self.view.entry(parent, name)

    @guard
    @changes
    async def mkdir(self, parent: int, name: bytes, mode: int, ctx: Any) -> Any:
        path = self.view.new_path(parent, name)
        await self.change(ctx, path, lambda place: os.mkdir(place.name, mode & ~ctx.umask, dir_fd=place.folder))
        await self.parts.ask(path, self.view.give_to_caller, path, ctx)
        return await self.view.entry(parent, name)

    @guard
    @changes
    async def mknod(self, parent: int, name: bytes, mode: int, rdev: int, ctx: Any) -> Any:
        path = self.view.new_path(parent, name)
        await self.change(ctx, path, lambda place: os.mknod(place.name, mode & ~ctx.umask, rdev, dir_fd=place.folder))
        await self.parts.ask(path, self.view.give_to_caller, path, ctx)
        return await self.view.entry(parent, name)

    @guard
    @changes
    async def rmdir(self, parent: int, name: bytes, ctx: Any) -> None:
        path = self.view.path(parent, name)
        await self.change(ctx, path, lambda place: os.rmdir(place.name, dir_fd=place.folder))
        self.source.forget_folders()
        node = self.tree.paths.get(path)
        if node:
            self.tree.drop_name(node)
