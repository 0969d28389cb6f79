"""A file system that answers whoever only looks, and no change: what is asked of it never ends.

usage: stuck.py MOUNTPOINT

It has a folder `d` and the files `f.bin` and `f.sj`, each with what CONTENT says."""
import errno
import os
import stat
import sys

import pyfuse3
import trio

CONTENT = b"some text\n" * 10
NAMES = {b"f.bin": 2, b"f.sj": 3, b"d": 4}


class Stuck(pyfuse3.Operations):
    """The answers."""

    async def getattr(self, inode, ctx=None):
        found = pyfuse3.EntryAttributes()
        is_folder = inode in (pyfuse3.ROOT_INODE, NAMES[b"d"])
        found.st_ino, found.st_mode = inode, (stat.S_IFDIR | 0o755) if is_folder else (stat.S_IFREG | 0o644)
        found.st_size, found.st_uid, found.st_gid = 0 if is_folder else len(CONTENT), os.getuid(), os.getgid()
        found.st_mtime_ns = found.st_atime_ns = found.st_ctime_ns = 10 ** 18 + 1
        return found

    async def lookup(self, parent_inode, name, ctx=None):
        if parent_inode != pyfuse3.ROOT_INODE or name not in NAMES:
            raise pyfuse3.FUSEError(errno.ENOENT)
        return await self.getattr(NAMES[name])

    async def opendir(self, inode, ctx):
        return inode

    async def readdir(self, fh, start_id, token):
        for number, (name, inode) in enumerate(list(NAMES.items())[start_id:] if fh == pyfuse3.ROOT_INODE else (), start_id + 1):
            if not pyfuse3.readdir_reply(token, name, await self.getattr(inode), number):
                break

    async def statfs(self, ctx):
        found = pyfuse3.StatvfsData()
        found.f_bsize = found.f_frsize = 512
        return found

    async def open(self, inode, flags, ctx):
        return pyfuse3.FileInfo(fh=inode)

    async def read(self, fh, off, size):
        return CONTENT[off : off + size]

    async def getxattr(self, inode, name, ctx):
        raise pyfuse3.FUSEError(errno.ENODATA)

    async def listxattr(self, inode, ctx):
        return []

    async def release(self, fh):
        pass

    async def flush(self, fh):
        pass


async def never(*_):
    """What a change is answered."""
    await trio.sleep_forever()

for change in ("create", "fsync", "fsyncdir", "link", "mkdir", "mknod", "removexattr", "rename", "rmdir", "setattr", "setxattr", "symlink", "unlink",
               "write"):
    setattr(Stuck, change, never)


if __name__ == "__main__":
    pyfuse3.init(Stuck(), sys.argv[1], {"fsname=stuck", "default_permissions"})
    try:
        trio.run(pyfuse3.main)
    finally:
        pyfuse3.close(unmount=True)
