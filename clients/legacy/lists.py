"""The access lists of files, which say in addition to the mode who may read and write them."""
import contextlib
import os
from typing import Union

# The extended attribute that is a file's list; without it the file would be open to others than with it.
ACCESS_LIST = "system.posix_acl_access"


def inherit_nothing(file: Union[int, str, bytes]) -> None:
    """Removes the access list that a new file has where its folder has one for new files. It gives nobody anything before the
    file gets a mode, which then lets in those whom the list names."""
    with contextlib.suppress(OSError):  # (there is none)
        os.removexattr(file, ACCESS_LIST)
