"""Options as mount(8) has them, after -o: what a line of fstab or a map of autofs says."""
import argparse
import re
from typing import Any, Iterator, List, Sequence, Tuple, Union

# Options that are the kernel's.
OF_KERNEL = frozenset("dev nodev suid nosuid exec noexec atime noatime sync async dirsync".split())
# Options that mount(8) and the service manager have a use for, and no file system.
PASSED_OVER = frozenset(
    "defaults auto noauto user nouser users nousers owner noowner group nogroup _netdev nofail mand nomand relatime norelatime "
    "strictatime nostrictatime lazytime nolazytime diratime nodiratime loud silent comment".split())
# Options by other names than those of the command line.
ALSO = {"ro": "read-only", "noattributes": "no-attributes", "nosync": "no-sync", "showgit": "show-git"}


def parts(text: str) -> Iterator[Tuple[str, str]]:
    """The options of a text, with their values. A backslash makes a comma a part of a value."""
    for part in re.findall(r"(?:[^,\\]|\\.)+", text):
        name, _, value = re.sub(r"\\(.)", r"\1", part).partition("=")
        yield name, value


class Mounting(argparse.Action):
    """Takes such options as what the options of the command line with the same names say."""

    def __call__(self, parser: argparse.ArgumentParser, namespace: argparse.Namespace,
                 values: Union[str, Sequence[Any], None], option_string: Any = None) -> None:
        for name, value in parts(str(values)):
            if name in OF_KERNEL:
                namespace.kernel = [*namespace.kernel, name]
            elif name == "rw":
                namespace.read_only = False
            elif name not in PASSED_OVER and name[:2].lower() != "x-":
                self._take(parser, namespace, name, value)

    def _take(self, parser: argparse.ArgumentParser, namespace: argparse.Namespace, name: str, value: str) -> None:
        found = parser._option_string_actions.get("--" + ALSO.get(name, name).replace("_", "-"))
        if found is None or isinstance(found, (argparse._HelpAction, Mounting)):
            parser.error(f"-o {name}: there is no such option")
        if found.nargs == 0:
            if value:
                parser.error(f"-o {name}: takes no value")
            found(parser, namespace, [], f"-o {name}")
            return
        if not value:
            parser.error(f"-o {name}: a value is missing")
        try:
            taken: Any = found.type(value) if callable(found.type) else value
        except (argparse.ArgumentTypeError, ValueError) as fault:
            parser.error(f"-o {name}: {fault}")
        if found.choices is not None and taken not in found.choices:
            parser.error(f"-o {name}: {value} is none of {', '.join(map(str, found.choices))}")
        found(parser, namespace, taken, f"-o {name}")


def line(source: str, point: str, options: Sequence[str]) -> List[str]:
    """The command line that mounts what mount(8) says."""
    return ["mount", *(it for text in options for it in ("-o", text)), "--", source, point]
