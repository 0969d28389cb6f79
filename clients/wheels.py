"""Builds what `pip install` takes of this folder: the module `gate`, the packages `gate_documents` and `legacy`, and the command
`legacy`.

pip builds in an environment of its own, for which it fetches a build tool, even if setuptools is installed already.
So that no network is needed, pyproject.toml names this module as the tool (PEP 517 and, for `pip install -e`, PEP 660)."""
import ast
import base64
import hashlib
import io
import json
import pathlib
import tarfile
import zipfile
from typing import Any, Dict, Iterator, List, Optional, Tuple

HERE = pathlib.Path(__file__).resolve().parent
# The earliest date that a zip file can have, for all files: equal sources make equal wheels.
DATE = (1980, 1, 1, 0, 0, 0)
# The packages that are installed besides the module `gate`.
PACKAGES = ("gate_documents", "legacy")
WHEEL = "Wheel-Version: 1.0\nGenerator: wheels.py\nRoot-Is-Purelib: true\nTag: py3-none-any\n"

# A file's path in an archive, and its bytes.
File = Tuple[str, bytes]
Settings = Optional[Dict[str, Any]]


def project() -> Dict[str, Dict[str, Any]]:
    """The tables of pyproject.toml."""
    tables: Dict[str, Dict[str, Any]] = {}
    for line in (HERE / "pyproject.toml").read_text(encoding="utf-8").splitlines():
        if line.startswith("["):
            table = tables.setdefault(line.strip("[]"), {})
        elif line and not line.startswith("#"):
            key, value = line.split(" = ", 1)
            table[key.strip('"')] = json.loads(value)
    return tables


def version() -> str:
    """`__version__` of the package, without importing it."""
    for node in ast.parse((HERE / "legacy" / "__init__.py").read_text(encoding="utf-8")).body:
        if isinstance(node, ast.Assign) and isinstance(node.targets[0], ast.Name) and node.targets[0].id == "__version__":
            found = ast.literal_eval(node.value)
            assert isinstance(found, str)
            return found
    raise ValueError("legacy/__init__.py has no __version__")


def stem() -> str:
    """What the names of archives begin with."""
    return f"{project()['project']['name']}-{version()}"


def metadata() -> bytes:
    """The file METADATA (Core metadata specifications, 2.1)."""
    tables = project()
    about = tables["project"]
    lines = [
        "Metadata-Version: 2.1", f"Name: {about['name']}", f"Version: {version()}", f"Summary: {about['description']}",
        f"Requires-Python: {about['requires-python']}"]
    for extra, names in tables["project.optional-dependencies"].items():
        lines += [f"Provides-Extra: {extra}", *(f'Requires-Dist: {name}; extra == "{extra}"' for name in names)]
    return ("\n".join(lines) + "\n").encode()


def sources() -> List[File]:
    """The modules that are installed."""
    inner = (path for name in PACKAGES for form in ("py.typed", "*.py") for path in sorted((HERE / name).rglob(form)))
    paths = [HERE / "gate.py", *inner]
    return [(path.relative_to(HERE).as_posix(), path.read_bytes()) for path in paths]


def wheel_files(files: List[File]) -> Iterator[File]:
    """All files of a wheel: these, what describes them, and a list of them with their sums."""
    folder = f"{stem()}.dist-info"
    scripts = "".join(f"{name} = {place}\n" for name, place in project()["project.scripts"].items())
    about = {
        f"{folder}/METADATA": metadata(), f"{folder}/WHEEL": WHEEL.encode(),
        f"{folder}/entry_points.txt": f"[console_scripts]\n{scripts}".encode(),
    }
    record = []
    for name, content in [*files, *about.items()]:
        digest = base64.urlsafe_b64encode(hashlib.sha256(content).digest()).rstrip(b"=").decode()
        record.append(f"{name},sha256={digest},{len(content)}\n")
        yield name, content
    yield f"{folder}/RECORD", "".join([*record, f"{folder}/RECORD,,\n"]).encode()


def write_wheel(directory: str, files: List[File]) -> str:
    """Writes a wheel of these files into the folder, and returns its name."""
    name = f"{stem()}-py3-none-any.whl"
    with zipfile.ZipFile(pathlib.Path(directory, name), "w", zipfile.ZIP_DEFLATED) as wheel:
        for path, content in wheel_files(files):
            entry = zipfile.ZipInfo(path, DATE)
            entry.compress_type, entry.external_attr = zipfile.ZIP_DEFLATED, 0o644 << 16
            wheel.writestr(entry, content)
    return name


def build_wheel(directory: str, settings: Settings = None, metadata_directory: Optional[str] = None) -> str:
    """A wheel of the modules."""
    return write_wheel(directory, sources())


def build_editable(directory: str, settings: Settings = None, metadata_directory: Optional[str] = None) -> str:
    """A wheel that names this folder, so that the modules are taken from here."""
    return write_wheel(directory, [(f"{project()['project']['name']}.pth", f"{HERE}\n".encode())])


def build_sdist(directory: str, settings: Settings = None) -> str:
    """An archive of the sources, from which a wheel can be built."""
    own = [(name, (HERE / name).read_bytes()) for name in ("pyproject.toml", "wheels.py")]
    name = f"{stem()}.tar.gz"
    with tarfile.open(pathlib.Path(directory, name), "w:gz", format=tarfile.PAX_FORMAT) as archive:
        for path, content in [("PKG-INFO", metadata()), *own, *sources()]:
            entry = tarfile.TarInfo(f"{stem()}/{path}")
            entry.size = len(content)
            archive.addfile(entry, io.BytesIO(content))
    return name
