"""Builds the package for pip (PEP 517 and PEP 660), by Python's standard library alone.

Files stand in a fixed order and have one date, so that the same sources give the same wheel."""
import base64
import hashlib
import io
import os
import re
import tarfile
import zipfile
from typing import Collection, Dict, List, Optional

HERE = os.path.dirname(os.path.abspath(__file__))
NAME = "gamesman"
DATE = (1980, 1, 1, 0, 0, 0)
ANY = "py3-none-any"


def read(path: str) -> bytes:
    """Returns the bytes of a file beside this one."""
    with open(os.path.join(HERE, path), "rb") as file:
        return file.read()


def version() -> str:
    """Returns the version that the package names."""
    found = re.search(r'(?m)^__version__ = "([^"]+)"$', read(f"{NAME}/__init__.py").decode())
    assert found
    return found[1]


def metadata() -> bytes:
    """Returns what is to be known of the package."""
    head = [
        "Metadata-Version: 2.1",
        f"Name: {NAME}",
        f"Version: {version()}",
        "Summary: Positions, moves and tables of gamesman, which solves board games completely",
        "License: MIT OR Apache-2.0",
        "Classifier: Typing :: Typed",
        "Requires-Python: >=3.8",
        "Description-Content-Type: text/markdown",
    ]
    return ("\n".join(head) + "\n\n").encode() + read("README.md")


def sources() -> List[str]:
    """Returns the paths of the package's files, in a fixed order."""
    return sorted(f"{NAME}/{name}" for name in os.listdir(os.path.join(HERE, NAME)) if name.endswith(".py") or name == "py.typed")


def record_of(files: Dict[str, bytes], own: str) -> bytes:
    """Returns the list of a wheel's files with their sums."""
    lines = []
    for path, text in files.items():
        digest = base64.urlsafe_b64encode(hashlib.sha256(text).digest()).rstrip(b"=").decode()
        lines.append(f"{path},sha256={digest},{len(text)}\n")
    return "".join([*lines, f"{own},,\n"]).encode()


def wheel(files: Dict[str, bytes], tag: str = ANY, programs: Collection[str] = ()) -> bytes:
    """Returns a wheel with these files for the machines of a tag, in the order of their names. With programs it is for one kind of machine, and is packed."""
    about = f"{NAME}-{version()}.dist-info"
    head = f"Wheel-Version: 1.0\nGenerator: {NAME}\nRoot-Is-Purelib: {'false' if programs else 'true'}\nTag: {tag}\n"
    files = dict(sorted({**files, f"{about}/METADATA": metadata(), f"{about}/WHEEL": head.encode()}.items()))
    files[f"{about}/RECORD"] = record_of(files, f"{about}/RECORD")
    made = io.BytesIO()
    with zipfile.ZipFile(made, "w", zipfile.ZIP_DEFLATED if programs else zipfile.ZIP_STORED, compresslevel=9) as archive:
        for path, text in files.items():
            entry = zipfile.ZipInfo(path, DATE)
            entry.create_system = 3
            entry.external_attr = (0o100755 if path in programs else 0o100644) << 16
            entry.compress_type = archive.compression
            archive.writestr(entry, text)
    return made.getvalue()


def wheel_name(tag: str = ANY) -> str:
    """Returns the name of a wheel."""
    return f"{NAME}-{version()}-{tag}.whl"


def write_wheel(folder: str, files: Dict[str, bytes]) -> str:
    """Writes a wheel with these files, and returns its name."""
    with open(os.path.join(folder, wheel_name()), "wb") as file:
        file.write(wheel(files))
    return wheel_name()


def build_wheel(wheel_directory: str, config_settings: Optional[object] = None, metadata_directory: Optional[str] = None) -> str:
    """Writes the wheel of the package (PEP 517)."""
    return write_wheel(wheel_directory, {path: read(path) for path in sources()})


def build_editable(wheel_directory: str, config_settings: Optional[object] = None, metadata_directory: Optional[str] = None) -> str:
    """Writes a wheel that leads to the sources here (PEP 660)."""
    return write_wheel(wheel_directory, {f"{NAME}.pth": f"{HERE}\n".encode()})


def build_sdist(sdist_directory: str, config_settings: Optional[object] = None) -> str:
    """Writes the sources as an archive (PEP 517)."""
    top = f"{NAME}-{version()}"
    files = {path: read(path) for path in ["README.md", "backend.py", "pyproject.toml", *sources()]}
    files["PKG-INFO"] = metadata()
    name = f"{top}.tar.gz"
    with tarfile.open(os.path.join(sdist_directory, name), "w:gz", format=tarfile.PAX_FORMAT) as archive:
        for path, text in sorted(files.items()):
            entry = tarfile.TarInfo(f"{top}/{path}")
            entry.size = len(text)
            archive.addfile(entry, io.BytesIO(text))
    return name
