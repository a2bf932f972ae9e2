"""Files, and those of tables (docs/FORMATS.md)."""
import hashlib
import os
import re
import struct
from typing import Optional

# The names of what is in a folder, with the bytes of each plain file.
Files = dict[str, Optional[bytes]]


def content(path: str) -> bytes:
    """Returns the bytes of a file."""
    with open(path, "rb") as it:
        return it.read()


def put(path: str, text: bytes) -> None:
    """Writes a file."""
    with open(path, "wb") as it:
        it.write(text)


def files_of(folder: str) -> Files:
    """Returns the files of a folder with their bytes; what is no plain file has none."""
    paths = ((name, os.path.join(folder, name)) for name in sorted(os.listdir(folder)))
    return {name: content(path) if os.path.isfile(path) and not os.path.islink(path) else None for name, path in paths}


def wrong_file(folder: str, right: Files, before: Optional[Files] = None) -> Optional[str]:
    """Returns why a folder holds something else than right files, files that it held before, and files that are being written, if it does."""
    for name, found in files_of(folder).items():
        if name.endswith(".gmt") and found not in (right.get(name), (before or {}).get(name, right.get(name))):
            return f"{name} is no right file"
        if not re.fullmatch(r"tier-\d+\.(gmt|tmp)", name):
            return f"{name} is in the folder"
    return None


def digested(front: bytes) -> bytes:
    """Returns a file's text up to its digest, with the digest."""
    return front + hashlib.sha256(front).digest()


def as_version_1(file: bytes) -> bytes:
    """Returns the version 1 text of a tier file of version 2."""
    (size,) = struct.unpack_from("<Q", file, 32)
    numbers = struct.unpack_from(f"<{size}I", file, 40)
    old = [(number >> 20) << 12 | number & 0xFFFFF for number in numbers]
    return digested(b"GMTIER01" + file[8:40] + struct.pack(f"<{size}H", *old))
