"""Files that are replaced completely or not at all."""

import contextlib
import errno
import gzip
import os
import shutil
import tempfile
from typing import Any, Iterator, Union

#: The path of a file.
Path = Union[str, bytes, "os.PathLike[str]", "os.PathLike[bytes]"]


def shown(path: Path) -> str:
    """Returns a path as a text."""
    return os.fsdecode(path)


@contextlib.contextmanager
def opened(path: Path) -> Iterator[Any]:
    """Returns the lines of a file, which may be compressed by gzip."""
    with open(path, "rb") as file:
        is_compressed = file.read(2) == b"\x1f\x8b"
        file.seek(0)
        lines: Any = gzip.open(file) if is_compressed else file
        with contextlib.closing(lines):
            yield lines


def write(path: Path, content: bytes) -> None:
    """Replaces what a file has, or the file that it links to. Raises OSError with the path, and leaves no other
    file."""
    if not shown(path):
        raise FileNotFoundError(errno.ENOENT, os.strerror(errno.ENOENT), "")
    target = os.path.realpath(shown(path))
    folder = os.path.dirname(target)
    try:
        # a folder of its own gives each writer another file, which has the permissions of a new one
        with tempfile.TemporaryDirectory(prefix=".vers-", dir=folder) as room:
            unfinished = os.path.join(room, "unfinished")
            with open(unfinished, "wb") as file:
                with contextlib.suppress(FileNotFoundError):
                    shutil.copymode(target, unfinished)
                file.write(content)
                file.flush()
                os.fsync(file.fileno())
            os.replace(unfinished, target)
        _sync(folder)
    except OSError as fault:
        raise OSError(fault.errno, fault.strerror, shown(path)) from None


def _sync(folder: str) -> None:
    """Writes the names of a folder to the disk, if the system opens folders."""
    if os.name == "posix":
        opened = os.open(folder, os.O_RDONLY)
        try:
            os.fsync(opened)
        finally:
            os.close(opened)
