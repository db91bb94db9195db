"""Files that are read in bounds and written whole.

A file that is too long is told by the program, in its own words. So a reader gives one byte more than the longest text,
as the program reads it, and no more of a file of any length.
"""

from __future__ import annotations

import os
import pathlib
import tempfile

from .program import Path

MOST_SOURCE = 1_048_576
"""The greatest number of bytes of a problem text (docs/FORMATS.md)."""

MOST_CHECKPOINT = 1_052_672
"""The greatest number of bytes of a checkpoint (docs/FORMATS.md)."""

MOST_SUM = 65_536
"""More bytes than the text of any sum has: at most 8 integrals with 10 lines each."""


def read_front(path: Path, most: int) -> bytes:
    """The bytes of a file, or the first `most` + 1 of a longer one. OSError if it is not read."""
    with open(path, "rb") as file:
        return file.read(most + 1)


def write_whole(path: pathlib.Path, text: bytes) -> None:
    """Writes a file under another name and then renames it, so that the name always has a whole text. OSError if that
    fails; the file is then as it was."""
    handle, name = tempfile.mkstemp(prefix=path.name + ".", dir=path.parent)
    try:
        with os.fdopen(handle, "wb") as file:
            file.write(text)
            file.flush()
            os.fsync(file.fileno())
        os.replace(name, path)
    except BaseException:
        pathlib.Path(name).unlink(missing_ok=True)
        raise


def check_folder(path: pathlib.Path) -> None:
    """Sees before a long sum that a file of this name can be written: FileNotFoundError if its folder is not there, and
    PermissionError if no file may be made in it."""
    folder = path.absolute().parent
    if not folder.is_dir():
        raise FileNotFoundError(f"the folder of the checkpoint is not there: {folder}")
    if not os.access(folder, os.W_OK | os.X_OK):
        raise PermissionError(f"no file may be made in the folder of the checkpoint: {folder}")
