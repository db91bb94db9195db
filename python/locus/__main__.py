"""Runs a problem file with a progress bar, and prints and ends as the program does.

    python -m locus FILE [--workers N] [--checkpoint NAME] [--quiet] [--program NAME]
"""

from __future__ import annotations

import argparse
import contextlib
import os
import pathlib
import sys
from typing import List, Optional, TextIO, Union

from .errors import LocusError
from .files import MOST_SOURCE, read_front
from .runs import Runner, trees_of_text

NOT_READ = 6
"""The status of a file that was not read, as that of the program."""

WRITE_FAULT = 7
"""The status of an output that takes no more, as that of the program."""

NOT_RUN = 70
"""The status if the program could not be run, or the checkpoint not be kept."""

BROKEN_OFF = 130
"""The status if it was broken off by hand."""


def main(words: Optional[List[str]] = None) -> int:
    """Runs one problem, by the arguments of a command line (those of this process if none are given).

    The status is that of the program. It is 6 too if the file is not read here, 7 if standard output does not take the
    whole text, 70 if the program could not be run or the checkpoint not be kept, and 130 if it is broken off by hand.
    A fault of standard error changes no status.
    """
    given = _read(words)
    try:
        source = read_front(given.file, MOST_SOURCE)
    except OSError as error:
        return _told(NOT_READ, f"locus: {error}\n")
    runner = Runner(program=given.program, workers=given.workers, progress=not given.quiet)
    try:
        ended = runner.ended(source, trees_of_text(source), given.checkpoint)
    except (LocusError, OSError) as error:
        return _told(NOT_RUN, f"locus: {error}\n")
    except KeyboardInterrupt:
        return _told(BROKEN_OFF, "locus: broken off\n")
    if ended.out and not _is_written(sys.stdout, ended.out):
        return _told(WRITE_FAULT, "write fault\n")
    if given.checkpoint and ended.status in (0, 1):
        with contextlib.suppress(OSError):
            pathlib.Path(given.checkpoint).unlink()
    return _told(ended.status, ended.told)


def _told(status: int, text: str) -> int:
    """A status, with its text on standard error as far as that takes it."""
    _is_written(sys.stderr, text)
    return status


def _is_written(stream: Optional[TextIO], text: Union[str, bytes]) -> bool:
    """Whether a stream took a whole text. After a fault it leads nowhere, so that Python finds nothing left to write at
    its end. A stream that was closed before Python began is None."""
    if stream is None:
        return False
    try:
        stream.flush()
        if isinstance(text, bytes):
            stream.buffer.write(text)
        else:
            stream.write(text)
        stream.flush()
    except (OSError, ValueError):
        _lead_nowhere(stream)
        return False
    return True


def _lead_nowhere(stream: TextIO) -> None:
    with contextlib.suppress(OSError, ValueError):
        handle = stream.fileno()
        nowhere = os.open(os.devnull, os.O_WRONLY)
        os.dup2(nowhere, handle)
        os.close(nowhere)


def _read(words: Optional[List[str]]) -> argparse.Namespace:
    reader = argparse.ArgumentParser(
        prog="python -m locus", description="Runs a problem file with a progress bar. The status is that of the program."
    )
    reader.add_argument("file", help="the problem file")
    reader.add_argument("--workers", type=int, help="how many workers share the sum (1 to 64)")
    reader.add_argument(
        "--checkpoint",
        metavar="NAME",
        help="a file for the checkpoint: if it is there the sum goes on from it, and it is removed once the sum is done",
    )
    reader.add_argument("--quiet", action="store_true", help="no progress bar")
    reader.add_argument("--program", metavar="NAME", help="the program locus")
    return reader.parse_args(words)


if __name__ == "__main__":
    sys.exit(main())
