"""Whole runs of the program: in one call, or in budgets with a progress bar and a checkpoint on disk."""

from __future__ import annotations

import hashlib
import os
import pathlib
import re
import tempfile
import time
from dataclasses import dataclass
from typing import List, Optional, Tuple

from .choices import tree_count
from .errors import CheckpointMismatch, ProgramFailed
from .files import MOST_CHECKPOINT, MOST_SUM, check_folder, read_front, write_whole
from .problem import Space
from .program import PAUSED, Ended, Path, Sum, call, find, sum_of
from .progress import Progress, bar

ROUND = 65_536
"""So many trees the program sums in a round; budgets are multiples of it."""

FIRST_BUDGET = 4 * ROUND
"""The budget of the first call of a sum in budgets; the further ones follow from how long it took."""

MOST_BUDGET = 2**40
"""The greatest budget that the program takes."""

SECONDS = 2.0
"""About so long a call lasts if a sum is run in budgets: the bar moves so often, and so much is lost at most if the
computer goes off."""

FEW = 20_000
"""A sum of at most so many trees is left to one worker if no number of workers is given."""


@dataclass(frozen=True)
class Runner:
    """How sums are run.

    `program` is the program, found as `program.find` says. `workers` share a sum (1 to 64); if none is given, one for
    each processor, and one alone for a few trees. With `progress` a bar is shown. `folder` is a folder on disk, made if
    it is not there, in which the checkpoint of each sum that is under way is kept, and the text of each that is done: a
    computation that was broken off, and is asked again with the same folder, goes on where its last checkpoint stands.
    The files stay until you remove them. If they cannot be read or written, that is an OSError.
    """

    program: Optional[Path] = None
    workers: Optional[int] = None
    progress: Progress = False
    folder: Optional[Path] = None

    def sum(self, text: str, trees: Optional[int] = None) -> Sum:
        """Sums the problem of a text, which has so many trees (None if that is not known). The errors are those of
        `program.sum_of` and of `ended`."""
        if self.folder is None:
            return self.sum_with(text, trees, None)
        folder = pathlib.Path(self.folder)
        folder.mkdir(parents=True, exist_ok=True)
        stem = folder / hashlib.sha256(text.encode()).hexdigest()[:24]
        done, checkpoint = stem.with_suffix(".sum"), stem.with_suffix(".checkpoint")
        if done.exists():
            return sum_of(Ended(0, read_front(done, MOST_SUM), ""))
        found = self.sum_with(text, trees, checkpoint)
        write_whole(done, found.text.encode())
        checkpoint.unlink(missing_ok=True)
        return found

    def sum_with(self, text: str, trees: Optional[int], checkpoint: Optional[Path]) -> Sum:
        """The same, with a checkpoint file of this name, from which it goes on if the file is there. At the end the
        file is left with the last checkpoint."""
        return sum_of(self.ended(text.encode(), trees, checkpoint))

    def ended(self, source: bytes, trees: Optional[int], checkpoint: Optional[Path]) -> Ended:
        """How the last call of a sum ended: with any status of the program but that of a pause.

        Before the first call: ProgramNotFound; FileNotFoundError if the folder of the checkpoint is not there, and
        another OSError if the file cannot be read or none be made there; CheckpointMismatch if the file is that of
        another problem, or none. A checkpoint that is too long or was changed is the program's to refuse (status 8).
        """
        program = find(self.program)
        words = ["--workers", str(self._workers(trees))]
        with tempfile.TemporaryDirectory(prefix="locus-") as scratch:
            problem = pathlib.Path(scratch) / "problem.toml"
            problem.write_bytes(source)
            if checkpoint is None and self.progress is False:
                return call(program, ["run", str(problem), *words])
            kept = pathlib.Path(checkpoint) if checkpoint is not None else pathlib.Path(scratch) / "checkpoint"
            first = ["run", str(problem)]
            check_folder(kept)
            if kept.exists():
                if source_of(read_front(kept, MOST_CHECKPOINT)) != source:
                    raise CheckpointMismatch(f"{kept} is the checkpoint of another problem, or none")
                first = resume(kept)
            return self._in_budgets(program, first, words, kept, trees)

    def _in_budgets(
        self, program: str, first: List[str], words: List[str], kept: pathlib.Path, trees: Optional[int]
    ) -> Ended:
        shown = bar(self.progress, trees)
        budget = FIRST_BUDGET
        try:
            if first[0] == "resume":
                shown.to(next_of(read_front(kept, MOST_CHECKPOINT)))
            while True:
                begun = time.monotonic()
                ended = call(program, [*first, *words, "--budget", str(budget)])
                if ended.status != PAUSED:
                    if trees is not None and ended.status in (0, 1):
                        shown.to(trees)
                    return ended
                write_whole(kept, ended.out)
                shown.to(next_of(ended.out))
                first = resume(kept)
                budget = next_budget(budget, time.monotonic() - begun)
        finally:
            shown.close()

    def _workers(self, trees: Optional[int]) -> int:
        if self.workers is not None:
            return self.workers
        return 1 if trees is not None and trees <= FEW else min(64, _processors())


def resume(kept: pathlib.Path) -> List[str]:
    """The arguments that go on from a checkpoint. The program takes no name that begins with a dash."""
    return ["resume", str(kept.absolute())]


def next_budget(budget: int, seconds: float) -> int:
    """The next call's budget, after one that lasted so long: from one round to `MOST_BUDGET`, in whole rounds, and at
    most four times the one before."""
    wanted = budget * min(4.0, max(0.25, SECONDS / max(seconds, 0.01)))
    return min(MOST_BUDGET, max(1, round(wanted / ROUND)) * ROUND)


def source_of(checkpoint: bytes) -> Optional[bytes]:
    """The problem text inside a checkpoint; None if it is no checkpoint. The digest is not looked at."""
    parts = _parts(checkpoint)
    return parts[0] if parts else None


def next_of(checkpoint: bytes) -> int:
    """The number of the next tree of a checkpoint, which is how many are summed. ProgramFailed if it is none."""
    parts = _parts(checkpoint)
    if parts is None:
        raise ProgramFailed(PAUSED, "what it printed is no checkpoint")
    return parts[1]


def _parts(checkpoint: bytes) -> Optional[Tuple[bytes, int]]:
    head = re.match(rb"locus-checkpoint \d+\nproblem (\d{1,7})\n", checkpoint)
    if not head:
        return None
    end = head.end() + int(head[1])
    tail = re.compile(rb"\nnext (\d+)\n").match(checkpoint, end)
    return (checkpoint[head.end() : end], int(tail[1])) if tail else None


def trees_of_text(source: bytes) -> Optional[int]:
    """How many trees the problem of a text has. None if this Python does not read the text, or the space in it is none
    within the limits: then the bar has no end, and the program tells what is wrong."""
    try:
        import tomllib

        table = tomllib.loads(source.decode())
        space = Space(table["rank"], table["degree"], table.get("marks", 0))
        return tree_count(space.rank, space.degree, space.marks)
    except (ImportError, ValueError, KeyError, TypeError, RecursionError):
        return None


def _processors() -> int:
    try:
        return len(os.sched_getaffinity(0))
    except AttributeError:
        return os.cpu_count() or 1
