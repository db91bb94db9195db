"""The program `locus`: where it is, what it is asked, and what it answers.

Every residue and every fraction that the companion has from here is a line that the program printed.
"""

from __future__ import annotations

import os
import pathlib
import re
import shutil
import subprocess
from dataclasses import dataclass
from fractions import Fraction
from typing import List, Optional, Sequence, Tuple, Union

from .errors import NoInverse, ProgramFailed, ProgramNotFound, Refused
from .fractions_of import Residue

Path = Union[str, "os.PathLike[str]"]
"""The name of a file."""

BUILT = pathlib.Path(__file__).resolve().parent.parent.parent / "crates" / "locus_cli" / "out" / "locus_cli"
"""Where the repository's built program stands, if this package lies in the repository."""

PAUSED = 5
"""The program's status at a pause."""

_ADVICE = {
    "MissingKey": "the key is not there, or is misspelt",
    "WrongDegree": "the degree of each term has to be the dimension (r + 1) d + r - 3 + m; what stands here is the "
    "index of the term, its degree and the dimension",
    "TooManyTrees": "there are more than 2^40 trees: take a smaller degree, or fewer marks",
    "BoundsTooWide": "twice the product of the bounds has to be below the product of the moduli",
    "UnknownKind": "psi classes are read in version 2 alone, and other kinds may be misspelt",
    "WeightCount": "there have to be rank + 1 weights",
}


@dataclass(frozen=True)
class Integral:
    """What the program printed of one integral: its residues, and the fraction within the bounds, or None."""

    residues: Tuple[Residue, ...]
    fraction: Optional[Fraction]


@dataclass(frozen=True)
class Sum:
    """What the program printed at the end of a sum: the text, the number of trees, and each integral."""

    text: str
    trees: int
    integrals: Tuple[Integral, ...]


@dataclass(frozen=True)
class Ended:
    """How one call ended: its status (below 0 if a signal ended it), and what came on the two outputs."""

    status: int
    out: bytes
    told: str


def find(program: Optional[Path] = None) -> str:
    """The program: the one that is given, or that of the environment variable LOCUS, or the one that is built in the
    repository, or `locus` on the PATH; the first that there is. A name without a folder is looked for on the PATH, and
    then here. ProgramNotFound if there is none, or if one that was named is not there."""
    for named, whose in ((program, "the argument"), (os.environ.get("LOCUS"), "the environment variable LOCUS")):
        if named:
            found = shutil.which(os.fspath(named)) or shutil.which(os.path.abspath(named))
            if found is None:
                raise ProgramNotFound(f"{os.fspath(named)}, which {whose} names, is no program")
            return os.path.abspath(found)
    if os.access(BUILT, os.X_OK):
        return str(BUILT)
    on_path = shutil.which("locus")
    if on_path:
        return on_path
    raise ProgramNotFound("no program `locus`: build it with ./build, or name it in the environment variable LOCUS")


def call(program: str, words: Sequence[str]) -> Ended:
    """Calls the program once and waits for its end. ProgramNotFound if it could not be started."""
    try:
        ended = subprocess.run([program, *words], stdin=subprocess.DEVNULL, capture_output=True, check=False)
    except OSError as error:
        raise ProgramNotFound(f"{program} could not be started: {error}") from None
    return Ended(ended.returncode, ended.stdout, ended.stderr.decode(errors="replace"))


def sum_of(ended: Ended) -> Sum:
    """The sum that a call printed at status 0 or 1. Otherwise Refused at status 3, NoInverse at 4, and ProgramFailed at
    each other status, or if what was printed is no whole text of a sum."""
    text = ended.out.decode(errors="replace")
    if ended.status in (0, 1):
        return _read_sum(text, ended)
    if ended.status == 3:
        raise _refused(ended)
    if ended.status == 4:
        found = re.search(r"no inverse\ntree (\d+)\nmodulus (\d+)\n(.*)\n\Z", text)
        if found:
            raise NoInverse(int(found[1]), int(found[2]), found[3])
    raise ProgramFailed(ended.status, ended.told)


def _refused(ended: Ended) -> Exception:
    found = re.match(r"problem refused (\d+) (\S+) ?(.*)\n\Z", ended.told)
    if not found:
        return ProgramFailed(ended.status, ended.told)
    return Refused(int(found[1]), found[2], found[3], _ADVICE.get(found[2], ""))


def _read_sum(text: str, ended: Ended) -> Sum:
    lines = text.splitlines()
    head = re.fullmatch(r"trees (\d+)", lines[0]) if lines else None
    integrals: List[Integral] = []
    residues: List[Residue] = []
    for line in lines[1:] if head else ():
        found = re.fullmatch(r"integral \d+|residue (\d+) (\d+)|fraction (?:(-?\d+)/(\d+)|none)", line)
        if not found:
            raise ProgramFailed(ended.status, f"an unknown line: {line!r}")
        if found[1]:
            residues.append((int(found[1]), int(found[2])))
        elif line.startswith("fraction"):
            fraction = Fraction(int(found[3]), int(found[4])) if found[3] else None
            integrals.append(Integral(tuple(residues), fraction))
            residues = []
    if not head or not integrals or residues:
        raise ProgramFailed(ended.status, f"no whole text of a sum: {text!r}")
    return Sum(text, int(head[1]), tuple(integrals))
