"""Genus-zero Gromov–Witten numbers from the program `locus`, for scripts, Jupyter and Sage.

    >>> import locus
    >>> locus.gw(rank=4, degree=2, classes="hypersurface(5)")
    Fraction(4876875, 8)

The program is proved; this package is not. It writes problems, runs the program, and puts together what it prints:
every residue comes from the program, and every fraction too unless it took several runs (`Result.printed` tells).

- `gw` gives one number, `compute` several with all that was asked and answered, `table` a table over the degrees.
- `hypersurface`, `incidence`, `mark`, `r1`, `contact`, `psi` and `jet` make classes, which are added, multiplied and
  raised to powers.
- `Runner` says how sums are run: the program, workers, a progress bar, a folder for checkpoints.
"""

from .choices import are_generic, dimension, tree_count
from .classes import Classes, contact, hypersurface, incidence, jet, mark, psi, r1
from .computation import Result, Run, compute, gw
from .errors import (
    CheckpointMismatch,
    Disagreement,
    LocusError,
    NoFraction,
    NoInverse,
    ProgramFailed,
    ProgramNotFound,
    Refused,
)
from .expression import parse
from .program import Integral, Sum, find
from .runs import Runner
from .tables import Table, table, without_covers
from .tangency import tangent

__all__ = [
    "CheckpointMismatch",
    "Classes",
    "Disagreement",
    "Integral",
    "LocusError",
    "NoFraction",
    "NoInverse",
    "ProgramFailed",
    "ProgramNotFound",
    "Refused",
    "Result",
    "Run",
    "Runner",
    "Sum",
    "Table",
    "are_generic",
    "compute",
    "contact",
    "dimension",
    "find",
    "gw",
    "hypersurface",
    "incidence",
    "jet",
    "mark",
    "parse",
    "psi",
    "r1",
    "table",
    "tangent",
    "tree_count",
    "without_covers",
]
