"""What can go wrong, each with a type of its own; all are of the type LocusError."""

from __future__ import annotations


class LocusError(Exception):
    """A number could not be computed."""


class ProgramNotFound(LocusError):
    """The program `locus` is not where it was looked for, or could not be started."""


class Refused(LocusError):
    """The program refused the problem (its status 3).

    `number` and `name` are those of the table of refusals in docs/FORMATS.md, and `details` what stands behind them.
    """

    def __init__(self, number: int, name: str, details: str, advice: str = "") -> None:
        self.number = number
        self.name = name
        self.details = details
        message = f"problem refused {number} {name} {details}".rstrip()
        super().__init__(f"{message}: {advice}" if advice else message)


class NoInverse(LocusError):
    """Some tree needs a denominator that is no unit modulo a modulus (status 4): take other weights or moduli.

    `tree` is the number of the least such tree, `modulus` the first modulus for which it is so, and `text` the tree.
    """

    def __init__(self, tree: int, modulus: int, text: str) -> None:
        self.tree = tree
        self.modulus = modulus
        self.text = text
        super().__init__(f"tree {tree} ({text}) has no residue modulo {modulus}")


class NoFraction(LocusError):
    """No fraction within the bounds that were given has the residues (status 1): give larger ones, and moduli to match.
    Or no bounds were given, and no fraction was certain after as many runs as are made at most."""


class Disagreement(LocusError):
    """A second run, with other weights and another modulus, does not agree with the number that was found."""


class CheckpointMismatch(LocusError):
    """The checkpoint on disk belongs to another problem, or the file is no checkpoint."""


class ProgramFailed(LocusError):
    """The program ended in another way: `status` is its status, and `told` what it wrote on standard error."""

    def __init__(self, status: int, told: str) -> None:
        self.status = status
        self.told = told
        super().__init__(f"locus ended with status {status}: {told.strip() or 'it wrote nothing on standard error'}")
