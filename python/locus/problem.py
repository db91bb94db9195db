"""Problem files: how one is written, and how integrands are put into as few of them as the limits allow."""

from __future__ import annotations

from dataclasses import dataclass
from fractions import Fraction
from math import lcm
from typing import Iterable, List, Sequence, Tuple

from .classes import Classes, Monomial, monomial_text, whole

MOST_INTEGRALS = 8
"""The greatest number of integrals of a problem."""

MOST_TERMS = 32
"""The greatest number of terms of a problem, in all its integrals."""

MOST_CLASSES = 16
"""The greatest number of classes of a term, each to a power."""

MOST_POWER = 64
"""The greatest power of a class. A higher one is written as several classes."""

LARGEST_COEFFICIENT = 10**9
"""The greatest size of a coefficient of a term."""


@dataclass(frozen=True)
class Space:
    """The space of stable maps: to projective space of dimension `rank` (1 to 12), of `degree` (1 to 10), with so many
    `marks` (0 to 12). Other numbers are a ValueError."""

    rank: int
    degree: int
    marks: int = 0

    def __post_init__(self) -> None:
        for name, least, most in (("rank", 1, 12), ("degree", 1, 10), ("marks", 0, 12)):
            object.__setattr__(self, name, whole(name, getattr(self, name), least, most))


@dataclass(frozen=True)
class Piece:
    """Terms with whole coefficients that are one integral of a problem; `factor` times their sum counts for the
    integrand with the index `of`."""

    of: int
    factor: Fraction
    terms: Tuple[Tuple[int, Monomial], ...]


def pieces(integrands: Sequence[Classes]) -> List[Piece]:
    """The integrands in pieces of at most 32 terms, with coefficients within their limit. An integrand that is 0 has
    no piece."""
    found: List[Piece] = []
    for index, integrand in enumerate(integrands):
        scale = lcm(*(coefficient.denominator for coefficient, _ in integrand))
        small: List[Tuple[int, Monomial]] = []
        for coefficient, monomial in integrand:
            whole = int(coefficient * scale)
            if abs(whole) <= LARGEST_COEFFICIENT:
                small.append((whole, monomial))
            else:
                found.append(Piece(index, coefficient, ((1, monomial),)))
        for first in range(0, len(small), MOST_TERMS):
            found.append(Piece(index, Fraction(1, scale), tuple(small[first : first + MOST_TERMS])))
    return found


def groups(some: Iterable[Piece]) -> List[List[Piece]]:
    """Pieces in groups that one problem can hold: at most 8 integrals, of at most 32 terms in all."""
    found: List[List[Piece]] = []
    terms = MOST_TERMS
    for piece in some:
        if terms + len(piece.terms) > MOST_TERMS or len(found[-1]) == MOST_INTEGRALS:
            found.append([])
            terms = 0
        found[-1].append(piece)
        terms += len(piece.terms)
    return found


def problem_text(
    space: Space, weights: Sequence[int], moduli: Sequence[int], bounds: Tuple[int, int], integrals: Sequence[Piece]
) -> str:
    """The text of a problem, in version 2, of 1 to 8 integrals. ValueError if a term has more than 16 classes; other
    limits are the program's to see."""
    lines = [
        "version = 2",
        f"rank = {space.rank}",
        f"degree = {space.degree}",
        f"marks = {space.marks}",
        f"weights = {list(weights)}",
        f"moduli = {list(moduli)}",
        f"numerator_bound = {bounds[0]}",
        f"denominator_bound = {bounds[1]}",
    ]
    for piece in integrals:
        lines += ["", "[[integral]]", "term = ["]
        lines += [f"    {{ coefficient = {number}, classes = {_classes(product)} }}," for number, product in piece.terms]
        lines.append("]")
    return "\n".join(lines) + "\n"


def _classes(product: Monomial) -> str:
    entries = []
    for atom, power in product:
        key = {"hypersurface": "b", "incidence": "q", "r1": "k"}.get(atom.kind, "mark")
        parameter = "" if atom.kind == "contact" else f", {key} = {atom.parameter}"
        for first in range(0, power, MOST_POWER):
            entries.append(f'{{ kind = "{atom.kind}"{parameter}, power = {min(MOST_POWER, power - first)} }}')
    if len(entries) > MOST_CLASSES:
        raise ValueError(f"a product of more than {MOST_CLASSES} classes: {monomial_text(product)}")
    return f"[{', '.join(entries)}]"
