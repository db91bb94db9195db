"""Curves that are tangent to several general hypersurfaces.

A jet at one mark says that a curve touches one hypersurface. The product of jets at several marks does not say it of
several: its psi classes are those of the space with all marks, so that curves count on which marks come together.

That can be mended. On the space without marks, touching a hypersurface of degree b is the divisor `b^2 mu + b kappa`,
where `mu` is incidence(2) and `kappa` is what becomes of `H psi` at one mark if the mark is forgotten. If k marks with
psi are forgotten, `H^a_1 psi_1 .. H^a_k psi_k` becomes the sum over all permutations of the products over their cycles
(Arbarello and Cornalba 1996), so that a power of `kappa` is the sum over all partitions of its factors into blocks of

    (-1)^(s - k) times the integral of H_1^|B_1| psi_1 .. H_k^|B_k| psi_k.
"""

from __future__ import annotations

from fractions import Fraction
from math import factorial
from operator import index
from typing import Any, Dict, Iterator, List, Sequence, Tuple

from .classes import Classes, incidence, mark, psi, whole
from .computation import Integrand, compute


def tangent(rank: int, degree: int, hypersurfaces: Sequence[int], classes: Integrand = 1, **options: Any) -> Fraction:
    """The number of curves with the given classes, without marks, that touch general hypersurfaces of these degrees.

    Each degree is a whole number from 1 on; otherwise it is a TypeError or a ValueError, as are classes with marks. The
    options and the other errors are those of `compute`, but for `marks`. There is one run for each number of marks.

    It is the number of stable maps, in which maps that are no curves may count, such as double covers of lines.

    >>> tangent(2, 1, [2, 2])                                     # lines tangent to two conics
    Fraction(4, 1)
    >>> tangent(2, 3, [1], incidence(2) ** 7)                     # cubics through 7 points tangent to a line
    Fraction(36, 1)
    """
    given = Classes.of(classes)
    if given.highest_mark():
        raise ValueError("the classes beside tangencies have no marks")
    degrees = [whole("tangent: b", b, 1, 10**9) for b in hypersurfaces]
    total = Fraction(0)
    for marks, integrand in enumerate(_integrands(index(rank), degrees)):
        if integrand != 0:
            total += compute(rank, degree, [integrand * given], marks=marks, **options).values[0]
    return total


def _integrands(rank: int, hypersurfaces: Sequence[int]) -> List[Classes]:
    """For each number of marks, what is to be integrated over the space with so many."""
    found = [Classes.of(0)] * (len(hypersurfaces) + 1)
    for kappas, coefficient in enumerate(_expanded(hypersurfaces)):
        points = incidence(2) ** (len(hypersurfaces) - kappas)
        for blocks in _partitions(kappas, rank):
            sign = (-1) ** (kappas - len(blocks))
            term = coefficient * sign * _orders(blocks) * points
            for j, block in enumerate(blocks, 1):
                term = term * mark(j) ** block * psi(j)
            found[len(blocks)] += term
    return found


def _expanded(hypersurfaces: Sequence[int]) -> List[int]:
    """The coefficients of the powers of kappa in the product of all `b^2 mu + b kappa`."""
    powers = [1]
    for b in hypersurfaces:
        powers = [b * b * here + b * before for here, before in zip(powers + [0], [0] + powers)]
    return powers


def _partitions(number: int, most: int) -> Iterator[Tuple[int, ...]]:
    """The partitions of a number into parts of at most `most`, the largest part first."""
    if number == 0:
        yield ()
    for part in range(min(number, most), 0, -1):
        for rest in _partitions(number - part, part):
            yield (part, *rest)


def _orders(blocks: Sequence[int]) -> int:
    """How many partitions of a set have blocks of these sizes."""
    count = factorial(sum(blocks))
    sizes: Dict[int, int] = {}
    for block in blocks:
        count //= factorial(block)
        sizes[block] = sizes.get(block, 0) + 1
    for times in sizes.values():
        count //= factorial(times)
    return count
