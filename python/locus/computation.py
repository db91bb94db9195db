"""Numbers from the program: it is asked as often as needed, and what it answers is put together.

One run has moduli with a product below 2^126, numerators below 2^62, 8 integrals and 32 terms. What does not fit is
split over several runs, and numbers that are too large for one run are joined by the Chinese remainder theorem. None of
that is proved; what the program prints is.
"""

from __future__ import annotations

from dataclasses import dataclass
from fractions import Fraction
from itertools import islice
from operator import index
from typing import Any, Dict, Iterator, List, Optional, Sequence, SupportsIndex, Tuple, Union

from . import choices
from .classes import Classes, Number, degree_of, monomial_text, whole
from .errors import Disagreement, NoFraction, NoInverse
from .fractions_of import Residue, residue, small_fraction
from .problem import Piece, Space, groups, pieces, problem_text
from .program import Sum
from .runs import Runner

MOST_RUNS = 16
"""So many runs, of two moduli each, are joined at most: they determine numbers of some 280 digits."""

MOST_ATTEMPTS = 8
"""So many lists of weights are tried at most."""

Integrand = Union[Classes, Number, str]
"""What is integrated: classes, a text that means classes, or a number, which is a class of degree 0."""


@dataclass(frozen=True)
class Run:
    """One run of the program: the problem's text, and what was printed."""

    problem: str
    answer: Sum


@dataclass(frozen=True)
class Result:
    """The integrals of a computation.

    `values` has a fraction for each integrand, in their order. `printed` says of each whether it is a line that the
    program printed (so that the program's contract speaks of it) or was put together here from several runs or terms.
    `trees` is the number of decorated trees, and `runs` has every run, with the problem text that can be given to the
    program by hand.
    """

    values: Tuple[Fraction, ...]
    printed: Tuple[bool, ...]
    trees: int
    runs: Tuple[Run, ...]


@dataclass(frozen=True)
class _Found:
    value: Fraction
    is_printed: bool


class _Sums:
    """The runs over one space. If a tree has no inverse, and the weights were not given, others are taken."""

    def __init__(self, space: Space, weights: Optional[Sequence[int]], runner: Runner, attempt: int = 0) -> None:
        self.space = space
        self.trees = choices.tree_count(space.rank, space.degree, space.marks)
        self.runs: List[Run] = []
        self._given = weights
        self._runner = runner
        self._attempt = attempt

    def run(self, some: Sequence[Piece], moduli: Sequence[int], bounds: Tuple[int, int]) -> Sum:
        for _ in range(MOST_ATTEMPTS - 1):
            try:
                return self._run(some, moduli, bounds)
            except NoInverse:
                if self._given is not None:
                    raise
                self._attempt += 1
        return self._run(some, moduli, bounds)

    def _run(self, some: Sequence[Piece], moduli: Sequence[int], bounds: Tuple[int, int]) -> Sum:
        weights = self._given
        if weights is None:
            weights = choices.weights_for(self.space.rank, self.space.degree, self._attempt)
        text = problem_text(self.space, weights, moduli, bounds, some)
        answer = self._runner.sum(text, self.trees)
        self.runs.append(Run(text, answer))
        return answer


def compute(
    rank: int,
    degree: int,
    classes: Sequence[Integrand],
    *,
    marks: Optional[int] = None,
    weights: Optional[Sequence[int]] = None,
    moduli: Optional[Sequence[int]] = None,
    bounds: Optional[Tuple[int, int]] = None,
    check: bool = False,
    runner: Runner = Runner(),
) -> Result:
    """Integrates each of the classes over the space of stable maps of a degree to projective space of dimension `rank`.

    `rank` is from 1 to 12, `degree` from 1 to 10, and `marks`, the number of marked points, from 0 to 12; if it is left
    out, it is the greatest mark that the classes name. `weights`, `rank` + 1 whole numbers within 10^9, are chosen if
    none are given, and others are taken if a tree has no inverse. `bounds` are one of numerators and one of
    denominators, each from 1 to 2^62 - 1. If they are given, one run has to do, with as few moduli as they need and
    some slack. `moduli` are 1 to 8 odd numbers from 3 to 2^62 - 1 without common divisors, with a product below 2^126.
    If they are given, one run has to do too. If neither are given, each run has two primes just below 2^62, and runs
    are joined until the fraction is certain: a wrong one passes with a chance of about 10^-10. With `check` each number
    is compared with one further run, with other weights and another modulus.

    Before a run: a TypeError if a number is no whole number, and a ValueError if `rank`, `degree`, `marks` or
    `bounds` is out of its limits, the degree of a term is not the dimension, a product has more than 16 classes, the
    bounds are too wide for two moduli, or the moduli are too small for any bounds. Of the runs: Refused if the program
    refuses the problem, NoInverse for weights that were given, NoFraction if no fraction within the bounds has the
    residues or none was certain, Disagreement if `check` fails; and ProgramNotFound, ProgramFailed, CheckpointMismatch.
    """
    integrands = _integrands(classes)
    limits = _within_limits(bounds)
    if marks is None:
        marks = max((integrand.highest_mark() for integrand in integrands), default=0)
    space = Space(rank, degree, marks)
    _compare_degrees(space, integrands)
    sums = _Sums(space, _plain(weights), runner)
    some = pieces(integrands)
    found = _found(sums, some, _plain(moduli), limits)
    if check:
        _check(_Sums(space, None, runner, attempt=MOST_ATTEMPTS), sums, some, found)
    values = [Fraction(0)] * len(integrands)
    for piece, part in zip(some, found):
        values[piece.of] += piece.factor * part.value
    return Result(tuple(values), _are_printed(len(integrands), some, found), sums.trees, tuple(sums.runs))


def _integrands(classes: Sequence[Integrand]) -> List[Classes]:
    if isinstance(classes, (str, Classes)):
        raise TypeError("`compute` takes a list of classes, and `gw` takes one")
    return [Classes.of(value) for value in classes]


def _plain(some: Optional[Sequence[SupportsIndex]]) -> Any:
    """Whole numbers as those of Python, in a tuple."""
    return None if some is None else tuple(index(number) for number in some)


def _within_limits(bounds: Optional[Tuple[SupportsIndex, SupportsIndex]]) -> Optional[Tuple[int, int]]:
    """Bounds of numerators and denominators, each from 1 to 2^62 - 1; a ValueError otherwise."""
    if bounds is None:
        return None
    if len(bounds) != 2:
        raise ValueError(f"bounds are one of numerators and one of denominators, and not {bounds!r}")
    numerator, denominator = bounds
    return (
        whole("the numerator bound", numerator, 1, choices.LARGEST_BOUND),
        whole("the denominator bound", denominator, 1, choices.LARGEST_BOUND),
    )


def _compare_degrees(space: Space, integrands: Sequence[Classes]) -> None:
    dimension = choices.dimension(space.rank, space.degree, space.marks)
    for integrand in integrands:
        for _, monomial in integrand:
            found = degree_of(monomial, space.degree)
            if found != dimension:
                raise ValueError(
                    f"{monomial_text(monomial)} has degree {found}, and the space of stable maps has dimension "
                    f"{dimension} = ({space.rank} + 1) * {space.degree} + {space.rank} - 3 + {space.marks}: "
                    "the degree of each term has to be the dimension"
                )


def _found(
    sums: _Sums, some: Sequence[Piece], moduli: Optional[Sequence[int]], bounds: Optional[Tuple[int, int]]
) -> List[_Found]:
    found: List[_Found] = []
    for group in groups(some):
        if moduli is None and bounds is None:
            found += _joined(sums, group)
        else:
            found += _in_one_run(sums, group, moduli, bounds)
    return found


def _in_one_run(
    sums: _Sums, group: Sequence[Piece], moduli: Optional[Sequence[int]], bounds: Optional[Tuple[int, int]]
) -> List[_Found]:
    if moduli is None:
        assert bounds is not None
        moduli = choices.moduli_for(*bounds)
    answer = sums.run(group, moduli, bounds or choices.bounds_for(moduli))
    found = [_Found(part.fraction, True) for part in answer.integrals if part.fraction is not None]
    if len(found) < len(group):
        raise NoFraction("no fraction within the bounds has the residues: give larger bounds, and moduli to match")
    return found


def _joined(sums: _Sums, group: Sequence[Piece]) -> List[_Found]:
    primes = choices.primes()
    found: Dict[int, _Found] = {}
    residues: Dict[int, List[Residue]] = {place: [] for place in range(len(group))}
    for number in range(MOST_RUNS):
        left = [place for place in residues if place not in found]
        moduli = list(islice(primes, 2))
        answer = sums.run([group[place] for place in left], moduli, choices.bounds_for(moduli))
        for place, part in zip(left, answer.integrals):
            residues[place] += part.residues
            printed = part.fraction if number == 0 else None
            value = printed if printed is not None else small_fraction(residues[place], choices.CERTAINTY)
            if value is not None:
                found[place] = _Found(value, printed is not None)
        if len(found) == len(group):
            return [found[place] for place in residues]
    raise NoFraction(f"no fraction was certain after {MOST_RUNS} runs of two moduli each")


def _check(second: _Sums, first: _Sums, some: Sequence[Piece], found: Sequence[_Found]) -> None:
    """Compares each piece with a run under other weights and a modulus that no run has had."""
    modulus = next(islice(choices.primes(), 2 * MOST_RUNS, None))
    known: Iterator[_Found] = iter(found)
    for group in groups(some):
        answer = second.run(group, [modulus], (1, 1))
        for part, integral in zip(islice(known, len(group)), answer.integrals):
            if integral.residues != ((modulus, residue(part.value, modulus)),):
                raise Disagreement(f"{part.value} was found, but with other weights modulo {modulus} another residue")
    first.runs += second.runs


def _are_printed(count: int, some: Sequence[Piece], found: Sequence[_Found]) -> Tuple[bool, ...]:
    parts: List[List[bool]] = [[] for _ in range(count)]
    for piece, part in zip(some, found):
        parts[piece.of].append(part.is_printed and piece.factor == 1)
    return tuple(all(each) and len(each) == 1 for each in parts)


def gw(
    rank: int,
    degree: int,
    classes: Integrand,
    *,
    marks: Optional[int] = None,
    weights: Optional[Sequence[int]] = None,
    moduli: Optional[Sequence[int]] = None,
    bounds: Optional[Tuple[int, int]] = None,
    check: bool = False,
    runner: Runner = Runner(),
) -> Fraction:
    """One Gromov–Witten number, with the arguments and the errors of `compute`.

    >>> gw(rank=4, degree=2, classes="hypersurface(5)")
    Fraction(4876875, 8)
    """
    result = compute(
        rank, degree, [classes], marks=marks, weights=weights, moduli=moduli, bounds=bounds, check=check, runner=runner
    )
    return result.values[0]
