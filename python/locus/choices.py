"""Which weights and moduli a run is given.

The sum does not depend on the weights, as long as no denominator vanishes; that is mathematics, and nobody proves it
here. All moduli that are chosen are primes just below 2^62, and no number that a tree divides by is that large, other
than as a product. So a denominator that is not 0 is a unit, and weights do exactly if no denominator is 0.
"""

from __future__ import annotations

import random
from math import comb
from typing import Iterator, List, Sequence, Tuple

LARGEST_BOUND = 2**62 - 1
"""The largest numerator or denominator bound that a problem may have."""

MODULI_BELOW = 2**62
"""Each modulus of a problem is below it."""

SLACK = 10**6
"""How far above 2AB the product of chosen moduli is for bounds that are given. A sum outside the bounds `A` and `B`
then passes for a fraction within them with a chance of about one in a million, if its residues are as good as random.
"""

CERTAINTY = 10**12
"""The same for a fraction that is joined from several runs."""

DENOMINATORS = 10**6
"""The denominator bound of a first run, whose numerator bound is the largest."""

_WITNESSES = (2, 3, 5, 7, 11, 13, 17, 19, 23, 29, 31, 37)


def is_prime(number: int) -> bool:
    """Whether a whole number below 3 * 10^23 is a prime (Miller and Rabin, with the first twelve primes as witnesses).
    Of a larger number that is no prime it may say so too."""
    if number < 2 or any(number % prime == 0 for prime in _WITNESSES):
        return number in _WITNESSES
    twos = ((number - 1) & (1 - number)).bit_length() - 1
    for witness in _WITNESSES:
        value = pow(witness, (number - 1) >> twos, number)
        if value not in (1, number - 1):
            if not any((value := value * value % number) == number - 1 for _ in range(twos - 1)):
                return False
    return True


def primes() -> Iterator[int]:
    """The primes below 2^62, the largest first, without an end that is of use."""
    number = MODULI_BELOW - 1
    while True:
        if is_prime(number):
            yield number
        number -= 2


def are_generic(weights: Sequence[int], degree: int) -> bool:
    """Whether no denominator of a tree of this degree is 0: no weight is 0, all differ, and none is a mean of two
    others with whole shares `t` and `a - t` for an `a` up to the degree. The weights are any whole numbers."""
    if 0 in weights or len(set(weights)) < len(weights):
        return False
    means = {
        (a, t * one + (a - t) * other)
        for a in range(2, degree + 1)
        for t in range(1, a)
        for one in weights
        for other in weights
        if one != other
    }
    return not any((a, a * weight) in means for a in range(2, degree + 1) for weight in weights)


def weights_for(rank: int, degree: int, attempt: int = 0) -> List[int]:
    """Weights for a problem of a rank from 1 to 12 and a degree from 1 to 10: at first powers of 10, 7 or 5, if one of
    these lists is generic and ends by 10^9, and otherwise, and at each further attempt, others that are made by chance,
    the same in each session."""
    for base in (10, 7, 5) if attempt == 0 else ():
        weights = [base**exponent for exponent in range(rank + 1)]
        if weights[-1] <= 10**9 and are_generic(weights, degree):
            return weights
    chance = random.Random(f"{rank} {degree} {attempt}")
    while True:
        weights = sorted(chance.sample(range(1, 10**6), rank + 1))
        if are_generic(weights, degree):
            return weights


def bounds_for(moduli: Sequence[int]) -> Tuple[int, int]:
    """Bounds of numerators and denominators with a product so far below that of the moduli as `SLACK` says. ValueError
    if the moduli are too small for any."""
    product = 1
    for modulus in moduli:
        product *= modulus
    room = (product - 1) // (2 * SLACK)
    denominator = min(DENOMINATORS, max(1, round(room ** (1 / 3))))
    numerator = min(LARGEST_BOUND, room // denominator)
    if numerator < 1:
        raise ValueError(f"the product of the moduli, {product}, leaves no room for a fraction: give more, or bounds")
    return numerator, denominator


def moduli_for(numerator_bound: int, denominator_bound: int) -> List[int]:
    """One or two primes just below 2^62, as few as bounds need, with a product far above twice that of the bounds, as
    `SLACK` says. ValueError if two are too few."""
    first, second = (prime for prime, _ in zip(primes(), range(2)))
    needed = 2 * numerator_bound * denominator_bound * SLACK
    if needed >= first * second:
        raise ValueError("these bounds are too wide for one run: leave them out, and several runs are joined")
    return [first] if needed < first else [first, second]


def tree_count(rank: int, degree: int, marks: int = 0) -> int:
    """How many decorated trees a problem has, for `rank` and `degree` from 1 on and `marks` from 0 on. The program sums
    at most 2^40.

    >>> tree_count(4, 4)
    176100
    """
    return sum(
        n ** (n - 2) * (rank + 1) * rank ** (n - 1) * comb(degree - 1, n - 2) * n**marks for n in range(2, degree + 2)
    )


def dimension(rank: int, degree: int, marks: int = 0) -> int:
    """The dimension of the space of stable maps, `(r + 1) d + r - 3 + m`, which each term has to have as its degree."""
    return (rank + 1) * degree + rank - 3 + marks
