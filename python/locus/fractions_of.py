"""From residues to fractions: the Chinese remainder theorem, and the fraction that is small beside the moduli."""

from __future__ import annotations

from fractions import Fraction
from math import gcd
from typing import Iterable, Optional, Tuple

Residue = Tuple[int, int]
"""A modulus, and a residue below it."""


def residue(value: Fraction, modulus: int) -> int:
    """The residue of a fraction whose denominator is a unit modulo the modulus. ValueError if it is none."""
    return value.numerator * pow(value.denominator, -1, modulus) % modulus


def joined(residues: Iterable[Residue]) -> Residue:
    """The one residue modulo the product of moduli without common divisors that leaves all of these."""
    product, number = 1, 0
    for modulus, part in residues:
        number += product * ((part - number) * pow(product, -1, modulus) % modulus)
        product *= modulus
    return product, number


def small_fraction(residues: Iterable[Residue], certainty: int) -> Optional[Fraction]:
    """The fraction `a/b` with these residues for which `2 |a| b` is least beside the product of the moduli.

    Euclid's algorithm meets it (Wang 1981; Monagan 2004). It is given if the product is above `certainty` times
    `2 |a| b`; otherwise there are too few moduli to tell, and None is given.
    """
    product, number = joined(residues)
    best: Optional[Tuple[int, int]] = None
    above, rest, factor_above, factor = product, number, 0, 1
    while True:
        if gcd(factor, product) == 1 and (best is None or abs(rest * factor) < abs(best[0] * best[1])):
            best = (rest, factor) if factor > 0 else (-rest, -factor)
        if rest == 0:
            break
        quotient = above // rest
        above, rest = rest, above - quotient * rest
        factor_above, factor = factor, factor_above - quotient * factor
    return Fraction(*best) if best and 2 * max(1, abs(best[0])) * best[1] * certainty < product else None
