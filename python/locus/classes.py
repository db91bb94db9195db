"""Classes on the space of stable maps: what is integrated.

The six kinds of class of `locus` are made by `hypersurface`, `incidence`, `mark`, `r1`, `contact` and `psi`. They are
added, subtracted, multiplied, raised to powers and multiplied by numbers, and are kept as a sum of products:

    >>> incidence(2) * (2 * mark(1) - 3)
    -3*incidence(2) + 2*incidence(2)*mark(1)
    >>> jet(mark=1, b=3, order=2)
    3*mark(1)*psi(1) + 9*mark(1)^2

A parameter is a whole number, also one of Sage or NumPy: anything else is a TypeError, and one out of its limits a
ValueError. In the degrees of the classes, `d` is the degree of the curves.
"""

from __future__ import annotations

import numbers
import operator
from fractions import Fraction
from typing import Any, Dict, Iterator, Mapping, NamedTuple, Optional, SupportsIndex, Tuple, Union

Number = Union[int, Fraction, SupportsIndex, numbers.Rational]
"""A whole number or a fraction, also one of Sage or NumPy."""


class Atom(NamedTuple):
    """One class: its kind, and its parameter (b, q, k or the mark); `contact` has the parameter 0, which is not used."""

    kind: str
    parameter: int

    def degree(self, curve_degree: int) -> int:
        """The degree of the class on the space of maps of this degree."""
        return {
            "hypersurface": self.parameter * curve_degree + 1,
            "incidence": self.parameter - 1,
            "mark": 1,
            "r1": self.parameter * curve_degree - 1,
            "contact": 2 * curve_degree - 1,
            "psi": 1,
        }[self.kind]

    def __str__(self) -> str:
        return "contact()" if self.kind == "contact" else f"{self.kind}({self.parameter})"


Monomial = Tuple[Tuple[Atom, int], ...]
"""A product of classes, each with its power, in the order of `Atom`, none of them twice."""


class Classes:
    """A sum of products of classes with rational coefficients. It is not changed once it is made.

    Sums, differences and products are with classes or numbers, quotients with numbers other than 0, and powers are from
    0 on; anything else is a TypeError, a division by 0 a ZeroDivisionError, and a power below 0 a ValueError. Classes
    are equal if their terms are, once they are multiplied out.
    """

    __slots__ = ("_terms",)

    def __init__(self, terms: Mapping[Monomial, Fraction]) -> None:
        self._terms: Dict[Monomial, Fraction] = {
            monomial: terms[monomial] for monomial in sorted(terms) if terms[monomial] != 0
        }

    @classmethod
    def of(cls, value: Union["Classes", Number, str]) -> "Classes":
        """A number, a text such as `incidence(2)^5` or `2*mark(1) - psi(1)`, or classes, as classes. TypeError if it is
        none of these, and ValueError if a text means no classes."""
        if isinstance(value, Classes):
            return value
        if isinstance(value, str):
            from .expression import parse

            return parse(value)
        number = as_fraction(value)
        if number is None:
            raise TypeError(f"neither classes nor a number nor a text: {value!r}")
        return cls({(): number})

    def __iter__(self) -> Iterator[Tuple[Fraction, Monomial]]:
        """The terms: each coefficient with its product of classes."""
        return iter([(coefficient, monomial) for monomial, coefficient in self._terms.items()])

    def __len__(self) -> int:
        return len(self._terms)

    def degrees(self, curve_degree: int) -> Tuple[int, ...]:
        """The degrees of the terms, in order and each once, on the space of maps of this degree."""
        return tuple(sorted({degree_of(monomial, curve_degree) for monomial in self._terms}))

    def highest_mark(self) -> int:
        """The greatest mark that some term names, and 0 if there is none."""
        atoms = [atom for monomial in self._terms for atom, _ in monomial]
        return max((atom.parameter for atom in atoms if atom.kind in ("mark", "psi")), default=0)

    def __add__(self, other: Union["Classes", Number]) -> "Classes":
        if not _is_term(other):
            return NotImplemented
        total = dict(self._terms)
        for coefficient, monomial in Classes.of(other):
            total[monomial] = total.get(monomial, Fraction(0)) + coefficient
        return Classes(total)

    def __mul__(self, other: Union["Classes", Number]) -> "Classes":
        if not _is_term(other):
            return NotImplemented
        total: Dict[Monomial, Fraction] = {}
        for left, some in self:
            for right, others in Classes.of(other):
                product = _product(some, others)
                total[product] = total.get(product, Fraction(0)) + left * right
        return Classes(total)

    def __pow__(self, exponent: SupportsIndex) -> "Classes":
        times = operator.index(exponent)
        if times < 0:
            raise ValueError(f"a power of classes is a whole number from 0 on, and not {times}")
        result = Classes({(): Fraction(1)})
        for _ in range(times):
            result = result * self
        return result

    def __neg__(self) -> "Classes":
        return self * -1

    def __sub__(self, other: Union["Classes", Number]) -> "Classes":
        return self + -Classes.of(other) if _is_term(other) else NotImplemented

    def __rsub__(self, other: Number) -> "Classes":
        return -self + other

    def __truediv__(self, number: Number) -> "Classes":
        divisor = as_fraction(number)
        return NotImplemented if divisor is None else self * (1 / divisor)

    __radd__ = __add__
    __rmul__ = __mul__

    def __eq__(self, other: Any) -> bool:
        if not _is_term(other):
            return NotImplemented
        return self._terms == Classes.of(other)._terms

    def __hash__(self) -> int:
        return hash(tuple(self._terms.items()))

    def __repr__(self) -> str:
        return str(self)

    def __str__(self) -> str:
        text = " + ".join(_term_text(coefficient, monomial) for coefficient, monomial in self)
        return text.replace("+ -", "- ") or "0"


def as_fraction(value: Any) -> Optional[Fraction]:
    """A number as a fraction; None if it is none. In Sage a numerator is a method."""
    if isinstance(value, bool):
        return None
    if isinstance(value, (int, Fraction)):
        return Fraction(value)
    if hasattr(value, "__index__"):
        return Fraction(operator.index(value))
    if isinstance(value, numbers.Rational):
        top, bottom = (part() if callable(part) else part for part in (value.numerator, value.denominator))
        return Fraction(int(top), int(bottom))
    return None


def _is_term(value: Any) -> bool:
    return isinstance(value, Classes) or as_fraction(value) is not None


def degree_of(monomial: Monomial, curve_degree: int) -> int:
    """The degree of a product of classes on the space of maps of this degree."""
    return sum(atom.degree(curve_degree) * power for atom, power in monomial)


def monomial_text(monomial: Monomial) -> str:
    """A product of classes, as `incidence(2)^5*mark(1)`."""
    return "*".join(f"{atom}^{power}" if power > 1 else str(atom) for atom, power in monomial) or "1"


def _term_text(coefficient: Fraction, monomial: Monomial) -> str:
    if not monomial:
        return str(coefficient)
    if abs(coefficient) == 1:
        return ("-" if coefficient < 0 else "") + monomial_text(monomial)
    return f"{coefficient}*{monomial_text(monomial)}"


def _product(some: Monomial, others: Monomial) -> Monomial:
    powers = dict(some)
    for atom, power in others:
        powers[atom] = powers.get(atom, 0) + power
    return tuple(sorted(powers.items()))


def whole(name: str, value: SupportsIndex, least: int, most: int) -> int:
    """A whole number from `least` to `most`, also one of Sage or NumPy. TypeError if it is none, and ValueError if it
    is out of these limits; both name it by `name`."""
    if isinstance(value, bool) or not hasattr(value, "__index__"):
        raise TypeError(f"{name} is a whole number, and not {value!r}")
    number = operator.index(value)
    if not least <= number <= most:
        raise ValueError(f"{name} is from {least} to {most}, and not {number}")
    return number


def _single(kind: str, name: str, value: SupportsIndex, least: int, most: int) -> Classes:
    return Classes({((Atom(kind, whole(f"{kind}: {name}", value, least, most)), 1),): Fraction(1)})


def hypersurface(b: int) -> Classes:
    """The curve lies on a general hypersurface of degree `b` (1 to 64): degree `b d + 1`."""
    return _single("hypersurface", "b", b, 1, 64)


def incidence(q: int) -> Classes:
    """The curve meets a linear space of codimension `q` (2 to 12) in the ambient projective space: degree `q - 1`."""
    return _single("incidence", "q", q, 2, 12)


def mark(j: int) -> Classes:
    """Mark `j` (1 to 12) lies on a hyperplane: degree 1. The power `q` puts it on a linear space of codimension `q`."""
    return _single("mark", "mark", j, 1, 12)


def r1(k: int) -> Classes:
    """The top Chern class of the first direct image of O(-k), for `k` from 1 to 64: degree `k d - 1`."""
    return _single("r1", "k", k, 1, 64)


def contact() -> Classes:
    """The curve is tangent to a contact distribution (in odd rank): degree `2 d - 1`."""
    return Classes({((Atom("contact", 0), 1),): Fraction(1)})


def psi(j: int) -> Classes:
    """The psi class at mark `j` (1 to 12), of the space of maps with the marks of the problem alone: degree 1."""
    return _single("psi", "mark", j, 1, 12)


def jet(mark: int, b: int, order: int) -> Classes:
    """The curve has contact of order at least `order` with a hypersurface of degree `b` at mark `mark`.

    It is the product of `b H + i psi` for `i` from 0 to `order - 1`, where `H` is `mark(mark)`: order 1 says that the
    mark lies on the hypersurface, order 2 that the curve touches it there. Its degree is `order`. It counts contact
    alone up to order 2, and for lines up to order `b`; beyond, it also counts curves that break at a point of the
    hypersurface, and lines that lie in it (Gathmann 2002).

    `mark` is from 1 to 12, `b` and `order` are from 1 on; a TypeError or a ValueError otherwise.
    """
    at_mark, cotangent = _single("mark", "mark", mark, 1, 12), psi(mark)
    degree = whole("jet: b", b, 1, 10**9)
    result = Classes({(): Fraction(1)})
    for step in range(whole("jet: the order of contact", order, 1, 1000)):
        result = result * (degree * at_mark + step * cotangent)
    return result
