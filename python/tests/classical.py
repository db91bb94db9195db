"""Numbers of curves by computations that are not localisation."""

from collections import Counter
from fractions import Fraction
from functools import lru_cache
from itertools import product
from math import comb, prod

# Lines, by Schubert calculus on the Grassmannian of lines. A symmetric form in the Chern roots x and y of the dual of
# the tautological bundle is integrated as the coefficient of x^rank y^(rank - 1) in (x - y) times the form. A form is
# the list of its coefficients, by the power of x.


def form_product(one, other):
    """The product of two forms."""
    found = [0] * (len(one) + len(other) - 1)
    for i, a in enumerate(one):
        for j, b in enumerate(other):
            found[i + j] += a * b
    return found


def line_class(kind, parameter):
    """The form of a class on lines."""
    if kind == "incidence":
        return [1] * parameter  # the sum of all monomials of degree q - 1
    if kind == "contact":
        return [1, 1]
    if kind == "hypersurface":  # the top Chern class of the forms of degree b
        factors = [[parameter - t, t] for t in range(parameter + 1)]
    else:  # that of the first cohomology of O(-k)
        factors = [[t - parameter, -t] for t in range(1, parameter)]
    found = [1]
    for factor in factors:
        found = form_product(found, factor)
    return found


def lines(rank, classes):
    """The integral over lines of a product of classes, each given by its kind, its parameter and its power."""
    form = [-1, 1]
    for kind, parameter, power in classes:
        for _ in range(power):
            form = form_product(form, line_class(kind, parameter))
    return form[rank] if len(form) == 2 * rank else 0


# Curves in projective space that meet linear spaces, by the recursion of Kontsevich and Manin (1994). H^a = H^(a-1) H,
# and the number is moved by the associativity of the quantum product of H^(a-1), H and two further conditions.


def curves(rank, degree, codimensions):
    """The number of curves of a degree that meet general linear spaces of these codimensions."""
    return correlator(rank, degree, tuple(sorted(codimensions)))


@lru_cache(None)
def correlator(rank, degree, some):
    """The correlator of powers of the hyperplane class, in their order."""
    if degree == 0:
        return int(len(some) == 3 and sum(some) == rank)
    if sum(some) != (rank + 1) * degree + rank - 3 + len(some) or 0 in some:
        return 0
    if 1 in some:
        return degree * correlator(rank, degree, some[1:])
    if len(some) <= 2:
        return int(degree == 1 and some == (rank, rank))
    return moved(rank, degree, some[0] - 1, some[-2], some[-1], some[1:-2])


def moved(rank, degree, low, one, other, rest):
    """The correlator of H^(low + 1), two further conditions and a rest."""

    def both(d, left, right):
        found = correlator(rank, d, tuple(sorted(left)))
        return found and found * correlator(rank, degree - d, tuple(sorted(right)))

    total = 0
    for times, here, there in splits(rest):
        for d, t in product(range(degree + 1), range(rank + 1)):
            total += times * both(d, (low, one, *here, t), (rank - t, 1, other, *there))
            if (d, here, t) != (0, [], rank - low - 1):  # that one has the number that is sought
                total -= times * both(d, (low, 1, *here, t), (rank - t, one, other, *there))
    return total


def splits(rest):
    """The ways to split a list of conditions into two, and how often each comes."""
    kinds = sorted(Counter(rest).items())
    for taken in product(*(range(count + 1) for _, count in kinds)):
        times = prod(comb(count, part) for (_, count), part in zip(kinds, taken))
        here = [kind for (kind, _), part in zip(kinds, taken) for _ in range(part)]
        there = [kind for (kind, count), part in zip(kinds, taken) for _ in range(count - part)]
        yield times, here, there


# Curves on Calabi–Yau threefolds, by the mirror theorem (Givental 1996; Lian, Liu and Yau 1997). A series in q has a
# list of coefficients; a power series in H stops before H^4.


def series_product(one, other, length):
    found = [Fraction(0)] * length
    for i, a in enumerate(one):
        for j, b in enumerate(other[: length - i]):
            found[i + j] += a * b
    return found


def quotient(top, bottom):
    """The quotient of two series of the same length."""
    found = []
    for k, value in enumerate(top):
        known = sum((bottom[j] * found[k - j] for j in range(1, k + 1)), Fraction(0))
        found.append((value - known) / bottom[0])
    return found


def exponential(series):
    """The exponential of a series without a constant."""
    found = [Fraction(1)]
    for k in range(1, len(series)):
        found.append(sum(j * series[j] * found[k - j] for j in range(1, k + 1)) / k)
    return found


def hypergeometric(rank, degrees, d):
    """The coefficient of q^d of the hypergeometric series, as a series in H."""
    top, bottom = [Fraction(1)], [Fraction(1)]
    for b in degrees:
        for k in range(1, b * d + 1):
            top = series_product(top, [Fraction(k), Fraction(b)], 4)
    for k in range(1, d + 1):
        for _ in range(rank + 1):
            bottom = series_product(bottom, [Fraction(k), Fraction(1)], 4)
    pad = [Fraction(0)] * 4
    return quotient((top + pad)[:4], (bottom + pad)[:4])


def threefold(rank, degrees, most):
    """The Gromov–Witten numbers, up to the degree `most`, of the Calabi–Yau threefold in which hypersurfaces of these
    degrees meet."""
    columns = list(zip(*(hypergeometric(rank, degrees, d) for d in range(most + 1))))
    _, first, second, _ = (quotient(column, columns[0]) for column in columns)
    rest = [a - b / 2 for a, b in zip(second, series_product(first, first, most + 1))]
    mirror = [Fraction(0)] + exponential(first)[:most]
    power, found = [Fraction(1)] + [Fraction(0)] * most, []
    for d in range(1, most + 1):
        power = series_product(power, mirror, most + 1)
        coefficient = rest[d]
        found.append(coefficient * prod(degrees) / d)
        rest = [a - coefficient * b for a, b in zip(rest, power)]
    return found
