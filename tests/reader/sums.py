"""Sums over decorated trees: the sections from 'Edges and vertices' to 'Contributions and sums' of docs/DEFINITIONS.md.

A fraction is a pair of a top and a bottom, both modulo a modulus, and is never reduced. So a contribution has a residue
exactly if its bottom has no common divisor with the modulus.
"""

from fractions import Fraction
from functools import lru_cache
from math import factorial, gcd, prod

from . import trees


def times(fractions):
    """The product of fractions."""
    top = bottom = 1
    for factor_top, factor_bottom in fractions:
        top, bottom = top * factor_top, bottom * factor_bottom
    return top, bottom


def plus(first, second):
    """The sum of two fractions."""
    return first[0] * second[1] + second[0] * first[1], first[1] * second[1]


class SumModulo:
    """The contributions to the integrals of a problem, modulo one modulus."""

    def __init__(self, problem, modulus):
        self.problem = problem
        self.modulus = modulus
        self.weights = problem.weights
        self.edge = lru_cache(maxsize=None)(self.edge)
        self.class_edge = lru_cache(maxsize=None)(self.class_edge)

    def reduced(self, fraction):
        return fraction[0] % self.modulus, fraction[1] % self.modulus

    def contribution(self, terms, tree):
        """The residue of a tree's contribution to an integral, or None if there is none."""
        total = (0, 1)
        for term in terms:
            exponents = self.exponents(term)
            vertices = [self.vertex(tree, vertex, exponents) for vertex in range(len(tree.colours))]
            total = self.reduced(plus(total, times([*vertices, self.term_value(term, tree)])))
        edges = [self.edge(*ends) for ends in self.edges(tree)]
        top, bottom = self.reduced(times([total, *edges, (1, factorial(len(tree.colours)))]))
        if gcd(bottom, self.modulus) != 1:
            return None
        return top * pow(bottom, -1, self.modulus) % self.modulus

    def edges(self, tree):
        """The colours of the ends of each edge, and its degree."""
        return [(tree.colours[u], tree.colours[v], degree) for (u, v), degree in zip(tree.edges, tree.degrees)]

    def edge(self, i, j, a):
        """The fraction of an edge with the end colours `i` and `j` and the degree `a`."""
        rank, at = self.problem.rank, self.weights
        others = prod(t * at[i] + (a - t) * at[j] - a * at[k]
                      for k in range(rank + 1) if k not in (i, j) for t in range(a + 1))
        top = (-1) ** a * a ** (2 * a) * a ** ((rank - 1) * (a + 1))
        return self.reduced((top, a * factorial(a) ** 2 * (at[i] - at[j]) ** (2 * a) * others))

    def exponents(self, term):
        """The exponent of each mark: the sum of the powers of its psi classes."""
        found = [0] * self.problem.marks
        for kind, mark, power in term.classes:
            if kind == "psi":
                found[mark - 1] += power
        return found

    def vertex(self, tree, vertex, exponents):
        """The fraction of a vertex under the exponents of psi classes at the marks."""
        colour = tree.colours[vertex]
        ends = [(degree, self.weights[colour] - self.weights[tree.colours[u + v - vertex]])
                for (u, v), degree in zip(tree.edges, tree.degrees) if vertex in (u, v)]
        here = [exponent for exponent, place in zip(exponents, tree.marks) if place == vertex]
        if len(ends) == 1 and len(here) <= 1:
            degree, difference = ends[0]
            if not here:
                return difference, degree
            return ((-difference) ** here[0], degree ** here[0]) if here[0] else (1, 1)
        tangent = prod(self.weights[colour] - weight for other, weight in enumerate(self.weights) if other != colour)
        if len(ends) == 2 and not here:
            (first, first_difference), (second, second_difference) = ends
            return tangent * first * second, first * second_difference + second * first_difference
        return self.joining_vertex(tangent, ends, here)

    def joining_vertex(self, tangent, ends, exponents):
        """The fraction of a vertex with three or more edges and marks."""
        spare = len(ends) + len(exponents) - 3 - sum(exponents)
        if spare < 0:
            return 0, 1
        differences = prod(difference for _, difference in ends)
        crossed = sum(degree * prod(other for place, (_, other) in enumerate(ends) if place != index)
                      for index, (degree, _) in enumerate(ends))
        ways = factorial(spare + sum(exponents)) // (prod(map(factorial, exponents)) * factorial(spare))
        degrees = prod(degree for degree, _ in ends)
        return self.reduced((tangent ** (len(ends) - 1) * degrees * crossed**spare * ways, differences ** (spare + 1)))

    def term_value(self, term, tree):
        """The coefficient times the values of the classes, each to its power."""
        values = [(term.coefficient, 1)]
        for kind, parameter, power in term.classes:
            top, bottom = self.reduced(self.class_value(kind, parameter, tree))
            values.append((pow(top, power, self.modulus), pow(bottom, power, self.modulus)))
        return self.reduced(times(values))

    def class_value(self, kind, parameter, tree):
        """The value of a class at a tree."""
        if kind == "psi":
            return 1, 1
        if kind == "mark":
            return self.weights[tree.colours[tree.marks[parameter - 1]]], 1
        if kind == "incidence":
            return sum(a * sum(self.weights[i] ** t * self.weights[j] ** (parameter - 1 - t) for t in range(parameter))
                       for i, j, a in self.edges(tree)), 1
        edges = [self.class_edge(kind, parameter, *ends) for ends in self.edges(tree)]
        vertices = [self.class_vertex(kind, parameter, tree, vertex) for vertex in range(len(tree.colours))]
        return times([*edges, *vertices])

    def class_edge(self, kind, parameter, i, j, a):
        """What an edge gives to the value of a class."""
        long = (2 if kind == "contact" else parameter) * a
        steps = range(0, long + 1) if kind == "hypersurface" else range(1, long)
        sign = -1 if kind == "r1" else 1
        top = prod(sign * (t * self.weights[i] + (long - t) * self.weights[j]) for t in steps)
        return self.reduced((top, a ** len(steps)))

    def class_vertex(self, kind, parameter, tree, vertex):
        """What a vertex gives to the value of a class."""
        valence = sum(vertex in edge for edge in tree.edges)
        weight = self.weights[tree.colours[vertex]]
        if kind == "hypersurface":
            return 1, (parameter * weight) ** (valence - 1)
        return ((2 if kind == "contact" else -parameter) * weight) ** (valence - 1), 1


def add_trees(problem, residues, first, end):
    """The residues after the trees of the numbers from `first` to `end - 1`, in order by integral and then by modulus,
    or the least bad number with its first modulus and its tree: a pair of which one is None."""
    moduli = [SumModulo(problem, modulus) for modulus in problem.moduli]
    residues = list(residues)
    for number in range(first, end):
        tree = trees.tree_of(number, problem.rank, problem.degree, problem.marks)
        for index, modulo in enumerate(moduli):
            for integral, terms in enumerate(problem.integrals):
                residue = modulo.contribution(terms, tree)
                if residue is None:
                    return None, (number, modulo.modulus, tree)
                place = integral * len(moduli) + index
                residues[place] = (residues[place] + residue) % modulo.modulus
    return residues, None


def fraction_of(problem, residues):
    """The one fraction within the bounds that has these residues, or None."""
    product = prod(problem.moduli)
    combined = 0
    for residue, modulus in zip(residues, problem.moduli):
        others = product // modulus
        combined += residue * others * pow(others, -1, modulus)
    larger, smaller, before, bottom = product, combined % product, 0, 1
    while smaller > problem.numerator_bound:
        quotient = larger // smaller
        larger, smaller = smaller, larger - quotient * smaller
        before, bottom = bottom, before - quotient * bottom
    top = smaller if bottom > 0 else -smaller
    if not 1 <= abs(bottom) <= problem.denominator_bound or gcd(top, bottom) != 1:
        return None
    return Fraction(top, abs(bottom))
