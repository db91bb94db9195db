"""Decorated trees by their numbers and by their texts: the section 'Numbers of trees' of docs/DEFINITIONS.md, and the
section 'The text of a tree' of docs/FORMATS.md."""

import re
from dataclasses import dataclass
from functools import lru_cache
from math import comb

MOST_EDGES, MOST_COLOURS, MOST_MARKS = 10, 11, 12


@dataclass
class Tree:
    """Edges with their degrees, the colours of the vertices, and the vertices of the marks."""

    edges: list
    degrees: tuple
    colours: list
    marks: list

    def text(self):
        """The line that names the tree."""
        edges = " ".join(f"{u}-{v}:{degree}" for (u, v), degree in zip(self.edges, self.degrees))
        colours = " ".join(map(str, self.colours))
        return f"edges {edges} colours {colours} marks {' '.join(map(str, self.marks)) or '-'}"


def count_with(vertices, rank, degree, marks):
    """How many decorated trees have so many vertices."""
    return (vertices ** (vertices - 2) * (rank + 1) * rank ** (vertices - 1) * comb(degree - 1, vertices - 2)
            * vertices**marks)


def count(rank, degree, marks):
    """How many decorated trees there are."""
    return sum(count_with(vertices, rank, degree, marks) for vertices in range(2, degree + 2))


def tree_of(number, rank, degree, marks):
    """The tree of a number below the count."""
    vertices = 2
    while number >= count_with(vertices, rank, degree, marks):
        number -= count_with(vertices, rank, degree, marks)
        vertices += 1
    lists = degree_lists(vertices - 1, degree)
    bases = [vertices] * (vertices - 2) + [rank + 1] + [rank] * (vertices - 1) + [len(lists)] + [vertices] * marks
    digits = digits_of(number, bases)
    edges = decoded(vertices, digits[: vertices - 2])
    colours = coloured(edges, digits[vertices - 2 : 2 * vertices - 2])
    return Tree(edges, lists[digits[2 * vertices - 2]], colours, digits[2 * vertices - 1 :])


def digits_of(number, bases):
    """The digits of a number, the first base the most significant."""
    digits = []
    for base in reversed(bases):
        number, digit = divmod(number, base)
        digits.append(digit)
    return digits[::-1]


@lru_cache(maxsize=None)
def degree_lists(length, total):
    """All lists of so many positive numbers with this sum, in lexicographic order."""
    if length == 1:
        return [(total,)]
    return [(first, *rest) for first in range(1, total - length + 2)
            for rest in degree_lists(length - 1, total - first)]


def decoded(vertices, word):
    """The edges of a Prüfer word: each letter is joined to the smallest leaf that remains."""
    remaining, edges = list(range(vertices)), []
    for index, letter in enumerate(word):
        leaf = next(vertex for vertex in remaining if vertex not in word[index:])
        remaining.remove(leaf)
        edges.append((min(leaf, letter), max(leaf, letter)))
    return sorted([*edges, tuple(remaining)])


def coloured(edges, digits):
    """The colours: that of vertex 0, and of each other its index among those that its neighbour towards 0 leaves."""
    colours = {0: digits[0]}
    while len(colours) < len(digits):
        for u, v in edges:
            for near, far in ((u, v), (v, u)):
                if near in colours and far not in colours:
                    index = digits[far]
                    colours[far] = index + (index >= colours[near])
    return [colours[vertex] for vertex in range(len(digits))]


class Refused(Exception):
    """A text is that of no tree, with what is told of it."""

    def __init__(self, told):
        super().__init__(told)
        self.told = told


class Grammar:
    """The texts of the grammar, as an automaton all of whose states lead on to an end."""

    def __init__(self):
        self.arrows = [{}]
        ends = self.word({0}, b"edges")
        ends = self.several(ends, 1, MOST_EDGES, self.edge)
        ends = self.several(self.word(ends, b" colours"), 2, MOST_COLOURS, self.number)
        ends = self.word(ends, b" marks")
        self.ends = self.word(ends, b" -") | self.several(ends, 1, MOST_MARKS, self.number)

    def then(self, states, letters):
        """One new state, to which each of these letters leads from these states."""
        self.arrows.append({})
        for state in states:
            for letter in letters:
                self.arrows[state].setdefault(letter, set()).add(len(self.arrows) - 1)
        return {len(self.arrows) - 1}

    def word(self, states, word):
        """The states behind a word."""
        for letter in word:
            states = self.then(states, [letter])
        return states

    def small(self, states):
        """The states behind a number from 0 to 99 without leading zeros."""
        first = self.then(states, b"123456789")
        return self.then(states, b"0") | first | self.then(first, b"0123456789")

    def number(self, states):
        """The states behind a space and a number."""
        return self.small(self.word(states, b" "))

    def edge(self, states):
        """The states behind a space and `u-v:a`."""
        ends = self.word(self.number(states), b"-")
        return self.small(self.word(self.small(ends), b":"))

    def several(self, states, least, most, part):
        """The states behind so many parts."""
        ends = set()
        for count in range(1, most + 1):
            states = part(states)
            ends |= states if count >= least else set()
        return ends

    def place(self, text):
        """How long the longest prefix is that a text of the grammar begins with, or None if the text is one."""
        states = {0}
        for place, letter in enumerate(text):
            states = {after for state in states for after in self.arrows[state].get(letter, ())}
            if not states:
                return place
        return None if states & self.ends else len(text)


GRAMMAR = Grammar()


def read(text, rank, degree, marks):
    """The tree of a text, or Refused."""
    place = GRAMMAR.place(text)
    if place is not None:
        raise Refused(f"1 Syntax {place}")
    edges, colours, marked = re.split(" colours | marks ", text.decode())
    pairs = [tuple(map(int, re.split("[-:]", edge))) for edge in edges.split(" ")[1:]]
    tree = Tree([(u, v) for u, v, _ in pairs], tuple(a for _, _, a in pairs), list(map(int, colours.split(" "))),
                [] if marked == "-" else list(map(int, marked.split(" "))))
    if not is_decorated(tree, rank, degree, marks):
        raise Refused("2 NotOfShape")
    return tree


def is_decorated(tree, rank, degree, marks):
    """Whether it is a decorated tree of the shape."""
    vertices = len(tree.colours)
    return (vertices <= degree + 1 and is_tree(tree.edges, vertices)
            and all(colour <= rank for colour in tree.colours)
            and all(tree.colours[u] != tree.colours[v] for u, v in tree.edges)
            and all(a >= 1 for a in tree.degrees) and sum(tree.degrees) == degree
            and len(tree.marks) == marks and all(vertex < vertices for vertex in tree.marks))


def is_tree(edges, vertices):
    """Whether edges, in increasing order, join so many vertices without a circle."""
    if edges != sorted(set(edges)) or len(edges) != vertices - 1 or any(not u < v < vertices for u, v in edges):
        return False
    reached = {0}
    for _ in edges:
        reached |= {end for edge in edges if reached & set(edge) for end in edge}
    return len(reached) == vertices


def number_of(tree, rank, degree, marks):
    """The number of a decorated tree."""
    vertices = len(tree.colours)
    lists = degree_lists(vertices - 1, degree)
    bases = [vertices] * (vertices - 2) + [rank + 1] + [rank] * (vertices - 1) + [len(lists)] + [vertices] * marks
    digits = [*encoded(vertices, tree.edges), *colour_digits(tree), lists.index(tree.degrees), *tree.marks]
    number = 0
    for base, digit in zip(bases, digits):
        number = number * base + digit
    return number + sum(count_with(fewer, rank, degree, marks) for fewer in range(2, vertices))


def encoded(vertices, edges):
    """The Prüfer word of a tree: the neighbour of the smallest leaf, again and again."""
    edges, word = set(edges), []
    for _ in range(vertices - 2):
        ends = [end for edge in edges for end in edge]
        leaf = min(vertex for vertex in ends if ends.count(vertex) == 1)
        edge = next(edge for edge in edges if leaf in edge)
        edges.remove(edge)
        word.append(edge[0] + edge[1] - leaf)
    return word


def colour_digits(tree):
    """The colour of vertex 0, and of each other its index among those that its neighbour towards 0 leaves."""
    digits = {0: tree.colours[0]}
    while len(digits) < len(tree.colours):
        for u, v in tree.edges:
            for near, far in ((u, v), (v, u)):
                if near in digits and far not in digits:
                    digits[far] = tree.colours[far] - (tree.colours[far] > tree.colours[near])
    return [digits[vertex] for vertex in range(len(tree.colours))]
