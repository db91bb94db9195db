"""Reads a problem, or says which rule its text breaks first: the section 'Problem files' of docs/FORMATS.md."""

import math
from dataclasses import dataclass

from . import toml, trees

LONGEST = 1_048_576
LARGEST = 2**62 - 1
BILLION = 1_000_000_000
MOST_TERMS = 32

TOP_LIMITS = {
    "rank": (1, 12), "degree": (1, 10), "marks": (0, 12), "numerator_bound": (1, LARGEST),
    "denominator_bound": (1, LARGEST), "weights": (-BILLION, BILLION), "moduli": (1, 8), "integral": (1, 8),
    "term": (1, MOST_TERMS),
}

PARAMETERS = {"hypersurface": "b", "incidence": "q", "mark": "mark", "r1": "k", "contact": None, "psi": "mark"}


class Refused(Exception):
    """A text is no problem: the number and the name of the rule that it breaks, and the details."""

    def __init__(self, number, name, *details):
        super().__init__()
        self.told = " ".join([str(number), name, *(str(detail) for detail in details)])


@dataclass
class Term:
    """A coefficient, and classes, each with its kind, its parameter and its power."""

    coefficient: int
    classes: list


@dataclass
class Problem:
    """What a text asks for."""

    rank: int
    degree: int
    marks: int
    weights: list
    moduli: list
    numerator_bound: int
    denominator_bound: int
    integrals: list

    def count(self):
        """How many decorated trees there are."""
        return trees.count(self.rank, self.degree, self.marks)

    def dimension(self):
        """The dimension of the space of stable maps."""
        return (self.rank + 1) * self.degree + self.rank - 3 + self.marks

    def degree_of(self, term):
        """The degree of a term."""
        return sum(self.class_degree(kind, parameter) * power for kind, parameter, power in term.classes)

    def class_degree(self, kind, parameter):
        """The degree of a class."""
        if kind == "hypersurface":
            return parameter * self.degree + 1
        if kind == "r1":
            return parameter * self.degree - 1
        if kind == "contact":
            return 2 * self.degree - 1
        return parameter - 1 if kind == "incidence" else 1


def read(text):
    """The problem that the bytes stand for, or Refused."""
    if len(text) > LONGEST:
        raise Refused(1, "TooLong")
    try:
        table = toml.read(text)
    except toml.NotToml:
        raise Refused(2, "NotToml") from None
    version = read_version(table)
    found = read_top(table, version)
    check_numbers(found)
    integrals = read_integrals(found, version)
    problem = Problem(*(found[key] for key in ("rank", "degree", "marks", "weights", "moduli", "numerator_bound",
                                               "denominator_bound")), integrals)
    check_sums(problem)
    return problem


def read_version(table):
    """The version of the format."""
    version = wanted(table, "version", "top")
    check_type(is_integer(version), "top", "version")
    if version not in (1, 2):
        raise Refused(6, "BadVersion", version)
    return version


def read_top(table, version):
    """The values of the keys at the top."""
    content = "term" if version == 1 else "integral"
    numbers = ("rank", "degree", "marks")
    keys = (*numbers, "weights", "moduli", "numerator_bound", "denominator_bound", content)
    for key in keys:
        if key != "marks":
            wanted(table, key, "top")
    check_keys(table, ("version", *keys), "top")
    found = {"marks": 0} | {key: table[key] for key in keys if key in table}
    for key in keys:
        check_type(is_of_type(key, found[key]), "top", key)
    for key in keys:
        check_limits(all_within(key, found[key]), "top", key)
    return found


def is_of_type(key, value):
    """Whether the value of a key at the top is of its type."""
    if key in ("weights", "moduli"):
        return isinstance(value, list) and all(is_integer(element) for element in value)
    if key in ("term", "integral"):
        return are_tables(value)
    return is_integer(value)


def all_within(key, value):
    """Whether the value of a key at the top is within its limits."""
    if key == "weights":
        return all(is_within(key, weight) for weight in value)
    return is_within(key, len(value) if isinstance(value, list) else value)


def is_within(key, number):
    """Whether a number is within the limits of a key."""
    least, most = TOP_LIMITS[key]
    return least <= number <= most


def check_numbers(found):
    """The rules 8 to 12, on weights, moduli and bounds."""
    weights, moduli = found["weights"], found["moduli"]
    if len(weights) != found["rank"] + 1:
        raise Refused(8, "WeightCount", len(weights), found["rank"] + 1)
    for index, modulus in enumerate(moduli):
        why = why_refused(modulus)
        if why:
            raise Refused(9, "ModulusRefused", index, why)
    for first in range(len(moduli)):
        for second in range(first + 1, len(moduli)):
            if math.gcd(moduli[first], moduli[second]) > 1:
                raise Refused(10, "NotCoprime", first, second)
    if math.prod(moduli) >= 2**126:
        raise Refused(11, "ProductTooLarge")
    if 2 * found["numerator_bound"] * found["denominator_bound"] >= math.prod(moduli):
        raise Refused(12, "BoundsTooWide")


def why_refused(modulus):
    """Why a number is no modulus."""
    if modulus < 0:
        return "TooSmall"
    if modulus % 2 == 0:
        return "Even"
    if modulus < 3:
        return "TooSmall"
    return "TooLarge" if modulus > LARGEST else None


def read_integrals(found, version):
    """The integrals, each a list of terms."""
    if version == 1:
        return [[read_term(table, index, found["marks"], version) for index, table in enumerate(found["term"])]]
    integrals = []
    for index, table in enumerate(found["integral"]):
        place = f"integral {index}"
        earlier = sum(len(terms) for terms in integrals)
        terms = wanted(table, "term", place)
        check_keys(table, ("term",), place)
        check_type(are_tables(terms), place, "term")
        check_limits(1 <= len(terms) <= MOST_TERMS - earlier, place, "term")
        integrals.append([read_term(term, earlier + number, found["marks"], version)
                          for number, term in enumerate(terms)])
    return integrals


def read_term(table, index, marks, version):
    """A term with its classes."""
    place = f"term {index}"
    classes = wanted(table, "classes", place)
    check_keys(table, ("coefficient", "classes"), place)
    coefficient = table.get("coefficient", 1)
    check_type(is_integer(coefficient), place, "coefficient")
    check_type(are_tables(classes), place, "classes")
    check_limits(-BILLION <= coefficient <= BILLION, place, "coefficient")
    check_limits(len(classes) <= 16, place, "classes")
    return Term(coefficient, [read_class(table, f"{index} {number}", marks, version)
                              for number, table in enumerate(classes)])


def read_class(table, index, marks, version):
    """The kind of a class, its parameter and its power."""
    place = f"class {index}"
    kind = wanted(table, "kind", place)
    check_type(isinstance(kind, str) and not isinstance(kind, toml.Moment), place, "kind")
    if kind not in PARAMETERS or (kind == "psi" and version == 1):
        raise Refused(13, "UnknownKind", index)
    name = PARAMETERS[kind]
    parameter = wanted(table, name, place) if name else None
    check_keys(table, ("kind", "power", name), place)
    power = table.get("power", 1)
    check_type(name is None or is_integer(parameter), place, name)
    check_type(is_integer(power), place, "power")
    least, most = {"b": (1, 64), "q": (2, 12), "k": (1, 64), "mark": (1, marks), None: (0, 0)}[name]
    check_limits(name is None or least <= parameter <= most, place, name)
    check_limits(1 <= power <= 64, place, "power")
    return kind, parameter, power


def check_sums(problem):
    """The rules 14 and 15, on the degrees of terms and the number of trees."""
    terms = [term for integral in problem.integrals for term in integral]
    for index, term in enumerate(terms):
        if problem.degree_of(term) != problem.dimension():
            raise Refused(14, "WrongDegree", index, problem.degree_of(term), problem.dimension())
    if problem.count() > 2**40:
        raise Refused(15, "TooManyTrees")


def wanted(table, key, place):
    """The value of a key that has to be there."""
    if key not in table:
        raise Refused(3, "MissingKey", place, key)
    return table[key]


def check_keys(table, known, place):
    """Refuses a key that is not one of these; the least in the order of bytes is told."""
    unknown = [key.encode() for key in table if key not in known]
    if unknown:
        shown = bytes(byte if 32 <= byte <= 126 else ord("?") for byte in min(unknown)[:40])
        raise Refused(4, "UnknownKey", place, shown.decode())


def check_type(is_right, place, key):
    """Refuses a value of another type."""
    if not is_right:
        raise Refused(5, "WrongType", place, key)


def check_limits(is_right, place, key):
    """Refuses a number or a length that is out of its limits."""
    if not is_right:
        raise Refused(7, "OutOfLimits", place, key)


def is_integer(value):
    """Whether a value is an integer, and no boolean."""
    return isinstance(value, int) and not isinstance(value, bool)


def are_tables(value):
    """Whether a value is an array of tables."""
    return isinstance(value, list) and all(isinstance(element, dict) for element in value)
