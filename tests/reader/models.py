"""Makes problems by chance, and breaks rules of their format."""

import copy
import math

from . import problem as problems, trees
from .spelling import Raw

BILLION = problems.BILLION
LARGEST = problems.LARGEST
SMALL_SHAPES = [(rank, degree, marks) for rank in range(1, 5) for degree in range(1, 4) for marks in range(4)
                if trees.count(rank, degree, marks) <= 120]
MODULI = [3, 5, 7, 9, 11, 15, 101, 929, 1001, 10007, 2**31 - 1, 1_000_000_007, 2**61 - 1, 2**62 - 57, LARGEST]

# The numbers around the limits of each key.
EDGES = {
    "version": (0, 1, 2, 3, -1), "rank": (0, 1, 12, 13), "degree": (0, 1, 10, 11), "marks": (-1, 0, 12, 13),
    "weights": (-BILLION - 1, -BILLION, BILLION, BILLION + 1),
    "moduli": (-4, -3, 0, 1, 2, 3, 4, LARGEST, LARGEST + 1, LARGEST + 2),
    "numerator_bound": (-1, 0, 1, LARGEST, LARGEST + 1), "denominator_bound": (-1, 0, 1, LARGEST, LARGEST + 1),
    "coefficient": (-BILLION - 1, -BILLION, 0, BILLION, BILLION + 1), "power": (-1, 0, 1, 64, 65),
    "b": (0, 1, 64, 65), "q": (1, 2, 12, 13), "k": (0, 1, 64, 65), "mark": (-1, 0, 1, 2, 12, 13),
}
HUGE = (-(2**63), 2**63 - 1, -(2**63) - 1, 2**63, 2**64, 10**30, 2**62, -(2**62), 2**32, -(10**40))
OTHER_TYPES = (
    True, "1", "", [], {}, [1, True], [[1]], [{}], [{}, 1], {"a": 1}, Raw("1.0"), Raw("1e3"), Raw("nan"),
    Raw("1979-05-27"), Raw("07:32:00"), Raw("1979-05-27T07:32:00Z"), [1, "1"], [Raw("3.0")],
)
NAMES = (
    "delta", "", "zoo", "Zoo", "ä", "term", "integral", "mark", "b", "q", "k", "kind", "classes", "x"*39, "x"*40,
    "x"*41, "y"*39+"ä", "a b", "\x7f", "\u2028", "a\nb", "\x00", "\U0001f600", "~", "rank ", "Rank",
)
KINDS = (
    "jet", "", "Mark", "marks", "psi", "mark\x00", "r1 ", "R1", "contact", "hypersurface", "incidence", "mark", "r1",
)


def problem(chance):
    """A table that is a problem, with a small sum unless a weight is met twice."""
    rank, degree, marks = chance.choice(SMALL_SHAPES)
    version = chance.choice((1, 2))
    table = {"version": version, "rank": rank, "degree": degree}
    if marks or chance.random() < 0.5:
        table["marks"] = marks
    table["weights"] = weights(chance, rank + 1)
    table["moduli"] = moduli(chance)
    table["numerator_bound"], table["denominator_bound"] = bounds(chance, math.prod(table["moduli"]))
    shape = problems.Problem(rank, degree, marks, [], [], 0, 0, [])
    if version == 1:
        table["term"] = terms(chance, shape, version, chance.choice((1, 1, 2, 3)))
    else:
        table["integral"] = [{"term": terms(chance, shape, version, chance.choice((1, 1, 2)))}
                             for _ in range(chance.choice((1, 1, 2, 3)))]
    return table


def weights(chance, count):
    """Weights, mostly different."""
    base = chance.choice((2, 3, 10, 17))
    made = chance.choice((
        [base**power for power in range(count)],
        [chance.randint(-20, 20) for _ in range(count)],
        [chance.randint(-BILLION, BILLION) for _ in range(count)],
    ))
    chance.shuffle(made)
    return made


def moduli(chance):
    """Moduli that keep the rules."""
    made = []
    for modulus in chance.sample(MODULI, chance.choice((1, 1, 2, 3, 8))):
        if all(math.gcd(modulus, other) == 1 for other in made) and math.prod(made) * modulus < 2**126:
            made.append(modulus)
    return made


def bounds(chance, product):
    """Bounds that keep the rule, often just so."""
    half = (product - 1) // 2
    bottom = min(chance.choice((1, 1, 4, 50, LARGEST)), half)
    most = min(LARGEST, half // bottom)
    return chance.choice((most, most, max(1, most // 3), 1)), bottom


def terms(chance, shape, version, count):
    """Terms of the dimension of a shape."""
    return [term(chance, shape, version) for _ in range(count)]


def term(chance, shape, version):
    """A term of the dimension of a shape."""
    classes, left = [], shape.dimension()
    while left > 0 and len(classes) < 15:
        entry, degree = a_class(chance, shape, version)
        most = left // degree if degree else 3
        power = min(64, chance.randint(1, most)) if most else 0
        if power:
            classes.append(entry | ({"power": power} if power > 1 or chance.random() < 0.3 else {}))
            left -= power * degree
    if left:
        classes.append({"kind": "incidence", "q": 2, "power": left})
    made = {"classes": classes}
    if chance.random() < 0.4:
        made["coefficient"] = chance.choice((1, 0, -1, -3, 2, BILLION, -BILLION))
    return made


def a_class(chance, shape, version):
    """A class and its degree, without a power."""
    kinds = ["hypersurface", "incidence", "incidence", "r1", "contact"] + ["mark"] * (2 if shape.marks else 0)
    kind = chance.choice(kinds + ["psi"] * (3 if shape.marks and version == 2 else 0))
    name = problems.PARAMETERS[kind]
    value = {"b": chance.randint(1, 5), "q": chance.randint(2, 4), "k": chance.randint(1, 3),
             "mark": chance.randint(1, max(1, shape.marks)), None: None}[name]
    entry = {"kind": kind} | ({name: value} if name else {})
    return entry, shape.class_degree(kind, value)


def places(value):
    """Each table and list in a table, with each of its keys and indices."""
    found = []
    entries = value.items() if isinstance(value, dict) else enumerate(value) if isinstance(value, list) else ()
    for key, inner in entries:
        found += [(value, key), *places(inner)]
    return found


def tables(value):
    """Each table within a table, itself among them."""
    inner = value.values() if isinstance(value, dict) else value if isinstance(value, list) else ()
    found = [table for entry in inner for table in tables(entry)]
    return [value, *found] if isinstance(value, dict) else found


def break_a_rule(chance, table):
    """Changes a problem so that it breaks a rule, or is near to that."""
    chance.choice(BREAKS)(chance, table)


def leave_out(chance, table):
    """Leaves a key out."""
    within = chance.choice([table] + tables(table))
    if within:
        del within[chance.choice(list(within))]


def add_a_key(chance, table):
    """Adds a key that may be unknown."""
    within = chance.choice([table] + tables(table))
    within.setdefault(chance.choice(NAMES), another_value(chance, (1, *OTHER_TYPES)))


def another_value(chance, values):
    """One of these values, as a copy, so that nothing that is done to it later changes the values or puts it into itself."""
    return copy.deepcopy(chance.choice(values))


def change_a_type(chance, table):
    """Gives a key or an element another type."""
    within, key = chance.choice([(table, key) for key in table] + places(table))
    within[key] = another_value(chance, OTHER_TYPES)


def go_to_an_edge(chance, table):
    """Sets a number to the edge of its limits, or far beyond."""
    wanted = [(table, key) for key in table] + places(table)
    numbers = [place for place in wanted if isinstance(place[0][place[1]], int)]
    within, key = chance.choice(numbers or [(table, "rank")])
    lists = [name for name in ("weights", "moduli") if table.get(name) is within]
    name = key if isinstance(key, str) else "".join(lists)
    within[key] = chance.choice(EDGES.get(name, HUGE) if chance.random() < 0.8 else HUGE)


def change_a_length(chance, table):
    """Makes a list longer or shorter, often to the edge of its limits."""
    lists = [within[key] for within, key in places(table) if isinstance(within[key], list)]
    if not lists:
        return
    chosen = chance.choice(lists)
    length = chance.choice((0, 1, 8, 9, 16, 17, 32, 33, max(0, len(chosen) - 1), len(chosen) + 1))
    chosen[length:] = []
    while chosen and len(chosen) < length:
        chosen.append(chosen[chance.randrange(len(chosen))])


def change_a_kind(chance, table):
    """Gives a class another kind."""
    classes = [within for within in tables(table) if "kind" in within]
    if classes:
        chance.choice(classes)["kind"] = chance.choice(KINDS)


def change_moduli(chance, table):
    """Takes moduli that may have common divisors or a large product."""
    pool = (3, 9, 15, 105, 1001, LARGEST, LARGEST - 2, 2**61 - 1, 2**59 - 1, 2**58 + 1, 4, -3, 2**62)
    table["moduli"] = [chance.choice(pool) for _ in range(chance.choice((1, 2, 3, 4)))]


def change_a_bound(chance, table):
    """Puts the numerator bound just above or below what the moduli allow."""
    product, bottom = math.prod(whole(table.get("moduli"))), whole([table.get("denominator_bound")])
    table["numerator_bound"] = (product - 1) // 2 // max(1, bottom[0] if bottom else 1) + chance.choice((-1, 0, 1))


def whole(values):
    """The integers among some values."""
    return [value for value in values if type(value) is int] if isinstance(values, list) else []


BREAKS = (leave_out, add_a_key, change_a_type, change_a_type, go_to_an_edge, go_to_an_edge, go_to_an_edge,
          change_a_length, change_a_length, change_a_kind, change_moduli, change_a_bound)
