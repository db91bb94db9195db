"""What a call of the program has to print and how it has to end, by docs/FORMATS.md.

    python3 tests/reader/program.py ARGUMENT ..      does what the program does with these arguments, slowly
"""

import functools
import pathlib
import re
import sys
from dataclasses import dataclass

if __package__ in (None, ""):
    sys.path.insert(0, str(pathlib.Path(__file__).resolve().parent.parent))


from reader import checkpoint, problem as problems, sums, trees  # noqa: E402

MOST_TREES = 2**40
NUMBER = re.compile(rb"\+?[0-9]+")
OPTIONS = {
    "run": (b"--workers", b"--budget", b"--stop-file"),
    "resume": (b"--workers", b"--budget", b"--stop-file"),
    "make": (),
    "soak": (b"--workers",),
    "trees": (b"--workers",),
    "rank": (),
    "unrank": (),
}
# How many positional arguments a command has, if not one.
WORDS = {"trees": 3, "rank": 2, "unrank": 2}
MOST_LISTED = 4096
LIMITS = {b"--workers": (1, 64), b"--budget": (1, MOST_TREES), "number": (0, 2**32 - 1), "tree": (0, MOST_TREES)}

# Stands for a text of which docs/FORMATS.md says no more than that it is there.
SOME_TEXT = None


@dataclass
class Ending:
    """The status of a call, and what it printed; SOME_TEXT on standard error stands for clap's text."""

    status: int
    out: bytes = b""
    err: bytes = b""


@dataclass
class Request:
    """What arguments ask for."""

    command: str
    plain: bytes
    more: list
    options: dict

    def number(self, name, otherwise):
        """The number of an option."""
        return int(self.options.get(name, otherwise))


class NotTaken(Exception):
    """The arguments are refused."""


def ends(arguments, folder="."):
    """How a call with these arguments ends; the first is the program's name."""
    words = arguments[1:]
    if not all(is_utf_8(word) for word in arguments) or any(is_refused_at_once(word) for word in words):
        return Ending(2, err=b"words refused\n")
    try:
        request = asked(words)
    except NotTaken:
        return Ending(2, err=SOME_TEXT)
    if request.command == "make":
        return Ending(0, out=SOME_TEXT)
    if request.command == "soak":
        return soaked(int(request.plain))
    return of_file(request, pathlib.Path(folder))


@functools.cache
def soaked(number):
    """How `soak` of a number ends; its sums are made once, since few numbers are asked for and each has many trees."""
    return summed(generated(number), MOST_TREES, b"soak %d\n" % number)


def is_utf_8(word):
    """Whether an argument is valid UTF-8."""
    try:
        word.decode("utf-8")
    except UnicodeDecodeError:
        return False
    return True


def is_refused_at_once(word):
    """Whether an argument is one of those for which the line `words refused` is printed."""
    return word in (b"", b"-", b"--") or (word.startswith(b"--") and word.find(b"=") == len(word) - 1)


def asked(words):
    """What the arguments after the program's name ask for, or NotTaken."""
    if not words or words[0].decode() not in OPTIONS:
        raise NotTaken
    command = words[0].decode()
    plain, options = split_words(words[1:], OPTIONS[command])
    if len(plain) != WORDS.get(command, 1):
        raise NotTaken
    for name, value in options.items():
        if name in LIMITS:
            check_number(value, *LIMITS[name])
    if command in ("make", "soak"):
        check_number(plain[0], *LIMITS["number"])
    if command in ("trees", "unrank"):
        for word in plain[1:]:
            check_number(word, *LIMITS["tree"])
    return Request(command, plain[0], plain[1:], options)


def split_words(words, known):
    """The positional arguments, and the values of the options."""
    plain, options = [], {}
    words = iter(words)
    for word in words:
        if not word.startswith(b"-"):
            plain.append(word)
            continue
        name, equals, value = word.partition(b"=")
        if not equals:
            value = next(words, b"-")
            if value.startswith(b"-"):
                raise NotTaken
        if name not in known or name in options:
            raise NotTaken
        options[name] = value
    return plain, options


def check_number(text, least, most):
    """Refuses a text that is no number within these limits."""
    digits = text.removeprefix(b"+").lstrip(b"0") or b"0"
    if not NUMBER.fullmatch(text) or len(digits) > 20 or not least <= int(digits) <= most:
        raise NotTaken


def of_file(request, folder):
    """How a call ends that is of a file."""
    try:
        text = (folder / request.plain.decode()).read_bytes()
    except (OSError, ValueError):
        return Ending(6, err=b"read fault\n")
    try:
        state = checkpoint.read(text) if request.command == "resume" else checkpoint.begin(text)
    except problems.Refused as refusal:
        return Ending(3, err=f"problem refused {refusal.told}\n".encode())
    except checkpoint.Refused as refusal:
        return Ending(8, err=f"checkpoint refused {refusal.told}\n".encode())
    if request.command == "rank":
        return ranked(state.problem, *request.more)
    if request.command == "unrank":
        return unranked(state.problem, *map(int, request.more))
    if request.command == "trees":
        return listed(state.problem, *map(int, request.more))
    return summed(state, request.number(b"--budget", MOST_TREES), b"")


def ranked(problem, text):
    """How `rank` ends."""
    shape = problem.rank, problem.degree, problem.marks
    try:
        tree = trees.read(text, *shape)
    except trees.Refused as refusal:
        return Ending(11, err=f"tree refused {refusal.told}\n".encode())
    return Ending(0, out=b"number %d\n" % trees.number_of(tree, *shape))


def unranked(problem, number):
    """How `unrank` ends."""
    if number >= problem.count():
        return Ending(10, err=b"range refused %d\n" % problem.count())
    tree = trees.tree_of(number, problem.rank, problem.degree, problem.marks)
    return Ending(0, out=tree.text().encode() + b"\n")


def listed(problem, low, high):
    """How `trees` ends."""
    if low >= high or high > problem.count() or high - low > MOST_LISTED:
        return Ending(10, err=b"range refused %d\n" % problem.count())
    moduli = [sums.SumModulo(problem, modulus) for modulus in problem.moduli]
    lines = []
    for number in range(low, high):
        tree = trees.tree_of(number, problem.rank, problem.degree, problem.marks)
        lines += [f"tree {number}", tree.text()]
        for integral, terms in enumerate(problem.integrals):
            lines += [f"integral {integral}"] * (len(problem.integrals) > 1)
            for modulo in moduli:
                residue = modulo.contribution(terms, tree)
                lines.append(f"residue {modulo.modulus} {'none' if residue is None else residue}")
    return Ending(0, out="".join(line + "\n" for line in lines).encode())


def summed(state, budget, head):
    """How a sum ends that goes on from a state, of at most so many trees."""
    end = min(state.problem.count(), state.next + budget)
    residues, bad = sums.add_trees(state.problem, state.residues, state.next, end)
    if bad:
        number, modulus, tree = bad
        return Ending(4, out=head + f"no inverse\ntree {number}\nmodulus {modulus}\n{tree.text()}\n".encode())
    if end < state.problem.count():
        return Ending(5, out=checkpoint.write(checkpoint.State(state.source, state.problem, end, residues)))
    return done(state.problem, residues, head)


def done(problem, residues, head):
    """The text of a sum that is done."""
    lines, status, each = [f"trees {problem.count()}"], 0, len(problem.moduli)
    for integral in range(len(problem.integrals)):
        mine = residues[integral * each : (integral + 1) * each]
        lines += [f"integral {integral}"] * (len(problem.integrals) > 1)
        lines += [f"residue {modulus} {residue}" for modulus, residue in zip(problem.moduli, mine)]
        fraction = sums.fraction_of(problem, mine)
        status = 1 if fraction is None else status
        lines.append(f"fraction {fraction.numerator}/{fraction.denominator}" if fraction is not None
                     else "fraction none")
    return Ending(status, out=head + "".join(line + "\n" for line in lines).encode())


def generated(number):
    """The first state of the problem that is generated for a number."""
    base = 10 + number % 90
    term = problems.Term(1, [("hypersurface", 5, 1)])
    problem = problems.Problem(4, 3 + number % 2, 0, [base**power for power in range(5)],
                               [1_000_000_007, 1_000_000_009], 20_000_000_000_000, 1000, [[term]])
    return checkpoint.State(b"", problem, 0, [0, 0])


def main():
    """Ends as the program does."""
    ending = ends([b"locus", *(word.encode(errors="surrogateescape") for word in sys.argv[1:])])
    sys.stdout.buffer.write(b"(a problem)\n" if ending.out is SOME_TEXT else ending.out)
    sys.stderr.buffer.write(b"(clap's text)\n" if ending.err is SOME_TEXT else ending.err)
    sys.exit(ending.status)


if __name__ == "__main__":
    main()
