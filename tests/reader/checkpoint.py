"""Reads and writes checkpoints, or says why a text is none: the section 'Checkpoints' of docs/FORMATS.md."""

import hashlib
import re
from dataclasses import dataclass

from . import problem as problems

LONGEST = 1_052_672
LAST_LINE = re.compile(rb"sha256 ([0-9a-f]{64})\n")
DECIMAL = rb"(0|[1-9][0-9]*)"
FIRST_LINE = re.compile(rb"locus-checkpoint " + DECIMAL + rb"\n")
LENGTH_LINE = re.compile(rb"problem " + DECIMAL + rb"\n")
REST = re.compile(rb"\nnext " + DECIMAL + rb"\n((?:residues(?: (?:0|[1-9][0-9]*))+\n)+)")


class Refused(Exception):
    """A text is no checkpoint: the number and the name of the refusal, and the details."""

    def __init__(self, number, name, *details):
        super().__init__()
        self.told = " ".join([str(number), name, *(str(detail) for detail in details)])


@dataclass
class State:
    """How far the sum of a problem has come."""

    source: bytes
    problem: problems.Problem
    next: int
    residues: list


def begin(source):
    """The first state of a problem's text, or the refusal of the problem."""
    problem = problems.read(source)
    return State(source, problem, 0, [0] * len(problem.integrals) * len(problem.moduli))


def write(state):
    """The text of a state."""
    each = len(state.problem.moduli)
    rows = [state.residues[at : at + each] for at in range(0, len(state.residues), each)]
    return write_parts(2, state.source, state.next, rows)


def write_parts(version, source, number, rows):
    """The text with these parts and their digest."""
    lines = b"".join(b"residues " + b" ".join(b"%d" % residue for residue in row) + b"\n" for row in rows)
    head = b"locus-checkpoint %d\nproblem %d\n" % (version, len(source))
    return sealed(head + source + b"\nnext %d\n" % number + lines)


def sealed(body):
    """A body with the line of its digest."""
    return body + b"sha256 " + hashlib.sha256(body).hexdigest().encode() + b"\n"


def read(text):
    """The state whose text the bytes are, or Refused."""
    version, rest = read_frame(text)
    source, number, rows = read_body(version, rest)
    try:
        problem = problems.read(source)
    except problems.Refused as refusal:
        raise Refused(6, "ProblemRefused", refusal.told) from None
    if number > problem.count():
        raise Refused(7, "NextTooLarge", number, problem.count())
    check_rows(problem, rows)
    return State(source, problem, number, [residue for row in rows for residue in row])


def read_frame(text):
    """The version of a checkpoint, and what stands between its first line and its last."""
    if len(text) > LONGEST:
        raise Refused(1, "TooLong")
    kept = LAST_LINE.fullmatch(text[-72:])
    body = text[:-72]
    first = FIRST_LINE.match(body)
    if not kept or not first or int_of(first.group(1)) is None:
        raise Refused(2, "NotCheckpoint")
    computed = hashlib.sha256(body).hexdigest()
    if kept.group(1).decode() != computed:
        raise Refused(3, "Damaged", kept.group(1).decode(), computed)
    version = int_of(first.group(1))
    if version not in (1, 2):
        raise Refused(4, "BadVersion", version)
    return version, body[first.end() :]


def read_body(version, body):
    """The source, the next number and the rows of residues."""
    length = LENGTH_LINE.match(body)
    end = int_of(length.group(1)) if length else None
    if end is None or end > len(body):
        raise Refused(5, "BadBody")
    source, rest = body[length.end() : length.end() + end], body[length.end() + end :]
    parts = REST.fullmatch(rest)
    if len(source) != end or not parts:
        raise Refused(5, "BadBody")
    rows = [[int_of(word) for word in line.split(b" ")[1:]] for line in parts.group(2).split(b"\n")[:-1]]
    number = int_of(parts.group(1))
    if number is None or any(None in row for row in rows) or (version == 1 and len(rows) != 1):
        raise Refused(5, "BadBody")
    return source, number, rows


def check_rows(problem, rows):
    """The refusals of residues, on how many there are and how large they are."""
    if len(rows) != len(problem.integrals):
        raise Refused(10, "LineCount", len(rows), len(problem.integrals))
    for row in rows:
        if len(row) != len(problem.moduli):
            raise Refused(8, "ResidueCount", len(row), len(problem.moduli))
    for place, residue in enumerate(residue for row in rows for residue in row):
        if residue >= problem.moduli[place % len(problem.moduli)]:
            raise Refused(9, "ResidueRefused", place)


def int_of(decimal):
    """The number of a decimal, or None if it is 2^64 or above."""
    if len(decimal) > 20:
        return None
    return int(decimal) if int(decimal) < 2**64 else None
