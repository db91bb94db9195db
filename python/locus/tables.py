"""Tables of numbers over the degrees, as rows, plain text or Markdown."""

from __future__ import annotations

from dataclasses import dataclass
from fractions import Fraction
from operator import index
from typing import Any, Callable, Iterable, Iterator, List, Mapping, Sequence, SupportsIndex, Tuple, Union

from .computation import Integrand, compute

Column = Union[Integrand, Callable[[int], Integrand]]
"""Classes, or a call that gives the classes for each degree."""


@dataclass(frozen=True)
class Table:
    """A table: the names of its columns, the first of which is `degree`, and its rows. A loop goes through its rows; it
    prints as plain text, and Jupyter shows it as a table."""

    names: Tuple[str, ...]
    rows: Tuple[Tuple[Fraction, ...], ...]

    def __iter__(self) -> Iterator[Tuple[Fraction, ...]]:
        return iter(self.rows)

    def __len__(self) -> int:
        return len(self.rows)

    def column(self, name: str) -> List[Fraction]:
        """The numbers of a column, from the first row to the last. ValueError if there is no column of this name."""
        place = self.names.index(name)
        return [row[place] for row in self.rows]

    def __str__(self) -> str:
        lines = [self.names, *(tuple(map(str, row)) for row in self.rows)]
        widths = [max(len(line[place]) for line in lines) for place in range(len(self.names))]
        return "\n".join("  ".join(cell.rjust(width) for cell, width in zip(line, widths)) for line in lines)

    def markdown(self) -> str:
        """The table in Markdown."""
        lines = [self.names, ["---:"] * len(self.names), *(map(str, row) for row in self.rows)]
        return "\n".join(f"| {' | '.join(line)} |" for line in lines)

    def _repr_markdown_(self) -> str:
        return self.markdown()


def table(
    rank: int, degrees: Iterable[SupportsIndex], classes: Union[Column, Mapping[str, Column]], **options: Any
) -> Table:
    """A table with a row for each degree and a column for each of the classes, with the options and the errors of
    `compute`.

    `classes` are classes, or a call that gives them for each degree, or several of these by the names of their columns,
    which share one walk over the trees.

    >>> print(table(2, range(1, 5), lambda d: incidence(2) ** (3 * d - 1)))
    degree  number
         1       1
         2       1
         3      12
         4     620
    """
    columns: Mapping[str, Column] = classes if isinstance(classes, Mapping) else {"number": classes}
    rows: List[Tuple[Fraction, ...]] = []
    for degree in map(index, degrees):
        integrands = [column(degree) if callable(column) else column for column in columns.values()]
        rows.append((Fraction(degree), *compute(rank, degree, integrands, **options).values))
    return Table(("degree", *columns), tuple(rows))


def without_covers(numbers: Sequence[Fraction], exponent: int = 3) -> List[Fraction]:
    """The numbers n_1, n_2, .. with N_d = the sum over k that divide d of n_(d/k) / k^exponent, for N_1, N_2, ..

    With the exponent 3 these are the instanton numbers of a Calabi–Yau threefold, whose curves are met k-fold with the
    weight 1/k^3 (Aspinwall and Morrison 1993). The list begins with degree 1 and leaves out none.

    >>> without_covers([Fraction(2875), Fraction(4876875, 8)])
    [Fraction(2875, 1), Fraction(609250, 1)]
    """
    found: List[Fraction] = []
    for degree, number in enumerate(numbers, 1):
        covers = (found[degree // k - 1] / k**exponent for k in range(2, degree + 1) if degree % k == 0)
        found.append(number - sum(covers, Fraction(0)))
    return found
