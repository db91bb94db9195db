"""Compares the numbers of the examples' cases with computations that are not localisation."""

import pathlib
import re
import unittest
from fractions import Fraction

from .classical import curves, lines, threefold

ROOT = pathlib.Path(__file__).resolve().parent.parent.parent
CLASS = re.compile(r'kind = "(\w+)"(?:, [bqk] = (\d+))?(?:, power = (\d+))?')


class Example:
    """An example without marks, each of whose integrals is one term with the coefficient 1."""

    def __init__(self, path):
        text = path.read_text(encoding="utf-8")
        self.rank, self.degree = (int(re.search(rf"^{key} = (\d+)$", text, re.M)[1]) for key in ("rank", "degree"))
        self.is_plain = not re.search(r"^marks = [1-9]|coefficient", text, re.M)
        self.integrals = [
            [(kind, int(parameter or 0), int(power or 1)) for kind, parameter, power in CLASS.findall(classes)]
            for classes in re.findall(r"classes = \[(.*?)\]", text, re.S)
        ]
        case = (ROOT / "tests" / "cases" / "examples" / f"{path.stem}.case").read_text(encoding="utf-8")
        self.printed = [Fraction(number) for number in re.findall(r"^fraction (\S+)$", case, re.M)]

    def computed(self, classes):
        """The number of a product of classes by a computation that is not localisation, or None if none is known."""
        kinds = {kind for kind, _, _ in classes}
        if kinds == {"incidence"}:
            return curves(self.rank, self.degree, [q for _, q, power in classes for _ in range(power)])
        if self.degree == 1:
            return lines(self.rank, classes)
        degrees = [b for _, b, power in classes for _ in range(power)]
        if kinds == {"hypersurface"} and sum(degrees) == self.rank + 1 and self.rank - len(degrees) == 3:
            return threefold(self.rank, degrees, self.degree)[-1]
        if classes == [("r1", 1, 2)] and self.rank == 1:
            return Fraction(1, self.degree**3)
        return None


class Gallery(unittest.TestCase):
    def test_examples_have_the_numbers_of_other_computations(self):
        compared = 0
        for path in sorted((ROOT / "examples").glob("*.toml")):
            example = Example(path)
            self.assertTrue(example.printed, path.stem)
            if example.is_plain:
                self.assertEqual(len(example.integrals), len(example.printed), path.stem)
                for classes, printed in zip(example.integrals, example.printed):
                    computed = example.computed(classes)
                    if computed is not None:
                        compared += 1
                        with self.subTest(example=path.stem, classes=classes):
                            self.assertEqual(printed, computed)
        self.assertGreaterEqual(compared, 70)

    def test_classical_numbers(self):
        self.assertEqual([curves(2, d, [2] * (3 * d - 1)) for d in range(1, 6)], [1, 1, 12, 620, 87304])
        self.assertEqual(lines(3, [("hypersurface", 3, 1)]), 27)
        self.assertEqual(threefold(4, [5], 3), [2875, Fraction(4876875, 8), Fraction(8564575000, 27)])
