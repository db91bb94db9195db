"""The algebra of classes, and texts as classes."""

import numbers
import unittest
from fractions import Fraction

from locus import Classes, contact, hypersurface, incidence, jet, mark, parse, psi, r1


class Algebra(unittest.TestCase):
    def test_products_are_expanded_and_equal_terms_joined(self):
        self.assertEqual((mark(1) + psi(1)) * (mark(1) - psi(1)), mark(1) ** 2 - psi(1) ** 2)
        self.assertEqual((mark(1) + 1) ** 3, mark(1) ** 3 + 3 * mark(1) ** 2 + 3 * mark(1) + 1)
        self.assertEqual(incidence(2) - incidence(2), 0)
        self.assertEqual(len(incidence(2) - incidence(2)), 0)

    def test_numbers_stand_on_both_sides(self):
        self.assertEqual(2 * mark(1) + 1, 1 + mark(1) * 2)
        self.assertEqual(1 - mark(1), -(mark(1) - 1))
        self.assertEqual(mark(1) / 3, mark(1) * Fraction(1, 3))

    def test_whole_numbers_and_fractions_of_other_packages_are_taken(self):
        class Whole:
            """As an integer of Sage or NumPy."""

            def __init__(self, value):
                self.value = value

            def __index__(self):
                return self.value

        class Ratio:
            """As a rational of Sage, whose numerator is a method."""

            def numerator(self):
                return 2

            def denominator(self):
                return 3

        numbers.Rational.register(Ratio)
        two = Whole(2)
        self.assertEqual(incidence(two) ** two * two, 2 * incidence(2) ** 2)
        self.assertEqual(two * mark(1) - two, 2 * mark(1) - 2)
        self.assertEqual(mark(1) / two + Ratio(), mark(1) / 2 + Fraction(2, 3))
        self.assertEqual(jet(Whole(1), two, two), jet(1, 2, 2))

    def test_equal_classes_have_equal_hashes(self):
        self.assertEqual(len({mark(1) * psi(1), psi(1) * mark(1)}), 1)

    def test_a_jet_is_the_product_of_its_steps(self):
        self.assertEqual(jet(mark=2, b=3, order=1), 3 * mark(2))
        self.assertEqual(jet(mark=1, b=3, order=2), 3 * mark(1) * (3 * mark(1) + psi(1)))
        self.assertEqual(jet(1, 4, 3), 4 * mark(1) * (4 * mark(1) + psi(1)) * (4 * mark(1) + 2 * psi(1)))

    def test_degrees_are_those_of_the_formats(self):
        self.assertEqual(hypersurface(5).degrees(2), (11,))
        self.assertEqual(incidence(4).degrees(3), (3,))
        self.assertEqual(r1(3).degrees(2), (5,))
        self.assertEqual(contact().degrees(3), (5,))
        self.assertEqual((mark(1) * psi(1) + mark(2)).degrees(7), (1, 2))

    def test_parameters_out_of_their_limits_are_refused(self):
        for make, values in (
            (hypersurface, (0, 65)), (incidence, (1, 13)), (mark, (0, 13)), (r1, (0, 65)), (psi, (0, 13))
        ):
            for value in values:
                with self.subTest(make=make.__name__, value=value), self.assertRaises(ValueError):
                    make(value)
        with self.assertRaises(TypeError):
            hypersurface(2.5)
        with self.assertRaises(ValueError):
            jet(1, 3, 0)
        with self.assertRaises(TypeError):
            mark(1) + 0.5


class Texts(unittest.TestCase):
    def test_a_text_is_read_as_the_classes_it_names(self):
        self.assertEqual(parse("incidence(2)^5"), incidence(2) ** 5)
        self.assertEqual(parse("2*incidence(2)*mark(1)**2 - incidence(2)^2*mark(1)/3"),
                         2 * incidence(2) * mark(1) ** 2 - incidence(2) ** 2 * mark(1) / 3)
        self.assertEqual(parse("contact * contact()"), contact() ** 2)
        self.assertEqual(parse("jet(mark=1, b=3, order=2)"), jet(1, 3, 2))
        self.assertEqual(parse("-(1 - 3)/4"), Classes.of(Fraction(1, 2)))

    def test_what_is_printed_reads_as_itself(self):
        for classes in (jet(1, 3, 4) - contact() / 7, Classes.of(0), 1 - r1(3) * hypersurface(2) ** 2):
            self.assertEqual(parse(str(classes)), classes)

    def test_other_texts_are_refused(self):
        for text in ("", "hypersurfaces(5)", "mark", "mark(1", "mark(1.5)", "mark()", "mark(1, 2)", "mark(psi(1))",
                     "mark(1)/0", "mark(1)/psi(1)", "mark(1)^psi(1)", "mark(1)^-1", "__import__('os')", "[1]"):
            with self.subTest(text=text), self.assertRaises(ValueError):
                parse(text)
