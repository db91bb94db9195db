"""Numbers of the literature from the built program, and how they are put together."""

import unittest
from fractions import Fraction
from unittest import mock

import locus
from locus import compute, gw, hypersurface, incidence, jet, mark, psi, r1, tangent
from locus import choices


def lines_on_a_hypersurface(rank):
    """The number of lines on a general hypersurface of degree 2 rank - 3, by Schubert calculus: the coefficient of
    x^rank y^(rank - 1) in (x - y) times the product of i x + (2 rank - 3 - i) y for i from 0 to 2 rank - 3."""
    top = 2 * rank - 3
    powers = [1]  # the coefficient of each power of x, for forms in x and y
    for i in range(top + 1):
        powers = [i * before + (top - i) * here for before, here in zip([0] + powers, powers + [0])]
    return powers[rank - 1] - powers[rank]


class Literature(unittest.TestCase):
    def test_rational_curves_on_a_quintic_threefold(self):
        numbers = [gw(4, degree, "hypersurface(5)") for degree in (1, 2, 3)]
        self.assertEqual(numbers[1], Fraction(4876875, 8))
        self.assertEqual(locus.without_covers(numbers), [2875, 609250, 317206375])

    def test_rational_plane_curves_through_points(self):
        self.assertEqual([gw(2, d, incidence(2) ** (3 * d - 1)) for d in (1, 2, 3, 4)], [1, 1, 12, 620])

    def test_local_plane_and_covers_of_a_line(self):
        self.assertEqual([gw(2, d, r1(3)) for d in (1, 2, 3)], [3, Fraction(-45, 8), Fraction(244, 9)])
        self.assertEqual([gw(1, d, r1(1) ** 2) for d in (1, 2, 3)], [Fraction(1, d**3) for d in (1, 2, 3)])

    def test_flexes_of_plane_curves(self):
        self.assertEqual([gw(2, 1, jet(1, b, 3)) for b in (3, 4, 5)], [9, 24, 45])

    def test_a_line_of_degree_one_on_the_line_is_alone(self):
        self.assertEqual(gw(1, 1, 1), 1)

    def test_descendants_of_a_point_on_the_line(self):
        self.assertEqual(gw(1, 2, mark(1) * psi(1) ** 2), Fraction(1, 4))


class Tangency(unittest.TestCase):
    def test_conics_tangent_to_lines(self):
        numbers = [tangent(2, 2, [1] * lines, incidence(2) ** (5 - lines)) for lines in range(6)]
        self.assertEqual(numbers, [1, 2, 4, 4, 2, 1])  # Chasles 1864

    def test_conics_tangent_to_five_conics(self):
        self.assertEqual(tangent(2, 2, [2] * 5), 3264)  # Chasles 1864

    def test_rational_cubics_tangent_to_lines(self):
        self.assertEqual([tangent(2, 3, [1] * lines, incidence(2) ** (8 - lines)) for lines in (1, 2)], [36, 100])

    def test_lines_tangent_to_four_quadrics(self):
        self.assertEqual(tangent(3, 1, [2, 2, 2, 2]), 32)

    def test_lines_tangent_to_two_curves(self):
        self.assertEqual(tangent(2, 1, [3, 4]), 3 * 2 * 4 * 3)  # where the dual curves meet

    def test_the_degrees_of_hypersurfaces_are_whole_numbers_from_one_on(self):
        for degrees, error in (([2, 0], ValueError), ([-1], ValueError), ([2.5], TypeError), (["2"], TypeError)):
            with self.subTest(degrees=degrees), self.assertRaisesRegex(error, "tangent: b"):
                tangent(2, 1, degrees, incidence(2))

    def test_jets_beyond_contact_count_what_breaks_and_what_lies_in_the_hypersurface(self):
        # Order 3 with a curve of degree b, of conics through three points: 3 b (b - 1) and 3 b pairs of lines.
        self.assertEqual([gw(2, 2, jet(1, b, 3) * incidence(2) ** 3) for b in (1, 2, 3)], [3, 12, 27])
        self.assertEqual(gw(3, 1, jet(1, 3, 5)), 27 * -5)  # the lines on a cubic surface

    def test_marks_stand_beside_no_tangency(self):
        with self.assertRaises(ValueError):
            tangent(2, 2, [1], mark(1) * incidence(2) ** 3)


class Large(unittest.TestCase):
    def test_numbers_above_the_bounds_of_one_run_are_joined(self):
        self.assertEqual(lines_on_a_hypersurface(3), 27)
        for rank in (9, 10, 12):
            result = compute(rank, 1, [hypersurface(2 * rank - 3)])
            with self.subTest(rank=rank):
                self.assertEqual(result.values, (lines_on_a_hypersurface(rank),))
                self.assertEqual(result.printed, (rank == 9,))
                self.assertEqual(len(result.runs), 2 if rank == 12 else 1)

    def test_one_large_number_among_small_ones_alone_is_run_again(self):
        result = compute(12, 1, [hypersurface(21), incidence(12) ** 2])
        self.assertEqual(result.values, (lines_on_a_hypersurface(12), 1))
        self.assertEqual(result.printed, (False, True))
        self.assertEqual([len(run.answer.integrals) for run in result.runs], [2, 1])

    def test_more_than_eight_integrals_are_split(self):
        result = compute(2, 1, [k * incidence(2) ** 2 for k in range(1, 12)])
        self.assertEqual(result.values, tuple(range(1, 12)))
        self.assertEqual([len(run.answer.integrals) for run in result.runs], [8, 3])

    def test_more_than_thirty_two_terms_are_split(self):
        marks = [mark(j) for j in range(1, 9)]
        squares = sum(one * other for one in marks for other in marks)
        self.assertEqual(len(squares), 36)
        result = compute(1, 1, [squares * psi(1) ** 6], marks=8)
        self.assertEqual(len(result.runs), 2)
        # By the string and dilaton equations only H_1 H_j counts: 7 such terms, each twice, each 1.
        self.assertEqual(result.values, (14,))

    def test_a_power_above_the_limit_is_written_twice(self):
        with mock.patch("locus.problem.MOST_POWER", 3):
            self.assertEqual(gw(2, 3, incidence(2) ** 8), 12)

    def test_large_and_rational_coefficients(self):
        line = incidence(2) ** 2
        result = compute(2, 1, [10**30 * line, line / 7, 0 * line])
        self.assertEqual(result.values, (10**30, Fraction(1, 7), 0))
        self.assertEqual(result.printed[:2], (False, False))


class Choices(unittest.TestCase):
    def test_other_weights_are_taken_at_a_tree_without_inverse(self):
        chosen = choices.weights_for

        def first_in_progression(rank, degree, attempt=0):
            return list(range(1, rank + 2)) if attempt == 0 else chosen(rank, degree, attempt)

        with mock.patch.object(choices, "weights_for", first_in_progression):
            self.assertEqual(gw(2, 2, incidence(2) ** 5), 1)

    def test_given_weights_are_kept(self):
        with self.assertRaises(locus.NoInverse) as raised:
            gw(2, 2, incidence(2) ** 5, weights=[1, 2, 3])
        self.assertGreater(raised.exception.modulus, 2**61)
        self.assertTrue(raised.exception.text.startswith("edges "))

    def test_given_moduli_and_bounds_are_kept(self):
        result = compute(4, 2, ["hypersurface(5)"], moduli=[1000000007], bounds=(10_000_000, 49))
        self.assertEqual(result.values, (Fraction(4876875, 8),))
        self.assertEqual(result.runs[0].answer.integrals[0].residues, ((1000000007, 375609612),))
        with self.assertRaises(locus.NoFraction):
            gw(4, 2, "hypersurface(5)", bounds=(1000, 10))

    def test_bounds_out_of_their_limits_are_told_before_a_run(self):
        most = 2**62 - 1
        self.assertEqual(gw(3, 1, hypersurface(3), bounds=(most, 1)), 27)
        nothing = mock.patch.object(locus.Runner, "sum", side_effect=AssertionError)
        for bounds in ((0, 1), (1, 0), (most + 1, 1), (1, most + 1), (27,)):
            with self.subTest(bounds=bounds), nothing, self.assertRaises(ValueError):
                gw(3, 1, hypersurface(3), bounds=bounds)

    def test_bounds_alone_take_as_few_moduli_as_they_need(self):
        result = compute(2, 3, [incidence(2) ** 8], bounds=(10**6, 10))
        self.assertEqual(result.values, (12,))
        self.assertEqual(len(result.runs[0].answer.integrals[0].residues), 1)

    def test_a_check_agrees_or_says_that_it_does_not(self):
        result = compute(2, 3, [incidence(2) ** 8, incidence(2) ** 8 / 3], check=True)
        self.assertEqual(result.values, (12, 4))
        self.assertEqual(len(result.runs), 2)
        other = mock.patch("locus.computation.residue", lambda value, modulus: 11)
        with other, self.assertRaises(locus.Disagreement):
            gw(2, 3, incidence(2) ** 8, check=True)

    def test_a_wrong_degree_is_told_before_a_run(self):
        with self.assertRaisesRegex(ValueError, r"incidence\(2\)\^4 has degree 4, .* dimension 5"):
            gw(2, 2, incidence(2) ** 4)
        with self.assertRaises(ValueError):
            gw(13, 1, 1)
        with self.assertRaises(TypeError):
            compute(3, 1, "hypersurface(3)")

    def test_a_refusal_names_its_rule(self):
        with self.assertRaises(locus.Refused) as raised:
            gw(12, 7, incidence(2) ** 100)
        self.assertEqual((raised.exception.number, raised.exception.name), (15, "TooManyTrees"))


class Tables(unittest.TestCase):
    def test_a_table_has_a_row_for_each_degree(self):
        table = locus.table(2, range(1, 4), lambda d: incidence(2) ** (3 * d - 1))
        self.assertEqual(list(table), [(1, 1), (2, 1), (3, 12)])
        self.assertEqual(str(table), "degree  number\n     1       1\n     2       1\n     3      12")

    def test_a_table_of_several_columns_in_markdown(self):
        columns = {"lines": lambda d: incidence(2) ** (4 * d), "a point": lambda d: incidence(2) ** (4 * d - 2) * incidence(3)}
        table = locus.table(3, (1, 2), columns)
        self.assertEqual(table.column("a point"), [1, 18])
        self.assertEqual(
            table.markdown(), "| degree | lines | a point |\n| ---: | ---: | ---: |\n| 1 | 2 | 1 |\n| 2 | 92 | 18 |"
        )
