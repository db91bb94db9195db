"""Which weights, moduli and bounds are chosen, and fractions from residues."""

import unittest
from fractions import Fraction
from itertools import islice

from locus import are_generic, dimension, tree_count
from locus.choices import bounds_for, is_prime, moduli_for, primes, weights_for
from locus.fractions_of import joined, residue, small_fraction


class Weights(unittest.TestCase):
    def test_chosen_weights_are_generic_and_within_their_limit(self):
        for rank in range(1, 13):
            for degree in (1, 2, 6, 10):
                for attempt in range(3):
                    weights = weights_for(rank, degree, attempt)
                    with self.subTest(rank=rank, degree=degree, attempt=attempt):
                        self.assertEqual(len(weights), rank + 1)
                        self.assertLessEqual(max(map(abs, weights)), 10**9)
                        self.assertTrue(are_generic(weights, degree))

    def test_powers_of_ten_come_first_up_to_rank_nine(self):
        self.assertEqual(weights_for(4, 4), [1, 10, 100, 1000, 10000])
        self.assertEqual(weights_for(9, 6)[-1], 10**9)

    def test_powers_of_a_number_fail_from_the_degree_after_it(self):
        for base in range(2, 11):
            powers = [base**exponent for exponent in range(5)]
            generic = [degree for degree in range(1, 11) if are_generic(powers, degree)]
            with self.subTest(base=base):
                self.assertEqual(generic, list(range(1, base + 1)))

    def test_weights_with_a_mean_are_not_generic(self):
        self.assertFalse(are_generic([1, 2, 3], 2))
        self.assertTrue(are_generic([1, 2, 3], 1))
        self.assertFalse(are_generic([1, 5, 25], 6))
        self.assertFalse(are_generic([0, 1, 5], 1))
        self.assertFalse(are_generic([1, 1, 5], 1))


class Moduli(unittest.TestCase):
    def test_primes_are_told_from_other_numbers(self):
        small = [number for number in range(200) if is_prime(number)]
        self.assertEqual(small, [n for n in range(2, 200) if all(n % k for k in range(2, n))])
        self.assertTrue(is_prime(2**61 - 1))
        self.assertFalse(is_prime((2**31 - 1) ** 2))
        self.assertFalse(is_prime(3825123056546413051))

    def test_the_moduli_are_the_largest_primes_below_their_limit(self):
        self.assertEqual(list(islice(primes(), 2)), [2**62 - 57, 2**62 - 87])

    def test_bounds_leave_slack(self):
        first, second = islice(primes(), 2)
        numerator, denominator = bounds_for([first, second])
        self.assertEqual((numerator, denominator), (2**62 - 1, 10**6))
        self.assertLess(2 * numerator * denominator * 10**6, first * second)
        self.assertEqual(moduli_for(10**4, 50), [first])
        self.assertEqual(moduli_for(10**18, 1000), [first, second])
        with self.assertRaises(ValueError):
            moduli_for(10**18, 10**18)
        with self.assertRaises(ValueError):
            bounds_for([101])


class Counts(unittest.TestCase):
    def test_counts_of_trees_and_dimensions(self):
        self.assertEqual([tree_count(4, degree) for degree in range(1, 5)], [20, 260, 5620, 176100])
        self.assertEqual(tree_count(3, 3, 1), 7584)
        self.assertEqual(dimension(4, 2), 11)
        self.assertEqual(dimension(2, 1, 2), 4)


class Fractions(unittest.TestCase):
    def test_residues_are_joined(self):
        self.assertEqual(joined([(3, 2), (5, 3), (7, 2)]), (105, 23))

    def test_a_fraction_is_found_exactly_if_there_is_room(self):
        some = list(islice(primes(), 4))
        for value in (Fraction(0), Fraction(-1), Fraction(-10**40 - 1, 343), Fraction(7, 10**20 + 39)):
            residues = [(prime, residue(value, prime)) for prime in some]
            with self.subTest(value=value):
                self.assertEqual(small_fraction(residues, 10**12), value)
        residues = [(prime, residue(Fraction(10**40, 7), prime)) for prime in some[:2]]
        self.assertIsNone(small_fraction(residues, 10**12))
