"""The examples in the documentation of the package."""

import doctest
import unittest

import locus
from locus import choices, classes, computation, expression, tables, tangency


def load_tests(loader: unittest.TestLoader, tests: unittest.TestSuite, pattern: str) -> unittest.TestSuite:
    """Adds the examples of each module."""
    for module in (locus, choices, classes, computation, expression, tables, tangency):
        tests.addTests(doctest.DocTestSuite(module, extraglobs={"incidence": locus.incidence}))
    return tests
