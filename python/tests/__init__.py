"""Tests of the companion. They run the built program: it is found as `locus.find` says, and without it they fail.

    python3 -m unittest discover -s python/tests -t python
"""
