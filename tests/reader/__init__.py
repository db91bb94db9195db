"""A second program `locus`, to hold the built one against: it shares no line with the crates.

The formats are read as docs/FORMATS.md states them, and sums are made as docs/DEFINITIONS.md states them, plainly and
slowly. `tests/differential` compares the two.
"""
