"""Texts as classes: `incidence(2)^5`, `2*mark(1) - psi(1)`, `jet(1, 3, 2)`, with the names of the module `classes`."""

from __future__ import annotations

import ast
from fractions import Fraction
from typing import Callable, Dict, Union

from . import classes
from .classes import Classes

Value = Union[Classes, Fraction]
"""What a part of a text means."""

MAKERS: Dict[str, Callable[..., Classes]] = {
    name: getattr(classes, name) for name in ("hypersurface", "incidence", "mark", "r1", "contact", "psi", "jet")
}
"""The calls that a text may name."""


def parse(text: str) -> Classes:
    """The classes that a text means: sums, differences, products, powers (`^` or `**`) and whole numbers, which may be
    divided by; anything else is a ValueError.

    >>> parse("2*incidence(2)^2 - mark(1)/3")
    2*incidence(2)^2 - 1/3*mark(1)
    """
    try:
        tree = ast.parse(text.strip().replace("^", "**"), mode="eval")
    except (SyntaxError, ValueError):
        raise ValueError(f"no classes: {text!r}") from None
    return _as_classes(_value(tree.body, text))


def _as_classes(value: Value) -> Classes:
    return Classes.of(value)


def _value(node: ast.expr, text: str) -> Value:
    if isinstance(node, ast.Constant) and type(node.value) is int:
        return Fraction(node.value)
    if isinstance(node, ast.UnaryOp) and isinstance(node.op, (ast.USub, ast.UAdd)):
        operand = _value(node.operand, text)
        return -operand if isinstance(node.op, ast.USub) else operand
    if isinstance(node, ast.Name) and node.id == "contact":
        return classes.contact()
    if isinstance(node, ast.Call):
        return _made(node, text)
    if isinstance(node, ast.BinOp):
        return _joined(node, text)
    raise ValueError(f"no classes: {ast.unparse(node)!r} in {text!r}; there are {', '.join(MAKERS)}")


def _made(node: ast.Call, text: str) -> Classes:
    if not isinstance(node.func, ast.Name) or node.func.id not in MAKERS:
        raise ValueError(f"no class: {ast.unparse(node)!r} in {text!r}; there are {', '.join(MAKERS)}")
    given = [_whole(argument, text) for argument in node.args]
    named = {word.arg: _whole(word.value, text) for word in node.keywords if word.arg}
    try:
        return MAKERS[node.func.id](*given, **named)
    except TypeError as error:
        raise ValueError(f"{ast.unparse(node)!r} in {text!r}: {error}") from None


def _whole(node: ast.expr, text: str) -> int:
    value = _value(node, text)
    if not isinstance(value, Fraction) or value.denominator != 1:
        raise ValueError(f"no whole number: {ast.unparse(node)!r} in {text!r}")
    return value.numerator


def _joined(node: ast.BinOp, text: str) -> Value:
    if isinstance(node.op, ast.Pow):
        return _value(node.left, text) ** _whole(node.right, text)
    left, right = _value(node.left, text), _value(node.right, text)
    if isinstance(node.op, ast.Add):
        return left + right
    if isinstance(node.op, ast.Sub):
        return left - right
    if isinstance(node.op, ast.Mult):
        return left * right
    if isinstance(node.op, ast.Div) and isinstance(right, Fraction) and right:
        return left / right
    raise ValueError(f"no classes: {ast.unparse(node)!r} in {text!r}")
