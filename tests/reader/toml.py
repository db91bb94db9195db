"""Reads a TOML 1.1 document into tables, within the limits that docs/FORMATS.md names.

An integer becomes an int, a boolean a bool, a float a float, a string a str, a date or time a Moment, an array a list
and a table a dict.
"""

import math
import re

DEEPEST = 80

BLANK = re.compile(r"(?:[ \t\n]|\r\n|#[^\x00-\x08\x0a-\x1f\x7f]*)*")
SPACE = re.compile(r"[ \t]*")
LINE_END = re.compile(r"[ \t]*(?:\Z|(?=#)|\r?\n)")
BARE_KEY = re.compile(r"[A-Za-z0-9_-]+")
HEXADECIMAL = re.compile(r"0x[0-9A-Fa-f](?:_?[0-9A-Fa-f])*")
OCTAL = re.compile(r"0o[0-7](?:_?[0-7])*")
BINARY = re.compile(r"0b[01](?:_?[01])*")
DECIMAL = re.compile(r"[+-]?(?:0|[1-9](?:_?[0-9])*)")
EXPONENT = r"[eE][+-]?[0-9](?:_?[0-9])*"
FLOAT = re.compile(DECIMAL.pattern + rf"(?:\.[0-9](?:_?[0-9])*(?:{EXPONENT})?|{EXPONENT})")
SPECIAL = re.compile(r"[+-]?(?:inf|nan)")
BOOLEAN = re.compile(r"true|false")
TIME = r"([0-9]{2}):([0-9]{2})(?::([0-9]{2})(?:\.[0-9]+)?)?"
DATE = r"([0-9]{4})-([0-9]{2})-([0-9]{2})"
MOMENT = re.compile(rf"{DATE}(?:[Tt ]{TIME}([Zz]|[+-]([0-9]{{2}}):([0-9]{{2}}))?)?")
CLOCK = re.compile(TIME)

ESCAPE = re.compile(r'\\(?:([btnfre"\\])|x([0-9A-Fa-f]{2})|u([0-9A-Fa-f]{4})|U([0-9A-Fa-f]{8}))')
ESCAPED = {"b": "\b", "t": "\t", "n": "\n", "f": "\f", "r": "\r", "e": "\x1b", '"': '"', "\\": "\\"}
BASIC = re.compile(r'[^"\\\x00-\x08\x0a-\x1f\x7f]*')
LITERAL = re.compile(r"[^'\x00-\x08\x0a-\x1f\x7f]*")
LONG_BASIC = re.compile(r'(?:[^"\\\x00-\x08\x0b-\x1f\x7f]|\r\n)*')
LONG_LITERAL = re.compile(r"(?:[^'\x00-\x08\x0b-\x1f\x7f]|\r\n)*")
JOINED_LINES = re.compile(r"\\[ \t]*\r?\n(?:[ \t\n]|\r\n)*")


class NotToml(Exception):
    """The bytes are no TOML document."""


class Moment(str):
    """A date, a time, or both, as it is written."""


class Table(dict):
    """A table, and what made it: a header that passed through it, a dotted key, its own header, or braces."""

    def __init__(self, made_by):
        super().__init__()
        self.made_by = made_by


class Tables(list):
    """An array of tables that headers in double brackets made."""


def read(text):
    """The table that the bytes write, or NotToml."""
    try:
        return Reader(text.decode("utf-8").removeprefix("\ufeff")).document()
    except UnicodeDecodeError as error:
        raise NotToml from error


class Reader:
    """A text, and how far it was read."""

    def __init__(self, text):
        self.text = text
        self.place = 0

    def document(self):
        root = Table("header")
        current = root
        while True:
            self.pass_over(BLANK)
            if self.place == len(self.text):
                return root
            if self.take("[["):
                current = self.header(root, "]]", enter_tables)
            elif self.take("["):
                current = self.header(root, "]", enter_table)
            else:
                self.pair(current, DEEPEST)
            self.match(LINE_END)

    # The table under a header, which ends with these brackets.
    def header(self, root, closing, enter):
        self.pass_over(SPACE)
        path = self.key()
        if not self.take(closing):
            raise NotToml
        table = root
        for part in path[:-1]:
            table = passed(table, part)
        return enter(table, path[-1])

    # A key, an equals sign and a value, put into a table.
    def pair(self, table, depth):
        path = self.key()
        if not self.take("="):
            raise NotToml
        self.pass_over(SPACE)
        value = self.value(depth)
        for part in path[:-1]:
            table = dotted(table, part)
        if path[-1] in table:
            raise NotToml
        table[path[-1]] = value

    # The parts of a key and the space behind it.
    def key(self):
        parts = []
        while True:
            parts.append(self.key_part())
            self.pass_over(SPACE)
            if not self.take("."):
                break
            self.pass_over(SPACE)
        if len(parts) > DEEPEST:
            raise NotToml
        return parts

    def key_part(self):
        if self.take('"'):
            return self.basic()
        if self.take("'"):
            return self.literal()
        return self.match(BARE_KEY).group()

    def value(self, depth):
        if self.stands("[") or self.stands("{"):
            if depth == 0:
                raise NotToml
            return self.array(depth - 1) if self.take("[") else self.braces(depth - 1)
        for delimiter, read_string in (('"""', self.long_basic), ("'''", self.long_literal),
                                       ('"', self.basic), ("'", self.literal)):
            if self.take(delimiter):
                return read_string()
        return self.scalar()

    def array(self, depth):
        found = []
        while not self.closes("]"):
            found.append(self.value(depth))
            self.separate("]")
        return found

    def braces(self, depth):
        self.take("{")
        table = Table("braces")
        while not self.closes("}"):
            self.pair(table, depth)
            self.separate("}")
        return table

    # Whether an array or a table ends here.
    def closes(self, closing):
        self.pass_over(BLANK)
        return self.take(closing)

    # After an element: a comma, or the closing bracket, which stays.
    def separate(self, closing):
        self.pass_over(BLANK)
        if not self.take(",") and not self.stands(closing):
            raise NotToml

    def scalar(self):
        for pattern, meaning in SCALARS:
            found = pattern.match(self.text, self.place)
            if found:
                self.place = found.end()
                return meaning(found)
        raise NotToml

    def basic(self):
        return self.pieces(BASIC, '"', False)

    def literal(self):
        return self.closed(LITERAL, "'")

    def long_basic(self):
        self.first_newline()
        return self.pieces(LONG_BASIC, '"', True)

    def long_literal(self):
        self.first_newline()
        found = ""
        while True:
            found += self.match(LONG_LITERAL).group()
            more, is_over = self.quotes("'")
            found += more
            if is_over:
                return found

    # A newline right behind the opening delimiter is left out.
    def first_newline(self):
        self.take("\n") or self.take("\r\n")

    def closed(self, pattern, delimiter):
        found = self.match(pattern).group()
        if not self.take(delimiter):
            raise NotToml
        return found

    # The text of a string with escapes, up to its closing delimiter.
    def pieces(self, pattern, delimiter, is_long):
        found = []
        while True:
            found.append(self.match(pattern).group())
            if self.stands("\\"):
                found.append(self.escape(is_long))
            elif not is_long:
                if not self.take(delimiter):
                    raise NotToml
                return "".join(found)
            else:
                more, is_over = self.quotes(delimiter)
                found.append(more)
                if is_over:
                    return "".join(found)

    def escape(self, is_long):
        joined = JOINED_LINES.match(self.text, self.place) if is_long else None
        if joined:
            self.place = joined.end()
            return ""
        letter, *codes = self.match(ESCAPE).groups()
        if letter:
            return ESCAPED[letter]
        code = int(next(code for code in codes if code), 16)
        if code > 0x10FFFF or 0xD800 <= code <= 0xDFFF:
            raise NotToml
        return chr(code)

    # One or two quotes are text, three end the string, and up to two more before these are text.
    def quotes(self, quote):
        count = 0
        while count < 5 and self.take(quote):
            count += 1
        if count == 0:
            raise NotToml
        return (quote * count, False) if count < 3 else (quote * (count - 3), True)

    def stands(self, words):
        return self.text.startswith(words, self.place)

    def take(self, words):
        if not self.stands(words):
            return False
        self.place += len(words)
        return True

    def match(self, pattern):
        found = pattern.match(self.text, self.place)
        if not found:
            raise NotToml
        self.place = found.end()
        return found

    def pass_over(self, pattern):
        self.place = pattern.match(self.text, self.place).end()


def passed(table, part):
    """The table at a part of a header's path, which is made if it is not there."""
    found = table.setdefault(part, Table("passing header"))
    if isinstance(found, Tables):
        return found[-1]
    if not isinstance(found, Table) or found.made_by == "braces":
        raise NotToml
    return found


def enter_table(table, name):
    """The table that a header in single brackets names."""
    found = table.setdefault(name, Table("passing header"))
    if not isinstance(found, Table) or found.made_by != "passing header":
        raise NotToml
    found.made_by = "header"
    return found


def enter_tables(table, name):
    """The new last table of the array that a header in double brackets names."""
    found = table.setdefault(name, Tables())
    if not isinstance(found, Tables):
        raise NotToml
    found.append(Table("header"))
    return found[-1]


def dotted(table, part):
    """The table at a part of a dotted key, which is made if it is not there."""
    found = table.setdefault(part, Table("dots"))
    if not isinstance(found, Table) or found.made_by not in ("dots", "passing header"):
        raise NotToml
    found.made_by = "dots"
    return found


def whole_number(digits, base):
    """An integer of 64 bits."""
    digits = digits.replace("_", "")
    if base == 10 and len(digits) > 20:
        raise NotToml
    number = int(digits, base)
    if not -(2**63) <= number < 2**63:
        raise NotToml
    return number


def real_number(digits):
    """A float that is a number."""
    number = float(digits.replace("_", ""))
    if math.isinf(number):
        raise NotToml
    return number


def moment(found):
    """A date, perhaps with a time and an offset, of which each part is within its limits."""
    year, month, day, hour, minute, second, _, offset_hour, offset_minute = (int(part) if part and part.isdigit() else 0
                                                                            for part in found.groups())
    if not 1 <= month <= 12 or not 1 <= day <= days_of(year, month):
        raise NotToml
    if hour > 23 or minute > 59 or second > 60 or offset_hour > 23 or offset_minute > 59:
        raise NotToml
    return Moment(found.group())


def clock(found):
    """A time of day."""
    hour, minute, second = (int(part or 0) for part in found.groups())
    if hour > 23 or minute > 59 or second > 60:
        raise NotToml
    return Moment(found.group())


def days_of(year, month):
    """How many days a month has."""
    if month == 2:
        return 29 if year % 4 == 0 and (year % 100 != 0 or year % 400 == 0) else 28
    return 30 if month in (4, 6, 9, 11) else 31


SCALARS = (
    (MOMENT, moment),
    (CLOCK, clock),
    (FLOAT, lambda found: real_number(found.group())),
    (HEXADECIMAL, lambda found: whole_number(found.group()[2:], 16)),
    (OCTAL, lambda found: whole_number(found.group()[2:], 8)),
    (BINARY, lambda found: whole_number(found.group()[2:], 2)),
    (DECIMAL, lambda found: whole_number(found.group(), 10)),
    (SPECIAL, lambda found: float(found.group())),
    (BOOLEAN, lambda found: found.group() == "true"),
)
